#!/usr/bin/env python3
"""Spells the repository's own definitions, lemmas and fields in snake case: addBelow and add-below become add_below.

usage: tools/respell.py [ROOT [NAMES]]    once, after the port to today's Rattle, on the text as the port left it; NAMES gets a line for each name

Names are those that specs/ declares. A name that a file imports from another library stays in that file. Types keep their capital. Where the new name
would be that of a function, a crate or a clause of the code, or of another lemma, a definition takes _of behind it and a lemma _lem.
What is turned: specs/, proofs/, must-fail edits, and the clauses and ghost imports of src/. Code, strings and the names that the prover makes stay as they are.
"""
import glob
import re
import sys

ROOT = sys.argv[1] if len(sys.argv) > 1 else "."
WORDS = r"(?:abbrev|unfoldable|pub|record|data|private)"
DECLARES = re.compile(r"^(\s*)((?:" + WORDS + r"\s+)*)([^\s(){};.,@\"λ]+)((?: \{[^{}]*\}| \([^()]*\))*) : (.*)$")
TOKEN = re.compile(r"[^\s(){}.;,@\"«»\[\]|]+")
USE = re.compile(r"\buse ([^\s;{]+)(\{[^;]*?\}(?=;|[ \t]*$))?", re.M)
KEPT = {"Xs": "x_states", "Ys": "y_states", "fileWords": "words_of_file"}  # xs and ys are lists, file_words is a crate
MIXED = re.compile(r"[a-zA-Z0-9]-[a-zA-Z]|^[a-z].*[a-z0-9][A-Z]")


def snake(name):
    return re.sub(r"(?<=[a-z0-9])[A-Z]", lambda m: "_" + m[0].lower(), name).replace("-", "_")


def read(path):
    with open(path, encoding="utf-8") as f:
        return f.read()


def own_crates():
    lines = (line.split("#")[0] for line in read(f"{ROOT}/crates.txt").split("\n"))
    return {line.split(":")[0].split()[0] for line in lines if ":" in line}


def declared(paths):
    """Each name that the files declare, with whether it is a type in all of its places."""
    names = {}
    for path in paths:
        for line in read(path).split("\n"):
            m = DECLARES.match(line)
            if not m or line.strip().startswith("--") or m[3] in ("let", "in", "use", "open", "→", "where", "module", "elim", "="):
                continue
            is_type = "record" in m[2] or "data" in m[2] or bool(re.search(r"(→ |^)Type( \d+| ℓ\S*| \(.*\))?( where)?$", m[5]))
            names[m[3]] = names.get(m[3], True) and is_type
    return names


def without_comments(path):
    text = read(path)
    return re.sub(r"--.*", "", text) if path.endswith(".antt") else re.sub(r"//.*", "", text)


def renamings(specs, proofs, sources):
    names = declared(specs)
    texts = {path: set(TOKEN.findall(without_comments(path))) for path in specs + proofs + sources}
    taken = own_crates()
    for path in sources:
        text = without_comments(path)
        taken |= set(re.findall(r"\bfn (\w+)", text)) | set(re.findall(r"\b(?:requires|ensures)\*? (\w+) \{", text))
    new = {name: KEPT.get(name, snake(name)) for name, is_type in names.items() if not is_type}
    new = {old: name for old, name in new.items() if old != name}
    functions = {name for old, name in new.items() if "-" not in old}
    for old, name in list(new.items()):
        meets = name in taken or any(old in words and name in words for words in texts.values())
        if meets or ("-" in old and name in functions):
            new[old] = name + ("_lem" if "-" in old else "_of")
    twice = {name for name in new.values() if list(new.values()).count(name) > 1}
    together = [(old, name) for old, name in new.items() if any(old in words and name in words for words in texts.values())]
    assert not twice and not together, (twice, together)
    return new


def imported_from_elsewhere(text, own):
    names = set()
    for m in USE.finditer(text):
        steps = m[1].split(".")
        if m[2] and not (steps[0] == "Rattle" and len(steps) > 1 and steps[1] in own):
            names |= set(TOKEN.findall(m[2]))
    return names


def turned(text, new, own, in_proof=False, functions=()):
    kept = imported_from_elsewhere(text, own)
    words = set(TOKEN.findall(re.sub(r"--.*|\buse .*", "", text)))
    comments = set(TOKEN.findall(text)) - words

    def one(m):
        word = m[0]
        if word in kept:
            is_field = text[max(m.start() - 1, 0)] == "." or re.match(r" = ", text[m.end():]) and re.search(r"[{;\n] *$", text[:m.start()])
            return new.get(word, word) if is_field else word
        if word not in new:  # a parameter
            plain = MIXED.search(word) and not in_proof and word not in comments and snake(word)
            return plain if plain and plain not in words else word
        if in_proof and text[max(m.start() - 1, 0)] == "." and word in functions:
            return word  # a name that the prover makes of a call
        return new[word]

    return TOKEN.sub(one, text)


def turned_source(text, new, own):
    """The ghost imports and clauses alone."""
    kept = {name: name for name in imported_from_elsewhere(text, own)}
    names = {**new, **kept}

    def one(m):
        return TOKEN.sub(lambda w: names.get(w[0], w[0]), m[0])

    text = re.sub(r"^ *ghost use [^;]*;", one, text, flags=re.M)
    out, depth, inside = [], 0, False
    for piece in re.split(r"(\b(?:requires|ensures)\*?(?: \w+)? \{|\{|\})", text):
        if not inside and re.match(r"(requires|ensures)", piece):
            inside, depth = True, 1
        elif inside and piece.endswith("{"):
            depth += 1
        elif inside and piece == "}":
            depth -= 1
            inside = depth > 0
        elif inside:
            piece = TOKEN.sub(lambda w: names.get(w[0], w[0]), piece)
        out.append(piece)
    return "".join(out)


def local_names(text):
    """A proof's own lemmas, but for the invariants, the measures and the proof itself."""
    new = {}
    for line in text.split("\n"):
        m = DECLARES.match(line)
        if m and not line.startswith("--") and not m[3].startswith(("invariant-", "decreases-")) and not m[3].endswith("-spec"):
            name = snake(m[3])
            if name != m[3] and not re.search(r"(?<![\w-])" + re.escape(name) + r"(?![\w-])", text):
                new[m[3]] = name
    return new


def main():
    specs = sorted(glob.glob(f"{ROOT}/crates/*/specs/*.antt"))
    proofs = sorted(glob.glob(f"{ROOT}/crates/*/proofs/**/*.antt", recursive=True))
    sources = sorted(glob.glob(f"{ROOT}/crates/*/src/*.rt"))
    own = own_crates()
    new = renamings(specs, proofs, sources)
    made = set()
    for path in sources:
        made |= {name.replace("_", "-") for name in re.findall(r"\bfn (\w+)", read(path))}
    results = {}
    for path in specs:
        results[path] = turned(read(path), new, own)
    for path in proofs:
        text = turned(read(path), new, own, True, made)
        local = local_names(text)
        results[path] = re.sub(r"(?<![.\w′'-])[^\s(){}.;,@\"«»\[\]|]+", lambda m: local.get(m[0], m[0]), text)
    for path in sources:
        results[path] = turned_source(read(path), new, own)
    for path in sorted(glob.glob(f"{ROOT}/crates/*/must-fail/*.edit")):
        results[path] = TOKEN.sub(lambda m: new.get(m[0], m[0]), read(path))
    for path, text in results.items():
        with open(path, "w", encoding="utf-8") as f:
            f.write(text)
    if len(sys.argv) > 2:
        with open(sys.argv[2], "w", encoding="utf-8") as f:
            f.writelines(f"{old}\t{name}\n" for old, name in sorted(new.items()))
    print(f"respell: {len(new)} names, {len(results)} files")


main()
