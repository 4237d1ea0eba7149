#!/usr/bin/env python3
# Prints pairs of functions of crates/*/src whose bodies are alike, once digits at the end of names are left out and all numbers are one.
import difflib, glob, re

functions = []
for path in sorted(glob.glob("crates/*/src/*.rt")):
    text = re.sub(r"//.*", "", open(path, encoding="utf-8").read())
    for found in re.finditer(r'^\s*(?:pub )?(?:extern "C" )?fn (\w+)', text, re.M):
        # The body begins at the first line that is a brace alone, or that ends the head with one.
        body = re.search(r"^\s*\{\s*$|\) (?:-> [^{]*)?\{\s*$", text[found.end():], re.M)
        if not body:
            continue
        start = text.rindex("{", 0, found.end() + body.end())
        depth, end = 0, start
        while True:
            depth += (text[end] == "{") - (text[end] == "}")
            end += 1
            if depth == 0:
                break
        words = re.findall(r"\w+|\S", text[start:end])
        functions.append((path.split("/")[1] + "::" + found.group(1), ["0" if w[0].isdigit() else re.sub(r"\d+$", "", w) for w in words]))

for i, (one, x) in enumerate(functions):
    for other, y in functions[i + 1:]:
        if min(len(x), len(y)) >= 30 and max(len(x), len(y)) <= 1.6 * min(len(x), len(y)):
            alike = difflib.SequenceMatcher(None, x, y, autojunk=False)
            if alike.quick_ratio() > 0.85 and alike.ratio() > 0.85:
                print(f"{one} {other} {alike.ratio():.2f}")
