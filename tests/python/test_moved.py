"""Tests of docs/changes/moved: small trees that change, and the whole of what is printed about them."""

import os
import subprocess
import sys
import tempfile
import unittest

SCRIPT = os.path.join(os.path.dirname(os.path.abspath(__file__)), "..", "..", "docs", "changes", "moved")

# ---- the tree before each change ----

WORDS = """\
-- Words of a table.
use Rattle.std.specs.Prelude.{ℕ, ◌+◌,
    suc}

-- the width of a row
abbrev pub width : ℕ → ℕ
width r = 1 + r

pub record Table (P : ℕ) : Type 0 where
  pub rows : ℕ
  pub words : ℕ

infixl 65 ◌⊕◌
pub data Kind : Type 0 where
  first : Kind
  ◌⊕◌ : Kind → Kind → Kind

abbrev mutual
  pub even : ℕ → ℕ
  even zero = 1
  even (suc n) = odd n

  pub odd : ℕ → ℕ
  odd zero = 0
  odd (suc n) = even n

pub ruleset rules = (width_is, width_more)

module _ (P : ℕ)
    (N : ℕ) where
  open Ring P using (car)

  unfoldable pub gap {ℓ} : ℕ → ℕ
  unfolding width
  gap k = record {
    low = k;
    high = N;
  }

  pub gap_is : (k : ℕ) → gap k ≡ k
  unfolding gap
  gap_is zero = refl
  gap_is (suc k) = go k
    where
      go : (k : ℕ) → k ≡ k
      go k = refl

  module _ (k : ℕ) where
    has : k ≡ k
    has = refl

pub width_is : width 0 ≡ text "a -- b"
width_is = refl

width_more : (r : ℕ) → width (suc r) ≡ suc (width r)
width_more r = refl
"""

OTHER = """\
abbrev pub twice : ℕ → ℕ
twice n = n + n

twice' : twice 1 ≡ 2
twice' = refl
"""

LIB = """\
// Code of one.
#![tactic(auto)]

use two::{Pair, Word};
ghost use Rattle.one.specs.Words.{width, ◌⊕◌};
mod other;

// the limits
const LIMITS: [u32; 2] = [1, 2];
type Word = u32;

pub struct Half {
    pub row: u32,
}

enum Side {
    Left,
    Right,
}

impl Half {
    pub fn zero(row: u32) -> Self
        ensures { result.row ≡ row }
    {
        Half { row }
    }
}

#[unsafe(no_mangle)]
pub extern "C" fn one_width(r: u32) -> u64
    requires { ◌≡◌ {A = ℕ} r r }
    ensures value { result ≡ width r }
    ensures low { result < 2 ^ 33 }
{
    // A brace in a string shuts nothing: }
    show(b"} // ");
    if r == 0 { 1 } else { 1 + r }
}

fn plain(x: [u32; 2]) -> u32 {
    x[0]
}
"""

MAIN = """\
fn main() {
    one::show(b"two");
}
"""


def proof(name):
    """A proof file of ten lines that is like no other."""
    return "".join("%s_%d : %s %d ≡ %d\n" % (name, k, name * 3, k, k) for k in range(10))


TREE = {
    "README.md": "A library.\n",
    "build": "exit\n",
    "bench/run": "exit 1\n",
    "bench/NOTES.md": "Slow.\n",
    "docs/man/one.3": "one\n",
    "fuzz/run": "exit 2\n",
    "tests/run": "exit 3\n",
    "crates/one/specs/Lib.antt": "pub mod Words\n",
    "crates/one/specs/Words.antt": WORDS,
    "crates/one/src/lib.rt": LIB,
    "crates/one/proofs/one_width/Answers.antt": proof("wide"),
    "crates/one/proofs/plain/Answers.antt": proof("plain"),
    "crates/one/must-fail/wrong.edit": "file: src/lib.rt\nold: 1 + r\nnew: 2 + r\n",
    "crates/two/specs/Other.antt": OTHER,
    "crates/two/src/main.rt": MAIN,
    "crates/two/proofs/main/Answers.antt": proof("main"),
}

# What is printed of it where nothing changes.
SAME = [
    ("definitions", "8 stayed, 0 moved, 0 new, 0 gone, 0 elsewhere"),
    ("statements of laws", "5 stayed, 0 moved, 0 new, 0 gone, 0 elsewhere"),
    ("proofs of laws with the same statement", "5 stayed, 0 moved"),
    ("contracts", "4 stayed, 0 moved, 0 new, 0 gone, 0 elsewhere"),
    ("code", "8 stayed, 0 moved, 0 new, 0 gone, 0 elsewhere"),
    ("imports, by file", "3 stayed, 0 moved, 0 new, 0 gone, 0 elsewhere"),
    ("proof files", "3 untouched, 0 touched, 0 renamed, 0 new, 0 gone"),
    ("edits that must fail", "1 untouched, 0 touched, 0 renamed, 0 new, 0 gone"),
]
LINES = ("specs", "src", "proofs", "must-fail", "tests", "bench", "docs", "the rest")

ONE = "crates/one/specs/Words.antt"
TWO = "crates/two/specs/Other.antt"
CODE = "crates/one/src/lib.rt"
CODE_TWO = "crates/two/src/main.rt"


class Case(unittest.TestCase):
    """A repository in a folder of its own, with one commit."""

    maxDiff = None

    def setUp(self):
        self.folder = tempfile.TemporaryDirectory()
        self.addCleanup(self.folder.cleanup)
        self.top = os.path.join(self.folder.name, "top")
        os.mkdir(self.top)
        self.environment = {name: value for name, value in os.environ.items() if not name.startswith("GIT_")}
        self.environment.update(HOME=self.folder.name, XDG_CONFIG_HOME=self.folder.name, GIT_CONFIG_NOSYSTEM="1", LC_ALL="C")
        self.git("init", "--quiet")
        self.git("config", "user.name", "A Tester")
        self.git("config", "user.email", "tester@example.org")
        for path, text in TREE.items():
            self.write(path, text)
        self.commit()

    def git(self, *arguments):
        ended = subprocess.run(["git", *arguments], cwd=self.top, env=self.environment, stdout=subprocess.PIPE, check=True)
        return ended.stdout.decode().strip()

    def commit(self):
        self.git("add", "--all")
        self.git("commit", "--quiet", "--allow-empty", "--message", "A step")

    def write(self, path, text):
        path = os.path.join(self.top, path)
        os.makedirs(os.path.dirname(path), exist_ok=True)
        with open(path, "w", encoding="utf-8") as file:
            file.write(text)

    def read(self, path):
        with open(os.path.join(self.top, path), encoding="utf-8") as file:
            return file.read()

    def edit(self, path, old, new):
        """Replaces a text that occurs once."""
        text = self.read(path)
        self.assertEqual(text.count(old), 1, old)
        self.write(path, text.replace(old, new))

    def take(self, path, old):
        self.edit(path, old, "")
        return old

    def append(self, path, text):
        self.write(path, self.read(path) + text)

    def rename(self, old, new):
        os.makedirs(os.path.dirname(os.path.join(self.top, new)), exist_ok=True)
        os.rename(os.path.join(self.top, old), os.path.join(self.top, new))

    def remove(self, path):
        os.remove(os.path.join(self.top, path))

    def run_script(self, *arguments, folder=""):
        ended = subprocess.run(
            [sys.executable, SCRIPT, *arguments],
            cwd=os.path.join(self.top, folder),
            env=self.environment,
            stdout=subprocess.PIPE,
            stderr=subprocess.PIPE,
        )
        return ended.returncode, ended.stdout.decode("utf-8"), ended.stderr.decode("utf-8")

    def head(self):
        return "moved between %s and %s" % tuple(self.git("rev-parse", "--short", name) for name in ("HEAD~1", "HEAD"))

    def owed(self, sections, lines):
        """The whole of what is printed, from the sections that are not as in SAME and the kinds of lines that are not +0 -0."""
        unknown = {*sections} - {title for title, _ in SAME} | {*lines} - {*LINES}
        self.assertEqual(unknown, set())
        printed = ["%s: %s" % (title, "\n  ".join(sections.get(title, same).split("\n"))) for title, same in SAME]
        printed.append("lines: " + ", ".join("%s %s" % (kind, lines.get(kind, "+0 -0")) for kind in LINES))
        return "\n".join([self.head(), "", *printed, ""])

    def check(self, sections, **lines):
        """Commits what has changed and compares all that is printed."""
        lines = {{"must_fail": "must-fail", "rest": "the rest"}.get(kind, kind): count for kind, count in lines.items()}
        self.commit()
        status, printed, error = self.run_script("HEAD~1")
        self.assertEqual((status, error), (0, ""))
        self.assertEqual(printed.split("\n"), self.owed(sections, lines).split("\n"))


class NothingTest(Case):
    """What counts as no change."""

    def test_same(self):
        self.commit()
        status, printed, error = self.run_script("HEAD~1")
        self.assertEqual((status, error), (0, ""))
        self.assertEqual(printed, self.head() + """

definitions: 8 stayed, 0 moved, 0 new, 0 gone, 0 elsewhere
statements of laws: 5 stayed, 0 moved, 0 new, 0 gone, 0 elsewhere
proofs of laws with the same statement: 5 stayed, 0 moved
contracts: 4 stayed, 0 moved, 0 new, 0 gone, 0 elsewhere
code: 8 stayed, 0 moved, 0 new, 0 gone, 0 elsewhere
imports, by file: 3 stayed, 0 moved, 0 new, 0 gone, 0 elsewhere
proof files: 3 untouched, 0 touched, 0 renamed, 0 new, 0 gone
edits that must fail: 1 untouched, 0 touched, 0 renamed, 0 new, 0 gone
lines: specs +0 -0, src +0 -0, proofs +0 -0, must-fail +0 -0, tests +0 -0, bench +0 -0, docs +0 -0, the rest +0 -0
""")

    def test_comments_of_specs(self):
        self.edit(ONE, "-- the width of a row\n", "-- The width: a row's\n-- words.\n")
        self.edit(ONE, "width r = 1 + r\n", "width r = 1 + r -- and no more\n")
        self.edit(ONE, "    (N : ℕ) where\n", "    -- rows\n    (N : ℕ) where -- of P\n")
        self.edit(ONE, "  unfolding gap\n", "  -- \"gap\n  unfolding gap\n")
        self.check({}, specs="+6 -3")

    def test_white_space_of_specs(self):
        self.edit(ONE, "width r = 1 + r\n", "\nwidth r =\n    1  +  r\n\n")
        self.edit(ONE, "module _ (P : ℕ)\n    (N : ℕ) where\n", "module _ (P : ℕ) (N : ℕ) where\n")
        self.edit(ONE, "pub gap_is : (k : ℕ) → gap k ≡ k\n", "pub gap_is :\n      (k : ℕ)\n      → gap k ≡ k\n")
        self.check({}, specs="+8 -4")

    def test_order_in_a_file(self):
        text = self.take(ONE, "-- the width of a row\nabbrev pub width : ℕ → ℕ\nwidth r = 1 + r\n\n")
        self.append(ONE, "\n" + text[:-1])
        self.check({}, specs="+4 -4")

    def test_code(self):
        self.edit(CODE, "// the limits\n", "")
        self.edit(CODE, "fn plain(x: [u32; 2]) -> u32 {\n", "fn plain(x:  [u32; 2])\n    // the first\n    -> u32 {  // of two\n")
        self.edit(CODE, "    show(b\"} // \");\n", "    // show(b\"} // \");\n    show(b\"} // \"); // }\n")
        self.check({}, src="+5 -3")

    def test_order_of_imports(self):
        self.edit(ONE, "use Rattle.std.specs.Prelude.{ℕ, ◌+◌,\n    suc}\n", "use Rattle.std.specs.Prelude.{ℕ, ◌+◌, suc}\n")
        self.append(ONE, "\n" + self.take(ONE, "infixl 65 ◌⊕◌\n"))
        self.append(CODE, "\n" + self.take(CODE, "use two::{Pair, Word};\n"))
        self.check({}, specs="+3 -3", src="+2 -1")

    def test_work_tree(self):
        self.edit(ONE, "width r = 1 + r", "width r = 2 + r")
        self.commit()
        status, printed, error = self.run_script("HEAD")
        self.edit(ONE, "width r = 2 + r", "width r = 3 + r")
        self.write("crates/one/specs/More.antt", "of no kind")
        self.assertEqual(self.run_script("HEAD"), (status, printed, error))
        self.assertEqual((status, error), (0, ""))


class ImportsTest(Case):
    """What a file imports, and how its operators bind."""

    def moved(self, path, **lines):
        self.check({
            "imports, by file": "2 stayed, 1 moved, 0 new, 0 gone, 0 elsewhere\nmoved      " + path,
        }, **lines)

    def test_use(self):
        self.edit(ONE, "    suc}\n", "    zero as suc}\n")
        self.moved("one/specs/Words.antt", specs="+1 -1")

    def test_open(self):
        self.edit(ONE, "  open Ring P using (car)\n", "  open Ring P using (car, zero)\n")
        self.moved("one/specs/Words.antt", specs="+1 -1")

    def test_fixity(self):
        self.edit(ONE, "infixl 65 ◌⊕◌\n", "infixl 66 ◌⊕◌\n")
        self.moved("one/specs/Words.antt", specs="+1 -1")

    def test_code(self):
        self.edit(CODE, "ghost use Rattle.one.specs.Words.{width, ◌⊕◌};\n", "ghost use Rattle.one.specs.Weaker.{width, ◌⊕◌};\n")
        self.moved("one/src/lib.rt", src="+1 -1")

    def test_setting(self):
        self.edit(CODE, "#![tactic(auto)]\n", "#![tactic(auto, using(width_is))]\n")
        self.moved("one/src/lib.rt", src="+1 -1")

    def test_module(self):
        self.edit(CODE, "mod other;\n", "mod another;\n")
        self.moved("one/src/lib.rt", src="+1 -1")

    def test_renamed_file(self):
        self.write("crates/two/specs/Many.antt", "".join("use lib.Part%d.{part}\n" % k for k in range(10)))
        self.commit()
        self.rename("crates/two/specs/Many.antt", "crates/two/specs/More.antt")
        self.edit("crates/two/specs/More.antt", "lib.Part4", "lib.Part04")
        self.check({
            "imports, by file": """3 stayed, 1 moved, 0 new, 0 gone, 0 elsewhere
moved      two/specs/Many.antt -> two/specs/More.antt""",
        }, specs="+1 -1")

    def test_new_and_gone(self):
        self.edit("crates/one/specs/Lib.antt", "pub mod Words\n", "-- nothing\n")
        self.write("crates/two/specs/Lib.antt", "pub mod Words\n")
        self.append(CODE_TWO, "\nuse one::Half;\n")
        self.check({
            "imports, by file": """2 stayed, 0 moved, 2 new, 1 gone, 0 elsewhere
new        two/specs/Lib.antt
new        two/src/main.rt
gone       one/specs/Lib.antt""",
        }, specs="+2 -1", src="+2 -0")


class SpecTest(Case):
    """Definitions and laws."""

    def test_definitions(self):
        self.edit(ONE, "width r = 1 + r", "width r = 2 + r")
        self.edit(ONE, "  pub words : ℕ\n", "  pub words : ℕ\n  pub low : ℕ\n")
        self.edit(ONE, "  ◌⊕◌ : Kind → Kind → Kind\n", "  ◌⊕◌ : Kind → Kind\n")
        self.edit(ONE, "  odd zero = 0\n", "  odd zero = 2\n")
        self.edit(ONE, "(width_is, width_more)", "(width_more, width_is)")
        self.edit(ONE, "  unfolding width\n", "")
        self.check({
            "definitions": """2 stayed, 6 moved, 0 new, 0 gone, 0 elsewhere
moved      one/specs/Words.antt  width
moved      one/specs/Words.antt  Table
moved      one/specs/Words.antt  Kind
moved      one/specs/Words.antt  odd
moved      one/specs/Words.antt  rules
moved      one/specs/Words.antt  gap""",
        }, specs="+5 -5")

    def test_last_line_of_a_definition(self):
        self.edit(ONE, "    high = N;\n  }\n", "    high = N;\n  } .low\n")
        self.check({
            "definitions": """7 stayed, 1 moved, 0 new, 0 gone, 0 elsewhere
moved      one/specs/Words.antt  gap""",
        }, specs="+1 -1")

    def test_kind_of_definition(self):
        self.edit(ONE, "abbrev pub width", "unfoldable pub width")
        self.check({
            "definitions": """7 stayed, 1 moved, 0 new, 0 gone, 0 elsewhere
moved      one/specs/Words.antt  width""",
        }, specs="+1 -1")

    def test_law_for_definition(self):
        self.edit(ONE, "abbrev pub width", "pub width")
        self.check({
            "definitions": "7 stayed, 0 moved, 0 new, 1 gone, 0 elsewhere\ngone       one/specs/Words.antt  width",
            "statements of laws": "5 stayed, 0 moved, 1 new, 0 gone, 0 elsewhere\nnew        one/specs/Words.antt  width",
        }, specs="+1 -1")

    def test_outer_parameter(self):
        self.edit(ONE, "    (N : ℕ) where\n", "    (N M : ℕ) where\n")
        self.check({
            "definitions": "7 stayed, 1 moved, 0 new, 0 gone, 0 elsewhere\nmoved      one/specs/Words.antt  gap",
            "statements of laws": """3 stayed, 2 moved, 0 new, 0 gone, 0 elsewhere
moved      one/specs/Words.antt  gap_is
moved      one/specs/Words.antt  has""",
            "proofs of laws with the same statement": "3 stayed, 0 moved",
            "imports, by file": "2 stayed, 1 moved, 0 new, 0 gone, 0 elsewhere\nmoved      one/specs/Words.antt",
        }, specs="+1 -1")

    def test_inner_parameter(self):
        self.edit(ONE, "  module _ (k : ℕ) where\n", "  module _ {k : ℕ} where\n")
        self.check({
            "statements of laws": "4 stayed, 1 moved, 0 new, 0 gone, 0 elsewhere\nmoved      one/specs/Words.antt  has",
            "proofs of laws with the same statement": "4 stayed, 0 moved",
        }, specs="+1 -1")

    def test_out_of_a_module(self):
        self.edit(ONE, "  module _ (k : ℕ) where\n    has : k ≡ k\n    has = refl\n", "  has : k ≡ k\n  has = refl\n")
        self.check({
            "statements of laws": "4 stayed, 1 moved, 0 new, 0 gone, 0 elsewhere\nmoved      one/specs/Words.antt  has",
            "proofs of laws with the same statement": "4 stayed, 0 moved",
        }, specs="+2 -3")

    def test_proofs(self):
        for old, new in (
            ("  unfolding gap\n", "  unfolding gap width\n"),
            ("width_more r = refl\n", "width_more zero = refl\nwidth_more (suc r) = refl\n"),
        ):
            self.edit(ONE, old, new)
        self.check({
            "proofs of laws with the same statement": """3 stayed, 2 moved
moved      one/specs/Words.antt  gap_is
moved      one/specs/Words.antt  width_more""",
        }, specs="+3 -2")

    def test_local_law(self):
        self.edit(ONE, "      go : (k : ℕ) → k ≡ k\n", "      go : (k : ℕ) → gap k ≡ k\n")
        self.check({
            "proofs of laws with the same statement": """4 stayed, 1 moved
moved      one/specs/Words.antt  gap_is""",
        }, specs="+1 -1")

    def test_statements(self):
        self.edit(ONE, "width 0 ≡ text \"a -- b\"", "width 0 ≡ text \"a -- c\"")
        self.edit(ONE, "(r : ℕ) → width (suc r)", "{r : ℕ} → width (suc r)")
        self.check({
            "statements of laws": """3 stayed, 2 moved, 0 new, 0 gone, 0 elsewhere
moved      one/specs/Words.antt  width_is
moved      one/specs/Words.antt  width_more""",
            "proofs of laws with the same statement": "3 stayed, 0 moved",
        }, specs="+2 -2")

    def test_white_space_in_a_string(self):
        self.edit(ONE, "text \"a -- b\"", "text \"a --  b\"")
        self.check({
            "statements of laws": "4 stayed, 1 moved, 0 new, 0 gone, 0 elsewhere\nmoved      one/specs/Words.antt  width_is",
            "proofs of laws with the same statement": "4 stayed, 0 moved",
        }, specs="+1 -1")

    def test_pub(self):
        self.edit(ONE, "abbrev pub width", "abbrev width")
        self.edit(ONE, "width_more : (r", "pub width_more : (r")
        self.edit(ONE, "pub width_is : width 0", "width_is : width 1")
        self.check({
            "definitions": """7 stayed, 1 moved (1 by pub alone), 0 new, 0 gone, 0 elsewhere
moved      one/specs/Words.antt  width  (pub alone)""",
            "statements of laws": """3 stayed, 2 moved (1 by pub alone), 0 new, 0 gone, 0 elsewhere
moved      one/specs/Words.antt  width_is
moved      one/specs/Words.antt  width_more  (pub alone)""",
            "proofs of laws with the same statement": "4 stayed, 0 moved",
        }, specs="+3 -3")

    def test_new_and_gone(self):
        self.take(ONE, "-- the width of a row\nabbrev pub width : ℕ → ℕ\nwidth r = 1 + r\n\n")
        self.take(ONE, "\nwidth_more : (r : ℕ) → width (suc r) ≡ suc (width r)\nwidth_more r = refl\n")
        self.append(TWO, "\nrecord Thrice : Type 0 where\n  n : ℕ\n\nthrice : ℕ\nthrice = 3\n\nfourth : 4 ≡ 4\n")
        self.check({
            "definitions": """7 stayed, 0 moved, 1 new, 1 gone, 0 elsewhere
new        two/specs/Other.antt  Thrice
gone       one/specs/Words.antt  width""",
            "statements of laws": """4 stayed, 0 moved, 2 new, 1 gone, 0 elsewhere
new        two/specs/Other.antt  thrice
new        two/specs/Other.antt  fourth
gone       one/specs/Words.antt  width_more""",
            "proofs of laws with the same statement": "4 stayed, 0 moved",
        }, specs="+8 -7")

    def test_rehoused(self):
        self.append(TWO, "\n" + self.take(ONE, "-- the width of a row\nabbrev pub width : ℕ → ℕ\nwidth r = 1 + r\n\n")[:-1])
        self.append(TWO, self.take(ONE, "\npub width_is : width 0 ≡ text \"a -- b\"\nwidth_is = refl\n"))
        self.append(TWO, self.take(ONE, "\nwidth_more : (r : ℕ) → width (suc r) ≡ suc (width r)\nwidth_more r = refl\n"))
        self.edit(TWO, "width_more r = refl", "width_more r = cc")
        self.check({
            "definitions": """7 stayed, 0 moved, 0 new, 0 gone, 1 elsewhere
elsewhere  one/specs/Words.antt -> two/specs/Other.antt  width""",
            "statements of laws": """3 stayed, 0 moved, 0 new, 0 gone, 2 elsewhere
elsewhere  one/specs/Words.antt -> two/specs/Other.antt  width_is
elsewhere  one/specs/Words.antt -> two/specs/Other.antt  width_more""",
            "proofs of laws with the same statement": """4 stayed, 1 moved
moved      one/specs/Words.antt -> two/specs/Other.antt  width_more""",
        }, specs="+10 -10")

    def test_other_text_in_another_file(self):
        self.take(ONE, "abbrev pub width : ℕ → ℕ\nwidth r = 1 + r\n\n")
        self.append(TWO, "\nabbrev pub width : ℕ → ℕ\nwidth r = r + 1\n")
        self.check({
            "definitions": """7 stayed, 1 moved, 0 new, 0 gone, 0 elsewhere
moved      one/specs/Words.antt -> two/specs/Other.antt  width""",
        }, specs="+3 -3")

    def test_other_text_in_two_files(self):
        self.take(ONE, "abbrev pub width : ℕ → ℕ\nwidth r = 1 + r\n\n")
        self.append(TWO, "\nabbrev pub width : ℕ → ℕ\nwidth r = r + 1\n")
        self.write("crates/two/specs/Third.antt", "abbrev pub width : ℕ → ℕ\nwidth r = r + 2\n")
        self.check({
            "definitions": """7 stayed, 0 moved, 2 new, 1 gone, 0 elsewhere
new        two/specs/Other.antt  width
new        two/specs/Third.antt  width
gone       one/specs/Words.antt  width""",
        }, specs="+5 -3")

    def test_names_with_primes(self):
        self.append(TWO, "\nn' : 1 ≡ 1\nn' = refl\n\nn'' : n'{1} ≡ n'\nn'' = refl -- (\n\nx--y : 2 ≡ 2 {- } -\n: -}\nx--y = refl\n")
        self.check({
            "statements of laws": """5 stayed, 0 moved, 3 new, 0 gone, 0 elsewhere
new        two/specs/Other.antt  n'
new        two/specs/Other.antt  n''
new        two/specs/Other.antt  x--y""",
        }, specs="+10 -0")

    def test_copied(self):
        self.append(TWO, "\nabbrev pub width : ℕ → ℕ\nwidth r = 1 + r\n")
        self.check({
            "definitions": """8 stayed, 0 moved, 1 new, 0 gone, 0 elsewhere
new        two/specs/Other.antt  width""",
        }, specs="+3 -0")

    def test_changed_and_copied(self):
        self.edit(ONE, "width r = 1 + r", "width r = 2 + r")
        self.append(TWO, "\nabbrev pub width : ℕ → ℕ\nwidth r = 1 + r\n")
        self.check({
            "definitions": """7 stayed, 1 moved, 1 new, 0 gone, 0 elsewhere
moved      one/specs/Words.antt  width
new        two/specs/Other.antt  width""",
        }, specs="+4 -1")

    def test_renamed_file(self):
        self.rename(TWO, "crates/two/specs/Numbers.antt")
        self.edit("crates/two/specs/Numbers.antt", "twice n = n + n", "twice n = 2 * n")
        self.append(ONE, "\nabbrev pub twice : ℕ → ℕ\ntwice n = n * 2\n")
        self.check({
            "definitions": """7 stayed, 1 moved, 1 new, 0 gone, 0 elsewhere
moved      two/specs/Other.antt -> two/specs/Numbers.antt  twice
new        one/specs/Words.antt  twice""",
            "statements of laws": """4 stayed, 0 moved, 0 new, 0 gone, 1 elsewhere
elsewhere  two/specs/Other.antt -> two/specs/Numbers.antt  twice'""",
        }, specs="+4 -1")


REPEATED = """\
module _ (a : ℕ) where
  abbrev w : ℕ
  w = a

  is : w ≡ a
  is = refl

module _ (a b : ℕ) where
  abbrev w : ℕ
  w = a + b

  is : w ≡ a + b
  is = refl

module _ (a b c : ℕ) where
  abbrev w : ℕ
  w = a + b + c

  is : w ≡ a + b + c
  is = refl
"""


class RepeatedTest(Case):
    """Names that repeat, in different modules of a file."""

    def setUp(self):
        super().setUp()
        self.write(TWO, REPEATED)
        self.commit()

    def counts(self, definitions, laws, proofs):
        return {"definitions": definitions, "statements of laws": laws, "proofs of laws with the same statement": proofs}

    def test_same(self):
        self.check(self.counts(
            "10 stayed, 0 moved, 0 new, 0 gone, 0 elsewhere",
            "7 stayed, 0 moved, 0 new, 0 gone, 0 elsewhere",
            "7 stayed, 0 moved",
        ))

    def test_one_of_them(self):
        self.edit(TWO, "  w = a + b\n", "  w = b + a\n")
        self.edit(TWO, "  is : w ≡ a + b + c\n  is = refl\n", "  is : w ≡ a + b + c\n  is = cc\n")
        self.check(self.counts(
            "9 stayed, 1 moved, 0 new, 0 gone, 0 elsewhere\nmoved      two/specs/Other.antt  w",
            "7 stayed, 0 moved, 0 new, 0 gone, 0 elsewhere",
            "6 stayed, 1 moved\nmoved      two/specs/Other.antt  is",
        ), specs="+2 -2")

    def test_one_less(self):
        self.take(TWO, "module _ (a : ℕ) where\n  abbrev w : ℕ\n  w = a\n\n  is : w ≡ a\n  is = refl\n\n")
        self.check(self.counts(
            "9 stayed, 0 moved, 0 new, 1 gone, 0 elsewhere\ngone       two/specs/Other.antt  w",
            "6 stayed, 0 moved, 0 new, 1 gone, 0 elsewhere\ngone       two/specs/Other.antt  is",
            "6 stayed, 0 moved",
        ), specs="+0 -7")

    def test_two_changed_and_one_less(self):
        self.take(TWO, "\nmodule _ (a b c : ℕ) where\n  abbrev w : ℕ\n  w = a + b + c\n\n  is : w ≡ a + b + c\n  is = refl\n")
        self.edit(TWO, "  w = a\n", "  w = 1 * a\n")
        self.edit(TWO, "  w = a + b\n", "  w = b + a\n")
        self.check(self.counts(
            """7 stayed, 2 moved, 0 new, 1 gone, 0 elsewhere
moved      two/specs/Other.antt  w
moved      two/specs/Other.antt  w
gone       two/specs/Other.antt  w""",
            "6 stayed, 0 moved, 0 new, 1 gone, 0 elsewhere\ngone       two/specs/Other.antt  is",
            "6 stayed, 0 moved",
        ), specs="+2 -9")


class LemmasTest(Case):
    """Files of lemmas, right in proofs/."""

    LEMMAS = "use Rattle.one.specs.Words.{width}\n\nwidth_two : width 2 ≡ 3\nwidth_two = refl\n"

    def setUp(self):
        super().setUp()
        self.write("crates/one/proofs/Lib.antt", "mod Lemmas\n")
        self.write("crates/one/proofs/Lemmas.antt", self.LEMMAS)
        self.commit()

    def owed(self, sections, lines):
        before = {
            "statements of laws": "6 stayed, 0 moved, 0 new, 0 gone, 0 elsewhere",
            "proofs of laws with the same statement": "6 stayed, 0 moved",
            "imports, by file": "5 stayed, 0 moved, 0 new, 0 gone, 0 elsewhere",
            "proof files": "4 untouched, 1 touched, 0 renamed, 0 new, 0 gone\ntouched    one/proofs/Lemmas.antt  +1 -1",
        }
        return super().owed({**before, **sections}, lines)

    def test_proof(self):
        self.edit("crates/one/proofs/Lemmas.antt", "width_two = refl", "width_two = cc")
        self.check({
            "proofs of laws with the same statement": "5 stayed, 1 moved\nmoved      one/proofs/Lemmas.antt  width_two",
        }, proofs="+1 -1")

    def test_statement(self):
        self.edit("crates/one/proofs/Lemmas.antt", "width 2 ≡ 3", "3 ≡ width 2")
        self.check({
            "statements of laws": "5 stayed, 1 moved, 0 new, 0 gone, 0 elsewhere\nmoved      one/proofs/Lemmas.antt  width_two",
            "proofs of laws with the same statement": "5 stayed, 0 moved",
        }, proofs="+1 -1")

    def test_out_of_the_specs(self):
        law = "\nwidth_more : (r : ℕ) → width (suc r) ≡ suc (width r)\nwidth_more r = refl\n"
        self.append("crates/one/proofs/Lemmas.antt", self.take(ONE, law))
        self.check({
            "statements of laws": """5 stayed, 0 moved, 0 new, 0 gone, 1 elsewhere
elsewhere  one/specs/Words.antt -> one/proofs/Lemmas.antt  width_more""",
            "proof files": "4 untouched, 1 touched, 0 renamed, 0 new, 0 gone\ntouched    one/proofs/Lemmas.antt  +3 -0",
        }, specs="+0 -3", proofs="+3 -0")

    def test_answers(self):
        self.edit("crates/one/proofs/plain/Answers.antt", "plain_9 : ", "of no kind\nplain_9 : ")
        self.check({
            "proof files": "4 untouched, 1 touched, 0 renamed, 0 new, 0 gone\ntouched    one/proofs/plain/Answers.antt  +1 -0",
        }, proofs="+1 -0")


class CodeTest(Case):
    """Contracts and code."""

    def test_contracts(self):
        self.edit(CODE, "ensures low { result < 2 ^ 33 }", "ensures low { result < 2 ^ 34 }")
        self.edit(CODE, "fn plain(x: [u32; 2])", "fn plain(y: [u32; 2])")
        self.edit(CODE, "        ensures { result.row", "        requires { row < 8 }\n        ensures { result.row")
        self.check({
            "contracts": """1 stayed, 3 moved, 0 new, 0 gone, 0 elsewhere
moved      one::Half::zero
moved      one::one_width
moved      one::plain""",
        }, src="+3 -2")

    def test_attribute(self):
        self.edit(CODE, "#[unsafe(no_mangle)]\n", "")
        self.check({"contracts": "3 stayed, 1 moved, 0 new, 0 gone, 0 elsewhere\nmoved      one::one_width"}, src="+0 -1")

    def test_bodies(self):
        self.edit(CODE, "{ 1 + r }", "{ r + 1 }")
        self.edit(CODE, "        Half { row }\n", "        Half { row: row }\n")
        self.edit(CODE_TWO, "b\"two\"", "b\"two \"")
        self.check({
            "code": """5 stayed, 3 moved, 0 new, 0 gone, 0 elsewhere
moved      one::Half::zero
moved      one::one_width
moved      two::main""",
        }, src="+3 -3")

    def test_items(self):
        self.edit(CODE, "[1, 2]", "[1, 3]")
        self.edit(CODE, "type Word = u32;", "type Word = u64;")
        self.edit(CODE, "    pub row: u32,\n", "    row: u32,\n")
        self.edit(CODE, "    Right,\n", "")
        self.check({
            "code": """4 stayed, 4 moved, 0 new, 0 gone, 0 elsewhere
moved      one::LIMITS
moved      one::Word
moved      one::Half
moved      one::Side""",
        }, src="+3 -4")

    def test_pub(self):
        self.edit(CODE, "fn plain(", "pub fn plain(")
        self.edit(CODE, "pub struct Half", "struct Half")
        self.check({
            "contracts": "3 stayed, 1 moved (1 by pub alone), 0 new, 0 gone, 0 elsewhere\nmoved      one::plain  (pub alone)",
            "code": "7 stayed, 1 moved (1 by pub alone), 0 new, 0 gone, 0 elsewhere\nmoved      one::Half  (pub alone)",
        }, src="+2 -2")

    def test_both(self):
        self.edit(CODE, "fn plain(x: [u32; 2]) -> u32 {\n    x[0]\n", "fn plain(x: [u32; 3]) -> u32 {\n    x[2]\n")
        self.check({
            "contracts": "3 stayed, 1 moved, 0 new, 0 gone, 0 elsewhere\nmoved      one::plain",
            "code": "7 stayed, 1 moved, 0 new, 0 gone, 0 elsewhere\nmoved      one::plain",
        }, src="+2 -2")

    def test_new_and_gone(self):
        self.take(CODE, "\nfn plain(x: [u32; 2]) -> u32 {\n    x[0]\n}\n")
        self.append(CODE_TWO, "\npub fn second() -> u32 {\n    2\n}\n\npub struct Nothing;\n")
        self.check({
            "contracts": "3 stayed, 0 moved, 1 new, 1 gone, 0 elsewhere\nnew        two::second\ngone       one::plain",
            "code": """7 stayed, 0 moved, 2 new, 1 gone, 0 elsewhere
new        two::second
new        two::Nothing
gone       one::plain""",
        }, src="+6 -4")

    def test_blocks(self):
        self.append(CODE_TWO, """
mod inner {
    pub fn f() {}
}

impl<'a> Whole<'a> {
    fn g() {}
}

fn h()
    requires { IsText c '{' }
{
}
""")
        self.check({
            "contracts": """4 stayed, 0 moved, 3 new, 0 gone, 0 elsewhere
new        two::inner::f
new        two::Whole::g
new        two::h""",
            "code": """8 stayed, 0 moved, 3 new, 0 gone, 0 elsewhere
new        two::inner::f
new        two::Whole::g
new        two::h""",
        }, src="+13 -0")

    def test_forms(self):
        """Clauses of every kind, members for contracts, functions of a trait, and what stands before a `fn`."""
        self.append(CODE_TWO, """
pub trait Held: Sized {
    ghost size: { Self → ℕ };
    pub ghost law = { λ h. IsHeld h } by { known };
    fn held(&self) -> u32
        requires { width self.now < 8 };
    final fn twice<'a>(&'a self) -> u32 where Self: Sized, { 2 }
}

impl<'a, T: Held> Model for Half<'a, T> where T: Copy {
    ghost view = { λ h. (h, ';', record { n = '{' }) };
}

static LOW: [u32; 2] = { [1, 2] };

pub(crate) const fn f(n: &mut [u32]) -> u32
    ghost k: { ℕ }
    requires one { n.old ≡ k }
    ensures* kept { lies_at u8 n.new }
    ensures { result ≡ x' }
{
    1
}

#[tactic(auto, using(width_is))]
unsafe fn g() {}
""")
        self.check({
            "contracts": """4 stayed, 0 moved, 7 new, 0 gone, 0 elsewhere
new        two::Held::size
new        two::Held::law
new        two::Held::held
new        two::Held::twice
new        two::Half::view
new        two::f
new        two::g""",
            "code": """8 stayed, 0 moved, 4 new, 0 gone, 0 elsewhere
new        two::Held::twice
new        two::LOW
new        two::f
new        two::g""",
        }, src="+26 -0")

    def test_clauses(self):
        self.append(CODE_TWO, "\nfn f(n: u8)\n    ghost k: { ℕ }\n    ensures* { lies_at u8 n }\n{\n    1\n}\n")
        self.commit()
        self.edit(CODE_TWO, "ghost k: { ℕ }", "ghost k: { ℤ }")
        self.check({
            "contracts": "4 stayed, 1 moved, 0 new, 0 gone, 0 elsewhere\nmoved      two::f",
            "code": "9 stayed, 0 moved, 0 new, 0 gone, 0 elsewhere",
        }, src="+1 -1")

    def test_rehoused(self):
        self.append(CODE_TWO, self.take(CODE, "\nfn plain(x: [u32; 2]) -> u32 {\n    x[0]\n}\n"))
        self.write("crates/one/src/side.rt", self.take(CODE, "\nenum Side {\n    Left,\n    Right,\n}\n"))
        self.edit(CODE_TWO, "    x[0]\n", "    x[1]\n")
        self.check({
            "contracts": "3 stayed, 0 moved, 0 new, 0 gone, 1 elsewhere\nelsewhere  one::plain -> two::plain",
            "code": """6 stayed, 1 moved, 0 new, 0 gone, 1 elsewhere
moved      one::plain -> two::plain
elsewhere  one::Side -> one::side::Side""",
        }, src="+9 -9")


class FilesTest(Case):
    """Proof files, edits that must fail, and lines."""

    def test_touched(self):
        self.edit("crates/one/proofs/plain/Answers.antt", "plain_9 : ", "-- the last\nplain_9 : ")
        self.check({
            "proof files": "2 untouched, 1 touched, 0 renamed, 0 new, 0 gone\ntouched    one/proofs/plain/Answers.antt  +1 -0",
        }, proofs="+1 -0")

    def test_renamed(self):
        self.rename("crates/one/proofs/plain/Answers.antt", "crates/two/proofs/plain/Answers.antt")
        self.check({
            "proof files": """2 untouched, 0 touched, 1 renamed, 0 new, 0 gone
renamed    one/proofs/plain/Answers.antt -> two/proofs/plain/Answers.antt""",
        })

    def test_renamed_and_touched(self):
        self.rename("crates/one/proofs/plain/Answers.antt", "crates/two/proofs/plain/Answers.antt")
        self.edit("crates/two/proofs/plain/Answers.antt", "plain_9 : ", "plain_10 : ")
        self.check({
            "proof files": """2 untouched, 1 touched, 0 renamed, 0 new, 0 gone
touched    one/proofs/plain/Answers.antt -> two/proofs/plain/Answers.antt  +1 -1""",
        }, proofs="+1 -1")

    def test_new_and_gone(self):
        self.remove("crates/one/proofs/plain/Answers.antt")
        self.write("crates/two/proofs/second/Answers.antt", "second : 2 ≡ 2\nsecond = refl\n")
        self.check({
            "proof files": """2 untouched, 0 touched, 0 renamed, 1 new, 1 gone
new        two/proofs/second/Answers.antt  +2
gone       one/proofs/plain/Answers.antt  -10""",
        }, proofs="+2 -10")

    def test_out_of_the_proofs(self):
        self.rename("crates/one/proofs/plain/Answers.antt", "docs/Plain.antt")
        self.check({
            "proof files": """2 untouched, 0 touched, 0 renamed, 0 new, 1 gone
gone       one/proofs/plain/Answers.antt -> docs/Plain.antt""",
        })

    def test_edits(self):
        self.edit("crates/one/must-fail/wrong.edit", "new: 2 + r", "new: 3 + r")
        self.write("crates/two/must-fail/nothing.edit", "file: src/main.rt\nold: two\nnew:\n")
        self.check({
            "edits that must fail": """0 untouched, 1 touched, 0 renamed, 1 new, 0 gone
touched    one/must-fail/wrong.edit  +1 -1
new        two/must-fail/nothing.edit  +3""",
        }, must_fail="+4 -1")

    def test_renamed_crate(self):
        self.rename("crates/two", "crates/second")
        self.check({
            "definitions": """7 stayed, 0 moved, 0 new, 0 gone, 1 elsewhere
elsewhere  two/specs/Other.antt -> second/specs/Other.antt  twice""",
            "statements of laws": """4 stayed, 0 moved, 0 new, 0 gone, 1 elsewhere
elsewhere  two/specs/Other.antt -> second/specs/Other.antt  twice'""",
            "contracts": "3 stayed, 0 moved, 0 new, 0 gone, 1 elsewhere\nelsewhere  two::main -> second::main",
            "code": "7 stayed, 0 moved, 0 new, 0 gone, 1 elsewhere\nelsewhere  two::main -> second::main",
            "proof files": """2 untouched, 0 touched, 1 renamed, 0 new, 0 gone
renamed    two/proofs/main/Answers.antt -> second/proofs/main/Answers.antt""",
        })

    def test_lines(self):
        more = {"bench/NOTES.md": 1, "docs/man/one.3": 2, "tests/run": 4, "fuzz/run": 8, "bench/run": 16, "build": 1000}
        for path, count in more.items():
            self.append(path, "more\n" * count)
        self.remove("README.md")
        self.write("crates/one/stdin", "in\n")
        self.check({}, docs="+3 -1", tests="+12 -0", bench="+16 -0", rest="+1,001 -0")

    def test_thousands(self):
        self.append(TWO, "".join("\nlaw_%d : %d ≡ %d\n" % (k, k, k) for k in range(1234)))
        self.commit()
        self.check({
            "statements of laws": "1,239 stayed, 0 moved, 0 new, 0 gone, 0 elsewhere",
            "proofs of laws with the same statement": "1,239 stayed, 0 moved",
        })

    def test_long_lines(self):
        deep = "crates/%s/specs/%s.antt" % ("a" * 60, "B" * 60)
        self.rename(TWO, deep)
        self.commit()
        status, printed, error = self.run_script("HEAD~1")
        self.assertEqual((status, error), (0, ""))
        self.assertLess(max(map(len, printed.split("\n"))), 160)
        place = "  elsewhere  two/specs/Other.antt ->\n    %s/specs/%s.antt" % ("a" * 60, "B" * 60)
        self.assertIn(place + "  twice\n", printed)


class PlaceTest(Case):
    """Where it is called, and of which commits."""

    def test_folders(self):
        self.edit(ONE, "width r = 1 + r", "width r = 2 + r")
        self.append("README.md", "More.\n")
        self.check({
            "definitions": """7 stayed, 1 moved, 0 new, 0 gone, 0 elsewhere
moved      one/specs/Words.antt  width""",
        }, specs="+1 -1", docs="+1 -0")
        whole = self.run_script("HEAD~1")
        for folder in ("crates", "crates/two/src", "docs"):
            self.assertEqual(self.run_script("HEAD~1", folder=folder), whole)

    def test_two_commits(self):
        self.take(ONE, "width_more : (r : ℕ) → width (suc r) ≡ suc (width r)\nwidth_more r = refl\n")
        self.commit()
        self.edit(ONE, "width r = 1 + r", "width r = 2 + r")
        self.commit()
        names = [self.git("rev-parse", "--short", name) for name in ("HEAD~1", "HEAD~2")]
        self.assertEqual(self.run_script("HEAD~1", "HEAD~2"), (0, "moved between %s and %s" % tuple(names) + """

definitions: 8 stayed, 0 moved, 0 new, 0 gone, 0 elsewhere
statements of laws: 4 stayed, 0 moved, 1 new, 0 gone, 0 elsewhere
  new        one/specs/Words.antt  width_more
proofs of laws with the same statement: 4 stayed, 0 moved
contracts: 4 stayed, 0 moved, 0 new, 0 gone, 0 elsewhere
code: 8 stayed, 0 moved, 0 new, 0 gone, 0 elsewhere
imports, by file: 3 stayed, 0 moved, 0 new, 0 gone, 0 elsewhere
proof files: 3 untouched, 0 touched, 0 renamed, 0 new, 0 gone
edits that must fail: 1 untouched, 0 touched, 0 renamed, 0 new, 0 gone
lines: specs +2 -0, src +0 -0, proofs +0 -0, must-fail +0 -0, tests +0 -0, bench +0 -0, docs +0 -0, the rest +0 -0
""", ""))

    def test_help(self):
        status, printed, error = self.run_script("--help")
        self.assertEqual((status, error), (0, ""))
        self.assertTrue(printed.startswith("moved OLD [NEW]: "), printed)


# Files of specs and of code with a line that cannot be placed: which one, and the file.
UNPLACED_SPECS = [
    (1, "postulate x : ℕ\n"),
    (1, "a b : ℕ\n"),
    (1, "pub\n"),
    (1, "record\n"),
    (1, "unfolding a\n"),
    (1, "a = 1\n"),
    (1, " a : ℕ\n"),
    (1, "module _ (a : ℕ)\n"),
    (2, "a : ℕ\nb = 1\n"),
    (2, "a : ℕ\npub a = 1\n"),
    (2, "module _ where\n    a : ℕ\n"),
    (3, "a : ℕ\ninfixl 65 ◌+◌\na = 1\n"),
    (3, "module _ where\n  a : ℕ\na = 1\n"),
    (3, "-- none\n\nwhere\n"),
    (4, "module _ where\n  a : ℕ\n  a = 1\n a = 2\n"),
]
UNPLACED_CODE = [
    (1, "extern crate x;\n"),
    (1, "}\n"),
    (1, "const X: u32 = 1\n"),
    (2, "// two\nlet x = 1;\n"),
    (2, "impl A {\n    let x = 1;\n}\n"),
    (2, "impl A {\n    const X: u32 = 1\n}\n\nfn f() {\n    g();\n}\n"),
    (2, "fn f() {\n    1\n"),
]


class RefusedTest(Case):
    """Lines that cannot be placed, and arguments that are refused."""

    def unplaced(self, path, files):
        first = self.git("rev-parse", "HEAD")
        for line, text in files:
            with self.subTest(text=text):
                self.write(path, text)
                self.commit()
                name = self.git("rev-parse", "--short", "HEAD")
                shown = text.split("\n")[line - 1].strip()
                error = "moved: %s:%s:%d: cannot be placed: %s\n" % (name, path, line, shown)
                self.assertEqual(self.run_script(first), (1, "", error))
                self.assertEqual(self.run_script("HEAD", first), (1, "", error))

    def test_specs(self):
        self.unplaced(TWO, UNPLACED_SPECS)

    def test_code(self):
        self.unplaced(CODE_TWO, UNPLACED_CODE)

    def refused(self, error, *arguments, **place):
        self.assertEqual(self.run_script(*arguments, **place), (2, "", "moved: " + error + "\n"))

    def test_arguments(self):
        self.refused("usage: moved OLD [NEW]")
        self.refused("usage: moved OLD [NEW]", "HEAD", "HEAD", "HEAD")
        self.refused("usage: moved OLD [NEW]", "--stat", "HEAD")
        self.refused("unknown revision: nowhere", "nowhere")
        self.refused("unknown revision: nowhere", "HEAD", "nowhere")
        self.refused("unknown revision: HEAD~1", "HEAD~1")

    def test_no_repository(self):
        status, printed, error = self.run_script("HEAD", folder=self.folder.name)
        self.assertEqual((status, printed), (2, ""))
        self.assertRegex(error, "^moved: not a git repository.*\n$")


if __name__ == "__main__":
    unittest.main()
