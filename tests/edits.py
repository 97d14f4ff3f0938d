#!/usr/bin/env python3
"""`tests/edits/run` notices a contract that was weakened: in a repository of two small crates, whose proofs take seconds.

An edit that the prover refuses is recorded. The record no longer counts if anything changes that the verdict stands on: prose isn't
among that, nor what a crate below has in its bodies or what the edit's crate doesn't name. Without the clause that refused the
edit it is NOT REFUSED, and nothing is recorded. Of edits that are tried together each counts by its own function.
"""
import contextlib
import os
import pathlib
import re
import shutil
import subprocess
import sys
import tempfile

from playing import TOP, holds, lacks, same

sys.path.insert(0, str(TOP / "tests/edits"))
from editing import counted
from reaching import Below, Item

RT = os.environ.get("RT", "rt")
EDIT = "tiny/always_the_first.edit"
LOW, RULE, TINY = "crates/low/src/lib.rt", "crates/low/specs/Rule.antt", "crates/tiny/src/lib.rt"
FILES = {
    "HANDLES": "Handles allowed: none.\n",
    "crates.txt": "low:\ntiny: low\n",
    LOW: """// What stands below.
#![tactic(auto)]

ghost use Rattle.std.specs.Prelude.{◌≡◌};
ghost use Rattle.low.specs.Rule.{kept};

/// A text of two lines.
pub const TEXT: &str = "one
// two";

/// The number itself.
pub fn itself(a: u8) -> u8
    ensures same { result ≡ kept a }
{
    a
}

/// A number.
pub struct Counted {
    /// Which.
    pub number: u8,
}

impl Counted {
    /// It.
    pub fn counted(&self) -> u8
        ensures { result ≡ self.now.number }
    {
        self.number
    }
}
""",
    "crates/low/specs/Lib.antt": "pub mod Rule\n",
    RULE: """-- What is kept.
use Rattle.std.specs.Prelude.{ℕ}

-- of a number all
abbrev pub kept : ℕ → ℕ
kept n = n
""",
    TINY: """// What is tried.
#![tactic(auto)]

ghost use Rattle.std.specs.Prelude.{◌≤◌};

use low::itself;

/// The greater of two numbers.
pub fn greater(a: u8, b: u8) -> u8
    ensures first { a ≤ result }
    ensures second { b ≤ result }
{
    if a < b { b } else { itself(a) }
}

/// A number that isn't less than the first.
pub fn at_least(a: u8, b: u8) -> u8
    ensures first { a ≤ result }
{
    greater(a, b)
}
""",
    "crates/tiny/edits/always_the_first.edit": "file: src/lib.rt\nold: if a < b\nnew: if b < b\n",
}
# Lines, each with whether it counts.
LINES = {
    "lines.rt": """
- //! A head.
-
- /// A comment.
+ pub fn one(a: u8) -> u8
+     ensures it { a ≡
-         -- A comment in a clause.
+         // b }
+ {
-     // A comment in code.
+     let text = "one
+ // two
+
+ three"; // four
-     /* five
+ // six */ let more = '"';
-     // "
+     a
+ }
""",
    "lines.antt": """
- -- A head.
+ module
-
- {- one
+ -- two -} three : ℕ
+ three = 3 -- four
-   -- five
""",
}
SECOND = "    ensures second { b ≤ result }\n"
# Edits of `at_least`, which calls `greater`: one that its contract lets through, and one that it refuses.
SAME = ("crates/tiny/edits/same_to_its_contract.edit", "file: src/lib.rt\nold: greater(a, b)\nnew: greater(b, a)\n")
FIRST_LOST = ("crates/tiny/edits/first_is_lost.edit", "file: src/lib.rt\nold: greater(a, b)\nnew: greater(b, b)\n")
UNKNOWN = ("crates/tiny/edits/calls_what_is_not_there.edit", "file: src/lib.rt\nold: greater(a, b)\nnew: lesser(a, b)\n")


class Repository:
    """A copy of the command, and the crates that it is to try."""

    def __init__(self, folder):
        self.folder = pathlib.Path(folder)
        for part in ("tests/edits", "tests/planted", "tools"):
            shutil.copytree(TOP / part, self.folder / part, ignore=shutil.ignore_patterns("tried", "*.bugs", "*.both"))
        for file, text in FILES.items():
            self.write(file, text)

    def write(self, file, text):
        path = self.folder / file
        path.parent.mkdir(parents=True, exist_ok=True)
        path.write_text(text, encoding="utf-8")

    @contextlib.contextmanager
    def having(self, file, old, new):
        """Has another text in a file for a while."""
        was = (self.folder / file).read_text(encoding="utf-8")
        if was.count(old) != 1:
            holds(f"{file} has {old!r} once", False)
        self.write(file, was.replace(old, new))
        yield
        self.write(file, was)

    def run(self, *words):
        """The command's status with these words, and the lines that it says."""
        ran = subprocess.run([self.folder / "tests/edits/run", *words], stdin=subprocess.DEVNULL, text=True, errors="replace",
                             stdout=subprocess.PIPE, stderr=subprocess.STDOUT)
        return ran.returncode, ran.stdout.strip().split("\n")

    def ends(self, what, status, last, *words):
        """Holds if the command ends with this status and last line. Gives all that it says."""
        came, lines = self.run(*words)
        if (came, lines[-1]) != (status, last):
            print("\n".join(lines))
        same(what, (came, lines[-1]), (status, last))
        return "\n".join(lines)

    def is_recorded(self):
        return re.findall(r"^(\S+) [0-9a-f]{16} (\w+)$", (self.folder / "tests/edits/tried").read_text(), re.M)


def try_lines(folder):
    """Which lines count: those that hold something that the check reads."""
    for name, marked in LINES.items():
        lines = marked.strip("\n").split("\n")
        path = pathlib.Path(folder, name)
        path.write_text("\n".join(line[2:] for line in lines), encoding="utf-8")
        wanted = "\n".join(line[2:] for line in lines if line.startswith("+"))
        same(f"the lines of {name} that count", counted([str(path)])[0].decode(), wanted)


def try_modules():
    """A method counts though a module that isn't public has its name, and a type that isn't public doesn't count."""
    items = [Item("state", "", ("mod", "state", ";"), is_public=False), Item("State", "", ("pub", "struct", "State", ";")),
             Item("state", "State", ("pub", "fn", "state")), Item("Inner", "", ("struct", "Inner", ";"), is_public=False)]
    same("what counts beside a module of a method's name", Below({"low": items}).reached({"State", "state", "Inner"})[1],
         [("mod", "state", ";"), ("pub", "struct", "State", ";"), ("pub", "fn", "state")])


def try_record(small):
    """What the record counts for, once the edit was refused."""
    small.ends("a refused edit is recorded as it stands", 0, "1 passed, 0 failed", "--check")
    changed = (
        ("its crate's line in crates.txt", "crates.txt", "tiny: low", "tiny: low itoa"),
        ("what HANDLES allows", "HANDLES", "none", "Threads"),
        ("a contract", TINY, "b ≤ result", "b ≤ b"),
        ("a contract of the crate below", LOW, "result ≡ kept a", "kept a ≡ result"),
        ("a definition that this contract cites", RULE, "kept n = n", "kept n = 0"),
        ("a name that leads to this contract", TINY, "use low::itself;", "use low::itself;\nuse low::TEXT;"),
        ("a type that has a name of its crate's", LOW, "/// A number.", "pub struct greater;\n\n/// A number."),
        ("what an import of all brings", LOW, "/// A number.", "use std::mem::*;\n\n/// A number."),
        ("the edit", f"crates/{EDIT.replace('/', '/edits/')}", "b < b", "a < a"),
        ("code of its crate", TINY, "itself(a)", "a"),
    )
    for what, file, old, new in changed:
        with small.having(file, old, new):
            small.ends(f"it no longer counts if {what} changes", 1, "0 passed, 1 failed", "--check")
    unread = (
        ("prose", TINY, "/// The greater of two numbers.", "/// The greater one.\n/// Or both."),
        ("prose of the crate below", LOW, "// What stands below.", ""),
        ("a body of the crate below", LOW, "    a\n", "    (a)\n"),
        ("what its crate doesn't name", LOW, "// two", "// too"),
        ("a method of a type that its crate doesn't name", LOW, "result ≡ self.now.number", "self.now.number ≡ result"),
        ("a type that isn't public", LOW, "/// A number.", "struct greater;\n\n/// A number."),
        ("an import", LOW, "/// A number.", "use std::mem::swap;\n\n/// A number."),
        ("what comes beside", LOW, "/// A number.", "/// Another.\npub fn another() -> u8 {\n    0\n}\n\n/// A number."),
        ("a definition that comes beside", RULE, "-- of a number all", "abbrev pub other : ℕ → ℕ\nother n = 0\n\n-- of a number all"),
    )
    for what, file, old, new in unread:
        with small.having(file, old, new):
            small.ends(f"it still counts if {what} changes", 0, "1 passed, 0 failed", "--check")


def try_names(small):
    """What a crate names counts as soon as it does: a constant, and the methods of a type."""
    named = "use low::{Counted, TEXT, itself};\n\n/// What is named.\npub fn named(it: &Counted) -> u8 {\n    let _ = TEXT;\n    it.counted()\n}"
    with small.having(TINY, "use low::itself;", named):
        small.ends("an edit of a crate that names more is refused", 0, "1 passed, 0 failed")
        for what, old, new in (("a line of a text that looks like a comment", "// two", "// too"),
                               ("the contract of a method", "result ≡ self.now.number", "self.now.number ≡ result"),
                               ("a type of a field", "pub number: u8", "pub number: u16")):
            with small.having(LOW, old, new):
                small.ends(f"it no longer counts if {what} changes", 1, "0 passed, 1 failed", "--check")
        with small.having(LOW, "        self.number\n", "        (self.number)\n"):
            small.ends("it still counts if the method's body changes", 0, "1 passed, 0 failed", "--check")


def try_together(small):
    """Edits that are tried by one check: what each one's own function says counts, and not what it calls."""
    small.write(*FIRST_LOST)
    said = small.ends("two edits are refused, of which one's function calls the other's", 0, "2 passed, 0 failed", "--anew")
    holds("both by checks of several", "tiny: 2 of 2 edits are refused by their own functions" in said)
    (small.folder / FIRST_LOST[0]).unlink()
    small.write(*SAME)
    said = small.ends("an edit isn't refused because its function calls one that is", 1, "1 passed, 1 failed", "--anew")
    holds("but told", "tiny/same_to_its_contract.edit: NOT REFUSED" in said)
    (small.folder / SAME[0]).unlink()
    small.write(*UNKNOWN)
    said = small.ends("an edit that can't be compiled keeps no other from being tried", 1, "1 passed, 1 failed", "--anew")
    holds("and is told", "tiny/calls_what_is_not_there.edit: BAD EDIT" in said)
    (small.folder / UNKNOWN[0]).unlink()


def try_misplaced(small):
    """What can't be tried is told without a proof."""
    with small.having(TINY, "/// The greater", "/// `if a < b`: the greater"):
        status, lines = small.run("--dry")
        same("a text that stands twice is told", (status, "stands there 2 times" in lines[0]), (1, True))
    small.write("crates/tiny/must-fail/other.edit", FILES["crates/tiny/edits/always_the_first.edit"])
    said = small.ends("an edit that rt ci would try fails the check", 1, "1 passed, 1 failed", "--check")
    holds("and the check says where it belongs", "move it to crates/tiny/edits/" in said)
    shutil.rmtree(small.folder / "crates/tiny/must-fail")


def main():
    if shutil.which(RT) is None:
        lacks("needs rt, the toolchain's command")
    with tempfile.TemporaryDirectory(prefix="small-") as folder:
        try_lines(folder)
        try_modules()
        small = Repository(folder)
        said = small.ends("an edit that wasn't tried fails the check", 1, "0 passed, 1 failed", "--check")
        holds("and the check says what tries it", "tests/edits/run tiny" in said)
        small.ends("an edit that breaks a contract is refused", 0, "1 passed, 0 failed")
        same("and recorded", small.is_recorded(), [(EDIT, "refused")])
        try_record(small)
        try_names(small)
        small.ends("it is refused again without these names", 0, "1 passed, 0 failed")
        try_misplaced(small)
        try_together(small)
        with small.having(TINY, SECOND, ""):
            small.ends("it counts as not tried once the contract is weakened", 1, "0 passed, 1 failed", "--check")
            said = small.ends("it isn't refused then", 1, "0 passed, 1 failed")
            holds("and is told", f"{EDIT}: NOT REFUSED" in said)
            same("and not recorded", small.is_recorded(), [])
        small.ends("it is refused again under the old contract", 0, "1 passed, 0 failed")
    print("an edit was recorded, tried again whenever its verdict might have changed, and not refused once its clause was gone")


if __name__ == "__main__":
    main()
