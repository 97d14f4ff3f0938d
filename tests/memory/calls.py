#!/usr/bin/env python3
"""The public calls of the product's crates that can answer that memory was refused, as the sources have them.

    tests/memory/calls.py              prints their names, `function` or `Type::method`, in the order of their crates
    tests/memory/calls.py ROWS         compares them with the rows in the lines of the file ROWS, each up to a comma, and with the names
                                    in `others`: status 1 if a call stands in neither or in both, or if a row or a name is
                                    that of no such call

The row of `State::merge` is `StateMerge`, and that of `read_url` is `ReadUrl`.

A call is a `pub fn` that another crate can name: `lib.rt` exports it, or the type whose `impl` it stands in. It can answer so
where its result names `NoMemory`, `AllocError`, `PublishRefused`, or a type of these crates that shows one of these, as a fault
with the case `NoMemory` does. Methods of traits aren't looked for.
"""
import pathlib
import re
import sys

TOP = pathlib.Path(__file__).resolve().parent.parent.parent
OTHERS = pathlib.Path(__file__).resolve().parent / "others.txt"
REFUSALS = {"NoMemory", "AllocError", "PublishRefused"}
COMMENT = re.compile(r"//[^\n]*")
TYPE = re.compile(r"^pub (struct|enum|type) (\w+)(.*?)(?:^\}|;$)", re.M | re.S)
FIELD = re.compile(r"\bpub \w+: ([^\n]*)")
# What begins at the margin; the name is that of the type, where it is an impl of a type and not of a trait.
ITEM = re.compile(r"^(?:impl(?:<[^{]*?>)? (?![^{]* for )(\w+)|(?=[^\s})]))", re.M)
CALL = re.compile(r"^ *pub fn (\w+)(.*?)(?=^ *(?:requires|ensures|where)\b| *\{)", re.M | re.S)


def crates_of_the_product():
    """The crates above the line of crates.txt where the tests begin."""
    product, _, _tests = (TOP / "crates.txt").read_text(encoding="utf-8").partition("\n# Tests")
    return re.findall(r"^(\w+):", product, re.M)


def text_of(path):
    """A source without its comments."""
    return COMMENT.sub("", path.read_text(encoding="utf-8"))


def sources(crate):
    return [text_of(path) for path in sorted((TOP / "crates" / crate / "src").rglob("*.rt"))]


def words_of(text):
    return set(re.findall(r"\w+", text))


def exported(crate):
    """The names that a crate's root exports: a program's exports none."""
    root = TOP / "crates" / crate / "src/lib.rt"
    return words_of(" ".join(re.findall(r"^pub use ([^;]*);", text_of(root), re.M))) if root.exists() else set()


def refusing_types(texts):
    """The types of which a value can say that memory was refused."""
    types = [(name, words_of(" ".join(FIELD.findall(body)) if kind == "struct" else body))
             for text in texts for kind, name, body in TYPE.findall(text)]
    found = set(REFUSALS)
    while more := {name for name, words in types if words & found} - found:
        found |= more
    return found


def owner_of(text, call):
    """The type in whose `impl` a call stands: '' if it is a function, and None if it is in anything else."""
    if text[call.start()] != " ":
        return ""
    return [item[1] for item in ITEM.finditer(text, 0, call.start())][-1]


def calls_of(crate, refusing):
    names = exported(crate)
    for text in sources(crate):
        for call in CALL.finditer(text):
            _, arrow, result = call[2].rpartition("->")
            owner = owner_of(text, call)
            if arrow and owner is not None and (owner or call[1]) in names and words_of(result) & refusing:
                yield f"{owner}::{call[1]}" if owner else call[1]


def all_calls():
    crates = crates_of_the_product()
    refusing = refusing_types([text for crate in crates for text in sources(crate)])
    return [call for crate in crates for call in calls_of(crate, refusing)]


def row_of(call):
    return "".join(word[0].upper() + word[1:] for word in re.split("::|_", call))


def what_is_wrong(calls, rows, others):
    yield from (f"{call} has neither a row nor a line in tests/memory/others.txt" for call in calls if call not in rows | others)
    yield from (f"{call} has a row and a line in tests/memory/others.txt" for call in sorted(rows & others))
    yield from (f"{name} is no public call that can be refused memory" for name in sorted((rows | others) - set(calls)))


def main():
    calls = all_calls()
    if len(sys.argv) == 1:
        print("\n".join(calls))
        return
    names = {row_of(call): call for call in calls}
    lines = pathlib.Path(sys.argv[1]).read_text(encoding="utf-8").splitlines()
    rows = {names.get(line.partition(",")[0], line) for line in lines}
    lines = OTHERS.read_text(encoding="utf-8").splitlines()
    others = {line.partition(": ")[0] for line in lines if line and not line.startswith("#")}
    wrong = list(what_is_wrong(calls, rows, others))
    print("\n".join(wrong) or f"of {len(calls)} public calls that can be refused memory, {len(rows)} have a row of their own")
    sys.exit(bool(wrong))


if __name__ == "__main__":
    main()
