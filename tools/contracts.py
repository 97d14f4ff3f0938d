#!/usr/bin/env python3
"""Writes the lists of contracts in docs/PROVED.md: for each crate of the product its public functions, each with the names of its
clauses and the first sentence of its comment, and then its laws, whose bodies are empty. It also writes there which public functions
may wait: those that name the bound `Wait`, `Threads` or `Net`, or whose type names the bound.

    tools/contracts.py            writes them
    tools/contracts.py --check    only says, by its status, whether they are as the sources have them

A crate's list stands below its heading and what is said there by hand.
"""
import itertools
import pathlib
import re
import sys

from check import filled
from command import words_of

TOP = pathlib.Path(__file__).resolve().parent.parent
PROVED = TOP / "docs/PROVED.md"
HEADING = re.compile(r"^### `(\w+)`\n", re.M)
WAITERS = "| Crate | Its public functions that may wait |\n|---|---|\n"


def exported(crate):
    """The names that a crate hands out; None of a program, of which every function counts."""
    lib = TOP / "crates" / crate / "src/lib.rt"
    if not lib.exists():
        return None
    uses = re.findall(r"^pub use ([^;]+);", lib.read_text(encoding="utf-8"), re.M)
    listed = ",".join(use.partition("{")[2].rstrip("}\n ") or use.rpartition("::")[2] for use in uses)
    return {name.split(" as ")[-1].strip() for name in listed.split(",")}


def comment_above(lines, k):
    """The first paragraph of the comment above an item, as one line."""
    words = []
    while k > 0 and lines[k - 1].lstrip().startswith(("///", "#[")):
        k -= 1
        words.insert(0, lines[k].strip()[3:].strip() if lines[k].lstrip().startswith("///") else "")
    words = list(itertools.dropwhile(lambda line: not line, words))
    return " ".join(itertools.takewhile(lambda line: line and not line.startswith("- "), words))


def first_sentence(text):
    return re.split(r"(?<=[\w`)»\"])\. (?=[A-Z`])", text)[0].rstrip(".") + "."


def clauses_of(lines, k):
    """The names of a function's clauses (empty for one without a name), and whether its body is empty."""
    indent = re.match(r" *", lines[k])[0]
    names = []
    for line in lines[k:]:
        found = re.match(r"\s*(?:\) .*)?ensures(?: (\w+))? ?\{", line)
        if found:
            names.append(found[1] or "")
        if line in (indent + "{", indent + "{}") or (not names and line.endswith("{") and "requires" not in line):
            return names, line.endswith("{}")
    return names, False


def functions_of(crate):
    """The functions of a crate that are named here: file, line, name with its type, clauses, first sentence, whether it is a law."""
    names, visible = exported(crate), r"pub fn" if exported(crate) is not None else r"pub\(crate\) fn"
    for path in sorted((TOP / "crates" / crate / "src").rglob("*.rt")):
        lines, owner = path.read_text(encoding="utf-8").split("\n"), ""
        for k, line in enumerate(lines):
            block = re.match(r"(?:unsafe )?impl(?:<.*?>)? (?:(.*) for )?(\w+)", line)
            if block:
                owner = block[2] if not block[1] else "-"
            elif line == "}":
                owner = ""
            found = re.match(rf"( *){visible} (\w+)", line)
            if not found or owner == "-" or (names is not None and (owner or found[2]) not in names):
                continue
            clauses, is_empty = clauses_of(lines, k)
            if clauses:
                name = f"{owner}::{found[2]}" if owner else found[2]
                yield path.relative_to(TOP), k + 1, name, clauses, first_sentence(comment_above(lines, k)), is_empty


def list_of(crate):
    """The list of a crate's contracts."""
    kinds = {False: [], True: []}
    for path, line, name, clauses, sentence, is_law in functions_of(crate):
        named = ", ".join(f"`{clause}`" for clause in clauses if clause)
        row = f'- [`{name}`](../{path}#L{line} "{name}"){f" ({named})" if named else ""}: {sentence}'
        kinds[is_law] += filled([row], True)
    calls, laws = kinds[False], kinds[True]
    return "\n".join([*calls, *(["", "Laws:", ""] if laws and calls else []), *laws])


def signature(lines, k):
    """The lines of an item from its first one up to its clauses or its body."""
    for end in range(k, len(lines)):
        if re.match(r"\s*(\{|ensures|requires)", lines[end]) or lines[end].endswith(("{", "{}")):
            return "\n".join(lines[k:end + 1])
    return lines[k]


def waiters_of(crate):
    """The names of a crate's public functions that may wait."""
    names, bound = exported(crate), re.compile(r"\b(Wait|Threads|Net)\b")
    for path in sorted((TOP / "crates" / crate / "src").rglob("*.rt")):
        lines, owner, head, is_public = path.read_text(encoding="utf-8").split("\n"), "", "", True
        for k, line in enumerate(lines):
            if block := re.match(r"(?:unsafe )?impl(?:<.*?>)? (?:(.*) for )?(\w+)", line):
                owner, head, is_public = block[2], signature(lines, k), not block[1]
            elif line == "}":
                owner, head, is_public = "", "", True
            found = re.match(r" *(pub )?fn (\w+)", line)
            if found and (found[1] or not is_public) and bound.search(head + signature(lines, k)) and names and (owner or found[2]) in names:
                yield f"`{owner}::{found[2]}`" if owner else f"`{found[2]}`"


def table_of_waiters(crates):
    waiters = {crate: ", ".join(waiters_of(crate)) for crate in crates}
    return WAITERS + "".join(f"| `{crate}` | {names} |\n" for crate, names in waiters.items() if names)


def renewed(text):
    """The text of docs/PROVED.md with the lists as the sources have them."""
    parts = re.split(r"^(?=##+ )", text, flags=re.M)
    for k, part in enumerate(parts):
        heading = HEADING.match(part)
        if heading:
            by_hand = re.split(r"^(?:- \[`|Laws:\n)", part, maxsplit=1, flags=re.M)[0].rstrip("\n")
            parts[k] = "\n\n".join(filter(None, (by_hand, list_of(heading[1])))) + "\n\n"
    table = table_of_waiters(HEADING.findall(text))
    return re.sub(re.escape(WAITERS) + r"(?:\|.*\n)*", lambda _: table, "".join(parts))


def main():
    words = words_of(__doc__, options=["--check"])
    text = PROVED.read_text(encoding="utf-8")
    new = renewed(text)
    if "--check" in words:
        sys.exit("docs/PROVED.md: the contracts aren't as the sources have them; run tools/contracts.py" if new != text else 0)
    PROVED.write_text(new, encoding="utf-8")


if __name__ == "__main__":
    main()
