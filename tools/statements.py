#!/usr/bin/env python3
"""What a clause of a contract says: its premises, and the definitions that it stands on.

    tools/statements.py CRATE FUNCTION[.CLAUSE]      prints the clause, its premises and its definitions, file by file

A premise is what stands before an arrow of the clause, as `IsOfTaken q` in `(q : Request) → IsOfTaken q → ..`; of the definition that
the clause ends in (a record's fields, the body of an abbreviation) the premises count too. The definitions are those of specs/ that
the clause names, that these name, and so on; words of the toolchain's library aren't among them.
"""
import functools
import pathlib
import re
import sys

from command import words_of

TOP = pathlib.Path(__file__).resolve().parent.parent
NAME = r"[A-Za-z_][\w'-]*"
DECLARED = re.compile(rf"^(?:(?:pub|abbrev|unfoldable|opaque|record|data|syntax)\s+)*(?:pub\s+)?({NAME})(?=[ :])", re.M)
USE = re.compile(r"^\s*(?:ghost )?(?:pub )?use ([\w.«»]+?)(?:\.\{([^}]*)\}| as ([\w]+))?;?$", re.M)
# What says that a call went well, or which of its answers is meant: no premise that a caller has to know of.
ANSWERS = ("IfOk result", "OnOk result", "IfSome result", "IfErr result", "OnErr result")


def clause_of(text, function, clause):
    """The text of a function's clause, in the text of its file; of a clause without a name if none is given."""
    start = re.search(rf"\bfn {re.escape(function)}\b", text)
    if not start:
        return None
    end = re.compile(r"^\s*(?:pub |#\[)?.*\bfn \w|\Z", re.M).search(text, start.end())
    head = text[start.start():end.start()] if end.start() > start.start() else text[start.start():]
    found = re.search(rf"ensures {re.escape(clause)}\s*\{{" if clause else r"ensures\s*\{", head)
    if not found:
        return None
    depth, at = 1, found.end()
    while depth and at < len(head):
        depth += {"{": 1, "}": -1}.get(head[at], 0)
        at += 1
    return " ".join(head[found.end():at - 1].split())


def split_at_arrows(text):
    """The parts of a statement between its outermost arrows."""
    parts, depth, start = [], 0, 0
    for at, letter in enumerate(text):
        depth += {"(": 1, "{": 1, ")": -1, "}": -1}.get(letter, 0)
        if letter == "→" and depth == 0:
            parts.append(text[start:at].strip())
            start = at + 1
    return [*parts, text[start:].strip()]


def without_variables(part):
    """A part without the variables that it begins with, as `(q : Request) (r : Reply)`."""
    while True:
        group = re.match(r"[({][^(){}:]* : ", part)
        if not group:
            return part
        depth = 0
        for at, letter in enumerate(part):
            depth += {"(": 1, "{": 1, ")": -1, "}": -1}.get(letter, 0)
            if depth == 0:
                break
        part = part[at + 1:].lstrip()


def premises_in(statement):
    """The premises of a statement, and what it ends in."""
    *before, end = split_at_arrows(statement)
    premises = [left for part in before if (left := without_variables(part))]
    inner = re.match(r"((?:If|On)\w+ (?:\([^()]*(?:\([^()]*\)[^()]*)*\)|[\w.]+)) \((?:λ [\w ]+\. )?(.*)\)$", end)
    if inner:
        more, end = premises_in(inner[2])
        premises += ([] if inner[1].startswith(ANSWERS) else [inner[1]]) + more
    return premises, end


@functools.cache
def file_of(module):
    """The file of specs/ that a module path names, as Rattle.timegate.specs.Route, or None."""
    found = re.fullmatch(r"Rattle\.(\w+)\.specs\.([\w.]+)", module)
    if not found or found[2].startswith("declared"):
        return None
    crate = TOP / "crates" / found[1]
    path = crate / "specs" / (found[2].replace(".", "/") + ".antt")
    if path.exists():
        return path
    lib = crate / "specs/Lib.antt"
    handed_on = re.search(rf"^pub use (Rattle\.[\w.]+\.{found[2]})$", lib.read_text(), re.M) if lib.exists() else None
    return file_of(handed_on[1]) if handed_on else None


@functools.cache
def names_in(path):
    """What a file brings in: each name with the module and the name that it has there, and each alias with its module."""
    names, aliases = {}, {}
    for module, listed, alias in USE.findall(path.read_text(encoding="utf-8")):
        for item in filter(None, (it.strip() for it in listed.split(","))):
            theirs, _, ours = item.partition(" as ")
            names[ours or theirs] = module, theirs
        if alias:
            aliases[alias] = module
    return names, aliases


@functools.cache
def blocks_of(path):
    """Each definition of a file of specs/ with its text: its signature, its equations, or its fields."""
    text = re.sub(r"--.*", "", path.read_text(encoding="utf-8"))
    blocks, name = {}, None
    for line in text.split("\n"):
        head = DECLARED.match(line) if not line.startswith("use ") and not line.startswith("pub use ") else None
        if re.match(r"\s+(?:abbrev |unfoldable |opaque |record |data |pub )+", line) and " : " in line and "module" not in line:
            inner = re.match(rf"\s+(?:abbrev |unfoldable |opaque |record |data |pub )+({NAME}) :", line)
            if inner and re.match(r"\s+(?:abbrev|unfoldable|record|data)", line):
                head = inner
        if head:
            name = head[1]
        if name:
            blocks[name] = blocks.get(name, "") + line + "\n"
    return blocks


def definitions_named(text, path):
    """The definitions of specs/ that a text in this file names: pairs of a file and a name."""
    names, aliases = names_in(path)
    own = blocks_of(path) if path.suffix == ".antt" else {}
    for word in re.findall(rf"{NAME}(?:\.{NAME})*", text):
        first, _, rest = word.partition(".")
        if first in aliases and rest:
            module, name = aliases[first], rest.split(".")[0]
        elif first in names:
            module, name = names[first]
        else:
            if first in own:
                yield path, first
            continue
        file = file_of(module)
        if file and name in blocks_of(file):
            yield file, name


def stands_on(statement, path):
    """All definitions that a statement in a file stands on, itself and through others."""
    found, new = set(), set(definitions_named(statement, path))
    while new:
        found |= new
        new = {it for file, name in new for it in definitions_named(blocks_of(file)[name], file)} - found
    return found


def premises_of(statement, path):
    """The premises of a statement in a file, with those of the definition that it ends in."""
    premises, end = premises_in(statement)
    for file, name in list(definitions_named(end.split(" ")[0].lstrip("(¬ "), path))[:1]:
        block = blocks_of(file)[name]
        if re.search(rf"^\s*(?:pub )?record(?: pub)? {re.escape(name)}\b|^pub record {re.escape(name)}\b", block, re.M):
            fields = re.findall(rf"^\s+(?:pub )?{NAME} : (.*(?:\n\s+(?!\s|pub ).*)*)", block, re.M)
        else:
            fields = re.findall(rf"^\s*{re.escape(name)}\b[^:\n]*=\s*((?:.|\n)*)", block, re.M)[:1]
        for field in fields:
            premises += [f"{name}: {it}" for it in premises_in(" ".join(field.split()))[0]]
    return list(dict.fromkeys(premises))


def find_clause(crate, contract):
    """The file of a crate with this function, and its clause's text: (None, None) if there is none."""
    function, _, clause = contract.partition(".")
    for path in sorted((TOP / "crates" / crate / "src").rglob("*.rt")):
        text = clause_of(path.read_text(encoding="utf-8"), function.split("::")[-1], clause)
        if text is not None:
            return path, text
    return None, None


def main():
    crate, contract = words_of(__doc__, least=2, most=2)
    path, statement = find_clause(crate, contract)
    if path is None:
        sys.exit(f"{crate} has no clause {contract}")
    lines = [statement, "", "Premises:", *(f"  {it}" for it in premises_of(statement, path)), ""]
    files = {}
    for file, name in stands_on(statement, path):
        files.setdefault(str(file.relative_to(TOP / "crates")), []).append(name)
    lines += [f"{sum(map(len, files.values()))} definitions of {len(files)} files:"]
    lines += [f"  {file}: {', '.join(sorted(names))}" for file, names in sorted(files.items())]
    print("\n".join(lines))


if __name__ == "__main__":
    main()
