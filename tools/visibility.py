#!/usr/bin/env python3
"""What a crate lends to others: only that is `pub`, and a reader finds a crate's modules in the head of its lib.rt.

    tools/visibility.py      prints each item that is `pub` but that no other crate can reach, and each module that its map lacks

Others reach what lib.rt names in `pub use`, types that their own definitions name, the types that signatures and fields of these
speak of, and the methods and fields of them all. What is left is `pub(crate)` or private.
"""
import collections
import dataclasses
import pathlib
import re
import sys

from command import words_of

TOP = pathlib.Path(__file__).resolve().parent.parent

# A lib.rt with more modules than these says in its head what each is for.
MODULES_WITHOUT_A_MAP = 8

ITEM = re.compile(r"^(?P<indent> *)pub (?:const |unsafe )*(?P<kind>fn|struct|enum|trait|type|const|static) (?P<name>\w+)")
FIELD = re.compile(r"^(?P<indent> +)pub (?P<name>\w+): ")
OWNER = re.compile(r"^(?:(?:pub(?:\(crate\))? )?(?:struct|enum|trait) (?P<type>\w+)|impl(?:<[^>]*>)? (?:.* for )?(?:\w+::)*(?P<impl>\w+))")
TYPES = ("struct", "enum", "trait", "type")


@dataclasses.dataclass
class Item:
    """Something `pub`: its place, its kind and name, the type that it belongs to (empty for none), and all that its declaration
    names."""
    path: pathlib.Path
    line: int
    kind: str
    name: str
    owner: str
    words: set

    def is_reached(self, reached):
        return (self.owner or self.name) in reached


def declaration(lines, start, kind):
    """The words from this line to the end of what it declares: of a function, of its signature."""
    ends = {"fn": r"\{$|^ *(?:ensures|requires)\b|;$", "field": r",$", "type": r";$", "const": r";$", "static": r";$"}.get(kind, r"^\}|;$")
    end = next((at for at in range(start, len(lines)) if re.search(ends, lines[at])), len(lines) - 1)
    return set(re.findall(r"\w+", " ".join(lines[start:end + 1])))


def items_of(path):
    """What is `pub` in a file."""
    lines, owner = path.read_text(encoding="utf-8").split("\n"), ""
    for at, line in enumerate(lines):
        if found := OWNER.match(line):
            owner = found["type"] or found["impl"]
        item, field = ITEM.match(line), FIELD.match(line)
        if found := item or field:
            kind = found["kind"] if item else "field"
            yield Item(path, at + 1, kind, found["name"], owner if found["indent"] else "", declaration(lines, at, kind))


def exported(lib, items):
    """The names that lib.rt exports, one by one or with their module."""
    modules = re.findall(r"^pub mod (\w+);", lib, re.M)
    names = {item.name for item in items if item.path.stem in modules and not item.owner}
    for found in re.findall(r"^pub use ([^;]+);", lib, re.M):
        names |= set(re.findall(r"\w+", found.partition("{")[2] or found.rpartition("::")[2]))
    return names


def named_in_definitions(top):
    """By crate, the types that definitions and proofs of other crates name."""
    named = collections.defaultdict(set)
    for path in (it for kind in ("specs/**/*.antt", "proofs/**/*.antt", "src/**/*.rt") for it in top.glob(f"crates/*/{kind}")):
        for crate, module in re.findall(r"Rattle\.(\w+)\.specs\.declared\.([\w.]+)", path.read_text(encoding="utf-8")):
            if crate != path.relative_to(top).parts[1]:
                named[crate] |= set(module.split("."))
    return named


def associated_types(texts, reached):
    """What stands for the associated types of what others reach."""
    blocks = re.compile(r"^impl(?:<[^>]*>)? [\w:]+(?:<[^{]*>)?\s+for (\w+)[^{]*\{(.*?)^\}", re.M | re.S)
    for found in (it for text in texts for it in blocks.finditer(text) if it[1] in reached):
        yield from re.findall(r"\w+", " ".join(re.findall(r"^ *type \w+ = (.*);", found[2], re.M)))


def reached_names(exported_names, items, texts):
    """What others reach, by name: what is exported, and the crate's types that this speaks of, and so on."""
    reached, types = set(exported_names), {it.name for it in items if it.kind in TYPES}
    while True:
        named = set().union(*(it.words for it in items if it.is_reached(reached)), associated_types(texts, reached))
        more = (named & types) - reached
        if not more:
            return reached
        reached |= more


def faults(top=TOP):
    """What is too visible, and which modules no map names, each with its file."""
    named = named_in_definitions(top)
    for lib_path in sorted(top.glob("crates/*/src/lib.rt")):
        lib = lib_path.read_text(encoding="utf-8")
        paths = [it for it in sorted(lib_path.parent.rglob("*.rt")) if it != lib_path]
        items = [item for path in paths for item in items_of(path)]
        lent = exported(lib, items) | named[lib_path.relative_to(top).parts[1]]
        reached = reached_names(lent, items, [it.read_text(encoding="utf-8") for it in paths])
        for item in items:
            if not item.is_reached(reached):
                yield item.path, f"line {item.line}: `{item.name}` is pub, and no other crate reaches it: pub(crate)"
        modules = re.findall(r"^(?:pub(?:\(crate\))? )?mod (\w+);", lib, re.M)
        head = "\n".join(line for line in lib.split("\n") if line.startswith("//!"))
        for module in modules if len(modules) > MODULES_WITHOUT_A_MAP else ():
            if f"`{module}`" not in head:
                yield lib_path, f"its head doesn't say what the module `{module}` is for"


if __name__ == "__main__":
    words_of(__doc__)
    told = [f"{path.relative_to(TOP)}: {what}" for path, what in faults()]
    sys.exit("\n".join(told) if told else 0)
