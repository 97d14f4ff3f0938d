"""What docs/check asks of pages whose rows stand for something in the sources: the keys of the settings, the commands of scripts,
the replies of a gate, the words of the glossary, the files of a folder, and the crates; and how long a file may be.

Each function calls `tell(page, what)` for what is wrong.
"""
import pathlib
import re

import counts

TOP = pathlib.Path(__file__).resolve().parent.parent
KEYS = TOP / "crates/service_settings/src/fault.rt"
GLOSSARY = TOP / "docs/GLOSSARY.md"


def text_of(path):
    return path.read_text(encoding="utf-8")


# ---- tables of the sources ----


def rows_of(path, mark, most):
    """The first `most` cells of each row of a table whose rows begin with this mark and a bar, as one text a row."""
    lines = [line.removeprefix(mark) for line in text_of(path).split("\n") if line.startswith(f"{mark}| ")]
    return [" | ".join(cell.strip() for cell in line.strip("| ").split(" | ")[:most]) for line in lines]


def commands(path, mark):
    """The rows of the table of commands in a file: the forms of each, and what it writes."""
    rows = [re.fullmatch(rf"{mark}\| (`.*) \| .* \| (.*) \|", line) for line in text_of(path).split("\n")]
    return [row.groups() for row in rows if row]


def check_commands(tell):
    shown, told = TOP / "examples/README.md", TOP / "crates/replica_world/src/replaying/run.rt"
    if not commands(told, "/// ") or commands(shown, "") != commands(told, "/// "):
        tell(shown, f"the table of commands isn't as in {told.relative_to(TOP)}")


def check_replies(tell):
    """The replies of a gate stand in docs/API.md, in the order in which `timegate::answer` has them."""
    page, source = TOP / "docs/API.md", TOP / "crates/timegate/src/answering.rt"
    shown, told = rows_of(page, "", 3), rows_of(source, "/// ", 3)
    if not told or told != shown[shown.index(told[0]):][:len(told)] if told and told[0] in shown else True:
        missing = next((row for row in told if row not in shown), "their order")
        tell(page, f"the replies of a gate aren't as in {source.relative_to(TOP)}: {missing}")


# ---- keys ----


def keys():
    """The names of the keys, in the order of `Key`."""
    text = text_of(KEYS)
    names = dict(re.findall(r'Key::(\w+) => "(\w+)"', text))
    order = re.findall(r"Key::(\w+),", re.search(r"const ALL: .*?\];", text, re.S)[0])
    return [names.get(key, key) for key in order]


def check_order(tell, page, found, what):
    """Whether each key stands there once, in the order of `Key`."""
    found, wanted = list(found), keys()
    for key in wanted:
        count = found.count(key)
        tell(page, None if count == 1 else f"{what} names `{key}` {count} times")
    known = [key for key in found if key in wanted]
    if sorted(known) == sorted(wanted) and known != wanted:
        tell(page, f"{what} isn't in the order of Key: `{next(a for a, b in zip(known, wanted) if a != b)}`")


def section_of(page, *headings):
    """What stands below these headings of a page."""
    found = [re.search(rf"^## {re.escape(it)}\n(.*?)(?=^## |\Z)", text_of(page), re.M | re.S) for it in headings]
    return "".join(it[1] for it in found if it)


def check_settings(tell):
    limits = re.findall(r"^limits key\.(\w+) = \((\d+), (\d+)\)", text_of(TOP / "crates/service_settings/specs/Limits.antt"), re.M)
    names = dict(re.findall(r'Key::(\w+) => "(\w+)"', text_of(KEYS)))
    page, manual, migrating = TOP / "docs/SETTINGS.md", TOP / "deploy/aggregator.1", TOP / "docs/MIGRATING.md"
    text = section_of(page, "Required keys", "Optional keys")
    rows = re.findall(r"^\| `(\w+)` \| ([^|]*) \|", re.sub(r"^\| In `\[\[archives.*?\n\n", "", text, flags=re.M | re.S), re.M)
    tell(page, None if names.keys() == {key for key, _, _ in limits} else "the keys of the code aren't those of the definition")
    check_order(tell, page, (key for key, _ in rows), "the tables of keys")
    cells = dict(rows)
    for key, least, most in limits:
        name, between = names.get(key, key), f"{int(least):,} to {int(most):,}"
        words = {("0", "1"): "`true` or `false`", ("1", "1"): "a "}.get((least, most), between)
        tell(page, None if words in cells.get(name, "") else f"no row says that `{name}` holds {words}")
    settings = text_of(manual).partition(".SH SETTINGS")[2].partition(".SH OUTPUT")[0]
    heads = re.findall(r"^\.TP\n\.BR? (.*)$", settings, re.M)
    check_order(tell, manual, (key for head in heads for key in re.findall(r"\w+", head)), "SETTINGS")
    check_order(tell, migrating, re.findall(r"^\| `(\w+)` \|", section_of(migrating, "Keys of the settings"), re.M), "the table of keys")


# ---- words ----

ITALIC = re.compile(r"(?<![*\w\\])\*([a-z][a-z -]*)\*(?![*\w])")
# Pages that define words. Elsewhere italics only stress one.
DEFINING = ("README.md", "CONTRIBUTING.md", *(f"docs/{name}.md" for name in
            ("API", "ARCHITECTURE", "BELIEF", "DECISIONS", "DEFINITIONS", "MIGRATING", "OPERATING", "RECIPES", "SETTINGS", "TROUBLESHOOTING")))


def is_defined(name, crate):
    """Whether a crate defines a name: an item of its code, a field, a definition."""
    folder = TOP / "crates" / crate
    item = rf"\b(?:fn|struct|enum|trait|const|type) {name}\b|\bpub(?:\(crate\))? (?:\w+ )*{name}(?::| |$)"
    return any(re.search(item, text_of(path), re.M) for path in [*folder.glob("src/**/*.rt"), *folder.glob("specs/**/*.antt")])


def check_words(tell):
    """The glossary has each word once, in alphabetical order, with a name of the sources; and each word that a page sets in italics."""
    rows = re.findall(r"^\| ([^|]+) \| ([^|]+) \| ([^|]+) \|$", text_of(GLOSSARY), re.M)[1:]
    words = [word.lower() for word, _, _ in rows]
    for before, after in zip(words, words[1:]):
        tell(GLOSSARY, None if before < after else f"'{after}' stands behind '{before}'")
    for word, _, carrier in rows:
        for name, crate in re.findall(r"`(\w+)` of `(\w+)`", carrier):
            tell(GLOSSARY, None if is_defined(name, crate) else f"'{word}': {crate} defines no {name}")
        tell(GLOSSARY, None if "`" in carrier or "](" in carrier else f"'{word}' has no carrier")
    known = {word for cell in words for word in cell.split(", or ")}
    for name in DEFINING:
        page = TOP / name
        for found in ITALIC.findall(re.sub(r"```.*?```", "", text_of(page), flags=re.S)) if page.exists() else ():
            word = found.removeprefix("the ")
            if not {word, word.removesuffix("s"), word.removesuffix("es")} & known:
                tell(page, f"*{found}* isn't in docs/GLOSSARY.md")


# ---- indexes, and lengths ----


def check_indexes(tell):
    for folder in ("docs", "bench", "deploy", "tests/planted"):
        page = TOP / folder / "README.md"
        text = text_of(page)
        for path in sorted((TOP / folder).iterdir()):
            is_listed = path.is_file() and path != page and path.suffix not in (".bugs", ".both")
            if is_listed and f"`{path.name}`" not in text and f"]({path.name})" not in text:
                tell(page, f"{path.name} isn't named")


def check_groups(tell):
    page = TOP / "crates/README.md"
    groups = [re.findall(r"`(\w+)`", line.split("|")[2]) for line in text_of(page).split("\n") if line.startswith("| ") and "`" in line]
    rank = {crate: k for k, group in enumerate(groups) for crate in group}
    tell(page, "a crate is named twice" if len(rank) < sum(map(len, groups)) else None)
    uses = counts.used()
    for crate in {*uses, *rank}:
        tell(page, f"{crate} isn't named" if crate not in rank else f"there is no crate {crate}" if crate not in uses else None)
        for below in uses.get(crate, ()):
            if rank.get(below, 0) > rank.get(crate, len(groups)):
                tell(page, f"{crate} stands above {below}, which it uses")


MOST_LINES = 500


def check_lengths(tell):
    product = [path for pattern in ("crates/*/src/**/*.rt", "deploy/*", "web/*", "tools/*.py", "examples/*.py") for path in TOP.glob(pattern)]
    for path in product:
        lines = len(text_of(path).split("\n")) - 1 if path.is_file() and path.name != "copyright" else 0
        tell(path, None if lines <= MOST_LINES else f"it has {lines} lines: {MOST_LINES} at most")
    choices = TOP / "docs/DECISIONS.md"
    tell(choices, None if text_of(choices).count("\n") <= 450 else "it has over 450 lines: choices of one subject stand with that subject")


def check_all(tell):
    check_indexes(tell)
    check_groups(tell)
    check_lengths(tell)
    check_commands(tell)
    check_replies(tell)
    check_settings(tell)
    check_words(tell)
