"""Checks that the documents say what stands in the repository.

    docs/check             says what is wrong, and ends with status 1 if anything is
    docs/check --mend      first writes the lines of links, the counts and the pictures, and fills long paragraphs anew

- A relative link leads to a file. `[text](crates/C/src/f.rt#L12 "name")` leads to the line on which that name is defined: a
  function, a type, `Type::function`, or a clause as `function.clause`; in `specs/` a definition or a field.
  `page.md#heading` leads to a heading. Each picture of docs/pictures is shown somewhere.
- A fenced block that names a file, as ```antt crates/C/specs/F.antt, quotes lines of it, in the file's order.
- Each crate of crates.txt has a row in the tables of docs/ARCHITECTURE.md and is named in docs/PROVED.md, and each name in code
  marks below its heading there stands in that crate.
- The tables are as docs/counts counts them, the lists of contracts as tools/contracts.py has them from the sources, the pictures as
  tools/pictures.py draws them, the figures of speed as tools/plot.py has them from bench/results.tsv, the hashes
  in the addresses of styles and scripts as web/hashes writes them, and the licences of what is in the program as tools/licences.py has them from the toolchain's kit.
- A claim of the README says the premises of the contracts that it cites, in the words that docs/premises.txt has for each, and none
  is waived there; its headline says those of `replicas_agree.learnt`.
- How many definitions a contract stands on is as tools/statements.py counts them.
- The commands of scripts, and what they write, stand in examples/README.md as in the comment of `replay`, and a gate's replies in
  docs/API.md as in that of `timegate::answer`.
- Each word of docs/GLOSSARY.md stands there once, in alphabetical order, and what carries it is in its crate; so does each word that
  a page sets in italics.
- The README.md of docs/, bench/, deploy/ and tests/planted/ names each file of its folder. That of crates/ names each crate once,
  below all that it uses or in their group.
- Each key of the settings has one row in docs/SETTINGS.md, with the limits that its definition has, one in the manual page and one
  in docs/MIGRATING.md, in the order of `Key` (tools/pages.py).
- No file of the product has over 500 lines, and docs/DECISIONS.md has 450 at most.
- What a crate doesn't lend to others is pub(crate) or private, and the head of each lib.rt of many modules says what each is for
  (tools/visibility.py).
- Each text that tests/planted would plant a bug in stands in the sources, once, and so does each that an edit changes. No edit
  stands in must-fail/, where `rt ci` would prove its crate once more. A library of the product with four public functions or more
  has four edits or more.
- Prose is within 120 columns, in documents and in comments of code, definitions and proofs: but for tables, code, headings and
  the targets of links. `--mend` fills the paragraphs anew that aren't. Lines of proofs are within 200.
- No sentence of a document has over 40 words; a name in code marks is one. Lists of contracts and CHANGELOG.md are left out.
- The README's line with the toolchain's identity is what `rt version` prints, if there is an rt; and CHANGELOG.md begins with
  the heading of a version.
"""
import functools
import os
import pathlib
import re
import shutil
import subprocess
import sys

import command
import pages
import statements
import visibility

if sys.version_info < (3, 11):
    sys.exit(f"docs/check needs Python 3.11 or later, and this is {sys.version.split()[0]}")

TOP = pathlib.Path(__file__).resolve().parent.parent
sys.path.insert(0, str(TOP / "tests/edits"))
import editing

LINK = re.compile(r'(?<!!)\[[^\]]*\]\(\s*([^)\s"#]*)(?:#([^)\s"]+))?(?:\s+"([^"]*)")?\s*\)')
PICTURE = re.compile(r'!\[[^\]]*\]\(([^)\s]+)\)|srcset="([^"]+)"|src="([^"]+)"')
FENCE = re.compile(r"^```(\S*)[ ]*(\S*)\n(.*?)^```$", re.M | re.S)


@functools.cache
def lines_of(path):
    return path.read_text(encoding="utf-8").split("\n")


def crates():
    lines = (TOP / "crates.txt").read_text().split("\n")
    return [line.split(":")[0].split()[0] for line in lines if line.strip() and not line.startswith("#")]


def first_line(lines, pattern, start=0):
    """The number of the first line from `start` on in which the pattern is found, counted from 0; None if it isn't."""
    return next((k for k in range(start, len(lines)) if re.search(pattern, lines[k])), None)


def line_in_code(lines, name):
    """Where a function, a type, `Type::function` or `function.clause` is defined in a file of code."""
    owner, _, name = name.rpartition("::")
    name, _, clause = name.partition(".")
    start = first_line(lines, rf"^(?:unsafe )?impl\b.*\b{re.escape(owner)}\b") if owner else 0
    if start is None:
        return None
    kinds = r"\bfn" if clause or owner else r"\b(?:fn|struct|enum|trait|const|type)"
    place = first_line(lines, rf"{kinds} {re.escape(name)}\b", start)
    if not owner and not clause:
        # A method may have the name of a function.
        own = first_line(lines, rf"^(?:pub )?(?:const )?{kinds} {re.escape(name)}\b")
        place = place if own is None else own
    if place is None or not clause:
        return place
    end = first_line(lines, r"^\s*\{|\{\}$|^}", place + 1)
    found = first_line(lines, rf"^\s*ensures {re.escape(clause)} \{{", place)
    return found if found is not None and (end is None or found <= end) else None


def line_in_definitions(lines, name):
    """Where a definition or a field is in a file of specs/."""
    declared = first_line(lines, rf"^(?:\w+ )*pub (?:\w+ )*{re.escape(name)}(?: |$)")
    return declared if declared is not None else first_line(lines, rf"^\s+(?:pub )?{re.escape(name)} :")


def line_of(path, name):
    """The number of the line on which a name is defined, counted from 1, or None."""
    find = line_in_definitions if path.suffix == ".antt" else line_in_code
    place = find(lines_of(path), name)
    return None if place is None else place + 1


def headings(path):
    text = re.sub(r"^```.*?^```$", "", path.read_text(encoding="utf-8"), flags=re.M | re.S)
    words = (re.sub(r"[^\w\- ]", "", heading.lower()).strip() for heading in re.findall(r"^#+ (.*)$", text, re.M))
    return {heading.replace(" ", "-") for heading in words}


def documents():
    listed = subprocess.run(["git", "ls-files", "--cached", "--others", "--exclude-standard", "*.md"], cwd=TOP, capture_output=True, text=True)
    names = listed.stdout.split() if listed.returncode == 0 else [str(path.relative_to(TOP)) for path in TOP.rglob("*.md")]
    return [TOP / name for name in names if not re.match(r"crates/\w+/edits/", name) and (TOP / name).exists()]


def check_link(page, target, anchor, title):
    """What is wrong with a link, or None."""
    if re.match(r"[a-z]+:", target):
        return None
    path = (page.parent / target).resolve() if target else page
    if not path.exists():
        return f"{target} isn't there"
    if not anchor:
        return None
    if not re.fullmatch(r"L\d+", anchor):
        return None if anchor in headings(path) else f"{target} has no heading #{anchor}"
    if not title:
        return f"{target}#{anchor} has no name, as in ({target}#{anchor} \"name\")"
    place = line_of(path, title)
    if place is None:
        return f"{target} has no {title}"
    return None if anchor == f"L{place}" else f"{title} stands on line {place} of {target}, not {anchor[1:]}"


def mend_links(page):
    def mended(link):
        target, anchor, title = link.groups()
        path = page.parent / target
        place = line_of(path, title) if target and title and re.fullmatch(r"L\d*", anchor or "") and path.exists() else None
        return link[0] if place is None else link[0].replace(f"#{anchor}", f"#L{place}")

    old = page.read_text(encoding="utf-8")
    new = COUNTED.sub(recounted, LINK.sub(mended, old))
    if new != old:
        page.write_text(new, encoding="utf-8")


def check_quotation(page, path, quoted):
    """What is wrong with a quotation, or None."""
    if not path.exists():
        return f"quotes {path.relative_to(TOP)}, which isn't there"
    rest = iter(line.strip() for line in lines_of(path))
    for line in (line.strip() for line in quoted.split("\n")):
        if line and line not in rest:
            return f"{path.relative_to(TOP)} has no line, or not in this order: {line}"
    return None


def check_documents(tell):
    links = quotations = 0
    shown = set()
    for page in documents():
        text = page.read_text(encoding="utf-8")
        plain = FENCE.sub("", text)
        for target, anchor, title in LINK.findall(plain):
            links += 1
            tell(page, check_link(page, target, anchor, title))
        for groups in PICTURE.findall(plain):
            picture = next(filter(None, groups))
            shown.add((page.parent / picture).resolve())
            tell(page, check_link(page, picture, "", ""))
        for _, file, quoted in FENCE.findall(text):
            if "/" in file:
                quotations += 1
                tell(page, check_quotation(page, TOP / file, quoted))
    for path in sorted((TOP / "docs/pictures").iterdir()):
        tell(path, "no document shows it" if path.suffix in (".svg", ".png") and path not in shown else None)
    return links, quotations


def check_tables(tell):
    page = TOP / "docs/ARCHITECTURE.md"
    text = page.read_text(encoding="utf-8")
    for crate in crates():
        tell(page, None if f"\n| `{crate}` |" in text else f"no row for {crate}")
    page = TOP / "docs/PROVED.md"
    text = page.read_text(encoding="utf-8")
    for crate in crates():
        tell(page, None if f"`{crate}`" in text else f"{crate} isn't named")
    for crate, section in re.findall(r"^### `(\w+)`\n(.*?)(?=^##)", text, re.M | re.S):
        folder = TOP / "crates" / crate
        words = set()
        for path in [*folder.glob("src/**/*.rt"), *folder.glob("specs/**/*.antt")]:
            words.update(re.findall(r"\w+", path.read_text(encoding="utf-8")))
        for name in re.findall(r"`([\w:.]+)`", re.split(r"^- \[", section, maxsplit=1, flags=re.M)[0]):
            lacking = [word for word in re.findall(r"[^\W\d]\w*", name) if word not in words and word not in crates()]
            tell(page, f"{crate} has no {name}" if lacking else None)


def check_version(tell):
    changes = TOP / "CHANGELOG.md"
    first = re.search(r"^## (.*)$", changes.read_text(encoding="utf-8"), re.M)
    tell(changes, None if first and re.fullmatch(r"\d+\.\d+\.\d+ \(\d+ [A-Z][a-z]+ \d{4}\)|Unreleased", first[1])
         else "its first heading is no version with its day, as '0.1.0 (25 November 2026)'")
    number = re.search(r"^## (\d[\d.]*)", changes.read_text(encoding="utf-8"), re.M)[1]
    tell(TOP / "README.md", None if f"version {number}." in (TOP / "README.md").read_text(encoding="utf-8") else f"its status isn't version {number}")
    rt = os.environ.get("RT", "rt")
    if shutil.which(rt) is None:
        return
    said = subprocess.run([rt, "version"], capture_output=True, text=True).stdout.strip()
    readme = TOP / "README.md"
    tell(readme, None if said in readme.read_text(encoding="utf-8") else f"the toolchain is {said}")


WIDTH = 120
# How a line of prose begins: what stands before its text, and of a list's item the mark.
IN_PAGE = re.compile(r"( {0,3}(?:> )?)((?:- |\d+\. )?)(?=[^ ])")
IN_CODE = re.compile(r"( *(?://[/!]?|--) {1,3})((?:- |\d+\. )?)(?=[^ ])")
WORD = re.compile(r"(?:`[^`]*`|\]\([^)]*\)|\S)+")
# Words that would begin a list, a heading, a table or a quotation, if they stood first in a line.
MARK = re.compile(r"[-+*>|]|#+|\d+[.)]")
PROOF_WIDTH = 220
# Crates whose proofs aren't yet.
WIDE = set()


def columns(line):
    """How wide a line is, without the targets of its links."""
    return len(re.sub(r"\]\([^)\s]*", "](", line))


def paragraphs(path):
    """The paragraphs of prose in a file: of each its first line, and the line behind its last, counted from 0."""
    lines, in_page = lines_of(path), path.suffix == ".md"
    start, fenced = None, False
    for k, line in enumerate([*lines, ""]):
        fence = line.lstrip(" /!").startswith("```")
        begins = (IN_PAGE if in_page else IN_CODE).match(line)
        text = line[begins.end():] if begins else ""
        is_prose = begins and not fenced and not fence and not text.startswith(("|", "#", "<", "!["))
        if start is not None and (not is_prose or begins[2] or begins[1].strip() != lines[k - 1].lstrip()[:len(begins[1].strip())]):
            yield start, k
            start = None
        if is_prose and start is None:
            start = k
        fenced ^= fence


def filled(lines, in_page):
    """A paragraph within the columns, as its own lines or filled anew."""
    begins = (IN_PAGE if in_page else IN_CODE).match(lines[0])
    marked = begins[1] + begins[2]
    behind = begins[1] + " " * len(begins[2])
    words = WORD.findall(" ".join(line[len(marked):] if k == 0 else line[len(begins[1]):].strip() for k, line in enumerate(lines)))
    rows = [[words[0]]]
    for word in words[1:]:
        if columns(behind + " ".join([*rows[-1], word])) <= WIDTH:
            rows[-1].append(word)
        elif MARK.fullmatch(word):
            rows.append([rows[-1].pop(), word])
        else:
            rows.append([word])
    return [(behind if k else marked) + " ".join(row) for k, row in enumerate(rows)]


def prose():
    """The files with prose that is to be within the columns."""
    yield from documents()
    for crate in crates():
        for pattern in ("src/**/*.rt", "specs/**/*.antt", "proofs/**/*.antt"):
            yield from sorted((TOP / "crates" / crate).glob(pattern))


def long_paragraphs(path):
    lines = lines_of(path)
    return [(start, end) for start, end in paragraphs(path) if any(columns(line) > WIDTH for line in lines[start:end])]


def check_columns(tell):
    for path in prose():
        for start, end in long_paragraphs(path):
            tell(path, f"the prose in lines {start + 1} to {end} is over {WIDTH} columns; docs/check --mend fills it anew")
    for crate in crates():
        for path in sorted((TOP / "crates" / crate).glob("proofs/**/*.antt")) if crate not in WIDE else ():
            for k, line in enumerate(lines_of(path)):
                is_wide = len(line) > PROOF_WIDTH and not line.startswith("use ")    # the prover fills imports itself
                tell(path, f"line {k + 1} is over {PROOF_WIDTH} columns" if is_wide else None)


MOST_WORDS = 40
# Behind a sentence: a blank, and then what a sentence begins with.
BEHIND = re.compile(r"(?<=[.?!])[*_)\"]* (?=[*_(\"\[`]*[A-Z0-9`])")


def sentences(path):
    """The sentences of a document, each with the number of its paragraph's first line."""
    lines = lines_of(path)
    for start, end in paragraphs(path):
        text = " ".join(line.strip().removeprefix("> ") for line in lines[start:end])
        if not text.startswith("- [`"):
            text = re.sub(r"`[^`]*`", "`code`", re.sub(r"\]\([^)]*\)", "]", text))
            yield from ((start + 1, sentence) for sentence in BEHIND.split(text))


def check_sentences(tell):
    for path in documents():
        for line, sentence in sentences(path) if path.name != "CHANGELOG.md" else ():
            words = sum(1 for word in sentence.split() if re.search(r"\w", word))
            tell(path, f"a sentence of the paragraph at line {line} has {words} words: {sentence[:60]} .." if words > MOST_WORDS else None)


# An item, whose comment begins with `///`, and a file's, with `//!`.
ITEM = re.compile(r"\s*(?:pub(?:\(crate\))? )?(?:(?:const|unsafe) )*(?:fn|struct|enum|trait|const|type|static|mod) ")


def check_comments(tell):
    for path in sorted((TOP / "crates").glob("*/src/**/*.rt")):
        lines = lines_of(path)
        for k, line in enumerate(lines):
            above = next((j for j in range(k - 1, -1, -1) if not lines[j].strip().startswith("#[")), None)
            is_plain = above is not None and ITEM.match(line) and re.match(r"\s*//( |$)", lines[above])
            tell(path, f"line {above + 1} is above an item and begins with //, not ///" if is_plain else None)
        tell(path, "its head begins with //, not //!" if lines[0].startswith("// ") else None)


def mend_columns():
    for path in prose():
        lines = list(lines_of(path))
        for start, end in reversed(long_paragraphs(path)):
            lines[start:end] = filled(lines[start:end], path.suffix == ".md")
        if lines != lines_of(path):
            path.write_text("\n".join(lines), encoding="utf-8")
    lines_of.cache_clear()


COUNTED = re.compile(r"(\d+) definitions of (\d+) files(\s\(`tools/statements\.py\s+(\w+)\s+([\w.:]+)`)")


def recounted(found):
    """How many definitions a contract stands on, as a page says it."""
    path, statement = statements.find_clause(found[4], found[5])
    names = statements.stands_on(statement, path)
    return f"{len(names)} definitions of {len({file for file, _ in names})} files{found[3]}"


def check_counts(tell):
    for page in documents():
        for found in COUNTED.finditer(page.read_text(encoding="utf-8")):
            tell(page, None if recounted(found) == found[0] else f"{found[5]} stands on {recounted(found)}")


HEADLINE = "replica_events", "replicas_agree.learnt"


def claims():
    """The claims of the README, item by item: its number or its first words, its text without marks, and of each link the crate and
    the contract."""
    text = (TOP / "README.md").read_text(encoding="utf-8")
    yield "'the headline'", " ".join(re.sub(r"^> ", "", line) for line in re.findall(r"^> .*$", text, re.M)), [HEADLINE]
    section = re.search(r"^## What is proved\n(.*?)^## ", text, re.M | re.S)[1]
    for mark, item in re.findall(r"^(\d+|-)\.? (.*(?:\n {2,3}.*)*)", section, re.M):
        contracts = [(target.split("crates/")[1].split("/")[0], title) for target, _, title in LINK.findall(item) if title]
        text = " ".join(re.sub(r"[*`]", "", item).split())
        yield mark if mark != "-" else f"'{text.split('.')[0]}'", text, contracts


def premises_told():
    """What docs/premises.txt has: for each contract its premises, each with the words of the claim that say it."""
    told, contract = {}, None
    for line in lines_of(TOP / "docs/premises.txt"):
        if line.startswith("    "):
            premise, _, words = line.strip().partition(" = ")
            told[contract][premise] = words
        elif line and not line.startswith("#"):
            contract = tuple(line.split())
            told[contract] = {}
    return told


def check_claims(tell):
    """A claim says each premise of the contracts that it cites, in the words that docs/premises.txt has for it."""
    readme, told = TOP / "README.md", premises_told()
    cited = set()
    for number, claim, contracts in claims():
        for crate, contract in contracts:
            cited.add((crate, contract))
            path, statement = statements.find_clause(crate, contract)
            if path is None:
                tell(readme, f"{crate} has no clause {contract}: a claim cites a clause by its name")
                continue
            phrases = told.get((crate, contract), {})
            premises = statements.premises_of(statement, path)
            for premise in premises:
                if premise not in phrases:
                    tell(readme, f"claim {number} cites {contract}, whose premise docs/premises.txt doesn't have: {premise}")
                elif " " not in phrases[premise]:
                    tell(TOP / "docs/premises.txt", f"{contract} waives {premise}: give the words of the claim that say it")
                elif phrases[premise] not in claim:
                    tell(readme, f"claim {number} doesn't say '{phrases[premise]}', the premise {premise} of {contract}")
            for premise in phrases.keys() - set(premises):
                tell(TOP / "docs/premises.txt", f"{contract} has no premise {premise}")
    for crate, contract in told.keys() - cited:
        tell(TOP / "docs/premises.txt", f"no claim of the README cites {crate}'s {contract}")


def check_visibility(tell):
    for path, what in visibility.faults():
        tell(path, what)


# A library of the product with so many public functions has so many edits.
LEAST_EDITS = 4


def check_edits(tell):
    for crate in editing.with_those_below(editing.read_crates(), "aggregator"):
        sources = TOP / "crates" / crate / "src"
        calls = sum(item.kind == "fn" for path in sources.rglob("*.rt") for item in visibility.items_of(path))
        edits = len(editing.edits_of(crate))
        if (sources / "lib.rt").exists() and edits < LEAST_EDITS <= calls:
            tell(sources.parent, f"{edits} edits are too few for its {calls} public functions: {LEAST_EDITS} at least")


def check_scripts(tell):
    dry = (["tests/planted/run", "--dry"], ["tests/planted/both", "--dry"], ["tests/edits/run", "--dry"])
    for words in (["docs/counts", "--check"], ["tools/contracts.py", "--check"], ["tools/pictures.py", "--check"], ["tools/plot.py", "--check"], ["tools/history.py", "--check"],
                  ["web/hashes", "--check"], ["tools/licences.py", "--check"], *dry):
        ran = subprocess.run([TOP / words[0], *words[1:]], capture_output=True, text=True)
        tell(TOP / words[0], ((ran.stderr or ran.stdout).strip() or "failed") if ran.returncode else None)


def main():
    if "--mend" in command.words_of(__doc__, options=["--mend"]):
        mend_columns()
        subprocess.run([TOP / "docs/counts"], check=True)
        subprocess.run([TOP / "tools/contracts.py"], check=True)
        subprocess.run([TOP / "tools/pictures.py"], check=True)
        subprocess.run([TOP / "tools/plot.py"], check=True)
        subprocess.run([TOP / "tools/history.py"], check=True)
        subprocess.run([TOP / "web/hashes"], check=True)
        subprocess.run([TOP / "tools/licences.py"], check=False)    # which can't without a kit, and says so
        for page in documents():
            mend_links(page)
    wrong = []

    def tell(page, what):
        if what:
            wrong.append(f"{page.relative_to(TOP)}: {what}")

    links, quotations = check_documents(tell)
    check_tables(tell)
    check_counts(tell)
    check_claims(tell)
    pages.check_all(tell)
    check_columns(tell)
    check_sentences(tell)
    check_comments(tell)
    check_version(tell)
    check_visibility(tell)
    check_edits(tell)
    check_scripts(tell)
    if wrong:
        sys.exit("\n".join(wrong))
    print(f"{links} links and {quotations} quotations lead where they say; tables, counts and pictures are fresh")


if __name__ == "__main__":
    main()
