"""Writes what can be counted or copied: the tables of files of definitions, of lines and of planted bugs in docs/TRUST.md, in docs/BELIEF.md the definitions
that the headline's two clauses stand on, as tools/statements.py finds them, in docs/ARCHITECTURE.md what each crate stands on, as
crates.txt has it, and in tests/README.md a row for each test, as tests/run --list shows it.

    docs/counts            writes them
    docs/counts --check    only says, by its status, whether they are as counted
"""
import importlib.machinery
import importlib.util
import itertools
import pathlib
import re
import sys
from collections import Counter

import statements
from command import words_of

TOP = pathlib.Path(__file__).resolve().parent.parent
sys.path.insert(0, str(TOP / "tests/planted"))
import planting

TRUST = TOP / "docs/TRUST.md"
ARCHITECTURE = TOP / "docs/ARCHITECTURE.md"
BELIEF = TOP / "docs/BELIEF.md"
TESTS = TOP / "tests/README.md"
LINES = "| Crate | Source, with tests | Definitions | Proofs | Edits |\n|---|---|---|---|---|\n"
FILES = "| File | What it defines |\n|---|---|\n"
BUGS = "| List | Bugs | Tried and refused, on the commit | Not tried as they stand |\n|---|---|---|---|\n"
ROWS = "| Test | Shows | Runs | Seconds | Needs |\n|---|---|---|---|---|\n"
FIRST, SECOND = ("replica_events", "replicas_agree.learnt"), ("replica_events", "replicas_agree.redirects")
DEFINITIONS = "| File | Definitions of `replicas_agree.learnt` |\n|---|---|\n"
FURTHER = "| File | Definitions of `replicas_agree.redirects` alone |\n|---|---|\n"


def used():
    """Each crate of crates.txt with those that it uses."""
    lines = [line for line in (TOP / "crates.txt").read_text().splitlines() if line and not line.startswith("#")]
    return {line.split(":")[0].split()[0]: line.split(":")[1].split() for line in lines}


def crates():
    return list(used())


def lines_of(crate, folder, ending):
    files = (TOP / "crates" / crate / folder).rglob(f"*.{ending}")
    return sum(len(file.read_text().splitlines()) for file in files)


def table_of_lines():
    rows = []
    for crate in crates():
        edits = len(list((TOP / "crates" / crate / "edits").glob("*.edit")))
        counts = [lines_of(crate, "src", "rt"), lines_of(crate, "specs", "antt"), lines_of(crate, "proofs", "antt"), edits]
        rows.append(f"| `{crate}` | " + " | ".join(map(str, counts)) + " |\n")
    return LINES + "".join(rows)


def of_product():
    """The crates that the program stands on, and the program, in the order of crates.txt."""
    found, left = set(), ["aggregator"]
    while left:
        crate = left.pop()
        if crate in used() and crate not in found:
            found.add(crate)
            left += used()[crate]
    return [crate for crate in crates() if crate in found]


def first_words(path):
    """The first sentence of the comment at the top of a file of definitions."""
    lines = itertools.takewhile(lambda line: line.startswith("-- "), path.read_text().splitlines())
    text = " ".join(line.removeprefix("-- ") for line in lines)
    return re.split(r"(?<=[\w`)\"])\. (?=[A-Z`(])", text)[0].rstrip(".").replace("|", "\\|")


def table_of_files():
    """Each file of definitions of the product, with what it is for. `Lib.antt` only names the others."""
    files = [path for crate in of_product() for path in sorted((TOP / "crates" / crate / "specs").rglob("*.antt")) if path.name != "Lib.antt"]
    rows = (f"| [{path.relative_to(TOP / 'crates')}](../{path.relative_to(TOP)}) | {first_words(path)} |\n" for path in files)
    return FILES + "".join(rows)


def table_of_bugs():
    """Of each list the bugs that were tried as they stand, by the commits on which they were, and those that weren't."""
    tried, rows, totals = planting.tried(), [], Counter()
    for file in sorted(path for path in (TOP / "tests/planted").iterdir() if path.suffix in (".bugs", ".both")):
        sums = planting.checksums(file.name).values()
        commits = Counter(tried[file.name, it] for it in sums if (file.name, it) in tried)
        told = ", ".join(f"{number} ({commit})" for commit, number in sorted(commits.items()))
        rows.append(f"| `{file.name}` | {len(sums)} | {told or 0} | {len(sums) - commits.total()} |\n")
        totals.update({"all": len(sums), "tried": commits.total()})
    return BUGS + "".join(rows) + f"| all | {totals['all']} | {totals['tried']} | {totals['all'] - totals['tried']} |\n"


def definitions_of(contract):
    """What a contract stands on: pairs of a file and a name."""
    path, statement = statements.find_clause(*contract)
    return set(statements.stands_on(statement, path))


def table_of_definitions(head, definitions):
    """Definitions, file by file."""
    files = {}
    for file, name in definitions:
        files.setdefault(str(file.relative_to(TOP)), []).append(f"`{name}`")
    rows = (f"| [{file.removeprefix('crates/')}](../{file}) | {', '.join(sorted(names))} |\n" for file, names in sorted(files.items()))
    return head + "".join(rows)


def stands_on(crate):
    """What stands in a crate's third column: our own crates, and then the toolchain's."""
    below = used()[crate]
    own = ", ".join(f"`{it}`" for it in below if it in used())
    kit = ", ".join(f"`{it}`" for it in below if it not in used())
    return "; ".join(filter(None, (own, kit and f"the toolchain's {kit}"))) or "std alone"


def with_uses(text):
    """The text of docs/ARCHITECTURE.md with a new third column in the row of each crate."""
    def row(found):
        return f"| `{found[1]}` | {found[2]} | {stands_on(found[1])} |" if found[1] in used() else found[0]

    return re.sub(r"^\| `(\w+)` \| ([^|]*) \| [^|]* \|$", row, text, flags=re.M)


def table_of_tests():
    """A row for each test, by what tests/run says of it."""
    sys.path.insert(0, str(TOP / "tests"))
    loader = importlib.machinery.SourceFileLoader("tests_run", str(TOP / "tests/run"))
    spec = importlib.util.spec_from_loader("tests_run", loader)
    run = importlib.util.module_from_spec(spec)
    loader.exec_module(run)
    rows = []
    for test in run.tests_there()[0].values():
        needs = ", ".join([*(f"`{it}`" for it in test.programs), *([test.needs] if test.needs else [])])
        rows.append(f"| `{test.name}` | {run.shown_by(test).replace('|', ' or ')} | {test.how} | {test.seconds} | {needs} |\n")
    return ROWS + "".join(rows)


def main():
    is_check = "--check" in words_of(__doc__, options=["--check"])

    def with_table(text, head, table):
        return re.sub(re.escape(head) + r"(?:\|.*\n)*", lambda _: table, text)

    trust = TRUST.read_text()
    for head, table in ((FILES, table_of_files()), (LINES, table_of_lines()), (BUGS, table_of_bugs())):
        trust = with_table(trust, head, table)
    first, second = definitions_of(FIRST), definitions_of(SECOND)
    belief = with_table(BELIEF.read_text(), DEFINITIONS, table_of_definitions(DEFINITIONS, first))
    belief = with_table(belief, FURTHER, table_of_definitions(FURTHER, second - first))
    tests = with_table(TESTS.read_text(), ROWS, table_of_tests())
    for path, new in ((TRUST, trust), (BELIEF, belief), (TESTS, tests), (ARCHITECTURE, with_uses(ARCHITECTURE.read_text()))):
        if is_check and new != path.read_text():
            sys.exit(f"{path.relative_to(TOP)}: the tables aren't as counted; run docs/counts")
        if not is_check:
            path.write_text(new)


if __name__ == "__main__":
    main()
