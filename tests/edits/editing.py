"""What `run` and `docs/check` share: the edits of the crates, what the verdict on each stands on, and which were tried.

`crates/NAME/edits/X.edit` has a line `file:` with a file of the crate, and below it pairs of lines `old:` and `new:`, as `rt help`
says of `must-fail/`. The verdict on it is the prover's, and stands on

- the toolchain, and what HANDLES allows;
- the line in crates.txt and the sources (`src/`, `specs/`, `proofs/`) of its crate;
- what its crate reaches by name of the crates below: contracts, types, definitions, and no bodies (`reaching.py`);
- the edit's own text, and the files that it leaves.

Of these `tried` has a checksum for each edit. Of a source only the lines count that hold a token, so that prose can be rewritten.
Which they are, the toolchain says: `rattle fmt --tokens` lists a file's tokens as the check reads them. So no line of code is left
out that only looks like a comment, since it stands in a string or behind the end of a comment, or in a clause, where `//` may
begin a name; and a comment that a macro reads is a token."""
import bisect
import hashlib
import os
import pathlib
import re
import shutil
import subprocess
import sys
import tempfile
from dataclasses import dataclass

HERE = pathlib.Path(__file__).resolve().parent
sys.path.insert(0, str(HERE.parent / "planted"))
from planting import RT, TOP, alone_in, read_text, replaced, run_rt, write_whole
from reaching import OWN, Below, Item, items_of_code, items_of_logic, rows_as_tokens, words_of

# A line for each edit that was tried and refused: CRATE/X.edit CHECKSUM VERDICT.
TRIED = HERE / "tried"

PARTS = ("src", "specs", "proofs")

# The files of a crate's `edits/` that rt takes for edits. One that ends in .md is a note.
EDIT_NAME = re.compile(r"[A-Za-z0-9_-][A-Za-z0-9_.-]*\.edit")


# ---- crates ----


@dataclass(frozen=True)
class Crate:
    line: str    # of crates.txt, without its comment
    uses: list   # the crates that it names, the toolchain's too


def read_crates(top=TOP):
    """The crates of crates.txt, by their names, in its order."""
    crates = {}
    for line in read_text(f"{top}/crates.txt").split("\n"):
        words = " ".join(line.partition("#")[0].split())
        if words:
            head, _, uses = words.partition(":")
            crates[head.split()[0]] = Crate(words, uses.split())
    return crates


def with_those_below(crates, name):
    """A crate and all below it that are the repository's, sorted."""
    found, left = set(), [name]
    while left:
        each = left.pop()
        if each in crates and each not in found:
            found.add(each)
            left += crates[each].uses
    return sorted(found)


# ---- edits ----


@dataclass(frozen=True)
class Edit:
    crate: str
    name: str    # of its file
    text: str

    def __str__(self):
        return f"{self.crate}/{self.name}"


def edits_of(crate, top=TOP):
    files = sorted(it for it in pathlib.Path(top, "crates", crate, "edits").glob("*") if EDIT_NAME.fullmatch(it.name))
    return [Edit(crate, it.name, it.read_text(encoding="utf-8", errors="replace")) for it in files]


def misplaced(top=TOP):
    """The files that were meant for edits and aren't tried by `run`, each with what is wrong."""
    crates = read_crates(top)
    for path in sorted(it for folder in ("edits", "must-fail") for it in pathlib.Path(top).glob(f"crates/*/{folder}/**/*") if it.is_file()):
        crate, folder, *names = path.relative_to(pathlib.Path(top, "crates")).parts
        if folder == "must-fail":
            yield path, f"rt ci would prove {crate} once more, to try this: move it to crates/{crate}/edits/"
        elif crate not in crates:
            yield path, f"crates.txt has no crate {crate}"
        elif path.suffix != ".md" and (len(names) > 1 or not EDIT_NAME.fullmatch(names[0])):
            yield path, "an edit stands right in edits/, and its name is of letters, digits, _, - and . and ends in .edit"


def planted(edit, top=TOP):
    """The files that an edit changes, by their paths in its crate, each with the text that it leaves there, as rt plants it. A
    ValueError or an OSError says why it can't be planted."""
    path, old, right, wrong = "", "", {}, {}
    for line in edit.text.split("\n"):
        if line.startswith("file: "):
            path = line[len("file: "):].strip()
            if os.path.normpath(path) != path or path.split("/")[0] not in PARTS:
                raise ValueError(f"{path} is no file below src/, specs/ or proofs/")
        elif line.startswith("old: "):
            old = line[len("old: "):]
        elif line.startswith("new:"):
            if not path or not old:
                raise ValueError("a line 'new:' stands above any 'file:' or 'old:'")
            right.setdefault(path, read_text(f"{top}/crates/{edit.crate}/{path}"))
            wrong[path] = replaced(wrong.get(path, right[path]), old, line[len("new:"):].removeprefix(" "), path)
            old = ""
    if wrong == right:
        raise ValueError("it changes nothing")
    return wrong


# ---- checksums ----


def tokens_of(paths):
    """Of each of these files its bytes, and the rows that list its tokens: None if rattle can't tell."""
    if not paths:
        return []
    rattle = pathlib.Path(shutil.which(RT)).resolve().with_name("rattle")
    ran = subprocess.run([rattle, "fmt", "--tokens", *paths], stdin=subprocess.DEVNULL, capture_output=True)
    rows = re.split(rb"^file \d+\n", ran.stdout, flags=re.M)[1:]
    if ran.returncode == 0 and len(rows) == len(paths):
        return [(pathlib.Path(path).read_bytes(), listed) for path, listed in zip(paths, rows)]
    half = len(paths) // 2
    return tokens_of(paths[:half]) + tokens_of(paths[half:]) if half else [(pathlib.Path(paths[0]).read_bytes(), None)]


def counted(paths):
    """Of each of these files the lines that count: those that hold a token, or all if rattle can't tell."""
    return [text if listed is None else lines_with_tokens(text, listed) for text, listed in tokens_of(paths)]


def lines_with_tokens(text, listed):
    """The lines of a text that hold one of the tokens listed, of which each row has its line, its first byte, and the one behind."""
    starts = [0, *(it.end() for it in re.finditer(b"\n", text))]
    held = set()
    for row in re.finditer(rb"^\d+ (\d+) (\d+) ", listed, re.M):
        held.update(range(bisect.bisect_right(starts, int(row[1])) - 1, bisect.bisect_left(starts, int(row[2]))))
    return b"\n".join(line for at, line in enumerate(text.split(b"\n")) if at in held)


def checksum(*parts):
    return hashlib.sha256(ascii(parts).encode()).hexdigest()[:16]


class Sources:
    """The sources of some crates: of each a checksum of all that counts, its words, and its items for the crates above."""

    def __init__(self, top, names):
        files = [(name, it) for name in names for part in PARTS for it in sorted(pathlib.Path(top, "crates", name, part).rglob("*")) if it.is_file()]
        read = [str(path) for _, path in files if path.suffix in (".rt", ".antt")]
        tokens = dict(zip(read, tokens_of(read)))
        told, self.words, self.items = ({name: kind() for name in names} for kind in (list, set, list))
        for name, path in files:
            text, listed = tokens.get(str(path)) or (path.read_bytes(), None)
            told[name].append((os.path.relpath(path, top), text if listed is None else lines_with_tokens(text, listed)))
            if listed is None:
                self.items[name].append(Item("", "", (text.decode(errors="replace"),)))
                continue
            found = rows_as_tokens(text, listed)
            self.words[name] |= words_of([token.text for token in found])
            if path.name not in OWN:
                self.items[name] += items_of_code(found) if path.suffix == ".rt" else items_of_logic(found)
        self.sums = {name: checksum(files) for name, files in told.items()}


def counted_of_planted(edits, top):
    """Of each of these edits the files that it leaves, as far as they count; None of one that can't be planted."""
    found, files = {}, []
    with tempfile.TemporaryDirectory(prefix="planted-") as room:
        for edit in edits:
            try:
                texts = planted(edit, top)
            except (OSError, ValueError):
                found[edit] = None
                continue
            for path, text in texts.items():
                file = f"{room}/{len(files)}{os.path.splitext(path)[1]}"
                pathlib.Path(file).write_text(text, encoding="utf-8")
                files.append((edit, path, file))
        for (edit, path, _), text in zip(files, counted([file for _, _, file in files])):
            found.setdefault(edit, []).append((path, text))
    return found


def checksums(edits, top=TOP):
    """Of each of these edits the checksum of all that its verdict stands on in the repository at `top`; None of one that can't be
    planted."""
    crates = read_crates(top)
    below = {name: with_those_below(crates, name) for name in {it.crate for it in edits}}
    sources, left = Sources(top, sorted(set().union(*below.values()))), counted_of_planted(edits, top)
    shared = toolchain(), read_text(f"{top}/HANDLES").split()
    reach = {name: Reach(sources, name, its) for name, its in below.items()}

    def of(edit):
        stands_on = crates[edit.crate].line, sources.sums[edit.crate], reach[edit.crate].sum_of(edit)
        return checksum(shared, stands_on, str(edit), edit.text, left[edit]) if left[edit] else None

    return {edit: of(edit) for edit in edits}


class Reach:
    """What a crate reaches of those below it."""

    def __init__(self, sources, crate, below):
        self.below = Below({name: sources.items[name] for name in below if name != crate})
        self.words = sources.words[crate]
        self.known, shown = self.below.reached(self.words)
        self.sum = checksum(shown)

    def sum_of(self, edit):
        """A checksum of what is reached. An edit may name more than its crate does."""
        more = set(re.findall(r"[^\W\d]\w*", edit.text)) - self.known
        return checksum(self.below.reached(self.words | more)[1]) if more & self.below.waiting.keys() else self.sum


def toolchain():
    is_told, said = run_rt(TOP, "version")
    if not is_told:
        sys.exit(f"{RT} version: {said}")
    return said.strip()


# ---- what was tried ----


def tried():
    """Of each edit, as CRATE/X.edit, the checksum as it was tried last and the verdict, if it was refused then."""
    lines = read_text(TRIED).split("\n") if TRIED.exists() else []
    rows = (line.split() for line in lines if line and not line.startswith("#"))
    return {edit: (sum, verdict) for edit, sum, verdict in rows}


def keep_tried(refused, others):
    """Writes down which edits were refused, each with its checksum and its verdict, and strikes out the others that were tried, and
    those that are gone."""
    head = "# Edits that were tried and refused: a checksum of all that the verdict stands on, and the verdict (editing.py).\n"
    with alone_in(HERE):
        rows = {**tried(), **refused}
        standing = {str(edit) for crate in read_crates() for edit in edits_of(crate)}
        lines = sorted(f"{edit} {sum} {verdict}\n" for edit, (sum, verdict) in rows.items() if edit in standing and edit not in others)
        write_whole(TRIED, head + "".join(lines))
