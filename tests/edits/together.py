"""Tries edits together: several in one check, each in the body of another function.

A function's proof stands on its own body and on the contracts of what it calls. So a body that is wrong changes no other
function's verdict, unless that function calls it, and then the prover says so: 'no proof: it calls ..'. One check of a crate with
many edits therefore says of each whether its own function is proved with it, in about the time that one edit takes alone.

What this can't tell is left to `rt ci`, which tries an edit alone over the whole crate (`run`): an edit that stands in no function,
that its own function doesn't refuse, that only a limit of the prover or a name in a proof file refuses, and one that the prover can't
read.
"""
import concurrent.futures
import os
import pathlib
import re
import shutil
import subprocess
import tempfile
from dataclasses import dataclass

from editing import PARTS, RT, read_crates, with_those_below
from planting import read_text, replaced

# The head of a function as rustfmt writes it, in a module or in an impl.
FUNCTION = re.compile(r"( {4})?(?:pub(?:\([a-z]+\))? )?(?:const )?fn (\w+)")
CLAUSE = re.compile(r" +(?:requires|ensures)\b")
IMPL = re.compile(r"impl(?:<.*?>)? (?:(?P<of>.*?) for )?(?P<type>.*?)(?: \{| where|$)")

# What a check says of a function, and what it says at a place in a file: as rt reads it (`must_fail`), where a proof file that
# names what an edit took away says little of the contract.
TOLD = re.compile(r"^fn (\S+): (.*)$", re.M)
PLACE = re.compile(r"^(?:note: )?(?:\./)?(\S+?):(\d+):\d+: (.*)$", re.M)
OF_NAMES = re.compile(r"has no field|is not in scope|has no `|was not admitted")
IN_CALLED = "no proof: it calls "
# What one check may take of the memory, in bytes.
MEMORY = 5 << 30


@dataclass(frozen=True)
class Function:
    """A function that an edit changes."""
    path: str     # as a check names it, below its crate; of a method the type and its name alone, since a check names the module
                  # in which the type stands, which may be another than that of the method
    file: str     # where it stands
    lines: range  # from its head to its end

    def has(self, said):
        """Whether a check names this function, or a closure in it."""
        module, _, name = self.path.rpartition("::")
        closures = f"{module}::fn::{name}::".removeprefix("::"), f"::fn::{self.path}::"
        return f"::{said}".endswith(f"::{self.path}") or said.startswith(closures[0]) or closures[1] in f"::{said}"

    def is_place(self, file, line):
        """Whether a line of its code or of its proof stands here."""
        return file == self.file and int(line) in self.lines or file.startswith("proofs/") and f"/{self.path.replace('::', '/')}/" in file


def last_words(path):
    """The last names of paths and of their arguments: `fmt::Display` is Display, `From<io::Fault>` is FromFault."""
    return "".join(part.rpartition("::")[2] for part in re.findall(r"[\w:]+", re.sub(r"'\w+", "", path)))


def row_of_body(lines, head, end, indent):
    """The row whose brace opens a function's body: behind clauses it stands by itself, and else it ends the head."""
    has_clauses = False
    for row in range(head, end):
        has_clauses = has_clauses or bool(CLAUSE.match(lines[row]))
        if lines[row] == f"{indent}{{" or lines[row].endswith("{") and not has_clauses:
            return row
    return end


def function_at(text, at, file):
    """The function whose body holds this place of a file, which rustfmt has formatted; None if no body does."""
    lines, row = text.split("\n"), text.count("\n", 0, at)
    head = next((it for it in range(row, -1, -1) if FUNCTION.match(lines[it])), None)
    if head is None:
        return None
    indent, name = FUNCTION.match(lines[head]).groups(default="")
    end = next((it for it in range(head, len(lines)) if lines[it] == f"{indent}}}"), head)
    if not row_of_body(lines, head, end, indent) < row < end:
        return None
    path = [] if file in ("src/lib.rt", "src/main.rt") else file.removeprefix("src/").removesuffix(".rt").split("/")
    if indent:
        impl = IMPL.match(next((line for line in reversed(lines[:head]) if line.startswith("impl")), ""))
        if impl is None:
            return None
        path = [re.match(r"[\w:]+", impl["type"])[0].rpartition("::")[2] + last_words(impl["of"] or "")]
    return Function("::".join([*path, name]), file, range(head + 1, end + 2))


def functions_of(edit, top):
    """The functions in whose bodies an edit stands; none if a part of it stands elsewhere."""
    file, old, found = "", "", []
    for line in edit.text.split("\n"):
        if line.startswith("file: "):
            file = line.removeprefix("file: ").strip()
        elif line.startswith("old: "):
            old = line.removeprefix("old: ")
        elif line.startswith("new:"):
            text = read_text(f"{top}/crates/{edit.crate}/{file}") if file.startswith("src/") else ""
            begins = text.find(old) + len(old) - len(old.lstrip())
            found.append(function_at(text, begins, file) if text.count(old) == 1 else None)
    return [] if None in found else list(dict.fromkeys(found))


def batch_of(waiting):
    """As many of these edits as stand in different functions: all that one check can tell apart."""
    batch, taken = {}, set()
    for edit, functions in waiting.items():
        paths = {it.path for it in functions}
        if not paths & taken:
            batch[edit] = functions
            taken |= paths
    return batch


def planted_together(edits, top):
    """The files that these edits of a crate leave, if all are planted, by their paths in the crate."""
    texts = {}
    for edit in edits:
        file = old = ""
        for line in edit.text.split("\n"):
            if line.startswith("file: "):
                file = line.removeprefix("file: ").strip()
            elif line.startswith("old: "):
                old = line.removeprefix("old: ")
            elif line.startswith("new:"):
                text = texts.get(file) or read_text(f"{top}/crates/{edit.crate}/{file}")
                texts[file] = replaced(text, old, line.removeprefix("new:").removeprefix(" "), file)
    return texts


def words_of_check(crate, top):
    """The words of a check of a crate over the libraries that `rt ci` left in the folders `out/` below `top`: as rt itself checks one."""
    rattle = pathlib.Path(shutil.which(RT)).resolve().with_name("rattle")
    kit, crates = rattle.parent.parent, read_crates(top)
    own = [it for it in crates[crate].uses if it in crates]
    others = ["core" if "no_std" in crates[crate].line.partition(":")[0].split() else "std", *(it for it in crates[crate].uses if it not in crates)]
    root = "main" if os.path.isfile(f"{top}/crates/{crate}/src/main.rt") else "lib"
    words = [rattle, "check", "--crate-name", crate, f"src/{root}.rt"]
    for name in others:
        words += ["--extern", f"{name}={kit}/rlibs/{name}.rlib"]
    for name in own:
        words += ["--extern", f"{name}={top}/crates/{name}/out/rlib/{name}.rlib"]
    for place in (f"{kit}/rlibs", *(f"{top}/crates/{name}/out/rlib" for name in with_those_below(crates, crate) if name != crate)):
        words += ["-L", f"dependency={place}"]
    return [*words, "--antt-project", f"{kit}/rattle/logic/antt-project.json", "--logic-built", f"{kit}/logic_built", "--jobs", "1",
            "--links", f"{crate}="]


def check(crate, top, texts, paths):
    """What a check says of these functions of a crate in which these texts stand in place of its own."""
    with tempfile.TemporaryDirectory(prefix="rt-edit-together-") as room:
        for part in PARTS:
            if os.path.isdir(f"{top}/crates/{crate}/{part}"):
                shutil.copytree(f"{top}/crates/{crate}/{part}", f"{room}/{part}")
        for path, text in texts.items():
            pathlib.Path(room, path).write_text(text, encoding="utf-8")
        words = [*words_of_check(crate, top), *(it for path in paths for it in ("--only", path))]
        ran = subprocess.run(words, cwd=room, stdin=subprocess.DEVNULL, stdout=subprocess.PIPE, stderr=subprocess.STDOUT, text=True,
                             errors="replace")
    return ran.stdout


def judged(crate, batch, top):
    """Of each of these edits whether a check with all of them refuses it; None where that can't be told, since a function of the
    edit calls another that is refused."""
    paths = [it.path for functions in batch.values() for it in functions]
    said = check(crate, top, planted_together(batch, top), paths)
    if re.search(r"^only=", said, re.M):
        return {edit: is_refused(functions, said, crate) for edit, functions in batch.items()}
    # The prover can't read one of the edits, or doesn't know a function by this path.
    if len(batch) == 1:
        return dict.fromkeys(batch, False)
    edits = list(batch.items())
    return {**judged(crate, dict(edits[::2]), top), **judged(crate, dict(edits[1::2]), top)}


def is_refused(functions, said, crate):
    """Whether by these words of a check one of an edit's functions isn't proved; None if only because another isn't that it calls."""
    told = [what for path, what in TOLD.findall(said) if any(it.has(path.removeprefix(f"{crate}::")) for it in functions)]
    places = [what for file, line, what in PLACE.findall(said) if any(it.is_place(file, line) for it in functions)]
    if any(what.startswith(("no proof", "not proved")) and not what.startswith(IN_CALLED) for what in told):
        return any((what.startswith("error") or "it is not proved" in what) and not OF_NAMES.search(what) for what in places)
    return None if any(what.startswith(IN_CALLED) for what in told) else False


def refused_of(crate, edits, top):
    """Those of these edits of a crate that a check with several at a time refuses."""
    waiting, refused = {edit: found for edit in edits if (found := functions_of(edit, top))}, []
    while waiting:
        batch = batch_of(waiting)
        verdicts = judged(crate, batch, top)
        refused += [edit for edit, is_refused in verdicts.items() if is_refused]
        again = {edit for edit, is_refused in verdicts.items() if is_refused is None}
        waiting = {edit: found for edit, found in waiting.items() if edit not in batch or edit in again and len(again) < len(batch)}
    return refused


def refused_together(edits, top, say):
    """Those of these edits that checks of several at a time refuse, over the libraries that `rt ci` left below `top`; of each crate
    this says so."""
    free = int(re.search(r"MemAvailable: +(\d+)", pathlib.Path("/proc/meminfo").read_text())[1]) << 10
    crates = {crate: [edit for edit in edits if edit.crate == crate] for crate in dict.fromkeys(edit.crate for edit in edits)}
    with concurrent.futures.ThreadPoolExecutor(max(1, min(len(os.sched_getaffinity(0)), free // MEMORY))) as pool:
        sizes = {crate: sum(it.stat().st_size for it in pathlib.Path(top, "crates", crate, "src").rglob("*.rt")) for crate in crates}
        asked = {pool.submit(refused_of, crate, crates[crate], top): crate for crate in sorted(crates, key=sizes.get, reverse=True)}
        found = []
        for each in concurrent.futures.as_completed(asked):
            found += each.result()
            say(f"{asked[each]}: {len(each.result())} of {len(crates[asked[each]])} edits are refused by their own functions")
    return found
