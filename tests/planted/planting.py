"""What `run` and `both` share: lists of what is planted, copies of the repository in which rt runs, where the tests of a crate are
(in crates of tests, or else in the crate itself), and which planted bugs were tried.

`service_threads`, `round_standing`, `round_course`, `round_walks`, `round_pulls` and `aggregator_service` have no tests in Rattle, and
`round_values` has them of its wishes alone: `tests/rounds`, `tests/settings` and `tests/log` try them as they run."""
import contextlib
import fcntl
import hashlib
import os
import pathlib
import re
import shutil
import subprocess

HERE = pathlib.Path(__file__).resolve().parent
TOP = str(HERE.parent.parent)
RT = os.environ.get("RT", "rt")

# The crates of tests, and the crates whose tests they have. `harvest_workers` has tests of its own beside them.
TESTS = {
    "text_tests": ("memento_time", "link_format", "text_fields", "url_texts", "timemap_reader", "timemap_writer"),
    "knowledge_tests": ("memento_sets", "harvest_lattice", "retention", "memento_index", "replica_exchange", "timegate"),
    "world_tests": ("replica_world",),
    "service_tests": ("published_index", "harvester", "outgoing_requests", "gate_server", "service_settings", "service_log"),
    "walk_tests": ("harvester", "harvest_workers"),
    "harvest_workers": ("harvest_workers",),
    "part_tests": ("delta_parts",),
    "snapshot_tests": ("snapshot_sections", "snapshots"),
    "wish_tests": ("wish_list", "original_sets", "original_list", "wishing_gates", "round_values"),
}

# Tests that take longer without a proof than `rt try` waits: they say nothing of a bug.
SLOW_TESTS = (
    ("knowledge_tests/src/exchange.rt", "texts_have_at_most_268_435_456_bytes"),
    ("text_tests/src/pages.rt", "limits_of_pages"),
)

# The planted bugs that were tried and refused by what their blocks name, a line each: COMMIT LIST CHECKSUM.
TRIED = HERE / "tried"

# The status of a test that needs what this machine lacks.
LACKS = 77

# How many seconds the tests of a crate may take without a proof: more than they do on a busy machine.
PATIENCE = "900"


# ---- texts ----


def read_text(path):
    with open(path, encoding="utf-8") as it:
        return it.read()


def write_texts(texts):
    for path, text in texts.items():
        with open(path, "w", encoding="utf-8") as it:
            it.write(text)


def replaced(text, old, new, what):
    """The text with another in place of this one. A ValueError if that doesn't stand there just once."""
    if text.count(old) != 1:
        raise ValueError(f"{what}: {old!r} stands there {text.count(old)} times")
    return text.replace(old, new)


# ---- lists ----


def lists_of(words, ending):
    """The lists that a command line names, or all with this ending."""
    named = [it for it in words if not it.startswith("--")]
    return named or sorted(it.stem for it in HERE.glob(f"*{ending}"))


def rows_of(list_name):
    """The lines of a list, each as its word and its text."""
    for line in read_text(HERE / list_name).split("\n"):
        if line and not line.startswith("#"):
            word, _, text = line.partition(": ")
            yield word.rstrip(":"), text


def do_texts_stand(name, planted, plant):
    """Whether each old text of what a list plants stands just once in its file, telling those that don't."""
    lost = 0
    for each in planted:
        try:
            plant(each)
        except (OSError, ValueError) as fault:
            lost += 1
            print(fault)
    print(f"{name}: {len(planted)} planted, of {lost} a text doesn't stand")
    return lost == 0


# ---- tests ----


def failed_test(said):
    """The line of a test that failed, in what `rt try --test` said; None if there is none. One that didn't end in time
    is called FAILED too, and says nothing of a bug."""
    for found in re.finditer(r"^test .* FAILED\n(.*)$", said, re.M):
        if "no-answer" not in found[1]:
            return found[0].split("\n")[0]
    return None


def crates_of_tests(crate):
    return [tests for tests, tested in TESTS.items() if crate in tested] or [crate]


def judge_by_tests(crate, run):
    """That a test of the crate fails as `run` runs rt with these words in a folder of tests, and the line that says so; None if
    all pass, or there is none."""
    for tests in crates_of_tests(crate):
        is_passed, said = run(tests, "try", "--test", "--seconds", PATIENCE)
        if not is_passed and "no #[test] function" not in said:
            failed = failed_test(said)
            return ("test", failed) if failed else ("nobody (its tests don't run)", said[-300:])
    return None


# ---- copies ----


def copy_crates(room):
    """Copies what rt reads. The work of checks stays behind: rt begins with what those of the same text kept on this machine,
    which takes no room on the disk."""
    for part in ("crates.txt", "HANDLES"):
        shutil.copy(f"{TOP}/{part}", room)
    shutil.copytree(f"{TOP}/crates", f"{room}/crates", ignore=shutil.ignore_patterns("out"))


def copy_repository(room):
    """Copies the crates, without the tests that would take too long there."""
    copy_crates(room)
    leave_out_slow_tests(f"{room}/crates")


def leave_out_slow_tests(crates):
    """Takes the slow tests out of a copy of the crates, each with its comment."""
    for file, test in SLOW_TESTS:
        path = pathlib.Path(crates) / file
        text = path.read_text(encoding="utf-8")
        found = re.search(rf"^(?:///[^\n]*\n)*#\[test\]\nfn {test}\(.*?^}}\n", text, re.M | re.S)
        if not found:
            raise ValueError(f"{file} has no test {test}")
        path.write_text(text.replace(found[0], ""), encoding="utf-8")


def run_rt(folder, *words):
    """Whether rt with these words passes in this folder, and what it says."""
    ran = subprocess.run([RT, *words], cwd=folder, stdin=subprocess.DEVNULL, text=True, errors="replace",
                         stdout=subprocess.PIPE, stderr=subprocess.STDOUT)
    return ran.returncode == 0, ran.stdout


# ---- what was tried ----


def checksums(list_name):
    """The blocks of a list by their titles, each as its checksum, which another text of the block would change."""
    text = "\n".join(line for line in read_text(HERE / list_name).split("\n") if not line.startswith("#"))
    blocks = [block.strip() for block in re.split(r"^(?=(?:bug|slip): )", text, flags=re.M)]
    titled = {re.match(r"\w+: (.*)", block)[1]: block for block in blocks if block.startswith(("bug: ", "slip: "))}
    return {title: hashlib.sha256(block.encode()).hexdigest()[:10] for title, block in titled.items()}


def tried():
    """Of each list and checksum the commit on which the block was tried last."""
    lines = read_text(TRIED).split("\n") if TRIED.exists() else []
    rows = (line.split() for line in lines if line and not line.startswith("#"))
    return {(name, checksum): commit for commit, name, checksum in rows}


def untried(list_name):
    """The titles of a list's blocks that weren't tried as they stand."""
    known = tried()
    return {title for title, checksum in checksums(list_name).items() if (list_name, checksum) not in known}


def keep_tried(list_name, sums):
    """Writes down that the blocks of a list with these checksums were tried on this commit, and drops those that no longer stand
    there, as one that was changed while it was tried."""
    found = subprocess.run(["git", "rev-parse", "--short=7", "HEAD"], cwd=HERE, capture_output=True, text=True)
    if found.returncode != 0:
        return
    with alone_in(HERE):
        rows, standing = tried(), checksums(list_name).values()
        rows.update({(list_name, checksum): found.stdout.strip() for checksum in sums})
        write_tried({key: commit for key, commit in rows.items() if key[0] != list_name or key[1] in standing})


@contextlib.contextmanager
def alone_in(folder):
    """Waits until no other run changes what was tried in this folder, so that no run loses a line of another's."""
    opened = os.open(folder, os.O_RDONLY)
    try:
        fcntl.flock(opened, fcntl.LOCK_EX)
        yield
    finally:
        os.close(opened)


def write_whole(path, text):
    """Puts a whole new file in the old one's place, so that no reader sees half of it."""
    new = path.with_name(f"{path.name}.new")
    new.write_text(text, encoding="utf-8")
    os.replace(new, path)


def write_tried(rows):
    head = "# Planted bugs that were tried, and refused by what their blocks name: the commit, the list, the checksum of the block (planting.py).\n"
    lines = sorted(f"{commit} {name} {checksum}\n" for (name, checksum), commit in rows.items())
    write_whole(TRIED, head + "".join(lines))
