#!/usr/bin/env python3
"""What a service knows is kept in a file over a restart, by the keys `snapshot` and `snapshot_every`: what is written, and when;
what a start takes in before its archives are heard; files that are cut, another program's, a folder, or of another service; disks
that are full and folders that can't be written to; two replicas of which one comes back from its file. Where there is a C
compiler, the program is killed before each call that writes the file and gives it its place, and in each write; and each of these
calls fails once.

    ./run --unproved && tests/snapshots.py
"""
import contextlib
import os
import pathlib
import shutil
import stat
import sys
import tempfile
import threading
import time

from playing import (BASE, ENVIRONMENT, ORIGINAL, PATIENCE, TOP, Played, Service, comes_true, compiled, entry, free_ports, holds, link,
                     reply, same)

sys.path.append(str(TOP / "tests/snapshots"))
from places import OWN_DISK, OWN_ROOT, Kept, can_mount

OTHER, THIRD = "http://b.example/", "http://c.example/"
ORIGINALS = [ORIGINAL, OTHER]
FIRST, SECOND = "http://m.example/1", "http://m.example/2"
SECTION = 16_777_216    # the most bytes of the entries of a section with several
FOREVER = 86_400
TAKEN_IN, UNWRITTEN = "log: snapshot: taken in\n", "log: snapshot: not written\n"


class Archive:
    """An archive with the pages that stand here. While it is held it says nothing. It is held once it was asked so often, if that is told."""

    def __init__(self, stack, pages=None, name="arc.example", most=None):
        self.pages, self.is_free, self.left, self.lock = dict(pages or {}), threading.Event(), most, threading.Lock()
        self.is_free.set()
        self.named = [(name, Played(stack, self.answer).address)]

    def answer(self, target):
        with self.lock:
            if self.left == 0:
                self.hold()
            if self.left is not None:
                self.left -= 1
        self.is_free.wait()
        text = self.pages.get(target.removeprefix(BASE))
        return reply(status=404) if text is None else reply(text)

    def hold(self):
        self.is_free.clear()

    def let_go(self):
        with self.lock:
            self.left = None
            self.is_free.set()


def serve(stack, archive, keys, **more):
    """A service over the archive, for which it waits long."""
    named = {"archives": archive.named, "originals": ORIGINALS, "patience": FOREVER, **more}
    return Service(stack, keys=keys, logged=True, **named)


def answers(service):
    """What a gate tells: all that is known, and of each original the TimeMap and where the TimeGate leads."""
    return [service.get("/state"), *(service.get(route + original) for route in ("/timemap/link/", "/timegate/") for original in ORIGINALS)]


def snapshot_of(*states):
    """The text of a snapshot of these states."""
    sections = "".join(f"section {len(state.encode())}\n{state}" for state in states)
    return f"memento-snapshot 1\n{sections}sections {len(states)}\n"


def state_of(*entries):
    """The text of a state with these entries."""
    return f"memento-state 2\nentries {len(entries)}\n{''.join(entries)}end\n"


# What was known long ago of one original: one copy, by the archive that is played here.
OLDER = snapshot_of(state_of(entry(ORIGINAL, FIRST, "arc.example")))


def is_written(service, kept):
    """Whether the snapshot has what the service knows."""
    return kept.path.is_file() and not kept.new.exists() and kept.path.read_text() == snapshot_of(service.get("/state")[2])


def is_kept(what, service, kept):
    """The snapshot comes to have what the service knows."""
    holds(what, comes_true(lambda: is_written(service, kept)))


def logged(service):
    """The line of the log about the snapshot that comes next."""
    return next(reversed(service.logs_until("snapshot: ")), "")


def pages():
    two = [link("http://m.example/3"), link("http://m.example/4", "Sun, 02 Jan 2000 00:00:00 GMT")]
    return {ORIGINAL: link(FIRST), OTHER: ",".join(two)}


def try_restart():
    """What is known is there at once behind a kill, while the archive says nothing."""
    with contextlib.ExitStack() as stack:
        archive, kept = Archive(stack, pages()), Kept(stack)
        service = serve(stack, archive, kept.keys(ready=True))
        service.rounds()
        is_kept("the snapshot is the text of the state", service, kept)
        before = answers(service)
        same("and stands alone", kept.files(), ["known"])
        service.kill()
        archive.hold()
        service.start()
        begun = time.monotonic()
        same("a start tells what was known, though no round is made", answers(service), before)
        print(f"        within {time.monotonic() - begun:.2f} s of the line that its gate listens")
        same("and says so", logged(service), TAKEN_IN)
        service.kill()
        kept.path.unlink()
        service.start()
        same("without the file it isn't ready before its first round", [one[0] for one in answers(service)], [503] * 5)
        archive.let_go()
        service.rounds()
        same("and then knows the same copies", answers(service)[1:], before[1:])
        service.kill()
        archive.hold()
        kept.path.write_text(snapshot_of(state_of()))
        service.start()
        same("a snapshot of nothing is taken in", logged(service), TAKEN_IN)
        same("and the gates aren't ready by it", service.get("/timegate/" + ORIGINAL)[0], 503)


def try_due():
    """When one is written: as it is due, between rounds too, and behind the last round."""
    with contextlib.ExitStack() as stack:
        archive, kept = Archive(stack, pages()), Kept(stack)
        service = serve(stack, archive, kept.keys(), rounds=2, pause=FOREVER)
        service.rounds()
        is_kept("a snapshot that comes due between two rounds is written then", service, kept)
    with contextlib.ExitStack() as stack:
        archive, kept = Archive(stack, pages(), most=4), Kept(stack)    # which are those of two rounds
        service = serve(stack, archive, kept.keys(every=FOREVER), rounds=3)
        service.rounds(2)
        same("before it is due none is written", kept.files(), [])
        archive.let_go()
        service.rounds()
        is_kept("behind the last round one is, since nothing comes any more", service, kept)
    with contextlib.ExitStack() as stack:
        archive = Archive(stack, pages())
        kept, held = Kept(stack), Archive(stack, name="held.example")
        held.hold()
        archive.named += held.named
        service = serve(stack, archive, kept.keys(publish=1), workers=8, rounds=1)
        is_kept("one that comes due while a round goes on is written then", service, kept)
        same("of what is shown", service.shows(), FIRST)


def try_unchanged():
    """None is written where nothing changed."""
    def watch(service, kept, mark, seconds=2.5):
        """Whether the file stays the same while rounds are made."""
        end = time.monotonic() + seconds
        while time.monotonic() < end:
            service.rounds(10)
            if mark != (kept.mark() if kept.path.exists() else None):
                return False
        return True

    with contextlib.ExitStack() as stack:
        archive, kept = Archive(stack, pages()), Kept(stack)
        service = serve(stack, archive, kept.keys(again=FOREVER, again_none=FOREVER), rounds=1_000_000)
        # What it writes has to be read, or it waits.
        holds("the first round is kept", comes_true(lambda: (service.rounds(), is_written(service, kept))[1]))
        mark = kept.mark()
        holds("rounds that bring nothing write nothing", watch(service, kept, mark))
        service.kill()
        service.start()
        holds("nor do those behind a start", watch(service, kept, mark))
        service.kill()
    with contextlib.ExitStack() as stack:
        archive, kept = Archive(stack), Kept(stack)
        holds("where nothing is known none is written", watch(serve(stack, archive, kept.keys(), originals=[], rounds=1_000_000), kept, None))
    with contextlib.ExitStack() as stack:
        archive, kept = Archive(stack), Kept(stack, OLDER)
        service = serve(stack, archive, {"snapshot_every": 1}, cwd=kept.folder)
        service.rounds()
        same("without the key nothing is read, and nothing written", [service.shows(), kept.files(), kept.path.read_text()],
             [None, ["known"], OLDER])
    with contextlib.ExitStack() as stack:
        archive, kept = Archive(stack, pages()), Kept(stack)
        service = serve(stack, archive, {"snapshot": kept.path.name, "snapshot_every": 1}, cwd=kept.folder)
        service.rounds()
        is_kept("a path that doesn't begin with / begins at the folder that the program runs in", service, kept)


def try_bad(name, write, fault="no snapshot"):
    """What can't be taken in is set aside, beside what was before, and doesn't keep the service from its work."""
    with contextlib.ExitStack() as stack:
        archive, kept = Archive(stack, pages()), Kept(stack)
        archive.hold()
        write(kept.path)
        wanted = kept.path.read_bytes() if kept.path.is_file() else None
        kept.bad.write_text("an older one")
        second = kept.folder / "known.bad.2"
        service = serve(stack, archive, kept.keys())
        same(f"{name}: told as it is", logged(service), f"log: snapshot: {fault}, and set aside\n")
        same("set aside", [kept.files(), None if wanted is None else second.read_bytes()], [["known.bad", "known.bad.2"], wanted])
        same("what was set aside before stays", kept.bad.read_text(), "an older one")
        same("and nothing of it shown", [service.shows(original) for original in ORIGINALS], [None, None])
        archive.let_go()
        service.rounds()
        is_kept("the next one takes its place", service, kept)


def good_snapshot():
    """The bytes of a snapshot of two originals."""
    with contextlib.ExitStack() as stack:
        archive, kept = Archive(stack, pages()), Kept(stack)
        service = serve(stack, archive, kept.keys())
        service.rounds()
        is_kept("a snapshot to spoil", service, kept)
        return kept.path.read_bytes()


def try_files():
    good = good_snapshot()
    state = good.split(b"\n", 2)[2].rpartition(b"sections ")[0]
    for length in (0, 10, len(good) // 2, len(good) - len("sections 1\n"), len(good) - 1):
        try_bad(f"a snapshot cut to {length} of {len(good)} bytes", lambda path, length=length: path.write_bytes(good[:length]))
    try_bad("one with a byte behind it", lambda path: path.write_bytes(good + b"\n"))
    try_bad("one of another format", lambda path: path.write_bytes(good.replace(b"memento-snapshot 1", b"memento-snapshot 2")))
    try_bad("the text of a state", lambda path: path.write_bytes(state))
    try_bad("a file of another program", lambda path: shutil.copy(shutil.which("sh"), path))
    try_bad("a folder", lambda path: path.mkdir(), fault="not read")
    try_bad("a pipe to which nobody writes", os.mkfifo, fault="not read")
    with contextlib.ExitStack() as stack:
        archive, kept = Archive(stack), Kept(stack, snapshot_of(state_of(entry(ORIGINAL, FIRST)), state_of(entry(OTHER, SECOND))))
        archive.hold()
        service = serve(stack, archive, kept.keys())
        same("a snapshot of two sections, of another service, is taken in", logged(service), TAKEN_IN)
        same("and both are shown", [service.shows(original) for original in ORIGINALS], [FIRST, SECOND])
        same("as what they are: of the archive that they name", service.entries(), [("p.example", original, "5") for original in ORIGINALS])


def try_not_aside():
    """What can't be set aside isn't written over, and is set aside once that is possible."""
    with contextlib.ExitStack() as stack:
        archive, kept = Archive(stack, pages()), Kept(stack, "precious")
        older = [kept.folder / f"known.bad{end}" for end in ("", ".2", ".3")]
        for file in older:
            file.write_text("an older one")
        service = serve(stack, archive, kept.keys(), rounds=2, pause=FOREVER)
        same("what can't be set aside is told as it is", logged(service), "log: snapshot: no snapshot, and not set aside\n")
        service.rounds()
        same("and stays: none is written", logged(service), UNWRITTEN)
        same("nothing of it is lost, nor of those before", [kept.path.read_text(), *(file.read_text() for file in older)],
             ["precious", *["an older one"] * 3])
        older[2].unlink()
        is_kept("one is written once it can be set aside", service, kept)
        same("as it was, under the third name", older[2].read_text(), "precious")
    with contextlib.ExitStack() as stack:
        archive, kept = Archive(stack, pages()), Kept(stack)
        try:
            os.mknod(kept.path, 0o600 | stat.S_IFCHR, os.makedev(1, 3))
        except PermissionError:
            return "; without a device of its own"
        service = serve(stack, archive, kept.keys(), rounds=1)
        same("a device is told as it is", logged(service), "log: snapshot: not read, and not set aside\n")
        service.rounds()
        same("and no snapshot takes its place", logged(service), UNWRITTEN)
        same("so that it stays", [kept.files(), kept.path.is_char_device()], [["known"], True])
    return ""


def try_links():
    """A symlink at the snapshot's place stays, and what it names is the snapshot; one at `PATH.new` isn't followed."""
    for name, is_there in (("a link to a file", True), ("a link to what isn't there yet", False)):
        with contextlib.ExitStack() as stack:
            archive, kept, other = Archive(stack, {ORIGINAL: link(SECOND)}), Kept(stack), Kept(stack, OLDER if is_there else None)
            kept.path.symlink_to(other.path if is_there else os.path.relpath(other.path, kept.folder))
            service = serve(stack, archive, kept.keys())
            service.rounds()
            is_kept(f"{name}: the snapshot is written where it leads", service, other)
            same("and the link stays", [kept.files(), os.path.realpath(kept.path)], [["known"], str(other.path.resolve())])
            service.kill()
            archive.hold()    # so that none is written before it is looked at
            other.path.write_text("spoiled")
            service.start()
            same("what can't be read is told", logged(service), "log: snapshot: no snapshot, and set aside\n")
            same("and set aside where it is", [kept.files(), other.files(), other.bad.read_text()], [["known"], ["known.bad"], "spoiled"])
    with contextlib.ExitStack() as stack:
        archive, kept = Archive(stack, {ORIGINAL: link(SECOND)}), Kept(stack, OLDER)
        precious = kept.folder / "precious"
        precious.write_text("precious")
        kept.new.symlink_to(precious)
        service = serve(stack, archive, kept.keys(), umask=0)
        service.rounds()
        is_kept("a link where the new one is written is removed", service, kept)
        same("and what it names stays", precious.read_text(), "precious")
        same("a snapshot is its owner's alone, whatever the mask", oct(kept.path.stat().st_mode & 0o777), "0o600")


def try_unwritten(name, path):
    """None can be written: that is told each time, and the rounds go on."""
    with contextlib.ExitStack() as stack:
        archive = Archive(stack, pages())
        service = serve(stack, archive, {"snapshot": str(path), "snapshot_every": 1}, rounds=2, pause=FOREVER)
        service.rounds()
        same(f"{name}: it is told, and tried again", [logged(service), logged(service)], [UNWRITTEN] * 2)
        same("and the copies are shown", service.shows(), FIRST)


def try_full_once():
    """A snapshot that can't be written for once: the older one stays, and what was known from the first is written later."""
    with contextlib.ExitStack() as stack:
        archive, kept = Archive(stack, {ORIGINAL: link(SECOND)}), Kept(stack, OLDER)
        kept.new.mkdir()
        service = serve(stack, archive, kept.keys(), rounds=2, pause=FOREVER)
        same("an older one is taken in", logged(service), TAKEN_IN)
        same("where it can't be written none is", logged(service), UNWRITTEN)
        kept.new.rmdir()
        is_kept("it is later, with what was known from the first", service, kept)
        same("that is, with the newer copy", service.shows(), SECOND)


def try_disks():
    with contextlib.ExitStack() as stack:
        try_unwritten("a folder that isn't there", Kept(stack).folder / "no/known")
    try_unwritten("a folder that nobody may write to", "/sys/known")
    try_full_once()
    if not can_mount():
        return "; without a disk of its own"
    with contextlib.ExitStack() as stack:
        kept, archive = Kept(stack), Archive(stack, {ORIGINAL: ",".join(link(f"http://m.example/{n}") for n in range(2_000))})
        service = serve(stack, archive, kept.keys(), rounds=2, pause=FOREVER, words=[*OWN_DISK, str(kept.folder), "16k"])
        service.rounds()
        same("on a disk of 16 KiB a snapshot of more isn't written", logged(service), UNWRITTEN)
        same("and nothing of it stays there", os.listdir(f"/proc/{service.process.pid}/root{kept.folder}"), [])
    return ""


def try_sections():
    """A state of several sections, over a restart."""
    count = 60_000
    with contextlib.ExitStack() as stack:
        originals = [f"http://{number}.example/" for number in range(5)]
        long = {original: ",".join(link(f"http://m.example/{'x' * 50}/{n}") for n in range(count)) for original in originals}
        archive, kept = Archive(stack, long), Kept(stack)
        service = serve(stack, archive, kept.keys(), originals=originals)
        service.rounds()
        state = service.get("/state")[2]
        holds("a state of several sections is written", comes_true(lambda: kept.path.exists()))
        sections = [line.decode() for line in kept.path.read_bytes().splitlines() if line.startswith(b"section")]
        holds(f"{len(state):,} bytes: {', '.join(sections)}", len(sections) > 2 and sections[-1] == f"sections {len(sections) - 1}")
        holds("none is longer than it has to be", all(int(line.split()[1]) < SECTION + 100 for line in sections[:-1]))
        service.kill()
        archive.hold()
        service.start()
        holds("and all of it is known behind a start", service.get("/state")[2] == state)


def try_replicas():
    """Two replicas of which one comes back from its file, and the other without one, give the same bytes in the end."""
    with contextlib.ExitStack() as stack:
        one = Archive(stack, {ORIGINAL: link(FIRST)})
        two = Archive(stack, {ORIGINAL: link(SECOND, "Mon, 03 Jan 2000 00:00:00 GMT")}, "two.example")
        ports, kept = free_ports(2), Kept(stack)
        peers = [f"http://127.0.0.1:{port}" for port in ports[::-1]]
        keys, shared = {"again": FOREVER, "again_none": FOREVER, "pull": 1, "publish": 1}, {"rounds": 1_000_000, "pause": 1, "patience": 5}
        first = serve(stack, one, kept.keys(**keys), ports=ports[:1], peers=peers[:1], **shared)
        second = serve(stack, two, keys, ports=ports[1:], peers=peers[1:], **shared)
        holds("both know both archives", comes_true(lambda: len(first.entries()) == len(second.entries()) == 4))
        before = answers(first)
        same("and give the same bytes", answers(second), before)
        is_kept("one of them keeps all of it", first, kept)
        first.kill()
        second.kill()
        one.hold()
        first.start()
        same("that one tells all of it when both were killed", answers(first), before)
        second.start()
        holds("and the other one has it back", comes_true(lambda: answers(second) == before))
        first.kill()
        one.pages[THIRD] = link("http://m.example/5")
        one.let_go()
        first = serve(stack, one, kept.keys(**keys), ports=ports[:1], originals=[*ORIGINALS, THIRD], peers=peers[:1], **shared)
        holds("what it learns behind another start reaches the one that went on", comes_true(lambda: second.shows(THIRD) == "http://m.example/5"))
        holds("and both give the same bytes", comes_true(lambda: answers(first) == answers(second)))


class Halts:
    """Runs of a service under halt.c, each begun with the older snapshot, while the archive has a newer copy."""

    def __init__(self, stack, library):
        self.stack, self.library = stack, library
        self.archive, self.kept = Archive(stack, {ORIGINAL: link(SECOND)}), Kept(stack, OLDER)
        self.made = pathlib.Path(stack.enter_context(tempfile.TemporaryDirectory())) / "made"

    def serve(self, **words):
        self.kept.path.write_text(OLDER)
        self.kept.new.unlink(missing_ok=True)
        self.made.unlink(missing_ok=True)
        environment = {**ENVIRONMENT, "LD_PRELOAD": str(self.library), "NEW": str(self.kept.new), "MADE": str(self.made), **words}
        return serve(self.stack, self.archive, self.kept.keys(), rounds=2, pause=FOREVER, env=environment)

    def calls(self):
        """The calls that write a snapshot and give it its place, in order."""
        service = self.serve()
        service.rounds()
        is_kept("a snapshot is written under halt.c", service, self.kept)
        holds("and that is the end of it", comes_true(lambda: self.made.read_text().endswith("open\nfsync\n")))
        service.kill()
        return self.made.read_text().split()

    def kill_at(self, number, name, half, is_older):
        self.serve(KILL_AT=str(number), **({"HALF": "1"} if half else {})).process.wait(PATIENCE)
        self.archive.hold()
        same(f"killed {'in' if half else 'before'} call {number}, {name}: the file is the {'older' if is_older else 'new'} one",
             self.kept.path.read_text() == OLDER, is_older)
        after = serve(self.stack, self.archive, self.kept.keys())
        same("and what it has is shown at once", [logged(after), after.shows()], [TAKEN_IN, FIRST if is_older else SECOND])
        after.kill()
        self.archive.let_go()

    def fail_at(self, number, name):
        """The call fails once, as on a disk that is full; a second later it is tried again."""
        service = self.serve(FAIL_AT=str(number))
        same(f"where call {number}, {name}, fails, that is told", service.logs_until("not written")[-1], UNWRITTEN)
        is_kept("and it is written a while later", service, self.kept)
        same("with nothing beside it", self.kept.files(), ["known"])
        service.kill()


# The calls that write a snapshot, but for the writes themselves: it is flushed and renamed, and then its folder is flushed.
WRITTEN = ["open", "fsync", "rename", "open", "fsync"]


def without_writes(calls):
    return [name for name in calls if name != "write"]


def try_root(library):
    """Of a snapshot that stands in the root folder that folder is flushed."""
    with contextlib.ExitStack() as stack:
        archive, kept = Archive(stack, pages()), Kept(stack)
        (kept.folder / "root").mkdir()
        environment = {**ENVIRONMENT, "LD_PRELOAD": str(library), "NEW": "/known.new", "MADE": str(kept.path)}
        service = serve(stack, archive, {"snapshot": "/known", "snapshot_every": 1}, rounds=1, env=environment,
                        words=[*OWN_ROOT, str(kept.folder / "root")])
        holds("a snapshot in the root folder is flushed there, and so is that folder",
              comes_true(lambda: kept.path.is_file() and without_writes(kept.path.read_text().split()) == WRITTEN))
        same("it has what is known", pathlib.Path(f"/proc/{service.process.pid}/root/known").read_text(),
             snapshot_of(service.get("/state")[2]))


def try_halts(library):
    with contextlib.ExitStack() as stack:
        halts = Halts(stack, library)
        calls = halts.calls()
        same("a snapshot is written, flushed, renamed, and the folder flushed", without_writes(calls), WRITTEN)
        renamed = calls.index("rename") + 1
        for number, name in enumerate(calls, 1):
            halts.kill_at(number, name, False, number <= renamed)
            if name == "write":
                halts.kill_at(number, name, True, True)
        for number, name in enumerate(calls, 1):
            halts.fail_at(number, name)


def main():
    try_restart()
    try_due()
    try_unchanged()
    try_files()
    without = try_not_aside()
    try_links()
    without += try_disks()
    try_sections()
    try_replicas()
    with tempfile.TemporaryDirectory() as folder:
        library = compiled(folder, TOP / "tests/snapshots/halt.c")
        if library:
            try_halts(library)
            if can_mount():
                try_root(library)
        else:
            without += "; without cc, so that no call was made to fail and no kill was timed"
    print(f"what is known is kept over restarts{without}")


main()
