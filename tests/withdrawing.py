#!/usr/bin/env python3
"""What is withdrawn is 404 at each gate within a round, in no text that a replica gives or keeps, and after a kill; whatever peers
say. And a file that vanishes, that names nothing, and that isn't there at the start.

    ./run --unproved && tests/withdrawing.py
"""
import contextlib
import pathlib
import re
import tempfile
import time

from forgetting import LISTED, MANY, Archive, Readers, listens, memento, two_replicas, wish
from playing import PATIENCE, Played, Service, delta, entry, free_ports, get, holds, originals, reply, same, silent, until

FORMS = ("timemap/link", "timemap/json", "timemap/cdxj", "timegate")


class Withdrawn:
    """The file of what is withdrawn."""

    def __init__(self, path, *lines):
        self.path = path
        self.write(*lines)

    def write(self, *lines):
        """Writes a new file, and puts it in the place of the old one."""
        other = self.path.with_suffix(".new")
        other.write_text("".join(line + "\n" for line in lines))
        other.rename(self.path)


def statuses(replicas, original, forms=FORMS):
    """What each gate says in each form."""
    return {replica.get(f"/{form}/{original}", gate)[0] for replica in replicas for gate in range(len(replica.ports)) for form in forms}


def texts_of(replicas):
    return "".join(replica.get(target)[2] for replica in replicas for target in ("/state", "/delta"))


def try_lines(folder):
    """An original, a prefix and an archive, at two replicas that pull from each other."""
    with contextlib.ExitStack() as stack:
        archive = Archive(stack)
        files = [Withdrawn(folder / f"withdrawn{k}") for k in range(2)]
        replicas = two_replicas(stack, folder, archive, wanted=50, forget=None, formats=["json", "cdxj"],
                                withdrawn_file=lambda k: str(files[k].path))
        asked = originals(2, "asked.example")
        for original in asked:
            wish(replicas[0], original)
        until("the other replica knows it, too", lambda: statuses(replicas, asked[1]) == {200, 302})
        texts = {original: replicas[0].get("/timemap/link/" + original)[2] for original in LISTED[:3]}
        readers = Readers([replica.ports[0] for replica in replicas], texts)
        lines = []
        for line, gone, kept in ((f"original {LISTED[3]}", LISTED[3], LISTED[0]), ("prefix http://asked.example/", asked[1], LISTED[0])):
            lines.append(line)
            for file in files:
                file.write("# what has to be taken down", "", *lines)
            until(f"`{line}` is 404 at each gate, in each form", lambda gone=gone: statuses(replicas, gone) == {404})
            time.sleep(3)
            before = archive.asked(gone)
            for _ in range(20):
                same("and stays so", statuses(replicas, gone), {404})
                time.sleep(0.1)
            same("no archive is asked for it meanwhile", archive.asked(gone), before)
            holds("no state and no delta has it", gone not in texts_of(replicas))
            same("what isn't withdrawn is as before", statuses(replicas, kept), {200, 302})
        for k in range(2):
            until("the snapshot has nothing of it", lambda k=k: not any(
                name.encode() in (folder / f"snapshot{k}").read_bytes() for name in (LISTED[3], asked[1])))
        readers.end()
        for replica in replicas:
            replica.kill()
        for replica in replicas:
            replica.start()
        until("after a kill what is listed is shown", lambda: all(
            listens(replica, gate) and replica.shows(LISTED[0], gate) for replica in replicas for gate in range(2)))
        for gone in (LISTED[3], asked[1]):
            same("and what is withdrawn isn't", statuses(replicas, gone), {404})
        for file in files:
            file.write()
        until("once it is lifted, what is listed comes again", lambda: statuses(replicas, LISTED[3]) == {200, 302})
        for file in files:
            file.write("archive arc")
        until("a withdrawn archive takes all that it alone has", lambda: statuses(replicas, LISTED[0]) == {404})
        same("whatever is asked for", [statuses(replicas, original) for original in LISTED], [{404}] * 4)
        for replica in replicas:
            same("nothing is known", replica.entries(), [])


def try_before_a_start(folder):
    """What was withdrawn while the program was down isn't shown for a moment, and goes from the snapshot."""
    with contextlib.ExitStack() as stack:
        archive, file, snapshot = Archive(stack), Withdrawn(folder / "withdrawn"), folder / "snapshot"
        service = Service(stack, archives=[("arc", archive.address)], originals=LISTED, ports=free_ports(1), rounds=MANY, pause=3600,
                          keys={"withdrawn_file": str(file.path), "snapshot": str(snapshot), "snapshot_every": 1, "log": True, "publish": 1},
                          stderr=open(folder / "log", "w", encoding="utf-8"))
        until("all is in the snapshot", lambda: snapshot.exists() and LISTED[3].encode() in snapshot.read_bytes()
              and LISTED[2].encode() in snapshot.read_bytes())
        service.kill()
        file.write(f"original {LISTED[3]}")
        service.start()
        same("from the first reply on it is 404", service.shows(LISTED[3]), None)
        same("and what isn't withdrawn is shown", service.shows(LISTED[2]), memento(LISTED[2]))
        holds("and it isn't in the file any more", LISTED[3].encode() not in snapshot.read_bytes())


def try_one_replica(folder):
    """A withdrawal holds where it was made: a peer that has no such line goes on showing what it shows, and gives it in vain."""
    with contextlib.ExitStack() as stack:
        archive = Archive(stack)
        file = Withdrawn(folder / "withdrawn", f"original {LISTED[0]}", "archive other.example")
        replicas = two_replicas(stack, folder, archive, LISTED[1:], wanted=50, forget=None,
                                withdrawn_file=lambda k: None if k else str(file.path))
        wish(replicas[1], LISTED[0])
        time.sleep(3)
        same("a replica without the line shows it", replicas[1].shows(LISTED[0]), memento(LISTED[0]))
        same("and one with the line doesn't", replicas[0].shows(LISTED[0]), None)
        file.write()
        until("until the line is taken out", lambda: replicas[0].shows(LISTED[0]) == memento(LISTED[0]))


def try_files(folder):
    """Lines that name nothing, and a file that vanishes, is a folder, or isn't there at the start."""
    with contextlib.ExitStack() as stack:
        archive, log = Archive(stack), folder / "log"
        file = Withdrawn(folder / "withdrawn", "nothing", "prefix http", "prefix http://", "archive A", "original no", "", "# none",
                         f"original {LISTED[0]}")
        service = Service(stack, archives=[("arc", archive.address)], originals=LISTED, ports=(0,), rounds=MANY, pause=1,
                          keys={"withdrawn_file": str(file.path), "log": True}, stderr=open(log, "w", encoding="utf-8"))
        until("what isn't withdrawn is shown", lambda: all(service.shows(original) for original in LISTED[1:]))
        same("what is, isn't", service.shows(LISTED[0]), None)
        for number in range(1, 6):
            holds(f"the log names line {number}", f"withdrawn: line {number} names nothing" in log.read_text())
        holds("and no other", "withdrawn: line 6" not in log.read_text() and "withdrawn: line 8" not in log.read_text())
        file.path.unlink()
        until("the log tells of a file that vanished", lambda: "withdrawn: not read" in log.read_text())
        same("and what was withdrawn stays so", service.shows(LISTED[0]), None)
        file.path.mkdir()
        log.write_text("")
        until("and of a folder in its place", lambda: "withdrawn: not read" in log.read_text())
        same("and what was withdrawn stays so still", service.shows(LISTED[0]), None)
        file.path.rmdir()
        file.write()
        until("an empty file withdraws nothing", lambda: service.shows(LISTED[0]) == memento(LISTED[0]))
    with contextlib.ExitStack() as stack:
        missing = Service(stack, originals=LISTED, ports=(0,), stdout=None, stderr=None,
                          keys={"withdrawn_file": str(folder / "missing")})
        missing.process.wait(PATIENCE)
        same("without the file the program doesn't start", missing.process.returncode, 3)


def try_held(folder):
    """A request that is held for a withdrawn original is answered at once, and one that is held over a withdrawal of another is answered."""
    with contextlib.ExitStack() as stack:
        archive, file = Archive(stack), Withdrawn(folder / "withdrawn", "prefix http://gone.example/")
        service = Service(stack, archives=[("arc", archive.address)], originals=LISTED[:1], ports=(0,), rounds=MANY, pause=1,
                          keys={"withdrawn_file": str(file.path), "wanted": 50, "wishes": 6000, "wait": 30, "together": 8, "publish": 1,
                                "again": 60})
        until("what is listed is shown", lambda: service.shows(LISTED[0]) == memento(LISTED[0]))
        begun = time.monotonic()
        same("a question for what is withdrawn is answered", service.shows("http://gone.example/1"), None)
        holds(f"after {time.monotonic() - begun:.1f} s, and not at the end of 30", time.monotonic() - begun < 15)
        same("and no archive was asked", archive.asked("http://gone.example/1"), 0)
        same("the first question for another is answered", service.shows("http://here.example/1"), memento("http://here.example/1"))


def try_pending(folder):
    """What waits for a publish when its line is read isn't shown by that publish: a delta that came between two rounds."""
    with contextlib.ExitStack() as stack:
        archive = Archive(stack)
        file = Withdrawn(folder / "pending")
        port, = free_ports(1)
        status, = free_ports(1)
        service = Service(stack, archives=[("arc", archive.address)], originals=LISTED[:1], ports=(0,), rounds=MANY, pause=5, workers=4,
                          peers=[f"http://127.0.0.1:{port}"], patience=2,
                          keys={"again": 86_400, "publish": 60, "pull": 1, "status": f"127.0.0.1:{status}", "withdrawn_file": str(file.path)})
        until("what is listed is shown", lambda: service.shows(LISTED[0]))
        service.rounds(2)
        taken = re.compile(r'^maplewrench_pull_entries_total\{.*outcome="taken".*\} [1-9]', re.M)
        Service(stack, archives=[("arc", archive.address)], originals=LISTED[1:2], ports=(port,), rounds=MANY, pause=60, workers=4)
        until("a peer's delta is taken", lambda: taken.search(get(status, "/metrics")[2]))
        file.write(f"original {LISTED[1]}")
        service.rounds(2)
        seen = [service.get("/timegate/" + LISTED[1])[0] for _ in range(20)]
        same("two rounds later the original isn't shown", set(seen), {404})
        holds("and another one is", service.shows(LISTED[0]))


def try_stale(folder):
    """A peer that is being pulled while a line is taken away is asked for all anew once it has answered, and not from its answer's end."""
    with contextlib.ExitStack() as stack:
        file, held = Withdrawn(folder / "stale", f"original {LISTED[1]}"), [True]

        def answer(asked):
            if asked == "/delta":
                return reply(delta(7, 0, 1, "".join(entry(original, memento(original)) for original in LISTED[:2])))
            while held:
                time.sleep(0.05)
            return reply(delta(7, 1, 1))

        peer, archive = Played(stack, answer), Played(stack, silent)
        service = Service(stack, archives=[("arc", archive.address)], originals=[], peers=[peer.address], rounds=MANY, pause=1, patience=30,
                          keys={"ahead": 300, "publish": 1, "pull": 1, "withdrawn_file": str(file.path)})
        until("what isn't withdrawn is shown", lambda: service.shows(LISTED[0]))
        until("what is new is asked for", lambda: "/delta/7/1" in peer.targets())
        file.write()
        service.rounds(3)
        held.clear()
        until("all is asked for anew", lambda: peer.targets().count("/delta") > 1)
        until("and what was withdrawn is shown", lambda: service.shows(LISTED[1]))


def try_parts(folder):
    """A gate that answers with parts goes on doing so once something is withdrawn, and has no part with it."""
    with contextlib.ExitStack() as stack:
        archive, file = Archive(stack), Withdrawn(folder / "parts")
        service = Service(stack, archives=[("arc", archive.address)], originals=LISTED, ports=(0,), rounds=MANY, pause=1,
                          keys={"parts": 1, "again": 86_400, "withdrawn_file": str(file.path)})
        until("what is listed is shown", lambda: all(service.shows(original) for original in LISTED))
        holds("the first part has it", f" {LISTED[3]}\n" in service.get("/part")[2])
        file.write(f"original {LISTED[3]}")
        until("what is withdrawn isn't", lambda: service.shows(LISTED[3]) is None)
        status, _, text = service.get("/part")
        same("the first part is given still", status, 200)
        same("without what is withdrawn", [f" {original}\n" in text for original in LISTED[2:]], [True, False])


def main():
    for attempt in (try_lines, try_before_a_start, try_one_replica, try_files, try_held, try_pending, try_stale, try_parts):
        with tempfile.TemporaryDirectory() as folder:
            attempt(pathlib.Path(folder))
    print("what was withdrawn was gone, and what wasn't stayed")


if __name__ == "__main__":
    main()
