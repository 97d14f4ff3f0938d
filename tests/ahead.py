#!/usr/bin/env python3
"""What is further ahead of the clock than the key `ahead` allows isn't taken: of a peer's delta, of a snapshot, or of the program's own
walks after its clock was set back. The rest of a delta is, and what was left out is asked for again. Where there is a C compiler, the
program's clock is set.

    ./run --unproved && tests/ahead.py
"""
import contextlib
import pathlib
import tempfile
import threading
import time

from clocks import Clock
from playing import ORIGINAL, PATIENCE, TOP, Played, Service, comes_true, compiled, delta, entry, holds, link, reply, same, told

OTHER, THIRD, FOURTH = (f"http://{name}.example/" for name in "bcd")
FIRST, SECOND = "http://m.example/1", "http://m.example/2"
DAY, HOUR = 86_400, 3_600
LATE = int(time.time()) + 40 * DAY
NEAR = int(time.time()) + HOUR
KEYS = {"ahead": DAY, "again": HOUR}


class Peer:
    """A peer with these deltas: what it says from each cursor. What it hasn't is an empty delta from there."""

    def __init__(self, stack, incarnation=7):
        self.incarnation, self.deltas = incarnation, {}
        self.played = Played(stack, self.answer)
        self.address = self.played.address

    def says(self, begin, end, *entries, asked=None):
        target = "/delta" if asked is None else f"/delta/{self.incarnation}/{asked}"
        self.deltas[target] = delta(self.incarnation, begin, end, "".join(entries))

    def answer(self, target):
        if target not in self.deltas:
            number = target.rpartition("/")[2]
            return reply(delta(self.incarnation, number, number)) if number.isdecimal() else reply(status=404)
        return reply(self.deltas[target])

    def asked(self):
        return self.played.targets()


def mixed(original):
    """An entry whose whole harvest is of long ago, and of which a part is ahead."""
    return f"entry p.example 5 2 {original}\nat 5 1\n946684800 {FIRST}\nat {LATE} 1\n946684800 {SECOND}\n"


def known(service):
    """The originals of which something is known, with the whole revision."""
    return {original: revision for _, original, revision in service.entries()}


def left_out(service, round_number, count):
    """The log tells in this round how many weren't taken."""
    line = f"log: round {round_number}: {count} harvests not taken: ahead of this clock\n"
    holds(f"round {round_number} tells that {count} weren't taken", service.logs_until("ahead of this clock")[-1:] == [line])


def try_peer():
    """News of a peer go on, though some of them are ahead."""
    with contextlib.ExitStack() as stack:
        peer = Peer(stack)
        peer.says(0, 3, entry(ORIGINAL, FIRST, revision=LATE), entry(OTHER, SECOND, revision=NEAR), mixed(THIRD))
        peer.says(3, 4, entry(FOURTH, FIRST, revision=LATE + 1), asked=3)
        peer.says(4, 5, entry(ORIGINAL, SECOND, "q.example"), asked=4)
        service = Service(stack, peers=[peer.address], rounds=3, pause=2, keys={**KEYS, "pull": 1, "publish": 1}, logged=True)
        holds("what isn't ahead is taken", comes_true(lambda: known(service) == {OTHER: str(NEAR), THIRD: "5", ORIGINAL: "5"}))
        same("of an entry what isn't", service.shows(THIRD), FIRST)
        same("and of an original what another archive has", service.shows(), SECOND)
        same("each delta was asked for once", peer.asked()[:3], ["/delta", "/delta/7/3", "/delta/7/4"])
        holds("and then what comes behind it", comes_true(lambda: peer.asked()[3:] and set(peer.asked()[3:]) == {"/delta/7/5"}))
        told_of = 0
        while told_of < 3 and (lines := service.logs_until("harvests not taken")):
            told_of += int(lines[-1].split()[3])
        same("the log tells of each once", told_of, 3)
    with contextlib.ExitStack() as stack:
        peer = Peer(stack)
        peer.says(0, 3, entry(ORIGINAL, FIRST, revision=LATE), mixed(THIRD))
        service = Service(stack, peers=[peer.address], rounds=2, pause=1, keys={"again": HOUR, "pull": 1, "publish": 1})
        service.rounds()
        same("without the key all is taken", (known(service), service.shows()), ({ORIGINAL: str(LATE), THIRD: "5"}, FIRST))


def try_at_ends():
    """The same where peers are asked at a round's end."""
    with contextlib.ExitStack() as stack:
        peer = Peer(stack)
        peer.says(0, 3, entry(ORIGINAL, FIRST, revision=LATE), entry(OTHER, SECOND, revision=NEAR))
        peer.says(3, 4, entry(THIRD, FIRST), asked=3)
        service = Service(stack, peers=[peer.address], rounds=3, keys={"ahead": DAY}, logged=True)
        same("a delta of which something is left out is counted", service.line(), told(1, 0, 0, 1))
        left_out(service, 1, 1)
        same("and the next one, too", service.line(), told(2, 0, 0, 1))
        same("one without news isn't", service.line(), told(3, 0, 0))
        same("what isn't ahead is known", known(service), {OTHER: str(NEAR), THIRD: "5"})
        same("and asked for once", peer.asked(), ["/delta", "/delta/7/3", "/delta/7/4"])


def try_snapshot():
    """Of a snapshot, too; and nothing of it is lost."""
    sections = [f"memento-state 2\nentries 1\n{one}end\n" for one in (entry(ORIGINAL, FIRST, revision=LATE), entry(OTHER, SECOND, revision=NEAR))]
    text = "memento-snapshot 1\n" + "".join(f"section {len(one)}\n{one}" for one in sections) + "sections 2\n"
    with contextlib.ExitStack() as stack:
        folder = pathlib.Path(stack.enter_context(tempfile.TemporaryDirectory()))
        (folder / "known").write_text(text)
        service = Service(stack, rounds=2, pause=DAY, keys={"ahead": DAY, "snapshot": str(folder / "known"), "snapshot_every": 1}, logged=True)
        same("a start tells what it left out", service.logs_until("ahead of this clock"), [
            "log: snapshot: taken in\n", "log: snapshot: 1 harvests not taken in: ahead of this clock, and set aside\n"])
        same("and took the rest", known(service), {OTHER: str(NEAR)})
        same("the file is set aside as it was", (folder / "known.bad").read_text(), text)
        holds("and a new one is written", comes_true(lambda: (folder / "known").exists() and sections[1] in (folder / "known").read_text()))
        service.kill()
        service.start()
        same("which is taken in whole", (service.logs_until("snapshot: "), known(service)), (["log: snapshot: taken in\n"], {OTHER: str(NEAR)}))


def try_own(library):
    """A walk that began under a clock that was ahead isn't taken once the clock is right."""
    with contextlib.ExitStack() as stack:
        clock, leave = Clock(stack, library, [LATE]), threading.Semaphore(0)

        def answer(_):
            leave.acquire(timeout=PATIENCE)
            return reply(link(FIRST))

        archive = Played(stack, answer)
        service = Service(stack, archives=[("arc.example", archive.address)], originals=[ORIGINAL], rounds=2, env=clock.environment,
                          keys=KEYS, logged=True)
        holds("a walk begins", comes_true(archive.targets))
        clock.set(int(time.time()))
        leave.release()
        same("what it brings isn't a harvest", service.line(), told(1, 1, 0))
        left_out(service, 1, 1)
        leave.release()
        same("the next one is", service.line(), told(2, 1, 1))
        holds("of this year", int(known(service)[ORIGINAL]) < LATE)


def try_again(library):
    """What was left out is asked for again, and taken once the clock has come near it."""
    with contextlib.ExitStack() as stack:
        clock, peer = Clock(stack, library, [int(time.time())]), Peer(stack)
        peer.says(0, 3, entry(ORIGINAL, FIRST, revision=LATE))
        service = Service(stack, peers=[peer.address], rounds=1_000, pause=1, keys={"ahead": DAY, "pull": 1, "publish": 1}, env=clock.environment)
        holds("a peer is asked from where it was looked through", comes_true(lambda: peer.asked()[:3] == ["/delta", "/delta/7/3", "/delta/7/3"]))
        same("and nothing of it is known", known(service), {})
        clock.set(LATE - 2 * DAY)
        holds("once an hour has passed it is asked for all of it again", comes_true(lambda: peer.asked().count("/delta") == 2))
        holds("which is still ahead", comes_true(lambda: peer.asked()[-1] == "/delta/7/3"))
        same("and isn't known", known(service), {})
        clock.set(LATE - DAY + 10)
        holds("and again", comes_true(lambda: peer.asked().count("/delta") == 3))
        holds("until it isn't", comes_true(lambda: known(service) == {ORIGINAL: str(LATE)}))
        count = len(peer.asked())
        holds("then the cursor moves", comes_true(lambda: len(peer.asked()) > count + 2) and peer.asked().count("/delta") == 3)
        clock.set(LATE + 40 * DAY)
        count = len(peer.asked())
        holds("for good", comes_true(lambda: len(peer.asked()) > count + 2) and peer.asked().count("/delta") == 3)


def main():
    try_peer()
    try_at_ends()
    try_snapshot()
    without = ""
    with tempfile.TemporaryDirectory() as folder:
        library = compiled(folder, TOP / "tests/clocks/clock.c")
        if library:
            try_own(library)
            try_again(library)
        else:
            without = "; without cc, so that no clock was set"
    print(f"what is ahead of the clock isn't taken{without}")


if __name__ == "__main__":
    main()
