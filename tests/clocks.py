#!/usr/bin/env python3
"""A running service under clocks that are wrong: before 1970, at the end of the year 9999, standing still, ahead, and set back
while it runs.

    ./run --unproved && tests/clocks.py

Needs a C compiler, for the other clock. Of an archive and original the whole harvest of the greatest revision counts, and a
revision is the clock's second at the round's start.
"""
import calendar
import contextlib
import pathlib
import re
import tempfile
import threading
import time

from playing import (ENVIRONMENT, ORIGINAL, PATIENCE, TOP, Played, Service, comes_true, compiled, free_ports, holds, link, needs, reply, same,
                     told, until)

LAST_SECOND = 253_402_300_799    # of the year 9999
MOST_NUMBER = 2 ** 64 - 1


def memento(number):
    return f"http://m.example/{number}"


def second_of(year, month=1, day=1, hour=0, minute=0, second=0):
    return calendar.timegm((year, month, day, hour, minute, second))


class Clock:
    """What a program's clock says: set by writing a file."""

    def __init__(self, stack, library, says):
        self.file = pathlib.Path(stack.enter_context(tempfile.TemporaryDirectory())) / "clock"
        self.set(*says)
        self.environment = {**ENVIRONMENT, "LD_PRELOAD": str(library), "CLOCK": str(self.file)}

    def set(self, second, stands=False):
        """The second from which the clock goes on, or at which it stands still."""
        other = self.file.with_suffix(".new")
        other.write_text(f"= {second}" if stands else f"+ {second - int(time.time())}")
        other.rename(self.file)


class Changing:
    """An archive that names another memento at each round, and waits for leave to answer."""

    def __init__(self, stack):
        self.count, self.leave = 0, threading.Semaphore(0)
        self.played = Played(stack, self.answer)
        self.address = self.played.address

    def answer(self, _):
        self.leave.acquire(timeout=PATIENCE)
        self.count += 1
        return reply(link(memento(self.count)))


def incarnation_of(service):
    """The incarnation that its deltas name, and how many merges there were."""
    numbers = re.search(r"^from (\d+) 0 (\d+)$", service.get("/delta")[2], re.M)
    return int(numbers[1]), int(numbers[2])


def revision_of(service):
    [(_, _, revision)] = service.entries()
    return int(revision)


def count_shown(service):
    return service.get("/timemap/link/" + ORIGINAL)[2].count("http://m.")


def round_of(service, archive, number):
    archive.leave.release()
    same(f"round {number} makes its harvest", service.line(), told(number, 1, 1))


def under(stack, library, *says, rounds=2, pause=0):
    clock, archive = Clock(stack, library, says), Changing(stack)
    service = Service(stack, archives=[("arc.example", archive.address)], originals=[ORIGINAL], rounds=rounds,
                      pause=pause, env=clock.environment)
    return clock, archive, service


def try_before_1970(library):
    with contextlib.ExitStack() as stack:
        _, archive, service = under(stack, library, second_of(1960))
        round_of(service, archive, 1)
        same("before 1970 a harvest has the revision 0, and the replica the incarnation 0",
             (revision_of(service), incarnation_of(service)), (0, (0, 1)))
        same("it is shown", service.shows(), memento(1))
        round_of(service, archive, 2)
        same("the next has the same revision, so both are shown", (revision_of(service), count_shown(service)), (0, 2))


def try_last_year(library):
    with contextlib.ExitStack() as stack:
        _, archive, service = under(stack, library, LAST_SECOND - 1, pause=3)
        round_of(service, archive, 1)
        first = revision_of(service)
        holds(f"at the end of 9999 a harvest has the revision {first}", LAST_SECOND - 2 <= first < LAST_SECOND + 60)
        same("the incarnation is the most that a number tells", incarnation_of(service), (MOST_NUMBER, 1))
        same("it is shown", service.shows(), memento(1))
        round_of(service, archive, 2)
        holds(f"and one of the year 10000 the revision {revision_of(service)}", max(first, LAST_SECOND) < revision_of(service))
        same("which alone is shown", service.shows(), memento(2))


def try_standing(library):
    with contextlib.ExitStack() as stack:
        _, archive, service = under(stack, library, second_of(2020), True)
        round_of(service, archive, 1)
        round_of(service, archive, 2)
        same("under a clock that stands still both rounds have one revision", revision_of(service), second_of(2020))
        same("and both are shown", count_shown(service), 2)


def try_set_back(library):
    """The clock is set while the program waits between two rounds."""
    with contextlib.ExitStack() as stack:
        # The pause is long enough for the clock to be set in it, on a machine that is busy.
        clock, archive, service = under(stack, library, second_of(2020), rounds=4, pause=5)
        round_of(service, archive, 1)
        first = revision_of(service)
        for number, year in ((2, 2010), (3, 1950)):
            clock.set(second_of(year))
            round_of(service, archive, number)
            same(f"a round under a clock that was set back to {year} changes nothing",
                 (service.shows(), revision_of(service)), (memento(1), first))
        clock.set(second_of(2021))
        round_of(service, archive, 4)
        same("and one under a clock that has passed the first round's time does",
             (service.shows(), revision_of(service) >= second_of(2021)), (memento(4), True))


def try_back_in_round(library):
    """The clock is set back while a round is made, in which each job has the revision of its own second."""
    originals = [f"http://{name}.example/" for name in "abc"]
    with contextlib.ExitStack() as stack:
        clock, archive = Clock(stack, library, [second_of(2020)]), Changing(stack)
        service = Service(stack, archives=[("arc.example", archive.address)], originals=originals, env=clock.environment,
                          keys={"again": 60, "publish": 1, "tolerance": 3, "dormant": 1})
        archive.leave.release()
        holds("the first job is published", comes_true(lambda: archive.count == 1 and service.entries()))
        clock.set(second_of(2010))
        for _ in originals[1:]:
            archive.leave.release()
        same("a clock that goes back in a round keeps no job from being walked", service.line(), told(1, 3, 3))
        revisions = sorted(int(revision) for _, _, revision in service.entries())
        holds(f"the later jobs have earlier revisions: {revisions}",
              second_of(2010) <= revisions[0] < second_of(2011) and second_of(2020) <= revisions[-1])


def try_set_on(library):
    """A replica whose clock was at the year 9999 leaves a revision that no other round comes to."""
    with contextlib.ExitStack() as stack:
        _, archive, wrong = under(stack, library, second_of(9999), rounds=1)
        round_of(wrong, archive, 1)
        later = Played(stack, lambda _: reply(link(memento("new"))))
        right = Service(stack, archives=[("arc.example", later.address)], originals=[ORIGINAL], peers=[wrong.address])
        same("one with a right clock takes what that one knows", right.line(), told(1, 1, 1, 1))
        same("and shows it in the place of its own later harvest", right.shows(), memento(1))


def try_restarts(library):
    """A peer that restarts under a clock that was set back is in another incarnation, and is taken as such."""
    with contextlib.ExitStack() as stack:
        clock = Clock(stack, library, [second_of(2020)])
        pages = iter(range(1, 100))
        archive = Played(stack, lambda _: reply(link(memento(next(pages)))))
        peer = Service(stack, archives=[("arc.example", archive.address)], originals=[ORIGINAL], ports=free_ports(1), env=clock.environment)
        same("a peer makes a harvest", peer.line(), told(1, 1, 1))
        go_on = threading.Semaphore(1)

        def hold(_):
            go_on.acquire(timeout=PATIENCE)
            return reply(status=500)

        first = incarnation_of(peer)[0]
        held = Played(stack, hold)
        service = Service(stack, archives=[("held.example", held.address)], originals=[ORIGINAL], peers=[peer.address], rounds=2)
        same("which is pulled", service.line(), told(1, 1, 0, 1))
        peer.kill()
        clock.set(second_of(2015))
        peer.start()
        same("it starts again under an earlier clock, and makes a harvest", peer.line(), told(1, 1, 1))
        second = incarnation_of(peer)[0]
        holds("in an incarnation of its own", second < first)
        go_on.release()
        same("which is pulled too", service.line(), told(2, 1, 0, 1))
        same("and changes nothing, since its revision is an earlier one", service.shows(), memento(1))


def try_wish_ahead(library):
    """What was wished for while the clock was ahead is wished for anew once it is right, though all wishes of that minute were taken."""
    with contextlib.ExitStack() as stack:
        clock, has = Clock(stack, library, [second_of(2040)]), threading.Event()
        archive = Played(stack, lambda _: reply(link(memento(1))) if has.is_set() else reply(status=404))
        service = Service(stack, archives=[("arc.example", archive.address)], rounds=2, pause=86_400, env=clock.environment,
                          keys={"wanted": 9, "again": 5, "wishes": 2})
        same("the first round has no job", service.line(), told(1, 0, 0))
        for wished in (ORIGINAL, "http://second.example/"):
            service.wish(wished, archive)
        clock.set(second_of(2030))
        has.set()
        until("it is asked for again, and shown", lambda: service.shows() == memento(1))


def try_forget_back(library):
    """The clock is set back while a service forgets: what is harvested then is the oldest, and what is listed stays."""
    with contextlib.ExitStack() as stack:
        clock = Clock(stack, library, [second_of(2020)])
        archive = Played(stack, lambda _: reply(link(memento(1))))
        service = Service(stack, archives=[("arc.example", archive.address)], originals=[ORIGINAL], rounds=1_000_000, pause=1,
                          env=clock.environment,
                          keys={"wanted": 3, "again": 86_400, "wishes": 60_000, "publish": 1, "forget": 1})
        until("what is listed is shown", lambda: service.shows() == memento(1))
        first = [f"http://first.example/{k}" for k in range(3)]
        for original in first:
            until("an original is shown", lambda original=original: service.shows(original) == memento(1))
        clock.set(second_of(2010))
        for k in range(3):
            original = f"http://later.example/{k}"
            until("after the clock was set back another is, too", lambda original=original: service.shows(original) == memento(1))
        until("then no more is known than is wanted", lambda: len(service.entries()) <= 4)
        known = [original for _, original, _ in service.entries()]
        holds(f"what was harvested before stays: {known}", all(original in [ORIGINAL, *first] for original in known))
        same("and what is listed", service.shows(), memento(1))


def try_forget_ahead(library):
    """What a clock that was ahead has left goes if it is withdrawn for a round."""
    with contextlib.ExitStack() as stack:
        clock, pages = Clock(stack, library, [second_of(2040)]), [1]
        withdrawn = clock.file.parent / "withdrawn"
        withdrawn.write_text("")
        archive = Played(stack, lambda _: reply(link(memento(pages[0]))))
        service = Service(stack, archives=[("arc.example", archive.address)], originals=[ORIGINAL], rounds=1_000_000, pause=1,
                          env=clock.environment, keys={"withdrawn_file": str(withdrawn)})
        until("under a clock that is ahead a memento is shown", lambda: service.shows() == memento(1))
        clock.set(second_of(2030))
        pages[0] = 2
        count = len(archive.heads)
        until("under a right clock the archive is asked again", lambda: len(archive.heads) > count + 1)
        same("and what it has now isn't shown", service.shows(), memento(1))
        withdrawn.write_text(f"original {ORIGINAL}\n")
        until("it is withdrawn", lambda: service.shows() is None)
        withdrawn.write_text("")
        until("and once it is lifted, what the archive has now is shown", lambda: service.shows() == memento(2))


def main():
    needs("cc")
    with tempfile.TemporaryDirectory() as folder:
        library = compiled(folder, TOP / "tests/clocks/clock.c")
        for attempt in (try_before_1970, try_last_year, try_standing, try_set_back, try_back_in_round, try_set_on, try_restarts,
                        try_wish_ahead, try_forget_back, try_forget_ahead):
            attempt(library)
    print("under wrong clocks rounds were made, and the greatest revision counted")


if __name__ == "__main__":
    main()
