#!/usr/bin/env python3
"""What wishes may do to the rest: they and the jobs of a round take turns, at each archive and at the hands that walk; what an
archive answers to a wish puts it to sleep for nobody; and a wish waits for an archive that is busy for a short time.

    ./run --unproved && tests/wish_turns.py
"""
import contextlib
import itertools
import re
import threading
import time

from playing import BASE, GOOD, MEMENTO, PATIENCE, Played, Service, comes_true, get, holds, originals, reply, same, slow, told, until

NONE = reply(status=404)
MANY = 1_000_000    # rounds, for a service that is to go on until it is killed
LISTED = originals(20, "listed.example")


# Answers that give no harvest, but for statuses.
ODD = {"no-page": reply("\0<<<"), "a-site": reply("<html><body>no list", "Content-Type: text/html"), "coded": reply("x", "Content-Encoding: gzip"),
       "nothing": reply(status=204), "a-part": reply("x", status=206), "too-long": reply(" " * 9_000_000), "cut-off": reply("<http://m.example/1>", length=1_000)}


def is_listed(target):
    return "listed.example" in target


def asked(archive, original):
    return archive.targets().count(BASE + original)


def until_when(port, what):
    """Until when the service lets its archive be, as the status at this port tells it: `dormant` or `aside`; 0 if it doesn't."""
    return int(re.search(rf"(?m)^maplewrench_archive_{what}_until_timestamp_seconds\{{.*\}} (\d+)$", get(port, "/metrics")[2])[1])


def wish_for(service, every, is_over):
    """Asks for one made-up original after another, until this holds, or for a patience."""
    numbers = itertools.count()

    def ask_on():
        service.shows(f"http://made-up.example/{next(numbers)}")
        time.sleep(every)
        return is_over()

    comes_true(ask_on)


def try_one_archive():
    """A reader who asks for an unknown original ten times a second has the slow archive walked for every other one at most."""
    with contextlib.ExitStack() as stack:
        lazy = Played(stack, slow(0.4, NONE))
        archives = [lazy] + [Played(stack, lambda _: NONE) for _ in range(3)]
        service = Service(stack, archives=[(f"a{k}.example", one.address) for k, one in enumerate(archives)], originals=LISTED,
                          workers=4, keys={"wanted": 1000, "wishes": 60_000, "at_once": 1})

        def is_seen():
            kinds = [is_listed(target) for target in lazy.targets()]
            return kinds.count(True) >= 10 and kinds.count(False) >= 9

        wish_for(service, 0.1, is_seen)
        kinds = [is_listed(target) for target in lazy.targets()]
        jobs, wishes = kinds.count(True), kinds.count(False)
        holds(f"it was asked for {jobs} of the round's 20 originals, and for {wishes} wishes", jobs >= 10 and wishes >= 9)
        last = max(place for place, job in enumerate(kinds) if job)
        holds("and of two walks that began one was a wish's at most, while the round had jobs for it",
              all(kinds[place] or kinds[place + 1] for place in range(last)))
    print("--- and without jobs")
    with contextlib.ExitStack() as stack:
        archive = Played(stack, slow(0.1, NONE))
        service = Service(stack, archives=[("a.example", archive.address)], originals=LISTED[:1], rounds=2, pause=86_400, workers=2,
                          keys={"wanted": 1000, "wishes": 60_000, "at_once": 1})
        same("the round", service.line(), told(1, 1, 1))
        for number in range(8):
            service.wish(f"http://made-up.example/{number}", archive)
        same("no wish waits for a job", len(archive.heads), 9)


def try_hands():
    """Wishes for archives that have done their part of the round don't take all hands from one that hasn't."""
    with contextlib.ExitStack() as stack:
        is_done, next_answer = threading.Event(), slow(0.2, NONE)

        def answer_late(target):
            """It has done a quarter of its part when the others have done theirs."""
            if len(late.heads) > 5:
                is_done.wait(PATIENCE)
            return next_answer(target)

        late = Played(stack, answer_late)

        def answer(target):
            time.sleep(0 if is_listed(target) else 0.5)
            return NONE

        quick = [Played(stack, answer) for _ in range(4)]
        service = Service(stack, archives=[("late.example", late.address)] + [(f"a{k}.example", one.address) for k, one in enumerate(quick)],
                          originals=LISTED, workers=2, keys={"wanted": 1000, "wishes": 60_000, "at_once": 1})
        until("the others have done their part", lambda: all(len(one.heads) >= 20 for one in quick))
        before = len(late.heads)
        holds(f"and it hasn't: {before} of 20", before <= 6)
        is_done.set()

        def counts():
            """How many of its jobs were begun, and how many walks for wishes."""
            return sum(map(is_listed, late.targets())), sum(not is_listed(target) for one in quick for target in one.targets())

        wish_for(service, 0.1, lambda: counts()[0] >= before + 8 and counts()[1] >= 6)
        jobs, wishes = counts()
        holds(f"beside wishes without a pause it goes on to {jobs} of 20", jobs >= before + 8)
        holds(f"and wishes are granted meanwhile, by {wishes} walks", wishes >= 6)


def try_statuses():
    """Whatever an archive answers to wishes, it isn't put to sleep; where it says nothing it is."""
    statuses = (403, 400, 414, 451, 301, 500, 502, 503, 504, 408)
    with contextlib.ExitStack() as stack:
        def answer(target):
            what = target.rpartition("/")[2]
            return GOOD if "picked" not in target else ODD[what] if what in ODD else reply(status=int(what))

        archive = Played(stack, answer)
        service = Service(stack, archives=[("a.example", archive.address)], originals=["http://listed.example/"], rounds=MANY, pause=1,
                          keys={"wanted": 1000, "wishes": 60_000, "tolerance": 3, "dormant": 600}, logged=True)
        for what in (*statuses, *ODD):
            original = f"http://picked.example/{what}"
            service.wish(original, archive)
        service.shows("http://after.example/")
        until("and for a wish of somebody else", lambda: service.shows("http://after.example/") == MEMENTO)
        walked = asked(archive, "http://listed.example/")
        until("and rounds ask it still", lambda: asked(archive, "http://listed.example/") > walked + 1)
    with contextlib.ExitStack() as stack:
        archive = Played(stack, lambda target: reply(status=403) if target.endswith(("/1", "/2", "/3", "/4", "/5", "/6")) else GOOD)
        service = Service(stack, archives=[("a.example", archive.address)], originals=originals(9), keys={"tolerance": 3})
        same("nor do originals of a round that it excludes", service.line(), told(1, 9, 3))
    for what, answer in {"closes": lambda _: b"", "fails": lambda _: reply(status=500)}.items():
        with contextlib.ExitStack() as stack:
            archive = Played(stack, answer)
            service = Service(stack, archives=[("a.example", archive.address)], originals=originals(9), rounds=2, pause=86_400,
                              keys={"wanted": 1000, "wishes": 60_000, "tolerance": 3, "dormant": 600})
            same(f"one that {what} is dormant after three jobs of a round", service.line(), told(1, 3, 0))
            service.shows("http://after.example/")
            time.sleep(2)
            same("and isn't asked for wishes", len(archive.heads), 3)
    with contextlib.ExitStack() as stack:
        archive = Played(stack, lambda _: b"")
        service = Service(stack, archives=[("a.example", archive.address)], rounds=2, pause=86_400,
                          keys={"wanted": 1000, "wishes": 60_000, "tolerance": 3, "dormant": 600, "status": "127.0.0.1:0"})
        port = int(service.line().rpartition(":")[2])
        for number in range(3):
            service.wish(f"http://made-up.example/{number}", archive)
        same("it is asked three times", len(archive.heads), 3)
        until("and is dormant then", lambda: until_when(port, "dormant") > time.time())
        service.shows("http://after.example/")
        time.sleep(2)
        same("one that says nothing to wishes is dormant as well", len(archive.heads), 3)


def try_woken():
    """A dormant archive that answers a wish, if only by 403, is awake for the next one."""
    with contextlib.ExitStack() as stack:
        broken = threading.Event()
        broken.set()

        def answer(target):
            return b"" if broken.is_set() else reply(status=403) if "picked" in target else GOOD

        archive = Played(stack, answer)
        service = Service(stack, archives=[("a.example", archive.address)], rounds=2, pause=86_400,
                          keys={"wanted": 1000, "wishes": 60_000, "tolerance": 3, "dormant": 2})
        same("the round has no job", service.line(), told(1, 0, 0))
        for number in range(3):
            lost = f"http://lost.example/{number}"
            service.wish(lost, archive)
        broken.clear()
        time.sleep(2.5)
        service.wish("http://picked.example/", archive)
        service.shows("http://after.example/")
        until("and for what comes next", lambda: service.shows("http://after.example/") == MEMENTO)


def try_busy():
    """A wish that meets an archive that is busy for four seconds waits, and so does one that comes meanwhile."""
    with contextlib.ExitStack() as stack:
        times, busy = [], threading.Event()

        def answer(target):
            times.append(time.monotonic())
            if "first" in target and not busy.is_set():
                busy.set()
                return reply("", "Retry-After: 4", status=429)
            return reply("", "Retry-After: 90", status=429) if "long" in target else GOOD

        archive = Played(stack, answer)
        service = Service(stack, archives=[("a.example", archive.address)], originals=["http://listed.example/"], rounds=2, pause=86_400,
                          keys={"wanted": 1000, "tolerance": 5, "dormant": 600, "status": "127.0.0.1:0"})
        port = int(service.line().rpartition(":")[2])
        same("the round", service.line(), told(1, 1, 1))
        first, second = "http://first.example/", "http://second.example/"
        service.wish(first, archive)
        until("it is known to be busy", lambda: until_when(port, "aside"))
        service.shows(second)
        until("both are shown", lambda: all(service.shows(one) == MEMENTO for one in (first, second)), 20)
        # The seconds count from the moment at which the walk began, which is earlier.
        holds(f"it was left alone for {times[2] - times[1]:.1f} s", times[2] - times[1] >= 2)
        same("and asked as often as need be", (asked(archive, first), asked(archive, second)), (2, 1))
        service.wish("http://long.example/", archive)
        until("it is known to be busy for long", lambda: until_when(port, "aside") > time.time() + 30)
        service.shows("http://late.example/")
        time.sleep(3)
        same("isn't waited for", (asked(archive, "http://long.example/"), asked(archive, "http://late.example/")), (1, 0))


def try_busy_for_one():
    """An original for which an archive is busy each time keeps no other wish from it."""
    with contextlib.ExitStack() as stack:
        archive = Played(stack, lambda target: reply("", "Retry-After: 1", status=429) if "picked" in target else GOOD)
        service = Service(stack, archives=[("a.example", archive.address)], rounds=2, pause=86_400,
                          keys={"wanted": 1000, "tolerance": 5, "dormant": 600})
        picked, after = "http://picked.example/", "http://after.example/"
        service.wish(picked, archive)
        service.shows(after)
        until("a wish of somebody else is granted", lambda: service.shows(after) == MEMENTO, 20)
        until("while the archive is asked for the first again", lambda: asked(archive, picked) > 2, 20)
        same("and once for the second", asked(archive, after), 1)


def try_always_busy():
    """An archive that is busy each time is waited for for a minute in all, and other archives' answers are shown at once."""
    with contextlib.ExitStack() as stack:
        archive = Played(stack, lambda _: reply("", "Retry-After: 25", status=429))
        other = Played(stack, lambda _: GOOD)
        service = Service(stack, archives=[("a.example", archive.address), ("b.example", other.address)], rounds=2, pause=86_400,
                          keys={"wanted": 1000, "tolerance": 5, "dormant": 600, "again": 1})
        original = "http://wished.example/"
        service.shows(original)
        until("what another archive has is shown", lambda: service.shows(original) == MEMENTO, 20)
        until("it is asked again", lambda: asked(archive, original) == 3, 2 * PATIENCE)
        time.sleep(28)
        same("and not beyond a minute", asked(archive, original), 3)


def main():
    for attempt in (try_one_archive, try_hands, try_statuses, try_woken, try_busy, try_busy_for_one, try_always_busy):
        print(f"--- {attempt.__name__}", flush=True)
        attempt()
    print("wishes take turns with rounds, put no archive to sleep that answers, and wait for one that is busy")


if __name__ == "__main__":
    main()
