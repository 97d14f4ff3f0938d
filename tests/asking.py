#!/usr/bin/env python3
"""How archives are asked where the settings say so: dormant ones, ones that ask to be left alone, one at a time, and no faster
than they allow. Whatever they say, each job of the round is walked in it, unless its archive is dormant at the end.

    ./run --unproved && tests/asking.py
"""
import contextlib
import email.utils
import threading
import time

from playing import BASE, GOOD, MEMENTO, Played, Service, comes_true, holds, link, originals, reply, same, told

BROKEN = reply(status=500)
PAUSE = 8    # seconds between two rounds, where an archive sleeps for one
TICK = 0.01    # seconds by which clocks may differ that count in milliseconds


class Timed:
    """Answers by the number of the request, and notes when each came and how many were open at the same time. It notes a request before it
    answers, so that what a round asked for last is noted before that round's end, and what the next one asks for after its beginning."""

    def __init__(self, answer, pause=0):
        self.answer, self.pause = answer, pause
        self.times, self.open, self.most, self.lock = [], 0, 0, threading.Lock()

    def __call__(self, _):
        with self.lock:
            number = len(self.times)
            self.times.append(time.monotonic())
            self.open += 1
            self.most = max(self.most, self.open)
        time.sleep(self.pause)
        with self.lock:
            self.open -= 1
        return self.answer(number)


def try_dormant():
    """An archive that fails is asked as often as it is tolerated, in this round and not in the next."""
    with contextlib.ExitStack() as stack:
        bad, good = Played(stack, lambda _: BROKEN), Played(stack, lambda _: GOOD)
        service = Service(stack, archives=[("bad.example", bad.address), ("good.example", good.address)], originals=originals(20),
                          workers=2, rounds=2, keys={"tolerance": 3, "dormant": 600}, logged=True)
        same("the round ends with what was walked", service.line(), told(1, 23, 20))
        same("in the next round nothing of it is asked", service.line(), told(2, 20, 20))
        same("an archive that fails is asked three times", len(bad.heads), 3)
        same("and the other for all, twice", len(good.heads), 40)
        log = "".join(service.logs_until("round 2: archive bad.example: 20 walks not begun"))
        for line in ("round 1: archive bad.example: 3 failures in a row, not asked for 600 seconds, jobs left: 17\n",
                     "round 1: archive bad.example: 17 walks not begun: it isn't asked\n",
                     "round 1: archive bad.example: 3 failed: another status than 200 and 404\n",
                     "round 2: archive bad.example: 20 walks not begun: it isn't asked\n"):
            same(f"the log tells once: {line.strip()}", log.count("log: " + line), 1)


def try_waking():
    """Where a round goes on, a dormant archive is asked by one walk once its time has come, and for all once it answers."""
    with contextlib.ExitStack() as stack:
        asked = Timed(lambda number: BROKEN if number < 3 else GOOD)

        def last_one_waits(number):
            """The round goes on until the other archive answers again."""
            if number == 11:
                comes_true(lambda: len(asked.times) > 3)
            return GOOD

        sick, steady = Played(stack, asked), Played(stack, Timed(last_one_waits))
        service = Service(stack, archives=[("sick.example", sick.address), ("steady.example", steady.address)],
                          originals=originals(12), workers=2, keys={"tolerance": 2, "dormant": 1}, logged=True)
        same("all but the three that failed are harvests", service.line(), told(1, 24, 21))
        holds("after two failures it isn't asked for a second", asked.times[2] - asked.times[1] >= 0.95)
        holds("nor after the probe that failed", asked.times[3] - asked.times[2] >= 0.95)
        log = "".join(service.logs_until("archive sick.example: 3 of"))
        same("it is told once that it is dormant", log.count("2 failures in a row"), 1)
        same("and once that it answers again", log.count("sick.example: answers again, jobs left: "), 1)


class Switched(Timed):
    """Answers with this now, and with another when it is told to."""

    def __init__(self, answer):
        self.now = answer
        super().__init__(lambda _: self.now)


def try_absent():
    """An archive that gave no answer in a whole round is asked again once it slept, and the others aren't before the pause is over."""
    with contextlib.ExitStack() as stack:
        asked, others = Timed(lambda number: BROKEN if number < 3 else GOOD), Timed(lambda _: GOOD)
        sick, steady = Played(stack, asked), Played(stack, others)
        service = Service(stack, archives=[("sick.example", sick.address), ("steady.example", steady.address)], originals=originals(4),
                          workers=2, rounds=5, pause=10, keys={"tolerance": 2, "dormant": 1}, logged=True)
        same("of the archive that fails two are asked for", service.line(), told(1, 6, 4))
        same("after a second one walk finds that it fails still, and nobody else is asked", service.line(), told(2, 1, 0))
        same("and after another one it is asked for all", service.line(), told(3, 4, 4))
        same("both are asked again when the pause is over", service.line(), told(4, 8, 8))
        same("and then nobody was absent", service.line(), told(5, 8, 8))
        over, again = max(asked.times[1], others.times[3]), min(asked.times[7], others.times[4])
        gaps = [later - earlier for earlier, later in zip(asked.times[1:3], asked.times[2:])]
        holds(f"the archive was asked again {gaps[0]:.1f} s after its second failure, {gaps[1]:.1f} s after its third, and before all others",
              min(gaps) >= 1 - TICK and asked.times[6] < others.times[4])
        later = min(asked.times[11], others.times[8]) - over
        holds(f"and all were {again - over:.1f} and {later:.1f} s after the round", 10 - TICK <= again - over < 19 and later >= 20 - TICK)
        log = "".join(service.logs_until("round 3: archive sick.example: answers again"))
        same("the log tells that it was left", [log.count(f"round {k}: archive sick.example: {left} walks not begun") for k, left in
                                                ((1, 2), (2, 3))], [1, 1])
        same("and of the other nothing", log.count("steady.example"), 0)


def try_absent_beside_busy():
    """A round that asks absent archives doesn't wait for one that it doesn't ask, and that wants to be left alone."""
    with contextlib.ExitStack() as stack:
        busy = Switched(GOOD)
        sick, other = Played(stack, lambda _: BROKEN), Played(stack, busy)
        service = Service(stack, archives=[("sick.example", sick.address), ("busy.example", other.address)], originals=originals(1),
                          workers=2, rounds=3, pause=600, keys={"tolerance": 9, "dormant": 2, "wanted": 9})
        same("one archive fails", service.line(), told(1, 2, 1))
        over, busy.now = time.monotonic(), reply("slowly", "Retry-After: 300", status=429)
        service.wish("http://wished.example/", other)
        same("it is asked again", service.line(), told(2, 1, 0))
        holds(f"after {time.monotonic() - over:.1f} s, and not when it may be asked again", time.monotonic() - over <= 60)
        same("when a wish has found the other one busy", len(other.heads), 2)


def try_absent_at_first():
    """Where nothing can be reached at the start, readers wait as long as archives sleep; without a tolerance for the whole pause."""
    for keys, is_waited in (({"tolerance": 5, "dormant": 1}, False), ({"dormant": 1}, True)):
        with contextlib.ExitStack() as stack:
            may_answer = threading.Event()
            asked = Timed(lambda number: GOOD if number > 1 and may_answer.wait(60) else BROKEN)
            archive = Played(stack, asked)
            service = Service(stack, archives=[("a.example", archive.address)], originals=originals(2), rounds=9, pause=PAUSE,
                              keys={"ready": True, "wanted": 10, **keys})
            same("the first round gives nothing", service.line(), told(1, 2, 0))
            same("and gates say 503", service.shows(originals(1)[0]), 503)
            may_answer.set()
            same("the next round gives all", service.line(), told(2, 2, 2))
            passed = asked.times[2] - asked.times[1]
            holds(f"after {passed:.1f} s", (passed >= PAUSE - TICK) == is_waited and passed >= 1 - TICK)
            same("and gates answer", service.shows(originals(1)[0]), MEMENTO)


def try_refusing():
    """An archive that refuses all that it is asked for is there, so nobody asks again before the pause is over."""
    with contextlib.ExitStack() as stack:
        asked = Timed(lambda _: reply(status=403))
        archive = Played(stack, asked)
        service = Service(stack, archives=[("a.example", archive.address)], originals=originals(3), rounds=2, pause=3,
                          keys={"tolerance": 5, "dormant": 1})
        same("a round gives nothing", service.line(), told(1, 3, 0))
        same("and the next one neither", service.line(), told(2, 3, 0))
        passed = asked.times[3] - asked.times[2]
        holds(f"which begins when the pause is over, after {passed:.1f} s", passed >= 3 - TICK)


def try_nothing_to_ask():
    """Where rounds have no jobs, nobody is absent."""
    with contextlib.ExitStack() as stack:
        archive, begun = Played(stack, lambda _: BROKEN), time.monotonic()
        service = Service(stack, archives=[("a.example", archive.address)], rounds=2, pause=3, keys={"tolerance": 1, "dormant": 1, "wanted": 9})
        same("a round has no jobs", service.line(), told(1, 0, 0))
        service.wish("http://wished.example/", archive)
        same("and the next one neither", service.line(), told(2, 0, 0))
        holds(f"which begins when the pause is over, after {time.monotonic() - begun:.1f} s", time.monotonic() - begun >= 3 - TICK)
        same("a wish was asked for meanwhile", len(archive.heads), 1)


def try_busy():
    """An archive that asks to be left alone is, and its jobs come again in the same round."""
    for what, fields in {"a number": lambda: ["Retry-After: 4"],
                         "a date": lambda: ["Retry-After: " + email.utils.formatdate(time.time() + 5, usegmt=True)]}.items():
        with contextlib.ExitStack() as stack:
            asked = Timed(lambda number: reply("", *fields(), status=429 if number == 2 else 503) if number in (2, 5) else GOOD)
            archive = Played(stack, asked)
            service = Service(stack, archives=[("a.example", archive.address)], originals=originals(10),
                              keys={"tolerance": 3}, patience=5)
            same(f"where it asks by {what} none is lost", service.line(), told(1, 10, 10))
            same("each job but two is walked once", len(archive.heads), 12)
            same("the two that came again are the two that were refused",
                 sorted(target for target in archive.targets() if archive.targets().count(target) == 2),
                 sorted(2 * [archive.targets()[2], archive.targets()[5]]))
            for refused in (2, 5):
                # The seconds count from the moment at which the walk began, which is earlier.
                gap = asked.times[refused + 1] - asked.times[refused]
                holds(f"nothing is asked for {gap:.1f} s", gap >= 2)


def try_plain_503():
    """A 503 that names no time is a failure as any other: its job doesn't come again, and nothing waits for it."""
    bare = reply(status=503)
    with contextlib.ExitStack() as stack:
        asked = Timed(lambda number: bare if number == 2 else GOOD)
        some = Played(stack, asked)
        service = Service(stack, archives=[("a.example", some.address)], originals=originals(6), keys={"tolerance": 3}, patience=5)
        same("a 503 among jobs is one failure", service.line(), told(1, 6, 5))
        same("and each job is walked once", sorted(some.targets()), sorted(BASE + one for one in originals(6)))
    with contextlib.ExitStack() as stack:
        dead, good = Played(stack, lambda _: bare), Played(stack, lambda _: GOOD)
        service = Service(stack, archives=[("dead.example", dead.address), ("good.example", good.address)], originals=originals(9),
                          workers=2, keys={"tolerance": 3}, patience=5)
        same("an archive that says nothing else is dormant after three", service.line(), told(1, 12, 9))
        same("and isn't asked again", len(dead.heads), 3)


class Closing:
    """Answers so many requests, then says 429 so many times, and counts the requests that come while it asks for patience."""

    def __init__(self, good, periods, seconds):
        self.good, self.periods, self.seconds = good, periods, seconds
        self.closed_until, self.closed, self.early, self.lock = 0, 0, 0, threading.Lock()

    def __call__(self, _):
        with self.lock:
            now = time.monotonic()
            if now < self.closed_until:
                self.early += 1
            elif self.good > 0 or self.closed == self.periods:
                self.good -= 1
                return GOOD
            else:
                self.closed += 1
                # The seconds count from the moment at which the walk began, which is earlier.
                self.closed_until = now + self.seconds / 2
            return reply("", f"Retry-After: {self.seconds}", status=429)


def try_one_goes_first():
    """Of an archive that may be asked four at a time, one walk finds out whether it is still busy."""
    closing = Closing(good=6, periods=4, seconds=4)
    with contextlib.ExitStack() as stack:
        archive = Played(stack, closing)
        service = Service(stack, archives=[("a.example", archive.address)], originals=originals(30), workers=4,
                          keys={"tolerance": 9}, patience=60)
        same("none is lost", service.line(), told(1, 30, 30))
        same("it asked for patience four times", closing.closed, 4)
        holds(f"and but for what was under way at the first, {closing.early}, nothing came meanwhile", closing.early <= 3)


def try_earlier_answers():
    """What was asked before an archive said that it is busy, and is answered after, wakes it no sooner."""
    refused, times, refusals = threading.Event(), [], []

    def answer(target):
        times.append(time.monotonic())
        if target.endswith("/0"):
            refused.wait(60)
            time.sleep(0.5)
            return GOOD
        if not refused.is_set():
            refusals.append(time.monotonic())
            refused.set()
            return reply("", "Retry-After: 4", status=429)
        return GOOD

    with contextlib.ExitStack() as stack:
        archive = Played(stack, answer)
        service = Service(stack, archives=[("a.example", archive.address)], originals=originals(6), workers=2,
                          keys={"tolerance": 3}, patience=60)
        same("all are walked", service.line(), told(1, 6, 6))
        gap = times[2] - refusals[0]
        holds(f"after one of two was refused, nothing is asked for {gap:.1f} s", gap >= 2)


def try_odd_patience():
    """What is no number and no date counts as a minute, what is negative too, and whatever is further off as an hour. A 429
    that says nothing of it counts as a minute."""
    odd = ("soon", "-1", "Fri, 31 Dec 9999 23:59:59 GMT", "99999999999999999999999", "")
    for status, fields in [(503, [f"Retry-After: {text}"]) for text in odd] + [(429, [])]:
        with contextlib.ExitStack() as stack:
            archive = Played(stack, lambda _: reply("", *fields, status=status))
            other = Played(stack, lambda _: GOOD)
            Service(stack, archives=[("a.example", archive.address), ("b.example", other.address)], originals=originals(4),
                    keys={"tolerance": 9}, workers=1, patience=60)
            while len(other.heads) < 4:
                time.sleep(0.02)
            time.sleep(2)
            same(f"after {status} with {fields} it isn't asked, and the other is", (len(archive.heads), len(other.heads)), (1, 4))


def try_paces():
    """Keys of an archive's own, and of all."""
    with contextlib.ExitStack() as stack:
        slow, few, many = Timed(lambda _: GOOD), Timed(lambda _: GOOD, pause=0.1), Timed(lambda _: GOOD, pause=0.1)
        archives = [("slow.example", Played(stack, slow).address, {"every": 200, "at_once": 9}),
                    ("few.example", Played(stack, few).address, {"at_once": 1}),
                    ("many.example", Played(stack, many).address)]
        begun = time.monotonic()
        service = Service(stack, archives=archives, originals=originals(10), workers=8, keys={"at_once": 3})
        same("all are walked", service.line(), told(1, 30, 30))
        # A request comes at the archive some time after it was sent, so that the next may seem to be early.
        late = [moment - begun - 0.2 * number for number, moment in enumerate(slow.times)]
        holds(f"each request of one is 0.2 s behind the one before, {slow.times[-1] - begun:.1f} s in all", min(late) >= 0)
        same("it is asked one at a time, another by its own key, and the third by that of all", (slow.most, few.most), (1, 1))
        holds(f"which are {many.most} at once", many.most <= 3)


def try_pages():
    """The pages of one list are as far apart as their own archive asks for, and not as the archives before it do."""
    with contextlib.ExitStack() as stack:
        paged = Timed(lambda number: reply(f"{link(MEMENTO)},</{number}>;rel=timemap") if number < 3 else GOOD)
        archives = [("quick.example", Played(stack, Timed(lambda _: GOOD)).address), ("slow.example", Played(stack, paged).address, {"every": 500})]
        service = Service(stack, archives=archives, originals=originals(1))
        same("both are walked", service.line(), told(1, 2, 2))
        # The first request may have come some time after it was sent, but hardly so late.
        took = paged.times[-1] - paged.times[0]
        holds(f"four pages take 1.5 s: {took:.3f}", len(paged.times) == 4 and took >= 0.75)


def try_two_names():
    """An archive that is listed under two names is two to its limits: each of its names has its own."""
    with contextlib.ExitStack() as stack:
        asked = Timed(lambda _: GOOD, pause=0.1)
        archive = Played(stack, asked)
        service = Service(stack, archives=[("a.example", archive.address), ("b.example", archive.address)],
                          originals=originals(6), workers=8, keys={"at_once": 1})
        same("both names have a harvest of each", service.line(), told(1, 12, 12))
        holds(f"it is asked {asked.most} at once, one for each name", asked.most <= 2)
        same("for each original twice", sorted(archive.targets()), sorted(2 * [BASE + one for one in originals(6)]))


def try_ages():
    """What has mementos is asked for anew once it is `again` seconds old, and what has none once it is `again_none` seconds old."""
    for keys, asked in (({"again": 86_400, "again_none": 1}, [1, 3]), ({"again": 1, "again_none": 86_400}, [0, 2])):
        with contextlib.ExitStack() as stack:
            wanted = originals(4)
            having = [BASE + wanted[0], BASE + wanted[2]]
            archive = Played(stack, lambda target: GOOD if target in having else reply(status=404))
            service = Service(stack, archives=[("a.example", archive.address)], originals=wanted, rounds=2, pause=2, keys=keys)
            same("in the first round all are asked for", service.line(), told(1, 4, 4))
            same(f"and behind two seconds, by {keys}, those that are old", service.line(), told(2, 2, 2))
            same("which are these", sorted(archive.targets()[4:]), [BASE + wanted[k] for k in asked])


def main():
    for attempt in (try_dormant, try_waking, try_absent, try_absent_beside_busy, try_absent_at_first, try_refusing,
                    try_nothing_to_ask, try_paces, try_pages,
                    try_two_names, try_busy, try_plain_503, try_one_goes_first, try_earlier_answers, try_odd_patience, try_ages):
        attempt()
    print("archives are asked as often as they allow, and no job is lost")


if __name__ == "__main__":
    main()
