"""What `tests/year` holds a schedule of rounds to: the rules, in words of their own, over what happens call by call.

`Plan` follows a schedule, and `Archive` one of its archives. Neither looks into the program: both know what was called, at which
time, and what was returned. A rule that is broken is a `Broken`, whose text names the rule.
"""
import re
from collections import Counter

LAST = 2 ** 64 - 1    # the latest time there is
ANSWERED, THERE, FAILED, UNKNOWN, BUSY, LATER = range(6)
NAMES = ("Answered", "There", "Failed", "Unknown", "Busy", "Later")
MOOD = re.compile(r"Some\((\w+)(?: \{ (\w+): (\d+)(?:, (\w+): (\d+))? \})?\)")


class Broken(Exception):
    """A rule that a run broke."""


def later(now, span):
    return min(now + span, LAST)


def keep(rule, is_kept, *what):
    if not is_kept:
        raise Broken(f"{rule}: {', '.join(map(str, what))}")


class Archive:
    """What happened to an archive, and what it may be asked by that."""

    def __init__(self, number, pace, limits):
        self.number, (self.at_once, self.every) = number, pace
        self.tolerance, self.pause = limits
        # The round's jobs that wait, in the order in which they are to be handed out: first those that come again.
        self.waiting, self.come_first = [], 0
        self.originals, self.out, self.jobs_out, self.wished = 0, Counter(), 0, 0
        self.turns, self.comes, self.settled = Counter(), Counter(), Counter()
        self.rest, self.wishes_since_job, self.wishes_beside_jobs = 0, 0, 0
        # When it may be asked: it failed so often in a row; it is left alone until a time (`until`), because it named it or since it
        # is asleep; or one walk, which is out, finds out how it is (`is_tried`).
        self.row, self.until, self.named, self.is_asleep, self.is_tried = 0, None, 0, False, False
        # What the laws of moods speak of: see `heed` and `judge`.
        self.mood = ("Awake", 0, 0)
        self.failures, self.straight = 0, None
        self.left_alone_until, self.asked_until, self.is_alone = 0, 0, False

    # ---- the round's jobs ----

    def begin(self, originals):
        self.waiting, self.come_first, self.originals = list(range(originals)), 0, originals
        self.turns, self.comes, self.settled = Counter(), Counter(), Counter()
        if not originals:
            self.wishes_beside_jobs = 0

    def walks(self):
        return self.jobs_out + self.wished

    def may_walk(self, now):
        if self.walks() >= self.at_once or self.rest > now or self.is_tried:
            return False
        return self.until is None or self.until <= now

    def is_ready(self, now):
        return bool(self.waiting) and self.may_walk(now)

    def next_time(self, now):
        """The later time at which a job may be handed out, if nothing else happens."""
        if not self.waiting or self.walks() >= self.at_once or self.is_tried:
            return None
        time = max(self.rest, self.until or 0)
        return time if time > now else None

    def take_turn(self, original):
        """A job is handed out or passed over."""
        self.turns[original] += 1
        keep("no job is handed out or passed over twice, but once more for each time that its archive was busy",
             self.turns[original] <= 1 + self.comes[original], self.number, original)
        keep("jobs come in order, those that come again first", self.waiting[:1] == [original], self.number, original, self.waiting)
        del self.waiting[0]
        self.come_first = max(0, self.come_first - 1)
        self.wishes_since_job = self.wishes_beside_jobs = 0

    def hand_out(self, original, now):
        self.take_turn(original)
        self.out[original] += 1
        self.jobs_out += 1
        self.ask(now)

    def pass_over(self, original):
        self.take_turn(original)
        self.settled[original] += 1

    def end(self, original, verdict, until, now):
        keep("a walk ends once", self.out[original] > 0, self.number, original)
        self.out[original] -= 1
        self.jobs_out -= 1
        if verdict in (BUSY, LATER) and self.tolerance is not None:
            self.comes[original] += 1
            self.waiting.insert(self.come_first, original)
            self.come_first += 1
        else:
            self.settled[original] += 1
        self.meet(now)
        self.heed(verdict, until, now)

    def begin_walk(self, now):
        if self.waiting:
            self.wishes_beside_jobs += 1
            keep("no job waits behind more than one wish", self.wishes_beside_jobs <= 1, self.number, now)
        else:
            self.wishes_beside_jobs = 0
        self.wishes_since_job += 1
        self.wished += 1
        self.ask(now)

    def end_walk(self, verdict, until, now):
        self.wished -= 1
        self.meet(now)
        self.heed(verdict, until, now)

    def is_over(self, now):
        """Nothing is out, and nothing is left, unless the archive is asleep until a later time."""
        return not self.jobs_out and (not self.waiting or (self.is_asleep and not self.is_tried and now < self.until))

    def close(self, now):
        """Each job of the round that is over was done with just once, or the archive is asleep until a later time."""
        if self.is_asleep and not self.is_tried and now < self.until:
            return
        lost = [original for original in range(self.originals) if self.settled[original] != 1]
        keep("no job is lost, and none is done twice", not lost, self.number, lost, dict(self.settled))

    # ---- when it is asked ----

    def ask(self, now):
        """It is asked at this time: what forbids that?"""
        keep("no more walks are out than may be", self.walks() <= self.at_once, self.number, self.walks())
        keep("an archive isn't asked within the span of its pace", self.rest <= now, self.number, now, self.rest)
        keep("an archive that was put aside or dormant is asked by one walk first", not self.is_alone, self.number, now)
        keep("an archive isn't asked before the time that it named", self.asked_until <= now, self.number, now, self.asked_until)
        keep("an archive that is put aside or dormant waits", self.left_alone_until <= now, self.number, now, self.left_alone_until)
        self.is_alone = self.mood[0] in ("Aside", "Dormant")
        self.left_alone_until = self.asked_until = 0
        self.meet(now)
        if self.until is not None:
            self.until, self.is_tried = None, True

    def meet(self, now):
        if self.every:
            self.rest = max(self.rest, later(now, self.every))

    def heed(self, verdict, until, now):
        """A walk has ended: what the archive is then."""
        named = until if verdict in (BUSY, LATER) else 0
        is_probe, rests = self.is_asleep and self.is_tried, self.until is not None
        if rests:    # The walk began before the archive was left alone.
            if verdict == ANSWERED:
                self.row = 0
                self.until = self.named if self.is_asleep else self.until
                self.is_asleep = False
            else:
                self.until, self.named = max(self.until, named), max(self.named, named)
            return
        was_tried, self.is_tried = self.is_tried, False
        if verdict == ANSWERED:
            self.row, self.is_asleep = 0, False
        elif verdict in (THERE, LATER):
            self.row = (self.tolerance or 0) if is_probe else self.row
            self.is_asleep = False
            self.put_aside(named, verdict == LATER)
        elif is_probe:
            self.sleep(named, now)
        elif verdict == UNKNOWN:
            self.until = 0 if was_tried else None
        else:
            self.row = later(self.row, 1)
            if self.tolerance is not None and self.row >= self.tolerance:
                self.sleep(named, now)
            else:
                self.put_aside(named, verdict == BUSY)

    def put_aside(self, named, is_asked):
        self.until = named if is_asked and self.tolerance is not None else None

    def sleep(self, named, now):
        self.is_asleep, self.named, self.until = True, named, max(named, later(now, self.pause))

    # ---- what is said of it ----

    def told_mood(self):
        """What it is by all that happened to it, as the program says it."""
        if self.is_asleep:
            return "Some(Probed)" if self.is_tried else f"Some(Dormant {{ until: {self.until}, named: {self.named} }})"
        if self.is_tried:
            return f"Some(Tried {{ failed: {self.row} }})"
        if self.until is not None:
            return f"Some(Aside {{ until: {self.until}, failed: {self.row} }})"
        return f"Some(Awake {{ failed: {self.row} }})"

    def judge(self, said, end=None, now=0):
        """Looks at the mood that the schedule tells after a call, by the laws of moods. `end` is how a walk ended, if one did."""
        found = MOOD.fullmatch(said)
        keep("each archive has a mood", found, self.number, said)
        before, self.mood = self.mood, (found[1], int(found[3] or 0), int(found[5] or 0))
        if end:
            self.judge_end(*end, before, now)
        sleeps = self.mood[0] in ("Dormant", "Probed")
        keep("few failures are borne", not sleeps or self.failures >= (self.tolerance or 0), self.number, said, self.failures)
        if self.mood[0] in ("Aside", "Dormant"):
            self.left_alone_until = max(self.left_alone_until, self.mood[1])
        keep("an archive is what its walks told", said == self.told_mood(), self.number, said, self.told_mood(), end and NAMES[end[0]])

    def judge_end(self, verdict, until, before, now):
        self.is_alone = False
        named = until if verdict in (BUSY, LATER) else 0
        if named and self.tolerance is not None:
            self.asked_until = max(self.asked_until, named)
        if verdict == ANSWERED:
            self.failures, self.left_alone_until = 0, 0
            self.straight = None if before[0] in ("Aside", "Dormant") else 0
        elif verdict in (FAILED, BUSY):
            self.failures += 1
            self.straight = None if self.straight is None else self.straight + 1
            is_row = self.tolerance is not None and self.straight == self.tolerance
            if is_row or before[0] == "Probed":
                keep("failures in a row, and a probe that fails, make an archive dormant for the pause",
                     self.mood[0] == "Dormant" and self.mood[1] == max(named, later(now, self.pause)), self.number, self.mood, now)
        elif verdict in (THERE, LATER):
            keep("signs make no archive dormant",
                 self.mood[0] not in ("Dormant", "Probed") or before[0] == "Dormant", self.number, self.mood)
        if verdict in (BUSY, LATER):
            self.straight = None


class Plan:
    """What happened to a schedule."""

    def __init__(self, paces, limits, originals, longest):
        self.archives = [Archive(number, pace, limits) for number, pace in enumerate(paces)]
        self.first, self.is_wish_last, self.longest = 0, False, longest
        # For each archive, since when it has a job that may be handed out, and whose jobs went before meanwhile.
        self.ready_since, self.went_before = [None] * len(paces), [set() for _ in paces]
        for archive in self.archives:
            archive.begin(originals)

    def ready(self, now):
        return [archive.number for archive in self.archives if archive.is_ready(now)]

    def begin(self, originals, said):
        is_idle = not any(archive.jobs_out for archive in self.archives)
        keep("a round begins if no job is out, and else not", said == is_idle, said)
        if said:
            self.first = 0
            self.forget()
            for archive in self.archives:
                archive.begin(originals)

    def forget(self):
        for number in range(len(self.archives)):
            self.ready_since[number] = None
            self.went_before[number].clear()

    def offered(self, said, now):
        """The job that is offered: of the archives in a circle, the first that is ready."""
        count = len(self.archives)
        circle = [(self.first + step) % count for step in range(count)] if count else []
        wanted = next((number for number in circle if self.archives[number].is_ready(now)), None)
        keep("of the archives in a circle the first that is ready is asked, and none is passed by",
             said == (None if wanted is None else (wanted, self.archives[wanted].waiting[0])), said, wanted, now)

    def hand_out(self, number, original, now):
        self.archives[number].hand_out(original, now)
        for other in self.ready(now):
            if other != number and self.ready_since[other] is not None:
                keep("a job that may be handed out waits for one job of each other archive", number not in self.went_before[other],
                     number, other, now)
                self.went_before[other].add(number)
        self.serve(number, now)
        self.first, self.is_wish_last = number + 1, False

    def pass_over(self, number, original):
        self.archives[number].pass_over(original)
        self.is_wish_last = False

    def serve(self, number, now):
        """A job of the archive is handed out, in time."""
        since, bound = self.ready_since[number], 2 * len(self.archives) * self.longest
        keep("a job that may be handed out is, within the time of two walks for each archive", since is None or now - since <= bound,
             number, since, now, bound)
        self.ready_since[number] = None
        self.went_before[number].clear()

    def look(self, now):
        """Notes which archives have a job that may be handed out, and isn't yet."""
        for archive in self.archives:
            if not archive.is_ready(now):
                self.ready_since[archive.number] = None
                self.went_before[archive.number].clear()
            elif self.ready_since[archive.number] is None:
                self.ready_since[archive.number] = now

    def begin_walk(self, number, now, is_last, said):
        archive = self.archives[number]
        goes_job = is_last and self.is_wish_last and bool(self.ready(now))
        turn = not archive.waiting or not archive.wishes_since_job
        if said:
            keep("a job takes the last hand behind a wish's walk", not goes_job, number, now)
            keep("an archive's job goes behind a wish's walk", turn, number, now)
            keep("a walk begins if one may, by pace, number and mood", archive.may_walk(now), number, now, archive.told_mood())
            archive.begin_walk(now)
            self.is_wish_last = True
        else:
            keep("a wish waits for one job at most, and for none where there is none", goes_job or not turn or not archive.may_walk(now),
                 number, now)

    def next_time(self, said, now):
        times = [time for time in (archive.next_time(now) for archive in self.archives) if time is not None]
        keep("the time that is waited for is the first at which a job may be handed out",
             said == min(times, default=None), said, times, now)

    def is_over(self, said, now):
        keep("a round is over if no job is out and the rest is dormant, and else not",
             said == all(archive.is_over(now) for archive in self.archives), said, now)
        if said:
            for archive in self.archives:
                archive.close(now)
