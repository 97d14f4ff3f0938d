"""Days of a service, by a seed: archives that are well, silent, busy or flapping, jobs in rounds, and readers who wish.

`Days(seed).play()` is a generator: it yields the words of commands, several at a time, and is sent what the program said to each.
The clock is a number here. It goes on to the next thing that happens, so a day takes a hundredth of a second.
"""
import heapq
import random
import re

from plans import ANSWERED, BUSY, FAILED, LATER, THERE, UNKNOWN, Plan, keep
from books import ANY, COPIES, NO_COPIES, NO_HARVEST, Book, Desk

SECOND, MINUTE, HOUR, DAY = 1_000, 60_000, 3_600_000, 86_400_000
TURN = re.compile(r"Some\(Turn \{ archive: (\d+), original: (\d+) \}\)")
ASK = re.compile(r"Some\(Ask \{ wish: (\d+), archive: (\d+) \}\)")
OUTCOME = re.compile(r"http://(\d+)\.example/ Outcome \{ is_found: (\w+), is_whole: (\w+), is_asked: (\w+) \}")
ORIGINAL = re.compile(r"http://(\d+)\.example/")
YES = {"true": True, "false": False}
# How an archive is for some hours, by the chances of what its walks come to.
WAYS = {
    "well": {ANSWERED: 90, THERE: 8, FAILED: 1, UNKNOWN: 1},
    "empty": {THERE: 1},
    "silent": {FAILED: 1},
    "busy": {BUSY: 3, ANSWERED: 1},
    "patient": {LATER: 2, ANSWERED: 1},
    "flapping": {ANSWERED: 3, THERE: 2, FAILED: 4, UNKNOWN: 1, BUSY: 1, LATER: 1},
}


def pair_of(pattern, said):
    found = pattern.fullmatch(said)
    return (int(found[1]), int(found[2])) if found else None


def number_of(said):
    return None if said == "None" else int(said.removeprefix("Some(").removesuffix(")"))


def original_of(said):
    found = ORIGINAL.fullmatch(said)
    return int(found[1]) if found else None


def outcome_of(said):
    found = OUTCOME.fullmatch(said)
    return (int(found[1]), tuple(YES[word] for word in found.groups()[1:])) if found else None


class Days:
    """A service over some days, and all that happens to it."""

    def __init__(self, seed):
        self.chance = chance = random.Random(seed)
        self.count = chance.choice([1, 2, 2, 3, 3, 4, 5])
        self.hands = chance.choice([1, 1, 2, 3, 4, 6])
        self.patience = chance.choice([10, 30, 60]) * SECOND
        self.limits = chance.choice([None, 1, 2, 3, 5]), chance.choice([MINUTE, 10 * MINUTE, HOUR, 6 * HOUR])
        self.paces = [(chance.choice([1, 1, 2, 3]), chance.choice([0, 0, 100, SECOND, 20 * SECOND, 5 * MINUTE])) for _ in range(self.count)]
        self.rounds, self.most = chance.randint(2, 6), chance.choice([1, 3, 6, 10])
        self.every = chance.choice([HOUR, 6 * HOUR, 12 * HOUR])
        self.length = self.rounds * self.every
        self.ways = [self.ways_of_one() for _ in range(self.count)]
        self.known = chance.choice([0, 0, 0.2, 0.8])
        # By how many seconds a clock that a gate reads may be late, and by how many milliseconds the time at which a walk ended.
        self.late, self.behind, self.offset = chance.choice([0, 0, 1, 70]), chance.choice([0, 0, 10_000]), 1_700_000_000
        self.now, self.walks, self.number = 0, [], 0
        self.out, self.wished, self.refused, self.is_round = 0, 0, {}, False
        self.remembered, self.again = chance.choice([2, 20]), chance.choice([60, 3600, 86400])
        self.in_a_minute = chance.choice([1, 1, 2, 60])
        self.visits = self.visits_of_all()
        self.shown = set()
        self.jobs = self.granted = 0

    def ways_of_one(self):
        """How an archive is: the times from which on it is so."""
        ways, time = [], 0
        while time < self.length + DAY:
            ways.append((time, self.chance.choice(list(WAYS))))
            time += int(self.chance.expovariate(1 / (self.chance.choice([1, 4]) * HOUR))) + MINUTE
        ways.append((time, "well"))
        return ways

    def visits_of_all(self):
        """When readers come, and which originals they ask for."""
        visits, time = [], 0
        originals = self.chance.choice([3, 10, 40])
        every = self.chance.choice([20 * SECOND, 2 * MINUTE, HOUR, 3 * HOUR])
        while len(visits) < 60:
            time += int(self.chance.expovariate(1 / every)) if self.chance.random() < 0.7 else self.chance.randint(0, 2 * SECOND)
            if time >= self.length:
                break
            visits.append((time, self.chance.randint(1, originals)))
        return visits

    # ---- walks ----

    def outcome(self, archive):
        """How long a walk that begins now takes, and how it ends: what the archive says, and until when it asks to be left alone."""
        ways = self.ways[archive]
        while len(ways) > 1 and ways[1][0] <= self.now:
            ways.pop(0)
        chances = WAYS[ways[0][1]]
        verdict = self.chance.choices(list(chances), chances.values())[0]
        took = self.patience if verdict == FAILED and self.chance.random() < 0.7 else self.chance.randint(50, 4 * SECOND)
        asked = self.chance.choice([0, SECOND, 30 * SECOND, 10 * MINUTE, HOUR])
        return took, verdict, self.now + took + asked if verdict in (BUSY, LATER) else 0

    def begin_walk(self, archive, job, wish):
        took, verdict, until = self.outcome(archive)
        self.number += 1
        heapq.heappush(self.walks, (self.now + took, self.number, archive, job, wish, verdict, until))

    def take_ended(self):
        """Takes in the walks that have ended by now."""
        while self.walks and self.walks[0][0] <= self.now:
            _, _, archive, job, wish, verdict, until = heapq.heappop(self.walks)
            lane, now = self.plan.archives[archive], max(0, self.now - self.chance.randint(0, self.behind))
            if wish is None:
                self.out -= 1
                said = yield [f"done {archive} {job} {now} {verdict} {until}", f"mood {archive}", f"left {archive}"]
                keep("the end of a walk that is out is taken", said[0] == "true", archive, job)
                lane.end(job, verdict, until, now)
                keep("what is left are the jobs without those that are done with and those that are out",
                     said[2] == str(len(lane.waiting)), archive, said[2], lane.waiting)
            else:
                self.wished -= 1
                answer = self.answer(verdict)
                said = yield [f"walked {archive} {now} {verdict} {until}", f"mood {archive}", f"answer {wish} {archive} {answer}"]
                keep("the end of a wish's walk is taken", said[0] == "true", archive, wish)
                lane.end_walk(verdict, until, now)
                self.desk.answer(wish, archive, answer, said[2])
            lane.judge(said[1], (verdict, until), now)

    def answer(self, verdict):
        if verdict == ANSWERED:
            return self.chance.choice([COPIES, NO_COPIES])
        return NO_COPIES if verdict == THERE else NO_HARVEST

    # ---- wishes ----

    def second(self):
        return self.offset + self.now // SECOND - self.chance.randint(0, self.late)

    def take_visits(self):
        """Readers who have come by now ask, and wish for what isn't shown or old."""
        while self.visits and self.visits[0][0] <= self.now:
            _, original = self.visits.pop(0)
            is_shown, second = original in self.shown, self.second()
            if self.chance.random() < 0.2:
                said = yield [f"settled {original} {second}", f"wished {original}"]
                self.book.settled(original, second, said[0])
                keep("a wish stands in the book until it is over", YES[said[1]] == (original in self.book.wishes), original)
            said = yield [f"wish {original} {int(is_shown)} {second}"]
            self.book.wish(original, is_shown, second, said[0])

    def grant(self):
        """Grants what waits, until nothing does."""
        while True:
            said = yield ["grant"]
            original = original_of(said[0])
            self.book.grant(original)
            if original is None:
                return
            if self.chance.random() < 0.05:
                yield [f"back {original}"]
                self.book.put_back(original)
                return
            spared = [self.chance.random() < 0.1 for _ in range(self.count)]
            yield [f"push {original} {' '.join(str(int(it)) for it in spared)}"]
            self.desk.push(original, spared, self.now)
            self.granted += 1

    def hand_wishes(self):
        """Grants wishes, and begins their walks as far as there are hands and archives may be asked."""
        if self.book.oldest() is not None:
            yield from self.grant()
        if not self.desk.wishes:
            return
        may = set(range(self.count))
        for _ in range(self.hands + self.count):
            free = self.hands - self.out - self.wished
            if free <= 0:
                break
            said = yield ["ready " + " ".join(str(int(number in may)) for number in range(self.count))]
            ask = pair_of(ASK, said[0])
            self.desk.ready(may, ask)
            if ask is None:
                break
            yield from self.begin_wish(*ask, free == 1, may)
        yield from self.skip()
        if self.desk.over() is not None or self.chance.random() < 0.1:
            yield from self.end_wishes()

    def begin_wish(self, place, archive, is_last, may):
        said = yield [f"walk {archive} {self.now} {int(is_last)}"]
        is_begun = YES[said[0]]
        self.plan.begin_walk(archive, self.now, is_last, is_begun)
        if not is_begun:
            may.discard(archive)
            self.refused.setdefault(archive, self.now)
            return
        said = yield [f"ask {place} {archive}", f"mood {archive}"]
        keep("an archive that is to be asked is", said[0] == "true", place, archive)
        self.plan.archives[archive].judge(said[1])
        self.refused.pop(archive, None)
        self.wished += 1
        self.begin_walk(archive, None, self.desk.ask(place, archive))

    def skip(self):
        """Lets no wish wait for an archive that is left alone, nor for one that couldn't be asked for one patience."""
        for archive, since in list(self.refused.items()):
            until = self.plan.archives[archive].until
            if until is not None and until > self.now + MINUTE or self.now - since >= self.patience:
                yield [f"skip {archive}"]
                self.desk.skip(archive)
                del self.refused[archive]

    def end_wishes(self):
        while True:
            said = yield ["ended"]
            ended = outcome_of(said[0])
            self.desk.ended(ended, self.now)
            if ended is None:
                return
            original, (is_found, is_whole, is_asked) = ended
            second = self.second()
            if is_found:
                self.shown.add(original)
            is_shown = original in self.shown
            yield [f"note {original} {int(is_shown)} {int(is_whole)} {second}", f"end {original} {int(is_asked)}"]
            self.book.note(original, is_shown, is_whole, second)
            self.book.end(original, is_asked)

    # ---- rounds ----

    def hand_out(self):
        """Hands out as many jobs as there are hands, or one if wishes stand on the desk. Whether there may be more."""
        for _ in range(100):
            if self.out + self.wished >= self.hands:
                return False
            said = yield [f"offer {self.now}"]
            turn = pair_of(TURN, said[0])
            self.plan.offered(turn, self.now)
            if turn is None:
                return False
            archive, original = turn
            if self.chance.random() < self.known:
                said = yield [f"pass {archive} {original}", f"mood {archive}"]
                self.plan.pass_over(archive, original)
            else:
                said = yield [f"hand {archive} {original} {self.now}", f"mood {archive}"]
                self.plan.hand_out(archive, original, self.now)
                self.out += 1
                self.jobs += 1
                self.begin_walk(archive, original, None)
            keep("a job that is offered is taken", said[0] == "true", archive, original, self.now)
            self.plan.archives[archive].judge(said[1])
            if self.desk.wishes:
                break
        return True

    def wait(self, until):
        """Goes on to the next thing that happens, at the latest to this time, if there is one."""
        said = yield [f"next {self.now}"]
        next_time = number_of(said[0])
        self.plan.next_time(next_time, self.now)
        times = [next_time, until, self.walks[0][0] if self.walks else None, self.visits[0][0] if self.visits else None]
        times += [self.look_at(archive, since) for archive, since in self.refused.items()]
        if self.book.oldest() is not None:
            times.append(self.now + SECOND)
        times = [time for time in times if time is not None]
        keep("a round goes on until it is over", times, self.now)
        self.now = max(self.now, min(times))

    def look_at(self, archive, since):
        """When to look again whether an archive may be asked for wishes."""
        lane = self.plan.archives[archive]
        time = max(lane.rest, lane.until or 0)
        return time if self.now < time < since + self.patience else since + self.patience

    def meddle(self):
        """Calls that can't be, which return so and change nothing."""
        archive, original = self.chance.randrange(self.count), self.chance.randint(0, self.most)
        lane = self.plan.archives[archive]
        words = [f"begin {original}"] if any(other.jobs_out for other in self.plan.archives) else []
        words += [f"done {archive} {original} {self.now} 2 0"] if not lane.out[original] else []
        words += [f"walked {archive} {self.now} 2 0"] if not lane.wished else []
        words += [f"pass {archive} {original}"] if lane.waiting[:1] != [original] else []
        words += [f"hand {archive} {original} {self.now}"] if lane.waiting[:1] != [original] or not lane.may_walk(self.now) else []
        said = yield [*words, f"done {self.count} 0 {self.now} 0 0", f"mood {archive}", f"left {archive}", f"dormant {archive}"]
        keep("a call that can't be returns so", set(said[:-3]) == {"false"}, words, said)
        keep("a call that can't be changes nothing", said[-3:-1] == [lane.told_mood(), str(len(lane.waiting))], words, said)
        keep("an archive is dormant as long as no walk of it finds out more", YES[said[-1]] == (lane.is_asleep and not lane.is_tried), said)
        if original not in self.book.wishes:    # Then nothing is noted.
            yield [f"note {original} {self.chance.randint(0, 1)} 1 {self.second()}", f"end {original} 0", f"back {original}"]

    def step(self):
        """All that is to be done at this time. Whether there may be more."""
        if self.chance.random() < 0.03:
            yield from self.meddle()
        yield from self.take_ended()
        yield from self.take_visits()
        yield from self.hand_wishes()
        more = False
        if self.is_round or self.chance.random() < 0.2:
            more = yield from self.hand_out()
            self.plan.look(self.now)
        return more

    def round(self):
        for _ in range(100_000):
            more = yield from self.step()
            said = yield [f"over {self.now}"]
            is_over = YES[said[0]]
            self.plan.is_over(is_over, self.now)
            if is_over:
                return
            if not more:
                yield from self.wait(None)
        keep("a round ends", False, self.now)

    def rest(self, until):
        """Serves wishes until a time."""
        while self.now < until:
            yield from self.step()
            yield from self.wait(until)

    def finish(self):
        """Serves wishes until all are over."""
        while True:
            yield from self.step()
            if not self.book.wishes and not self.walks:
                return
            yield from self.wait(None)

    def begin_round(self, originals):
        said = yield [f"begin {originals}"]
        self.plan.begin(originals, YES[said[0]])
        self.is_round = originals > 0

    def tell_book(self):
        """What the book is told before a round, and what it has counted."""
        self.book.listed = {original for original in range(1, 6) if self.chance.random() < 0.3}
        self.book.room = self.chance.choice([0, 2, ANY])
        if self.chance.random() < 0.1:
            self.offset += self.chance.choice([-DAY, DAY]) // SECOND
        said = yield ["listed " + " ".join(map(str, sorted(self.book.listed))), f"room {self.book.room}", "turned_away", "late"]
        keep("what is turned away and what is late is counted once",
             said[2:] == [str(self.book.turned_away), str(self.book.late)], said[2:])
        self.book.turned_away = self.book.late = 0

    def play(self):
        tolerance, pause = self.limits
        longest = self.patience + 4 * SECOND
        self.plan, self.book = Plan(self.paces, self.limits, 0, longest), Book(self.remembered, self.again, self.in_a_minute)
        self.desk = Desk(self.count, self.patience + 2 * (self.count + 2) * longest)
        paces = " ".join(f"{at_once} {every}" for at_once, every in self.paces)
        bounds = f"{self.remembered} {self.again} {self.in_a_minute}"
        yield [f"new {0 if tolerance is None else tolerance + 1} {pause} 0 {bounds} {paces}"]
        for number in range(self.rounds):
            yield from self.tell_book()
            yield from self.begin_round(self.chance.randint(1, self.most))
            yield from self.round()
            yield from self.begin_round(0)
            yield from self.rest((number + 1) * self.every)
        self.visits.clear()
        yield from self.finish()
