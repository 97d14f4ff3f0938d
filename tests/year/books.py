"""What `tests/year` holds a book of wishes and the jobs of granted wishes to, in words of its own: `Book` and `Desk` follow the calls
and what they return."""
from collections import Counter, OrderedDict

from plans import keep

MOST_WISHES, RETRY, ANY = 1000, 600, 2 ** 64 - 1
COPIES, NO_COPIES, NO_HARVEST = range(3)


def said_bool(is_so):
    return "true" if is_so else "false"


class Book:
    """What stands in a book: wishes in their order, and when originals were looked after."""

    def __init__(self, remembered, again, in_a_minute):
        self.remembered, self.again, self.in_a_minute = remembered, again, in_a_minute
        # By whether something of an original is shown: the second in which it was looked after; what was asked for last stands last.
        self.seconds = {True: OrderedDict(), False: OrderedDict()}
        # Each wish in its order: whether something was shown, whether it is granted, and the minute to which it counts.
        self.wishes, self.listed, self.room = OrderedDict(), set(), ANY
        self.minute, self.spent = 0, 0
        self.turned_away = self.late = 0

    def is_due(self, original, is_shown, second):
        last = self.seconds[is_shown].get(original)
        return last is None or abs(second - last) >= self.again

    def decision(self, original, is_shown, second):
        """What is decided on a wish, and why: it is looked after, or stands there already, or there is no room for it."""
        if not self.is_due(original, is_shown, second):
            return "Fresh"
        if is_shown and original in self.listed:
            return "Listed"
        if original in self.wishes:
            return "Waits"
        if len(self.wishes) >= MOST_WISHES or not is_shown and sum(not wish[0] for wish in self.wishes.values()) >= self.room:
            return "Full"
        return "Late" if self.spent_at(second) >= self.in_a_minute else "Added"

    def minute_of(self, second):
        """The minute to which a wish counts: a later one begins anew, and one before the last only if the clock was set back."""
        minute = second // 60
        return minute if minute > self.minute or minute < self.minute - 1 else self.minute

    def spent_at(self, second):
        return self.spent if self.minute_of(second) == self.minute else 0

    def wish(self, original, is_shown, second, said):
        wanted = self.decision(original, is_shown, second)
        keep("none is wished for twice, nor what was looked after a short time ago, few in a minute, and few in all",
             said == wanted, original, is_shown, second, said, wanted)
        if said == "Added":
            self.minute, self.spent = self.minute_of(second), self.spent_at(second) + 1
            self.wishes[original] = [is_shown, False, self.minute]
        if is_shown and said != "Listed":
            self.use(original)
        self.turned_away += said == "Full"
        self.late += said == "Late"

    def use(self, original):
        if original in self.seconds[True]:
            self.seconds[True].move_to_end(original)

    def settled(self, original, second, said):
        is_fresh = not self.is_due(original, True, second)
        keep("what is shown is settled if it was looked after a short time ago, or if rounds look after it",
             said == said_bool(is_fresh or original in self.listed), original, second, said)
        if is_fresh:
            self.use(original)

    def oldest(self):
        return next((original for original, wish in self.wishes.items() if not wish[1]), None)

    def grant(self, said):
        keep("the oldest wish that waits is granted, and none is lost", said == self.oldest(), said, self.oldest())
        if said is not None:
            self.wishes[said][1] = True

    def put_back(self, original):
        self.wishes[original][1] = False

    def note(self, original, is_shown, is_whole, second):
        if original in self.wishes:
            table = self.seconds[is_shown]
            table[original] = second if is_whole else max(0, second - max(0, self.again - RETRY))
            table.move_to_end(original)
            if len(table) > self.remembered:
                table.popitem(last=False)

    def end(self, original, is_asked):
        wish = self.wishes.pop(original, None)
        if wish and not is_asked and wish[2] == self.minute:
            self.spent = max(0, self.spent - 1)


class Desk:
    """How far granted wishes are, in their order."""

    def __init__(self, archives, bound):
        self.archives, self.bound, self.wishes = archives, bound, OrderedDict()
        self.first_since = 0    # since when the oldest is the oldest

    def push(self, original, spared, now):
        if not self.wishes:
            self.first_since = now
        waits = {number for number in range(self.archives) if not spared[number]}
        self.wishes[original] = Granted(waits)

    def ready(self, may, said):
        """The oldest wish that has an archive to ask among those that may be, and the first such archive."""
        found = ((place, min(asked)) for place, wish in enumerate(self.wishes.values()) if (asked := wish.waits & may))
        wanted = next(found, None)
        keep("the oldest wish goes first", said == wanted, said, wanted)

    def ask(self, place, archive):
        original = list(self.wishes)[place]
        wish = self.wishes[original]
        wish.asked[archive] += 1
        keep("for a wish each archive is asked once or never", wish.asked[archive] == 1 and archive in wish.waits, original, archive)
        wish.waits.discard(archive)
        wish.out.add(archive)
        return original

    def answer(self, original, archive, answer, said):
        wish = self.wishes.get(original)
        is_out = wish is not None and archive in wish.out
        keep("an archive that is asked answers once", said == said_bool(is_out), original, archive, said)
        if is_out:
            wish.out.discard(archive)
            wish.came[archive] = answer

    def skip(self, archive):
        for wish in self.wishes.values():
            if archive in wish.waits:
                wish.waits.discard(archive)
                wish.is_missed = True

    def over(self):
        """The oldest wish that is over."""
        return next((original for original, wish in self.wishes.items() if not wish.waits and not wish.out), None)

    def ended(self, said, now):
        """The oldest wish that is over is taken out: its original, and what came of it."""
        over = self.over()
        wanted = None if over is None else (over, self.wishes[over].outcome())
        keep("a wish ends once its archives have answered, or were skipped or spared", said == wanted, said, wanted)
        if said is not None:
            if over == next(iter(self.wishes)):
                keep("the oldest wish is over in time", now - self.first_since <= self.bound, over, self.first_since, now, self.bound)
                self.first_since = now
            del self.wishes[over]


class Granted:
    """A granted wish: the archives that are to be asked for it, those that are being asked, and what came."""

    def __init__(self, waits):
        self.waits, self.out, self.came, self.asked, self.is_missed = waits, set(), {}, Counter(), False

    def outcome(self):
        """Whether something was found, each archive gave a harvest, and one was asked."""
        came = self.came.values()
        return COPIES in came, not self.is_missed and NO_HARVEST not in came, bool(self.asked)
