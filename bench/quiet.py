#!/usr/bin/env python3
"""Finds the processor of this machine that others disturb least, and says whether it is quiet.

    bench/quiet.py               prints its number: of the one on which a fixed job takes the least time; where $QUIET_MS is set,
                                 once that is quiet, or $PATIENCE (3) seconds have passed
    bench/quiet.py --all         prints how many milliseconds the job takes on each
    bench/quiet.py --least       prints the fewest milliseconds that it takes within two seconds, on any
    bench/quiet.py --is-quiet    ends with status 1 unless this one is quiet: the job takes at most a seventh more than $QUIET_MS milliseconds
    bench/quiet.py --wait COUNT  waits until so many are quiet, or $PATIENCE seconds have passed
    bench/quiet.py --are-quiet COUNT    ends with status 1 unless so many are quiet

A virtual machine's processor is often half of a real one. Whoever has the other half slows it down, nearly twofold, for seconds or
for minutes, while the next one is left alone. So what runs in one thread is measured where least is lost, and again if that
processor isn't quiet any more when it ends.
"""
import functools
import os
import pathlib
import statistics
import sys
import time

sys.path.insert(0, str(pathlib.Path(__file__).resolve().parent.parent / "tools"))
from command import number_of, refuse, words_of

OPTIONS = "--all", "--least", "--is-quiet", "--wait", "--are-quiet"
TRIES = 5
PATIENCE = float(os.environ.get("PATIENCE", "3"))    # seconds


@functools.cache
def words():
    """What the fixed job sorts. Whoever only imports this doesn't hold it."""
    return [str(7919 * number % 100_003) for number in range(20_000)]


def job():
    """The milliseconds of a fixed job, of the processor."""
    given = words()
    begun = time.thread_time()
    dict.fromkeys(sorted(given))
    return 1000 * (time.thread_time() - begun)


def middle():
    """What the job takes here: the middle of some tries."""
    return statistics.median(job() for _ in range(TRIES))


def times():
    """What the job takes on each processor that this process may use."""
    taken = {}
    for processor in sorted(os.sched_getaffinity(0)):
        os.sched_setaffinity(0, {processor})
        taken[processor] = middle()
    os.sched_setaffinity(0, taken)
    return taken


def is_known():
    """Whether it is known what is quiet."""
    return "QUIET_MS" in os.environ


def is_quiet(taken):
    return taken <= float(os.environ["QUIET_MS"]) * 8 / 7


def quietest():
    """The processor that is disturbed least; where it is known what is quiet, one that is, if there is one soon."""
    given_up = time.monotonic() + PATIENCE
    while True:
        taken = times()
        best = min(taken, key=taken.get)
        if not is_known() or is_quiet(taken[best]) or time.monotonic() > given_up:
            return best


def are_quiet(count):
    return sum(map(is_quiet, times().values())) >= count


def wait_for(count):
    """Waits until so many are quiet, but not for ever."""
    given_up = time.monotonic() + PATIENCE
    while not are_quiet(count) and time.monotonic() < given_up:
        pass


def least():
    """The least that the job takes on any processor within two seconds."""
    begun, found = time.monotonic(), []
    while time.monotonic() < begun + 2:
        found.extend(times().values())
    return min(found)


def note(line):
    """Adds a line to the file that $TURNED names."""
    if "TURNED" in os.environ:
        with open(os.environ["TURNED"], "a", encoding="utf-8") as turned:
            turned.write(f"{line}\n")


def note_turn(is_disturbed):
    """Notes of a turn 1 if it was disturbed, otherwise 0."""
    note(int(is_disturbed))


def note_figure():
    """Notes that none of a figure's turns was quiet."""
    note("-")


def main():
    match words_of(__doc__, most=1, options=OPTIONS):
        case []:
            print(quietest())
        case ["--all"]:
            print(", ".join(f"{processor}: {taken:.1f} ms" for processor, taken in times().items()))
        case ["--least"]:
            print(f"{least():.2f}")
        case ["--is-quiet"] | ["--wait" | "--are-quiet", _] if "QUIET_MS" not in os.environ:
            refuse("$QUIET_MS isn't set, to what --least prints")
        case ["--is-quiet"]:
            sys.exit(not is_quiet(middle()))
        case ["--wait", count]:
            wait_for(number_of(count))
        case ["--are-quiet", count]:
            sys.exit(not are_quiet(number_of(count)))
        case _:
            refuse("these words don't go together")


if __name__ == "__main__":
    main()
