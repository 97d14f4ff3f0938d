#!/usr/bin/env python3
"""A simulated year: schedules of rounds and books of wishes over days of jobs, of silent, busy and flapping archives and of readers,
thousands of runs by a clock that is a number. Each run keeps to the rules: no job is lost and none is done twice, no archive is
asked sooner or more than it may be, and no job and no wish waits without an end (tests/year says them all).

    ./run --unproved year_probe && tests/year.py
    tests/year.py SEED           replays one run, and prints what was called and said
    tests/year.py SEED COUNT     tries so many seeds from this one on

A run is made of its seed alone. At the first that breaks a rule the test prints its seed and the rule, and ends with status 1.
"""
import pathlib
import subprocess
import sys
import time

sys.path.append(str(pathlib.Path(__file__).resolve().parent / "year"))
from days import DAY, Days
from programs import program
from plans import Broken

COUNT = 2000
# How many runs go on at once: what they ask for is written, and what the program says is read, once for all of them.
TOGETHER = 250


class Program:
    """The program, which makes the calls."""

    def __init__(self):
        self.process = subprocess.Popen([program("year_probe")], stdin=subprocess.PIPE, stdout=subprocess.PIPE, bufsize=0)

    def say(self, words):
        """What is said to these commands."""
        self.process.stdin.write(("\n".join(words) + "\n\n").encode())
        said, lines = b"", 0
        while lines < len(words):
            piece = self.process.stdout.read(1 << 20)
            if not piece:
                sys.exit(f"the program ended with status {self.process.wait()}")
            said += piece
            lines += piece.count(b"\n")
        return said.decode().split("\n")[:-1]


class Run:
    """A run under way: what it asks for next."""

    def __init__(self, seed, place):
        self.seed, self.place, self.days, self.calls = seed, place, Days(seed), 0
        self.play = self.days.play()
        self.asks = next(self.play)

    def words(self):
        return [f"{self.place} {words}" for words in self.asks]

    def take(self, said):
        """Goes on with what was said. Whether the run is over."""
        self.calls += len(said)
        try:
            self.asks = self.play.send(said)
        except StopIteration:
            return True
        except Broken as broken:
            print(f"FAILS: seed {self.seed}: {broken}", flush=True)
            sys.exit(f"tests/year.py {self.seed} replays it")
        return False


def replay(seed):
    """Prints all that is called and said in a run."""
    spoken, run = Program(), Run(seed, 0)
    over = False
    while not over:
        said = spoken.say(run.words())
        for words, answer in zip(run.asks, said):
            print(f"{run.days.now:>10} {words}: {answer}")
        over = run.take(said)
    print(f"seed {seed}: {run.days.jobs} jobs and {run.days.granted} wishes in {run.days.now / DAY:.1f} days keep to the rules")


def try_seeds(first, count):
    """Tries these seeds: how many calls, jobs and wishes they made, and how many days passed in them."""
    spoken, seeds = Program(), iter(range(first, first + count))
    runs = [Run(seed, place) for place, seed in zip(range(TOGETHER), seeds)]
    calls = jobs = wishes = days = 0
    while runs:
        words = [run.words() for run in runs]
        said = iter(spoken.say([line for lines in words for line in lines]))
        going = []
        for run in runs:
            if not run.take([next(said) for _ in run.asks]):
                going.append(run)
                continue
            calls, jobs, wishes, days = calls + run.calls, jobs + run.days.jobs, wishes + run.days.granted, days + run.days.now / DAY
            if (seed := next(seeds, None)) is not None:
                going.append(Run(seed, run.place))
        runs = going
    return calls, jobs, wishes, days


def main():
    words = sys.argv[1:]
    if "--help" in words:
        return print(__doc__.rstrip())
    if len(words) == 1:
        return replay(int(words[0]))
    first, count = map(int, words) if words else (0, COUNT)
    begun = time.process_time()
    calls, jobs, wishes, days = try_seeds(first, count)
    took = time.process_time() - begun
    print(f"{count} runs over {days / 365:.1f} years in all: {jobs} jobs and {wishes} wishes in {calls} calls keep to the rules "
          f"({took:.0f} s of a processor, without the program's)")


if __name__ == "__main__":
    main()
