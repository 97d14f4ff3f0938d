#!/usr/bin/env python3
"""Writes the inputs of the benchmarks to standard output, always the same ones.

generate.py page N     an archive's page of N mementos, 61 seconds apart, with their parameters in one order
generate.py mixed N    another one: captures days apart, at any time of the day, with their parameters in mixed order
generate.py take N     a script that takes the first page, and asks for its TimeMap: above 1,000 mementos the index and all pages
generate.py take_mixed N  the same of the other page
generate.py map N      a script that takes the first page, and asks for its TimeMap or index alone
generate.py keys N     a script that takes one memento for each of N originals, one by one
generate.py world N    a script of N events over 16 replicas
generate.py state N    a state's text with N mementos, 100 in each entry
generate.py hostile N  a state's text with N entries of nothing, each of another archive and another original
generate.py revisions N  a state's text with one entry of N part revisions, each of another memento
"""
import sys
from email.utils import formatdate

ORIGINAL = "http://a.example/"
FIRST = 946684800


def date(second):
    return formatdate(second, usegmt=True)


def page(count):
    lines = [f'<{ORIGINAL}>; rel="original",']
    for k in range(count):
        lines.append(
            f'<http://m.example/{k}>; rel="memento"; datetime="{date(FIRST + 61 * k)}",'
        )
    return "\n".join(lines) + "\n"


MIXED = (
    'rel="memento"; datetime="{date}"',
    'datetime="{date}"; rel="memento"',
    'rel=memento; datetime="{date}"; type="text/html"',
    'type="text/html"; datetime="{date}"; rel="memento"; license="http://m.example/{k}/license"',
    'title="capture {k} of \\"a.example\\""; rel="memento"; datetime="{date}"',
)


def mixed_page(count):
    """Captures 1 to 9 days apart: few share their day with the one before, so nearly every date is read whole."""
    random = Random()
    day = FIRST
    lines = [f'<{ORIGINAL}>; rel="original",']
    for k in range(count):
        day += 86400 * (1 + random.below(9))
        params = MIXED[random.below(len(MIXED))].format(date=date(day + random.below(86400)), k=k)
        lines.append(f"<http://m.example/{k}>; {params},")
    return "\n".join(lines) + "\n"


PER_PAGE = 1000


def asked(count):
    """The commands that ask for the TimeMap of so many mementos: if they are many, for the index and each page."""
    pages = -(-count // PER_PAGE) if count > PER_PAGE else 0
    parts = [ORIGINAL, *(f"page/{number}/{ORIGINAL}" for number in range(1, pages + 1))]
    return "".join(f"ask 1 GET 0 /timemap/link/{part}\n" for part in parts)


def take(replica, archive, revision, original, body):
    return f"take {replica} {archive} {revision} http://arc.example/list {len(body)} {original}\n{body}\n"


def small_page(second, name):
    return f'<http://m.example/{name}>; rel="memento"; datetime="{date(second)}"'


class Random:
    """A linear congruential generator, so that the inputs never change."""

    def __init__(self):
        self.state = 1

    def below(self, bound):
        self.state = (self.state * 6364136223846793005 + 1442695040888963407) % 2**64
        return (self.state >> 33) % bound


def world(count, write):
    random = Random()
    sent = 0
    write("replicas 16 http://agg.example\n")
    for k in range(count):
        replica = 1 + random.below(16)
        kind = random.below(10)
        original = f"http://a.example/{random.below(20)}"
        if kind < 3:
            body = small_page(FIRST + random.below(10**8), f"{random.below(50)}")
            write(take(replica, f"arc{random.below(3)}", random.below(10), original, body))
        elif kind == 3 or sent == 0:
            write(f"send {replica}\n")
            sent += 1
        elif kind < 6:
            write(f"deliver {replica} {1 + random.below(sent)}\n")
        elif kind == 6 and random.below(50) == 0:
            write(f"restart {replica}\n")
        elif kind < 8:
            write(f"map {replica} {original}\n")
        else:
            write(f"gate {replica} {original} {date(FIRST + random.below(10**8))}\n")


def main():
    kind, count = sys.argv[1], int(sys.argv[2])
    write = sys.stdout.write
    if kind == "page":
        write(page(count))
    elif kind == "mixed":
        write(mixed_page(count))
    elif kind in ("take", "take_mixed", "map"):
        write("replicas 1 http://agg.example\n")
        write(take(1, "arc.example", 1, ORIGINAL, mixed_page(count) if kind == "take_mixed" else page(count)))
        write(f"map 1 {ORIGINAL}\n" if kind == "map" else asked(count))
    elif kind == "keys":
        write("replicas 1 http://agg.example\n")
        for k in range(count):
            write(take(1, "arc.example", 1, f"http://a.example/{k:07d}", small_page(FIRST, k)))
    elif kind == "world":
        world(count, write)
    elif kind == "state":
        entries = count // 100
        write(f"memento-state 2\nentries {entries}\n")
        for e in range(entries):
            write(f"entry arc.example 1 1 http://a.example/{e:07d}\nat 1 100\n")
            for k in range(100):
                write(f"{FIRST + k} http://m.example/{e:07d}/{k:03d}\n")
        write("end\n")
    elif kind == "hostile":
        write(f"memento-state 2\nentries {count}\n")
        for e in range(count):
            write(f"entry a{e:06d} 1 1 http://a.example/{e:06d}\nat 1 0\n")
        write("end\n")
    elif kind == "revisions":
        write(f"memento-state 2\nentries 1\nentry a1 - {count} http://a.example/\n")
        for revision in range(count):
            write(f"at {revision} 1\n{FIRST} http://m.example/{revision}\n")
        write("end\n")
    else:
        sys.exit(__doc__)


if __name__ == "__main__":
    main()
