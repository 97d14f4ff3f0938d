#!/usr/bin/env python3
"""Writes a script about a list of 1,001 mementos, and what its replay has to write.

    tests/scripts/paged.py FOLDER      writes FOLDER/paged.replay and FOLDER/paged.expected

The texts are made here from RFC 7089 (sections 5 and 5.1.2) and the repository's rule of 1,000 mementos on a page, by no code of
the product. Two lengths, counted apart, are compared.
"""
import pathlib
import sys
from datetime import datetime, timezone

BASE, ORIGINAL = "http://agg.example", "http://a.example/"
FIRST = 946684800
PER_PAGE = 1000


def mementos(count):
    return [(FIRST + k, f"http://m.example/{k:04}") for k in range(count)]


def imf(second):
    return datetime.fromtimestamp(second, timezone.utc).strftime("%a, %d %b %Y %H:%M:%S GMT")


def listing(address, relation, held):
    return (f'<{address}>; rel="{relation}"; type="application/link-format"; '
            f'from="{imf(held[0][0])}"; until="{imf(held[-1][0])}"')


def text(address, held, lines):
    head = [f'<{ORIGINAL}>; rel="original"', f'<{BASE}/timegate/{ORIGINAL}>; rel="timegate"', listing(address, "self", held)]
    return ",\n".join(head + lines) + "\n"


def line(memento, whole):
    relation = " ".join(["first"] * (memento == whole[0]) + ["last"] * (memento == whole[-1]) + ["memento"])
    return f'<{memento[1]}>; rel="{relation}"; datetime="{imf(memento[0])}"'


def timemap(whole):
    return text(f"{BASE}/timemap/link/{ORIGINAL}", whole, [line(m, whole) for m in whole])


def page_address(number):
    return f"{BASE}/timemap/link/page/{number}/{ORIGINAL}"


def stretch(whole, number):
    return whole[PER_PAGE * (number - 1):PER_PAGE * number]


def page(whole, number):
    held = stretch(whole, number)
    return text(page_address(number), held, [line(m, whole) for m in held])


def index(whole):
    numbers = range(1, -(-len(whole) // PER_PAGE) + 1)
    lines = [listing(page_address(k), "timemap", stretch(whole, k)) for k in numbers]
    return text(f"{BASE}/timemap/link/{ORIGINAL}", whole, lines)


def body(whole):
    """What an archive that lists all on one page answers."""
    return ",\n".join(f'<{uri}>; rel="memento"; datetime="{imf(at)}"' for at, uri in whole)


def reply(status, kind, text, sent=True):
    return f"reply {status}\nContent-Type: {kind}\nbody {len(text) if sent else 0}\n{text if sent else ''}"


def plain(status, text):
    return reply(status, "text/plain", text)


def links(text, sent=True):
    return reply(200, "application/link-format", text, sent)


def take(revision, whole):
    text = body(whole)
    return f"take 1 arc.example {revision} http://arc.example/list {len(text)} {ORIGINAL}\n{text}\n"


def ask(method, part):
    return f"ask 1 {method} 0 /timemap/link/{part}\n"


def main(folder):
    long, full, one = mementos(1001), mementos(1000), mementos(1)
    none, missing, bad = plain(404, "no memento\n"), plain(404, "no such page\n"), plain(400, "bad original\n")
    steps = [
        (f"replicas 1 {BASE}\n", ""),
        (ask("GET", f"page/1/{ORIGINAL}"), none),
        (ask("GET", f"page/0/{ORIGINAL}"), none),
        (take(1, long), "taken 1001 0 0\n"),
        (f"map 1 {ORIGINAL}\n", links(index(long))),
        (ask("HEAD", ORIGINAL), links(index(long), sent=False)),
        (ask("GET", f"page/1/{ORIGINAL}"), links(page(long, 1))),
        (ask("GET", f"page/2/{ORIGINAL}"), links(page(long, 2))),
        (ask("HEAD", f"page/2/{ORIGINAL}"), links(page(long, 2), sent=False)),
        (ask("GET", f"page/3/{ORIGINAL}"), missing),
        (ask("GET", f"page/0/{ORIGINAL}"), missing),
        (ask("HEAD", f"page/3/{ORIGINAL}"), plain(404, "")),
        (ask("GET", f"page/18446744073709551615/{ORIGINAL}"), missing),
        (ask("GET", f"page/18446744073709551616/{ORIGINAL}"), bad),
        (ask("GET", f"page/02/{ORIGINAL}"), bad),
        (ask("GET", f"page/{ORIGINAL}"), bad),
        (ask("GET", "page/2/nonsense"), bad),
        (ask("GET", "page/2"), bad),
        (ask("GET", "page/1/http://b.example/"), none),
        (take(2, full), "taken 1000 0 0\n"),
        (f"map 1 {ORIGINAL}\n", links(timemap(full))),
        (ask("GET", f"page/1/{ORIGINAL}"), links(page(full, 1))),
        (ask("GET", f"page/2/{ORIGINAL}"), missing),
        (take(3, one), "taken 1 0 0\n"),
        (ask("GET", f"page/1/{ORIGINAL}"), links(page(one, 1))),
        (ask("GET", "page/1/HTTP://A.Example:80/#x"), links(page(one, 1))),
        (ask("HEAD", f"page/1/{ORIGINAL}"), links(page(one, 1), sent=False)),
    ]
    if (len(index(long)), len(page(long, 2))) != (643, 369):
        raise SystemExit("the texts made here are not of the lengths that were counted")
    pathlib.Path(folder, "paged.replay").write_text("".join(asked for asked, _ in steps))
    pathlib.Path(folder, "paged.expected").write_text("".join(said for _, said in steps))


if __name__ == "__main__":
    main(sys.argv[1])
