#!/usr/bin/env python3
"""Two running programs that pull from each other: after a round each they answer alike, and a pull that follows on a cursor
brings no entries if nothing has changed.

    ./run --unproved && tests/peers.py

Each pulls through a relay of this script, which notes what was asked and how the answer begins.
"""
import contextlib

from playing import BASE, ORIGINAL, Relay, Service, free_ports, get, holds, start_archive

LONG = 3600


def serve(stack, name, gate, peer, pause):
    archive = f"http://127.0.0.1:{start_archive(stack)}"
    return Service(stack, archives=[(f"{name}.test", archive)], originals=[ORIGINAL], peers=[peer], ports=[gate], rounds=1_000_000,
                   pause=pause)


def next_round(service):
    """What the next round came to, but for its number."""
    return service.line().partition(" jobs ")[2].strip()


def try_pulls(stack):
    first, second = free_ports(2)
    to_first, to_second = Relay(stack, first), Relay(stack, second)

    early = serve(stack, "early", first, to_second.address, 1)
    holds("with no peer there is nothing to pull", next_round(early) == "1 harvests 1 pulls 0 published")
    late = serve(stack, "late", second, to_first.address, LONG)
    holds("who comes later pulls what the first knows", next_round(late) == "1 harvests 1 pulls 1 published")
    target = BASE + ORIGINAL
    while (came := next_round(early)) == "1 harvests 1 pulls 0 published" or get(first, target)[2].count('datetime="') < 80:
        pass
    holds("and is pulled from", came == "1 harvests 1 pulls 1 published")

    status, _, text = get(first, target)
    holds("both then have the TimeMap of both archives", status == 200 and text.count('datetime="') == 80)
    holds("to the byte", get(second, target) == (status, None, text))
    holds("who holds no cursor asks for all", to_first.seen[0][0] == "/delta")

    whole = next(k for k, (_, lines) in enumerate(to_second.seen) if lines[2:] == ["entries 2"])
    incarnation, begin, number = to_second.seen[whole][1][1].removeprefix("from ").split()
    holds("and gets the entries of both archives, from the beginning", begin == "0")
    holds("who has pulled pulls again", next_round(early) == "1 harvests 1 pulls 1 published")
    path, lines = to_second.seen[whole + 1]
    holds("from the cursor", path == f"/delta/{incarnation}/{number}")
    holds("and gets no entries", lines == ["memento-delta 2", f"from {incarnation} {number} {number}", "entries 0"])
    holds("both still answer alike", get(first, target) == get(second, target))


def main():
    with contextlib.ExitStack() as stack:
        try_pulls(stack)
    print("two programs that pulled from each other answered alike, and the second pull brought no entries")


if __name__ == "__main__":
    main()
