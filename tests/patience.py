#!/usr/bin/env python3
"""Archives and peers that keep a running service waiting: each round ends within bounds, and takes what the others bring.

    ./run --unproved && tests/patience.py
"""
import contextlib
import itertools
import select
import socket
import threading
import time

from playing import (BASE, MEMENTO, ORIGINAL, PATIENCE, Listener, Played, Service, comes_true, delta, dripped, entry, holds, lacks, link, reply,
                     same, told)

WAIT = 3    # seconds of patience, for a connection and a head
WHOLE = 10 * WAIT    # seconds of patience for a whole answer
# What takes the other patience, or the usual one of 60 seconds, is beyond these, and what a busy machine adds is not.
HEAD_BOUNDS, WHOLE_BOUNDS = (WAIT, WHOLE / 2), (WHOLE, 2 * WHOLE)
MOST_BYTES = 8_388_608    # of an archive's body
ARCHIVES = 4


class Slow(Listener):
    """Says the beginning of an answer, then a byte each second, and then nothing. Notes for how many seconds each connection was
    kept by who asked, and how many had passed by then since this was made, which was before anybody asked."""

    def __init__(self, stack, beginning, rest):
        self.beginning, self.rest, self.made, self.kept, self.passed = beginning, rest, time.monotonic(), [], []
        super().__init__(stack, self.tell)

    def tell(self, client):
        began = time.monotonic()
        while not client.recv(65536).endswith(b"\r\n\r\n"):
            pass
        with contextlib.suppress(OSError):
            client.sendall(self.beginning)
            for byte in self.rest:
                if select.select([client], [], [], 1)[0]:
                    break
                client.sendall(bytes([byte]))
            client.recv(1)
        ended = time.monotonic()
        self.passed.append(ended - self.made)
        self.kept.append(ended - began)


def rows(whole):
    """What is said in place of a whole answer: its beginning, what comes by a byte a second, and the bounds of the seconds for
    which that is waited for. The body is longer than can come within them."""
    return {
        "says nothing": (b"", b"", HEAD_BOUNDS),
        "gives a head by a byte a second": (b"", whole, HEAD_BOUNDS),
        "says nothing behind its head": (whole[:-1], b"", WHOLE_BOUNDS),
        "gives a body by a byte a second": (whole[:-200], whole[-200:], WHOLE_BOUNDS),
    }


def try_kept(what, slow, bounds):
    least, most = bounds
    holds(f"who {what} is left", comes_true(lambda: slow.kept, 2 * most))
    holds(f"after {slow.kept[0]:.1f} s, of {least} to {most:g}", least <= slow.passed[0] and slow.kept[0] < most)


def try_archives():
    """Each as one archive beside an honest one, all in one round."""
    kinds = rows(reply(link(MEMENTO) + " " * 200))
    with contextlib.ExitStack() as stack:
        slow = [Slow(stack, *said) for *said, _ in kinds.values()]
        honest = Played(stack, lambda _: reply(link(MEMENTO)))
        named = [(f"a{place}.example", archive.address) for place, archive in enumerate([*slow, honest])]
        service = Service(stack, archives=named, originals=[ORIGINAL], workers=len(named), patience=WAIT)
        for (what, (*_, bounds)), archive in zip(kinds.items(), slow):
            try_kept(f"as an archive {what}", archive, bounds)
        same("none of them gives a harvest, and the other does", service.line(), told(1, len(named), 1))
        same("what it brought is shown", service.shows(), MEMENTO)


def try_connecting():
    """An archive that takes no connection: its queue of connections is full."""
    with contextlib.ExitStack() as stack:
        full = stack.enter_context(socket.create_server(("127.0.0.1", 0), backlog=0))
        for _ in range(4):
            queued = stack.enter_context(socket.socket())
            queued.setblocking(False)
            queued.connect_ex(full.getsockname())
        time.sleep(0.5)
        with contextlib.suppress(TimeoutError), socket.create_connection(full.getsockname(), 0.5):
            lacks("this machine lets connections wait in a queue of none")
        honest, started = Played(stack, lambda _: reply(link(MEMENTO))), time.monotonic()
        service = Service(stack, archives=[("a.example", f"http://127.0.0.1:{full.getsockname()[1]}"),
                                           ("b.example", honest.address)], originals=[ORIGINAL], workers=2, patience=WAIT)
        holds("the other archive is asked", comes_true(lambda: honest.heads))
        began = time.monotonic()
        same("an archive that takes no connection gives no harvest, and the other does", service.line(), told(1, 2, 1))
        ended = time.monotonic()
        least, most = HEAD_BOUNDS
        holds(f"{ended - began:.1f} s later, of {least} to {most:g}", least <= ended - started and ended - began < most)


def try_peers():
    """Each as one peer before an honest one, of a replica of its own."""
    text = delta(7, 0, 1, entry(ORIGINAL, MEMENTO)) + " " * 200
    kinds = rows(reply(text))
    with contextlib.ExitStack() as stack:
        honest = Played(stack, lambda _: reply(text.rstrip(" ")))
        slow = [Slow(stack, *said) for *said, _ in kinds.values()]
        services = [Service(stack, peers=[peer.address, honest.address], patience=WAIT) for peer in slow]
        for (what, (*_, bounds)), peer, service in zip(kinds.items(), slow, services):
            try_kept(f"as a peer {what}", peer, bounds)
            same("and the next is pulled", service.line(), told(1, 0, 0, 1))
            same("what the other brought is shown", service.shows(), MEMENTO)


def try_slow_but_sure():
    """What comes within the patience is taken, however slowly."""
    with contextlib.ExitStack() as stack:
        page = reply(link(MEMENTO))
        cut = len(page) - 4
        archive = Played(stack, lambda _: itertools.chain([page[:cut]], dripped(page[cut:])))
        service = Service(stack, archives=[("a.example", archive.address)], originals=[ORIGINAL], patience=WAIT)
        same("a body of which the last four bytes come one a second is a harvest", service.line(), told(1, 1, 1))
        same("and shown", service.shows(), MEMENTO)


def try_turns():
    """Archives come by turns: the walks that run at once are of as many archives as there are."""
    originals = [f"http://a.example/{k}" for k in range(3)]
    with contextlib.ExitStack() as stack:
        running, most, lock = [0] * ARCHIVES, [0] * ARCHIVES, threading.Lock()

        def answer_of(number):
            def answer(_):
                with lock:
                    running[number] += 1
                    most[number] = max(most[number], running[number])
                time.sleep(0.2)
                with lock:
                    running[number] -= 1
                return reply(link(MEMENTO))
            return answer

        archives = [Played(stack, answer_of(number)) for number in range(ARCHIVES)]
        named = [(f"a{number}.example", archive.address) for number, archive in enumerate(archives)]
        service = Service(stack, archives=named, originals=originals, workers=ARCHIVES)
        same("each archive is walked for each original", service.line(),
             told(1, len(originals) * ARCHIVES, len(originals) * ARCHIVES))
        same(f"of {ARCHIVES} workers one at a time asks each of {ARCHIVES} archives", most, [1] * ARCHIVES)
        for archive in archives:
            same("for each original once, in the order of the settings", archive.targets(), [BASE + one for one in originals])


def try_memory():
    """Answers of the most bytes: those of a batch of walks stand in memory, and not those of a round."""
    body = link(MEMENTO) + " " * (MOST_BYTES - len(link(MEMENTO)))
    count = 24
    with contextlib.ExitStack() as stack:
        archive = Played(stack, lambda _: reply(body))
        service = Service(stack, archives=[("a.example", archive.address)],
                          originals=[f"http://a.example/{k}" for k in range(count)], workers=2)
        same(f"{count} pages of {MOST_BYTES:,} bytes are harvests", service.line(), told(1, count, count))
        most = service.memory("VmHWM") * 1024
        holds(f"with two workers {most // 2 ** 20} MiB were held, and not {count} pages", most < count * MOST_BYTES // 2)


def try_equal_rounds():
    """Rounds that find what the round before found keep no lists of their own."""
    count, each = 2_000, 50
    body = reply(",".join(link(f"http://m.example/{k:060}") for k in range(each)))
    with contextlib.ExitStack() as stack:
        archive = Played(stack, lambda _: body)
        service = Service(stack, archives=[("a.example", archive.address)], workers=8, rounds=5, pause=1,
                          originals=[f"http://a.example/{k}" for k in range(count)])
        same(f"{count:,} lists of {each} mementos are harvested", service.line(), told(1, count, count))
        first = service.memory()
        for number in range(2, 6):
            same("and again", service.line(), told(number, count, count))
        grown = service.memory() - first
        holds(f"four more rounds add {grown} KiB to {first}, and no list of all", grown * 1024 < count * each * 50)


def try_other_rounds():
    """Rounds that bring other lists keep what the round before brought until they are published, and nothing older."""
    count, each, rounds = 2_000, 50, 6
    asked, is_over = itertools.count(), threading.Event()

    def address(number, k):
        return f"http://m.example/{number}/{k:060}"

    def answer(_):
        number = next(asked) // count
        if number == rounds:    # so that the memory is what it is between two rounds
            is_over.wait(PATIENCE)
        return reply(",".join(link(address(number, k)) for k in range(each)))

    with contextlib.ExitStack() as stack:
        archive = Played(stack, answer)
        stack.callback(is_over.set)
        service = Service(stack, archives=[("a.example", archive.address)], workers=8, rounds=rounds + 1, pause=1,
                          originals=[f"http://a.example/{k}" for k in range(count)])
        same(f"{count:,} lists of {each} mementos are harvested", service.line(), told(1, count, count))
        first = service.memory()
        for number in range(2, rounds + 1):
            same("and other ones", service.line(), told(number, count, count))
        grown, lists = service.memory() - first, count * each * (len(address(0, 0)) + 24) // 1024
        holds(f"five more rounds add {grown} KiB to {first}, for lists of {lists} KiB", grown < lists * 8 // 5)


def main():
    for attempt in (try_slow_but_sure, try_turns, try_memory, try_equal_rounds, try_other_rounds, try_connecting, try_archives,
                    try_peers):
        attempt()
    print("nobody kept a round waiting for longer than its patience")


if __name__ == "__main__":
    main()
