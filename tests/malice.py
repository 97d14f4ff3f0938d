#!/usr/bin/env python3
"""Archives and peers that mean harm to a running service: bodies without an end, or cut at each of their bytes, heads without
an end, answers byte by byte, and peers that say what isn't so.

    ./run --unproved && tests/malice.py
    tests/malice.py long        also with a delta without an end, one of the most bytes that it may have, and one of one more
"""
import contextlib
import itertools
import resource
import sys
import threading
import time

from playing import BASE, CHUNKED, MEMENTO, ORIGINAL, PATIENCE, Played, Service, chunk, delta, entry, holds, link, reply, same, told

LATER = "http://m.example/2"
PAGE = link(MEMENTO)
MOST_BYTES = 8_388_608    # of an archive's body
MOST_DELTA = 268_435_456    # of a peer's
IN_FLIGHT = 16_777_216    # bytes that two sockets may hold
MOST_NUMBER = 2 ** 64 - 1


def endless(piece):
    """Chunks without an end."""
    yield CHUNKED
    yield from itertools.repeat(chunk(piece))


def by_bytes(text, pause):
    for byte in text:
        time.sleep(pause)
        yield bytes([byte])


def try_endless():
    """No more of a body is read than may be, and what else is walked isn't lost."""
    rows = {
        "a body without an end": lambda: endless(b"," * 65_536),
        "one chunk without an end": lambda: itertools.chain([CHUNKED, b"%x\r\n" % MOST_NUMBER], itertools.repeat(b"," * 65_536)),
        "a body up to the connection's end, which doesn't come": lambda: itertools.chain(
            [b"HTTP/1.1 200 Said\r\n\r\n"], itertools.repeat(b"," * 65_536)),
        "a head without an end": lambda: itertools.chain(
            [b"HTTP/1.1 200 Said\r\n"], itertools.repeat(b"X-Filler: xxxxxxxx\r\n" * 1_000)),
        "a line of a head without an end": lambda: itertools.chain(
            [b"HTTP/1.1 200 Said\r\nX: "], itertools.repeat(b"x" * 65_536)),
    }
    last = "an honest page behind 1,000 interim answers"
    originals = {f"http://a.example/{k}": name for k, name in enumerate([*rows, last])}
    with contextlib.ExitStack() as stack:
        honest = b"HTTP/1.1 100 Go on\r\n\r\n" * 1_000 + reply(PAGE)
        archive = Played(stack, lambda target: rows.get(originals[target.removeprefix(BASE)], lambda: honest)())
        service = Service(stack, archives=[("arc.example", archive.address)], originals=originals, workers=4)
        same("of bodies and heads without an end none is a harvest", service.line(), told(1, len(originals), 1))
        for original, name in originals.items():
            sent = archive.sent[archive.targets().index(BASE + original)]
            if name == last:
                same(f"{name} is one", service.shows(original), MEMENTO)
            else:
                holds(f"{name} ended after {sent:,} bytes", sent <= MOST_BYTES + IN_FLIGHT and service.shows(original) is None)


def try_cut():
    """A body that is shorter than its head says, at each length; on the first page and on a further one."""
    chunked = CHUNKED + chunk(PAGE.encode()) + b"0\r\n\r\n"
    firsts = {f"http://a.example/{cut}": reply(PAGE[:cut], length=len(PAGE)) for cut in range(len(PAGE))}
    chunks = {f"http://b.example/{cut}": chunked[:cut] for cut in range(len(chunked))}
    to_the_end = b"HTTP/1.1 200 Said\r\n\r\n" + PAGE.encode()
    whole = {"http://a.example/": reply(PAGE), "http://b.example/": chunked, "http://c.example/": to_the_end}
    answers = {BASE + original: answer for original, answer in {**firsts, **chunks, **whole}.items()}
    with contextlib.ExitStack() as stack:
        archive = Played(stack, answers.get)
        service = Service(stack, archives=[("arc.example", archive.address)], originals=[*firsts, *chunks, *whole], workers=8)
        same(f"of {len(answers)} bodies, each of two cut at each byte, those that came whole are harvests", service.line(),
             told(1, len(answers), len(whole)))
        same("of these originals alone", [original for _, original, _ in service.entries()], sorted(whole))
        same("by length, in chunks, and up to the connection's end", {service.shows(original) for original in whole}, {MEMENTO})


def try_lost():
    """A further page that means harm is lost, and what the others say is a part harvest."""
    further = {
        "a page without an end": lambda: endless(b"," * 65_536),
        "a page cut at its last byte": lambda: reply(PAGE[:-1], length=len(PAGE)),
        "a redirect": lambda: reply(PAGE, "Location: /elsewhere", status=302),
        "what is no page": lambda: reply("no page"),
        "nothing": lambda: b"",
    }
    originals = {f"http://a.example/{k}": name for k, name in enumerate(further)}

    def answer(target):
        if target.startswith("/further/"):
            return further[originals["http://a.example/" + target.removeprefix("/further/")]]()
        return reply(f"{PAGE},</further/{target.rpartition('/')[2]}>;rel=timemap")

    with contextlib.ExitStack() as stack:
        archive = Played(stack, answer)
        service = Service(stack, archives=[("arc.example", archive.address)], originals=originals)
        same("each first page is a harvest", service.line(), told(1, len(originals), len(originals)))
        known = service.entries()
        for original, name in originals.items():
            same(f"{name} is lost, and the rest is a part", (service.shows(original), ("arc.example", original, "-") in known),
                 (MEMENTO, True))


def try_cut_deltas():
    """A delta that is cut at each byte, by its text and by its body."""
    text = delta(7, 0, 1, entry(ORIGINAL, MEMENTO))
    cuts = [text[:cut] for cut in range(len(text))]
    answers = [*(reply(cut) for cut in cuts), *(reply(cut, length=len(text)) for cut in cuts), reply(text)]
    with contextlib.ExitStack() as stack:
        peer = Played(stack, lambda _: answers[len(peer.heads) - 1])
        service = Service(stack, peers=[peer.address], rounds=len(answers))
        came = [service.line() for _ in answers]
        same(f"of {len(answers)} answers the last is taken", came, [told(number, 0, 0, int(number == len(answers)))
                                                                 for number in range(1, len(answers) + 1)])
        same("and each was asked for from the beginning", peer.targets(), ["/delta"] * len(answers))
        same("it is known alone", service.entries(), [("p.example", ORIGINAL, "5")])


def try_endless_delta():
    """No more of a delta is read than may be."""
    with contextlib.ExitStack() as stack:
        honest = reply(delta(7, 0, 1, entry(ORIGINAL, MEMENTO)))
        peer = Played(stack, lambda _: endless(b"\n" * 1_048_576) if len(peer.heads) == 1 else honest)
        service = Service(stack, peers=[peer.address], rounds=2)
        began = time.monotonic()
        same("a delta without an end isn't taken", service.line(), told(1, 0, 0, 0))
        holds(f"it ended after {peer.sent[0]:,} bytes and {time.monotonic() - began:.1f} s",
              MOST_DELTA <= peer.sent[0] <= MOST_DELTA * 1.001 + IN_FLIGHT)
        same("the next one is", service.line(), told(2, 0, 0, 1))
        same("and shown", service.shows(), MEMENTO)


def try_slow():
    """A peer and an archive that answer byte by byte: the round waits, and no gate does."""
    text = delta(7, 0, 1, entry("http://peer.example/", LATER))
    with contextlib.ExitStack() as stack:
        archive = Played(stack, lambda _: by_bytes(reply(PAGE), 0.005))
        peer = Played(stack, lambda _: by_bytes(reply(text), 0.005))
        service = Service(stack, archives=[("arc.example", archive.address)], originals=[ORIGINAL], peers=[peer.address],
                          ports=(0, 0))
        lines, answers = [], 0
        waiting = threading.Thread(target=lambda: lines.append(service.line()), daemon=True)
        waiting.start()
        while waiting.is_alive():
            service.shows(gate=0), service.shows(gate=1)
            answers += waiting.is_alive()
        same("answers that come by single bytes are taken", lines, [told(1, 1, 1, 1)])
        holds(f"and meanwhile each of two gates answered {answers} times", answers > 1)
        same("both are shown then", (service.shows(), service.shows("http://peer.example/")), (MEMENTO, LATER))


def try_incarnations():
    """A peer that is in another incarnation at each pull is asked from what it said last, and all that it said is united."""
    texts = [delta(number * 3 + 1, 0, number, entry(f"http://{number}.example/", MEMENTO)) for number in range(20)]
    with contextlib.ExitStack() as stack:
        peer = Played(stack, lambda _: reply(texts[len(peer.heads) - 1]))
        service = Service(stack, peers=[peer.address], rounds=len(texts))
        same("each of its deltas is taken", [service.line() for _ in texts], [told(k + 1, 0, 0, 1) for k in range(len(texts))])
        same("each pull asks from the one before", peer.targets(),
             ["/delta", *(f"/delta/{k * 3 + 1}/{k}" for k in range(len(texts) - 1))])
        same("and all is known", len(service.entries()), len(texts))


# What a peer says of its merges, what it is asked next, and whether that is taken.
NUMBERS = [
    ("the most merges that a number tells", (7, 0, MOST_NUMBER), f"/delta/7/{MOST_NUMBER}", True),
    ("fewer in the same incarnation", (7, 0, 3), f"/delta/7/{MOST_NUMBER}", True),
    ("what follows on these few", (7, 3, 4), f"/delta/7/{MOST_NUMBER}", True),
    ("none in another incarnation", (8, 0, 0), "/delta/8/0", True),
    ("what follows on merges that it doesn't have", (8, 1, 2), "/delta/8/0", False),
    ("more than it said before", (8, 0, 1_000), "/delta/8/1000", True),
    ("a start behind what it said", (8, 1_001, 1_002), "/delta/8/1000", False),
    ("a start behind its end", (8, 5, 4), "/delta/8/1000", False),
    ("the same again", (8, 0, 1_000), "/delta/8/1000", True),
]


def try_numbers():
    """A peer that tells of merges that it doesn't have loses nothing of the others', and is asked as it said."""
    with contextlib.ExitStack() as stack:
        def answer(_):
            number = len(peer.heads) - 1
            return reply(delta(*NUMBERS[number][1], entry(f"http://{number}.example/", MEMENTO)) if number < len(NUMBERS) else "")

        peer = Played(stack, answer)
        honest = Played(stack, lambda _: reply(delta(3, len(honest.heads) - 1, len(honest.heads), "")))
        service = Service(stack, peers=[peer.address, honest.address], rounds=len(NUMBERS) + 1)
        for number, (what, _, _, taken) in enumerate(NUMBERS, 1):
            same(f"{what}: {'taken' if taken else 'not taken'}, and an honest peer is", service.line(),
                 told(number, 0, 0, 1 + taken))
        service.line()
        same("each is asked for from where it said", peer.targets()[1:], [asked for _, _, asked, _ in NUMBERS])
        same("and only what was taken is known", [original for _, original, _ in service.entries()],
             [f"http://{number}.example/" for number, row in enumerate(NUMBERS) if row[3]])


def growing(number, mementos):
    """A delta whose one entry is of an original of its own and has so many mementos."""
    lines = "".join(f"{k} http://m.example/{number}/{k:08}/{'x' * 60}\n" for k in range(mementos))
    return delta(7, 0, number, f"entry p.example 5 1 http://{number}.example/\nat 5 {mementos}\n{lines}")


def try_growth():
    """A peer whose deltas bring more and more, to a service that gets no more than so much memory: what can't be held is
    refused, and what is held is still shown."""
    more, count = 24 * 1024 * 1024, 12
    with contextlib.ExitStack() as stack:
        is_limited = threading.Event()

        def answer(_):
            is_limited.wait(PATIENCE)
            return reply(growing(len(peer.heads), 5_000 * len(peer.heads)))

        peer = Played(stack, answer)
        service = Service(stack, peers=[peer.address], rounds=count)
        held = service.memory("VmData") * 1024 + more
        resource.prlimit(service.process.pid, resource.RLIMIT_DATA, (held, held))
        is_limited.set()
        rounds = [service.line().split()[6:] for _ in range(count)]
        taken = [number for number, line in enumerate(rounds, 1) if line[:2] == ["pulls", "1"]]
        holds(f"of {count} deltas, each longer than the one before, it takes {taken} in 24 MiB",
              taken[:1] == [1] and count not in taken)
        shown = [service.shows(f"http://{number}.example/") is not None for number in range(1, count + 1)]
        same("those are shown, and the others aren't", shown, [number in taken for number in range(1, count + 1)])
        holds("the program is still there", service.process.poll() is None)


def try_most():
    """The most bytes that a delta may have, and one more."""
    def sized(number, length):
        """A delta of so many bytes, in lines of the longest addresses."""
        count = length // 8_201 + 1    # a second of 8 digits, a space, an address of at most 8,192 bytes and the end of a line
        head = (f"memento-delta 2\nfrom 7 0 {number}\nentries 1\nentry p.example 5 1 http://{number}.example/\n"
                f"at 5 {count}\n").encode()
        each, more = divmod(length - len(head) - len(b"end\n") - 10 * count, count)
        front = f"http://m.example/{number}/"
        yield head
        for k in range(count):
            yield f"{10_000_000 + k} {front.ljust(each + (k < more), 'x')}\n".encode()
        yield b"end\n"

    for number, (length, taken) in enumerate([(MOST_DELTA, 1), (MOST_DELTA + 1, 0)], 1):
        with contextlib.ExitStack() as stack:
            head = f"HTTP/1.1 200 Said\r\nContent-Length: {length}\r\n\r\n".encode()
            peer = Played(stack, lambda _: itertools.chain([head], sized(number, length)))
            service = Service(stack, peers=[peer.address])
            began = time.monotonic()
            same(f"a delta of {length:,} bytes is {'' if taken else 'not '}taken", service.line(), told(1, 0, 0, taken))
            print(f"after {time.monotonic() - began:.1f} s, with {service.memory() // 1024} MiB held")
            holds("and shown as is said", (service.shows(f"http://{number}.example/") is not None) == bool(taken))


def main():
    attempts = [try_endless, try_cut, try_lost, try_cut_deltas, try_slow, try_incarnations, try_numbers, try_growth]
    if sys.argv[1:] == ["long"]:
        attempts += [try_endless_delta, try_most]
    for attempt in attempts:
        attempt()
    print("no archive and no peer brought more than what it may, and what the others brought was kept")


if __name__ == "__main__":
    main()
