#!/usr/bin/env python3
"""Deltas in parts: a replica learns all that a peer knows, part by part, whatever the peer merges meanwhile, and what a hostile peer sends
harms nothing.

    ./run --unproved && tests/parts.py
"""
import contextlib
import itertools
import re
import subprocess
import threading
import time

from playing import (GOOD, MEMENTO, ORIGINAL, PATIENCE, Played, Relay, Service, delta, entry, free_ports, get, holds, reply, same, silent,
                     until)

HIDDEN = re.compile(r"/part/(\d+)/(\d+)/([a-z0-9.-]+)/([0-9a-f]+)")
KEYS = {"publish": 1, "pull": 1, "parts": 1}
LAST = re.compile(r'^maplewrench_peer_last_delta_timestamp_seconds\{.*\} (\d+)$', re.M)
COUNTED = re.compile(r'^maplewrench_pull_parts_total\{peer="[^"]*",number="1"\} (\d+)$', re.M)


def place(number):
    """The archive and the original of an entry."""
    return f"p.example http://o.example/{number:05}"


def entries(*numbers, size=0, revision=5):
    """The lines of entries, in order, each with an address of so many bytes more."""
    return "".join(entry(f"http://o.example/{number:05}", f"http://m.example/{number:05}/{'x' * size}", revision=revision) for number in numbers)


def part(behind, until_, text):
    """A part behind one place and up to another; None where there is no place."""
    return f"memento-part 1\nbehind {behind or '-'}\nuntil {until_ or '-'}\n{text}"


def target(incarnation, start, number):
    """Where the part behind an entry stands."""
    archive, original = place(number).split()
    return f"/part/{incarnation}/{start}/{archive}/{original.encode().hex()}"


def receiver(stack, peer, **more):
    """A replica that asks this peer for parts. Its archive has nothing to say."""
    archive = Played(stack, silent)
    keys = {**KEYS, **more.pop("keys", {})}
    return Service(stack, archives=[("a.example", archive.address)], originals=[], peers=[peer.address], rounds=1_000_000, pause=1, patience=5,
                   keys=keys, **more)


def sender(stack, *, count, size, keys=None):
    """A replica that knows so many entries of so many bytes."""
    whole = delta(7, 0, 1, entries(*range(count), size=size))
    answers = {"/delta": reply(whole), "/delta/7/1": reply(delta(7, 1, 1))}
    knowing = Played(stack, lambda asked: answers.get(asked, reply(status=404)))
    archive = Played(stack, silent)
    service = Service(stack, archives=[("a.example", archive.address)], originals=[], peers=[knowing.address], rounds=1_000_000, pause=1,
                      patience=5, keys={"publish": 1, "pull": 1, **(keys or {})})
    until(f"the sender knows {count} entries", lambda: len(service.entries()) == count)
    return service


def try_all():
    """All that a peer knows comes in several parts, which are asked for one behind the other, and then only what is new."""
    with contextlib.ExitStack() as stack:
        knowing = sender(stack, count=4_000, size=1_000, keys={"parts": 1})
        relay = Relay(stack, knowing.ports[0])
        status, = free_ports(1)
        service = receiver(stack, relay, keys={"status": f"127.0.0.1:{status}"})
        wanted = knowing.get("/state")[2]
        until("the receiver knows the same, byte by byte", lambda: service.get("/state")[2] == wanted, 60)
        first = [seen for seen in relay.seen if seen[0].startswith("/part")]
        targets = [seen[0] for seen in first]
        walk = [one for one in targets if HIDDEN.fullmatch(one)]
        holds(f"it came in {len(walk) + 1} parts of a MiB at most", 4 <= len(walk) <= 9)
        same("the first is asked for without a cursor", targets[0], "/part")
        same("each begins where the one before it ends", [head[1] for _, head in first[1:len(walk) + 1]],
             [head[2].replace("until", "behind") for _, head in first[:len(walk)]])
        same("and each is asked for by its place", [HIDDEN.fullmatch(one)[3] + " " + bytes.fromhex(HIDDEN.fullmatch(one)[4]).decode() for one in walk],
             [head[2].removeprefix("until ") for _, head in first[:len(walk)]])
        until("what is new is asked for from the cursor", lambda: re.fullmatch(r"/part/\d+/\d+", relay.seen[-1][0]))
        same("nothing is", relay.seen[-1][1][1:], ["behind -", "until -"])
        same("no whole delta is asked for", [seen[0] for seen in relay.seen if seen[0].startswith("/delta")], [])
        count = int(COUNTED.search(get(status, "/metrics")[2])[1])
        holds(f"the metrics count the {count} parts that were taken", len(walk) < count <= len(relay.seen))


def try_without():
    """Without the key no gate has parts, and a peer without parts is asked for its delta."""
    with contextlib.ExitStack() as stack:
        knowing = sender(stack, count=3, size=0)
        for asked in ("/part", "/part/7/1", target(7, 0, 1)):
            same(f"{asked[:12]}.. is no route", knowing.get(asked)[0::2], (404, "no such route\n"))
        relay = Relay(stack, knowing.ports[0])
        status, = free_ports(1)
        service = receiver(stack, relay, keys={"status": f"127.0.0.1:{status}"})
        until("its delta is taken", lambda: service.get("/state")[2] == knowing.get("/state")[2])
        same("after it was asked for a part", [seen[0] for seen in relay.seen[:2]], ["/part", "/delta"])
        same("which counts as no part", COUNTED.findall(get(status, "/metrics")[2]), ["0"])


def try_routes():
    """What a gate with parts says to other spellings."""
    with contextlib.ExitStack() as stack:
        knowing = sender(stack, count=3, size=0, keys={"parts": 1})
        incarnation, number = knowing.get("/delta")[2].splitlines()[1].split()[1::2]
        whole = part(None, None, knowing.get("/delta")[2])
        same("the first part of all is all", knowing.get("/part")[2], whole)
        same("an unknown cursor begins at the beginning", knowing.get("/part/1/1")[2], whole)
        same("from the last merge on there is nothing", knowing.get(f"/part/{incarnation}/{number}")[2].splitlines()[4:],
             [f"from {incarnation} {number} {number}", "entries 0", "end"])
        same("a place leaves out what is before it", knowing.get(target(incarnation, 0, 1))[2].splitlines()[:3],
             ["memento-part 1", f"behind {place(1)}", "until -"])
        same("and what is at it", knowing.get(target(incarnation, 0, 1))[2].count("\nentry "), 1)
        front, digits = target(incarnation, 0, 1).rsplit("/", 1)
        same("HEX may have capital letters", knowing.get(f"{front}/{digits.upper()}")[0], 200)
        for asked in ("/part/", "/part/x/1", "/part/1", "/part/1/01", f"/part/{incarnation}/0/p.example", f"/part/{incarnation}/0/p.example/6",
                      f"/part/{incarnation}/0/p.example/zz", f"/part/{incarnation}/0/P/61", f"/part/{incarnation}/0/p.example/20", "/parts"):
            same(f"{asked} is no route", knowing.get(asked)[0::2], (404, "no such route\n"))


def try_ready():
    """A replica that is to be ready says so once the last part has come."""
    with contextlib.ExitStack() as stack:
        held = [True]

        def answer(asked):
            if asked == "/part":
                return reply(part(None, place(1), delta(7, 0, 1, entries(0, 1))))
            while held:
                time.sleep(0.05)
            return reply(part(place(1), None, delta(7, 0, 1, entries(2)))) if HIDDEN.fullmatch(asked) else reply(part(None, None, delta(7, 1, 1)))

        peer = Played(stack, answer)
        archive = Played(stack, silent)
        service = Service(stack, archives=[("a.example", archive.address)], originals=[], peers=[peer.address], rounds=1_000_000, pause=1, patience=30,
                          keys={**KEYS, "ready": True})
        until("the next part is asked for", lambda: len(peer.heads) > 1)
        time.sleep(2)    # what came would be published by now
        same("it isn't ready yet", service.get("/timegate/http://o.example/00000")[0], 503)
        held.clear()
        until("and is once all has come", lambda: service.shows("http://o.example/00002") == "http://m.example/00002/")


def try_ready_behind():
    """A replica is ready once the last part has come, also if that part brings no news, so that nothing is published then."""
    with contextlib.ExitStack() as stack:
        held = [True]

        def answer(asked):
            while held and HIDDEN.fullmatch(asked):
                time.sleep(0.05)
            return reply({"/part": part(None, place(1), delta(8, 0, 1, entries(0, 1))), target(8, 0, 1): part(place(1), None, delta(8, 0, 1, entries(2)))}
                         .get(asked) or part(None, None, delta(8, 1, 1)))

        def whole(asked):
            time.sleep(0.5)    # behind the late peer's first part
            return reply(part(None, None, delta(7, 0, 1, entries(0, 1, 2)) if asked == "/part" else delta(7, 1, 1)))

        late, other = Played(stack, answer), Played(stack, whole)
        archive = Played(stack, silent)
        service = Service(stack, archives=[("a.example", archive.address)], originals=[], peers=[other.address, late.address], rounds=1_000_000,
                          pause=1_000, patience=30, keys={**KEYS, "ready": True})
        until("the late peer's next part is asked for", lambda: len(late.heads) > 1)
        time.sleep(2)    # what came is published by now
        same("it isn't ready yet", service.get("/timegate/http://o.example/00000")[0], 503)
        held.clear()
        until("and is once that part has come", lambda: service.get("/timegate/http://o.example/00000")[0] == 302)


def try_stalled():
    """A peer that fails in the middle is asked as often as any other, and is waited for no longer than a patience. What it gives in the end is
    taken from where it stopped."""
    with contextlib.ExitStack() as stack:
        held = [True]
        status, = free_ports(1)

        def answer(asked):
            if asked == "/part":
                return reply(part(None, place(1), delta(7, 0, 1, entries(0, 1))))
            if HIDDEN.fullmatch(asked):
                return reply(status=503) if held else reply(part(place(1), None, delta(7, 0, 1, entries(2))))
            return reply(part(None, None, delta(7, 1, 1)))

        peer = Played(stack, answer)
        archive, began = Played(stack, lambda _: GOOD), time.monotonic()
        service = Service(stack, archives=[("a.example", archive.address)], originals=[ORIGINAL], peers=[peer.address], rounds=1_000_000, pause=1_000,
                          patience=3, keys={**KEYS, "ready": True, "status": f"127.0.0.1:{status}"})
        until("the replica is ready though the last part doesn't come", lambda: service.shows() == MEMENTO, 20)
        holds("the peer has given something, though not a whole delta", int(LAST.search(get(status, "/metrics")[2])[1]) > 0)
        time.sleep(3)
        asked, seconds = len(peer.heads), time.monotonic() - began
        holds(f"{asked} requests came in {seconds:.1f} seconds, hardly more than one in each", asked <= seconds + 4)
        held.clear()
        until("the rest is taken when it comes", lambda: service.shows("http://o.example/00002") == "http://m.example/00002/")
        same("from where it stopped", peer.targets().count("/part"), 1)


def try_greeting():
    """The first walk begins once all parts have come."""
    parts = {"/part": part(None, place(1), delta(7, 0, 1, entries(0, 1))),
             target(7, 0, 1): part(place(1), place(2), delta(7, 0, 1, entries(2))),
             target(7, 0, 2): part(place(2), None, delta(7, 0, 1, entries(3)))}
    with contextlib.ExitStack() as stack:
        def answer(asked):
            time.sleep(0.3)
            return reply(parts.get(asked) or part(None, None, delta(7, 1, 1)))

        peer, before = Played(stack, answer), []

        def walked(_):
            before.append(len(peer.heads))
            return GOOD

        archive = Played(stack, walked)
        service = Service(stack, archives=[("a.example", archive.address)], originals=[ORIGINAL], peers=[peer.address], rounds=1, patience=20,
                          keys={**KEYS, "again": 300, "log": True}, stderr=subprocess.PIPE)
        until("the archive is asked", lambda: before)
        same("once three parts have come", before[0], 3)
        holds("and the log says that the peer gave what it knows", "start: 1 of 1 peers" in service.logs_until("start: ")[-1])


def try_merges():
    """What the peer merges under the walk comes behind it: the cursor moves to the least END, and not to that of the last part."""
    parts = {
        "/part": part(None, place(1), delta(7, 0, 5, entries(0, 1))),
        target(7, 0, 1): part(place(1), place(2), delta(7, 0, 4, entries(2))),    # of a gate that is a publish behind
        target(7, 0, 2): part(place(2), None, delta(7, 0, 9, entries(3))),
    }
    with contextlib.ExitStack() as stack:
        peer = Played(stack, lambda asked: reply(parts.get(asked) or part(None, None, delta(7, 4, 9))))
        service = receiver(stack, peer)
        until("all has come", lambda: len(service.entries()) == 4)
        until("the next delta begins at the least END", lambda: "/part/7/4" in peer.targets())
        same("each part was asked for once", peer.targets()[:4], [*parts, "/part/7/4"])


def try_lost(what, second, fault):
    """After the first part, the second isn't taken: the log says why, what came is kept, and the walk begins anew from where it was."""
    asks, is_over = itertools.count(), threading.Event()

    def answer(asked):
        if asked == "/part":
            return reply(part(None, place(1), delta(7, 0, 1, entries(0, 1)))) if next(asks) == 0 else reply(part(None, None, delta(7, 0, 1, entries(0, 1, 2, 3))))
        if HIDDEN.fullmatch(asked):
            return reply(second)
        is_over.wait(PATIENCE)
        return reply(part(None, None, delta(7, 1, 1)))

    with contextlib.ExitStack() as stack:
        peer = Played(stack, answer)
        status, = free_ports(1)
        service = receiver(stack, peer, logged=True, keys={"status": f"127.0.0.1:{status}"})
        stack.callback(is_over.set)
        until(f"{what}: all has come in the end", lambda: len(service.entries()) == 4)
        until(f"{what}: and what is new is asked for", lambda: "/part/7/1" in peer.targets())
        same(f"{what}: it doesn't count as taken", COUNTED.findall(get(status, "/metrics")[2]), ["2"])
        if fault:
            holds(f"{what}: the log says so", any(f"peer {peer.address}: {fault}\n" in line for line in service.logs_until(fault)))


def try_repeated():
    """A part that comes twice, and one that begins before the walk's place, do no harm."""
    with contextlib.ExitStack() as stack:
        parts = {"/part": part(None, place(1), delta(7, 0, 1, entries(0, 1))),
                 target(7, 0, 1): part(place(0), place(2), delta(7, 0, 1, entries(1, 2))),
                 target(7, 0, 2): part(place(1), None, delta(7, 0, 1, entries(2, 3)))}
        peer = Played(stack, lambda asked: reply(parts.get(asked) or part(None, None, delta(7, 1, 1))))
        service = receiver(stack, peer)
        until("all has come", lambda: len(service.entries()) == 4)
        until("and what is new is asked for", lambda: len(peer.heads) > 3)
        same("without a detour", peer.targets()[:4], [*parts, "/part/7/1"])


def try_endless():
    """A peer whose parts never end holds no round up, and fills nothing."""
    with contextlib.ExitStack() as stack:
        number = itertools.count(1)

        def answer(asked):
            found = HIDDEN.fullmatch(asked)
            behind = f"{found[3]} {bytes.fromhex(found[4]).decode()}" if found else None
            return reply(part(behind, place(next(number)), delta(7, 0, 1)))

        peer = Played(stack, answer)
        archive = Played(stack, lambda _: GOOD)
        service = Service(stack, archives=[("a.example", archive.address)], originals=[ORIGINAL], peers=[peer.address], rounds=3, pause=0, patience=5,
                          keys={"parts": 1})
        began = time.monotonic()
        service.rounds(3)
        holds(f"three rounds were made in {time.monotonic() - began:.0f} s, and {len(peer.heads)} parts given", 2_000 <= len(peer.heads) <= 3_100)
        same("what the archive has is shown", service.shows(), MEMENTO)


def try_new_incarnations():
    """A peer that begins anew with each part holds no round up either."""
    with contextlib.ExitStack() as stack:
        number = itertools.count(1)
        peer = Played(stack, lambda _: reply(part(None, place(1), delta(next(number), 0, 1))))
        archive = Played(stack, lambda _: GOOD)
        service = Service(stack, archives=[("a.example", archive.address)], originals=[ORIGINAL], peers=[peer.address], rounds=3, pause=0, patience=5,
                          keys={"parts": 1})
        began = time.monotonic()
        service.rounds(3)
        holds(f"three rounds were made in {time.monotonic() - began:.0f} s, and {len(peer.heads)} parts given", 2_000 <= len(peer.heads) <= 3_100)


def try_killed():
    """A peer that is killed under the walk, and begins anew with another incarnation: the walk begins anew too, and all comes."""
    with contextlib.ExitStack() as stack:
        knowing = sender(stack, count=4_000, size=1_000, keys={"parts": 1})
        relay = Relay(stack, knowing.ports[0])
        limit = [3]

        def limited(asked):
            if HIDDEN.fullmatch(asked) and limit:
                if limit[0] == 0:
                    return b""
                limit[0] -= 1
            return relay.fetch(asked)

        relay.answer = limited
        service = receiver(stack, relay)
        until("some parts came", lambda: limit == [0] and len(service.entries()) > 500)
        knowing.kill()
        again = sender(stack, count=4_200, size=1_000, keys={"parts": 1})
        relay.gate = again.ports[0]
        limit.clear()
        until("all came from the one that began anew", lambda: len(service.entries()) == 4_200, 60)


def main():
    for attempt in (try_all, try_without, try_routes, try_ready, try_ready_behind, try_stalled, try_greeting, try_merges, try_repeated, try_endless,
                    try_new_incarnations, try_killed):
        attempt()
    for what, second, fault in (
            ("another incarnation", part(place(1), None, delta(8, 0, 1, entries(2, 3))), "a part that doesn't go on"),
            ("a part behind a gap", part(place(2), None, delta(7, 0, 1, entries(3))), "a part that doesn't go on"),
            ("a part that starts later", part(place(1), None, delta(7, 1, 2, entries(3))), "a part that doesn't go on"),
            ("a part that ends where it begins", part(place(1), place(1), delta(7, 0, 1)), "a part that ends no further on"),
            ("a part that ends before it begins", part(place(1), place(0), delta(7, 0, 1)), "a part that ends no further on")):
        try_lost(what, second, fault)
    print("all came, part by part, once and in order, and no fault of a peer kept it from coming")


if __name__ == "__main__":
    main()
