#!/usr/bin/env python3
"""What replicas tell each other while their rounds go on: what came is shown at once, what a peer knows isn't asked for again,
what was looked at later wins, and replicas that learn nothing more fall silent.

    ./run --unproved && tests/sharing.py
"""
import contextlib
import email.utils
import itertools
import pathlib
import re
import tempfile
import threading
import time

from playing import (GOOD, MEMENTO, ORIGINAL, PATIENCE, Played, Service, delta, entry, free_ports, holds, link, originals, reply, same, silent,
                     slow, told, until)


def try_publish():
    """What came is shown while the round goes on."""
    with contextlib.ExitStack() as stack:
        is_shown = threading.Event()

        def answer(_):
            # The second half of the round waits until what the first one brought is shown.
            if len(archive.heads) > 20:
                is_shown.wait(PATIENCE)
            return GOOD

        archive = Played(stack, answer)
        service = Service(stack, archives=[("a.example", archive.address)], originals=originals(40), keys={"publish": 1})
        until("the first harvest is shown", lambda: service.shows(originals(1)[0]) == MEMENTO, PATIENCE / 2)
        holds(f"when {len(archive.heads)} of 40 are asked for", len(archive.heads) <= 21)
        is_shown.set()
        same("and the round goes on", service.line(), told(1, 40, 40))


def try_ready():
    """A gate that says that it isn't ready until something is published."""
    with contextlib.ExitStack() as stack:
        may_answer = threading.Event()
        archive = Played(stack, lambda _: GOOD if may_answer.wait(PATIENCE) else b"")
        service = Service(stack, archives=[("a.example", archive.address)], originals=[ORIGINAL], keys={"ready": True})
        same("nothing is published yet", service.get("/timegate/" + ORIGINAL)[0], 503)
        may_answer.set()
        same("the round is told of", service.line(), told(1, 1, 1))
        same("and then it answers", service.shows(), MEMENTO)
        may_answer.clear()
        same("without the key it answers at once", Service(stack, archives=[("a.example", archive.address)], originals=[ORIGINAL])
             .get("/timegate/" + ORIGINAL)[0], 404)


def try_warm_start():
    """Peers are pulled before the first walk, all at the same time; a silent one is told of once a round, and an empty delta
    isn't appended."""
    text = delta(7, 0, 1, entry(ORIGINAL, MEMENTO))
    first = itertools.count()
    with contextlib.ExitStack() as stack:
        knowing = Played(stack, lambda _: reply(text if next(first) == 0 else delta(7, 1, 1)))
        dead = Played(stack, silent)
        archive = Played(stack, slow(0.5))
        service = Service(stack, archives=[("a.example", archive.address)], originals=originals(12), patience=15,
                          peers=[dead.address, knowing.address], keys={"publish": 1, "pull": 1}, logged=True)
        until("what a peer knows is shown", lambda: service.shows() == MEMENTO, 14)
        same("before an archive is asked, for which the silent peer is waited for", len(archive.heads), 0)
        same("one delta counts, the empty ones don't", service.line(), told(1, 12, 12, 1))
        holds(f"the peer was pulled {len(knowing.heads)} times meanwhile", len(knowing.heads) >= 4)
        same("each time from where it was known", {head[0].split()[1] for head in knowing.heads[1:]}, {"/delta/7/1"})
        service.kill()
        log = service.process.stderr.read()
        same("it is told what peers gave", log.count("log: start: 1 of 2 peers gave what they know\n"), 1)
        same("the silent one is told of once", log.count(f"peer {dead.address}: "), 1)


def try_wished_start():
    """The first walk waits for peers alone, also where wishes are taken: it begins when each has answered, and each counts once."""
    text = delta(7, 0, 1, entry(ORIGINAL, MEMENTO))
    for wanted in (None, 1_000):
        with contextlib.ExitStack() as stack:
            number = itertools.count(1)
            # Each pull brings news, so that what is pulled while the first walk is waited for would count.
            knowing = Played(stack, lambda _, number=number: reply(text if (end := next(number)) == 1 else delta(7, end - 1, end)))
            late = Played(stack, slow(2, reply(delta(8, 0, 1, entry(ORIGINAL, MEMENTO, "q.example")))))
            archive = Played(stack, lambda _: GOOD)
            began = time.monotonic()
            service = Service(stack, archives=[("a.example", archive.address)], originals=[ORIGINAL], patience=20, rounds=2, pause=86_400,
                              peers=[knowing.address, late.address], keys={"publish": 1, "pull": 1, "wanted": wanted}, logged=True)
            log = "".join(service.logs_until("start:"))
            same("each peer is told of once", log.count("log: start: 2 of 2 peers gave what they know\n"), 1)
            until("the archive is asked", lambda: archive.heads)
            passed = time.monotonic() - began
            holds(f"after {passed:.1f} s, when the last peer has answered, and no patience is over", 2 <= passed < 18)


def try_known():
    """What a peer has just harvested isn't asked for; once it is old enough it is."""
    now = int(time.time())
    text = delta(7, 0, 3, "".join(entry(one, MEMENTO, "a.example", revision)
                                  for one, revision in zip(originals(3), (now, now - 500, now + 10 ** 9))))
    with contextlib.ExitStack() as stack:
        knowing = Played(stack, lambda _: reply(text))
        archive = Played(stack, lambda _: GOOD)
        service = Service(stack, archives=[("a.example", archive.address)], originals=originals(3), patience=5,
                          peers=[knowing.address], keys={"publish": 1, "pull": 60, "again": 300})
        same("of three one is passed over: one is old, and one is far ahead of the clock", service.line(), told(1, 2, 2, 1))
        same("and the others are asked for", {target.rpartition("/")[2] for target in archive.targets()}, {"1", "2"})


def number_shown(service, original):
    """The number of the memento that is shown; 0 if nothing is."""
    where = service.shows(original)
    return int(where.rpartition("/")[2]) if where else 0


def try_overlap():
    """Two replicas that pull from each other, whose rounds overlap: no list falls back to one that was made earlier."""
    made, lock = itertools.count(1), threading.Lock()

    def answer(_):
        with lock:
            number = next(made)
        time.sleep(0.05)
        # each is of a later datetime, so that the latest of what is shown is the one that was made last
        return reply(link(f"http://m.example/{number}", email.utils.formatdate(946_684_800 + number, usegmt=True)))

    ports = free_ports(2)
    with contextlib.ExitStack() as stack:
        archive = Played(stack, answer)
        keys = {"publish": 1, "pull": 1, "again": 1}
        services = [Service(stack, archives=[("a.example", archive.address)], originals=originals(30), patience=5, rounds=1000,
                            ports=[port], peers=[f"http://127.0.0.1:{other}"], keys=keys)
                    for port, other in (ports, reversed(ports))]
        seen, end = {}, time.monotonic() + 15
        while time.monotonic() < end:
            for place, service in enumerate(services):
                for original in originals(30)[::5]:
                    number = number_shown(service, original)
                    before = seen.get((place, original), 0)
                    if number < before:
                        holds(f"replica {place} showed list {before} of {original}, and then {number}", False)
                    seen[place, original] = number
        holds(f"no list fell back in {next(made)} lists", min(seen.values()) > 0)


def try_shared_work(more):
    """Two replicas with these keys that pull from each other ask an archive hardly more often than one does. What both ask for is what one has
    asked for and the other doesn't know yet: some four walks, which of so few jobs are nearly a fifth (docs/OPERATING.md). Without
    what is shared all would be asked for twice."""
    count = 100
    ports = free_ports(2)
    with contextlib.ExitStack() as stack:
        archive = Played(stack, slow(0.5))
        keys = {"publish": 1, "pull": 1, "again": 3600, **more}
        services = [Service(stack, archives=[("a.example", archive.address)], originals=originals(count), patience=60,
                            ports=[port], peers=[f"http://127.0.0.1:{other}"], keys=keys)
                    for port, other in (ports, reversed(ports))]
        for service in services:
            line = service.line()
            holds(f"a replica ends its round: {line.strip()}", bool(re.match(r"round 1 jobs \d+ harvests \d+", line)))
        asked = len(archive.heads)
        holds(f"{asked} requests for {count} originals", count <= asked <= count * 8 // 5)
        same("each was asked for", len(set(archive.targets())), count)


def number_of(service):
    """How many merges a replica has."""
    return int(service.get("/delta")[2].splitlines()[1].split()[3])


def try_nothing_new():
    """Deltas in which nothing is new: one of a peer that began anew, one that ends later, and one of what is known. Each moves the cursor,
    and none is a merge."""
    known = entry(ORIGINAL, MEMENTO)
    answers = {"/delta": delta(7, 0, 1, known), "/delta/7/1": delta(8, 0, 2), "/delta/8/2": delta(8, 2, 9), "/delta/8/9": delta(8, 9, 10, known),
               "/delta/8/10": delta(8, 10, 10)}
    with contextlib.ExitStack() as stack:
        peer = Played(stack, lambda target: reply(answers[target]))
        archive = Played(stack, lambda _: GOOD)
        service = Service(stack, archives=[("a.example", archive.address)], originals=[ORIGINAL], rounds=2, pause=3600, peers=[peer.address],
                          keys={"publish": 1, "pull": 1})
        until("the peer is asked from where it is known", lambda: "/delta/8/10" in peer.targets())
        same("each cursor was asked from once", peer.targets()[:5], list(answers))
        same("one merge is the peer's, and one the harvest", number_of(service), 2)


def try_silence(count, more):
    """Replicas in a ring with these keys, of which each pulls from the next one and has a harvest of its own: once each knows all, no replica has a merge
    more, and none writes its snapshot anew."""
    ports = free_ports(count)
    with contextlib.ExitStack() as stack:
        folder = pathlib.Path(stack.enter_context(tempfile.TemporaryDirectory()))
        files = [folder / str(place) for place in range(count)]
        services = []
        for place, (port, file) in enumerate(zip(ports, files)):
            archive = Played(stack, lambda _, place=place: reply(link(f"http://m.example/{place}")))
            services.append(Service(stack, archives=[(f"a{place}.example", archive.address)], originals=[ORIGINAL], rounds=2, pause=3600,
                                    ports=[port], peers=[f"http://127.0.0.1:{ports[(place + 1) % count]}"], patience=5,
                                    keys={"publish": 1, "pull": 1, "snapshot": str(file), "snapshot_every": 1, **more}))
        until(f"each of {count} knows all", lambda: all(len(service.entries()) == count for service in services))
        until("and has written it", lambda: all(file.exists() and file.read_text().count("\nentry ") == count for file in files))

        def standing():
            return [(number_of(service), file.stat().st_ino, file.stat().st_mtime_ns) for service, file in zip(services, files)]

        def is_silent():
            """Whether six seconds change nothing: what came last may still have to be published and written."""
            before = standing()
            time.sleep(6)
            return standing() == before

        until("then nothing is merged or written for six seconds", is_silent)
        numbers = [number for number, *_ in standing()]
        holds(f"each entry was merged once: {numbers}", all(count >= number for number in numbers))


def main():
    for attempt in (try_publish, try_ready, try_warm_start, try_wished_start, try_nothing_new, try_known, try_overlap):
        attempt()
    for more in ({}, {"parts": 1}):
        try_shared_work(more)
    for count, more in ((2, {}), (3, {"parts": 1})):
        try_silence(count, more)
    print("what came is shown at once, what is known isn't asked for again, and then replicas are silent")


if __name__ == "__main__":
    main()
