#!/usr/bin/env python3
"""Harvesters apart from readers' replicas, which have no archives and pull from the harvesters each second: what readers
behind nginx see of a harvest, of a harvester's long round, and while one of either kind is restarted or down. What no replica knows
nginx asks of a harvester, which takes the wish.

    ./run --unproved && tests/apart.py          needs nginx (nginx-light)
"""
import contextlib
import threading
import time

from playing import (BASE, ORIGINAL, PATIENCE, QUICK, Played, Service, comes_true, free_ports, get, holds, link, needs, nginx, reply,
                     same, until)

ORIGINALS = [ORIGINAL, *(f"http://a.example/{number}" for number in range(20))]
WISHED = "http://wished.example/"
FIRST, LATER = "http://m.example/first", "http://m.example/later"
MANY = [*QUICK, ("limit_conn connections 20", "limit_conn connections 1000")]


class Archive:
    """An archive that has one memento of each original, and is as slow as it is told to be."""

    def __init__(self, stack):
        self.memento, self.go_on = FIRST, threading.Event()
        self.go_on.set()
        self.played = Played(stack, self.answer)

    def answer(self, _):
        self.go_on.wait(PATIENCE)
        return reply(link(self.memento))


def shown(front, original=ORIGINAL):
    return get(front, "/timegate/" + original)[:2]


def waited(front, wanted, seconds):
    """Whether all that readers are shown comes to be `wanted` within so many seconds."""
    return comes_true(lambda: all(shown(front, original) == wanted for original in ORIGINALS for _ in range(2)), seconds)


def main():
    needs("nginx")
    with contextlib.ExitStack() as stack:
        archive = Archive(stack)
        places = free_ports(2)
        harvesters = [Service(stack, archives=[("arc.example", archive.played.address)], originals=ORIGINALS, ports=(own,), workers=4, pause=3,
                              rounds=10**9, peers=[f"http://127.0.0.1:{other}"], keys={"wanted": 100}) for own, other in (places, places[::-1])]
        for harvester in harvesters:
            harvester.rounds()
        replicas = [Service(stack, ports=free_ports(2), pause=1, rounds=10**9, peers=[harvester.address for harvester in harvesters],
                            keys={"ready": True, "together": 64})
                    for _ in range(2)]
        led = " ".join(f"server 127.0.0.1:{port};" for port in places)
        front = nginx(stack, [port for replica in replicas for port in replica.ports], *MANY,
                      ("consistent; server 127.0.0.1:8082;", f"consistent; {led}"),
                      ("try_files /nothing @unknown;", "proxy_pass http://harvesters$request_uri;"))
        same("a replica without archives tells of its pulls", replicas[0].line(), "round 1 jobs 0 harvests 0 pulls 2 published\n")
        holds("readers see what the harvesters know", waited(front, (302, FIRST), 20))

        archive.memento = LATER
        harvesters[0].rounds()
        begun = time.monotonic()
        harvesters[0].rounds()
        holds("and what a later round brings, once it is published", waited(front, (302, LATER), 20))
        print(f"all of {len(ORIGINALS)} originals within {time.monotonic() - begun:.1f} s")
        # Planted: nginx as it is shipped, which asks no harvester, so that the wish is lost.
        same("what nobody knows is 404", shown(front, WISHED), (404, None))
        until("and shown once a harvester has asked the archive for it", lambda: shown(front, WISHED) == (302, LATER), 20)
        until("by the readers' replicas themselves", lambda: {replica.shows(WISHED) for replica in replicas} == {LATER}, 20)
        same("the archive was asked for it once", archive.played.targets().count(BASE + WISHED), 1)

        archive.go_on.clear()
        replicas[0].process.terminate()
        replicas[0].process.wait(PATIENCE)
        holds("while the harvesters' rounds stand still and a replica is down, the other goes on",
              {shown(front, original) for original in ORIGINALS} == {(302, LATER)})
        begun = time.monotonic()
        replicas[0].start()
        replicas[0].rounds()
        took = time.monotonic() - begun
        same("started again it knows all from its first pull", {replicas[0].shows(original) for original in ORIGINALS}, {LATER})
        holds(f"after {took:.1f} s, though no round of a harvester has ended", took < 20)

        harvesters[1].kill()
        time.sleep(2)
        same("with a harvester down readers see what they saw", {shown(front, original) for original in ORIGINALS}, {(302, LATER)})
        archive.memento = FIRST
        archive.go_on.set()
        holds("and what the other one brings", waited(front, (302, FIRST), 30))
        until("to each of both replicas", lambda: {replica.shows(original) for replica in replicas for original in ORIGINALS} == {FIRST})
        harvesters[0].kill()
        time.sleep(3)
        count = len(archive.played.heads)
        time.sleep(4)    # in which each replica makes some rounds
        same("with both down they see what came last", {shown(front, original) for original in ORIGINALS}, {(302, FIRST)})
        same("and what nobody knows is 404", {shown(front, f"http://nobody.example/{k}") for k in range(4)}, {(404, None)})
        same(f"and the archive, which was asked {count} times, is asked no more", len(archive.played.heads), count)
    print("readers' replicas without archives showed what harvesters had, within seconds, and through the end of any one")


if __name__ == "__main__":
    main()
