#!/usr/bin/env python3
"""What replicas keep of a clock that was ahead, and of an original and an archive that left the settings: all of it if they are
restarted one after the other, and nothing if all are stopped at once, or if they forget. And what a reader gets when a replica is
told to end.

    ./run --unproved && tests/leftovers.py
"""
import contextlib
import pathlib
import signal
import socket
import subprocess
import tempfile
import time

from playing import ENVIRONMENT, PATIENCE, TOP, Played, Service, compiled, free_ports, holds, link, needs, reply, until

KEPT, LEFT = "http://kept.example/", "http://left.example/"
OLD, NEW = "http://m.example/old", "http://m.example/new"
AHEAD = 3_000_000_000    # seconds: some 95 years


class Archive(Played):
    """Has one memento of each original: the one that it is given now."""

    def __init__(self, stack, memento=OLD):
        self.memento = memento
        super().__init__(stack, lambda _: reply(link(self.memento)))


class Replica:
    """One of two replicas that pull from each other, each second."""

    def __init__(self, stack, gate, peer, **keys):
        self.stack, self.gate, self.peer, self.keys, self.service = stack, gate, peer, keys, None

    def start(self, archives, originals=(KEPT,), clock=None):
        """A start by these settings, until its second round is done."""
        self.service = Service(self.stack, archives=[(name, archive.address) for name, archive in archives.items()], originals=originals,
                               peers=[f"http://127.0.0.1:{self.peer}"], ports=(self.gate,), rounds=1_000_000, pause=1, keys=self.keys,
                               env=ENVIRONMENT | (clock or {}))
        return self.rounds(2)

    def rounds(self, count):
        """Waits for so many rounds."""
        self.service.rounds(count)
        return self

    def stop(self):
        self.service.process.terminate()
        self.service.process.wait(PATIENCE)


def in_turn(replicas, *words):
    """Restarts one after the other, each once the one before knows what the others know."""
    for replica in replicas:
        replica.stop()
        replica.start(*words)
    for replica in replicas:
        replica.rounds(2)


def at_once(replicas, *words):
    """Stops all, and then starts them."""
    for replica in replicas:
        replica.stop()
    for replica in replicas:
        replica.start(*words)
    for replica in replicas:
        replica.rounds(2)


def two_replicas(stack, **keys):
    first, second = free_ports(2)
    return [Replica(stack, first, second, **keys), Replica(stack, second, first, **keys)]


def shown(replicas, original=KEPT):
    return [replica.service.shows(original) for replica in replicas]


def try_clock(library):
    with contextlib.ExitStack() as stack:
        archive, replicas = Archive(stack), two_replicas(stack)
        archives = {"arc.example": archive}
        replicas[0].start(archives, (KEPT,), {"AHEAD": str(AHEAD), "LD_PRELOAD": str(library)})
        replicas[1].start(archives)
        [revision] = [int(revision) for _, _, revision in replicas[1].service.entries()]
        holds(f"a revision of a clock that was ahead goes over to the other replica: {revision}", revision > time.time() + AHEAD / 2)
        replicas[0].stop()
        archive.memento = NEW
        replicas[0].start(archives)
        holds("what the archive has now isn't shown by the replica whose clock is right again", shown(replicas[:1]) == [OLD])
        in_turn(replicas, archives)
        holds("nor by any after each was restarted in turn", shown(replicas) == [OLD, OLD])
        at_once(replicas, archives)
        holds("but by all once all were stopped at once", shown(replicas) == [NEW, NEW])


def try_settings():
    with contextlib.ExitStack() as stack:
        archives = {"arc.example": Archive(stack, OLD), "left.example": Archive(stack, NEW)}
        replicas = two_replicas(stack)
        for replica in replicas:
            replica.start(archives, (KEPT, LEFT))
        replicas[0].rounds(2)
        fewer = {"arc.example": archives["arc.example"]}, (KEPT,)

        def left():
            return [(replica.service.shows(LEFT) is not None, NEW in replica.service.get("/timemap/link/" + KEPT)[2]) for replica in replicas]

        holds("an original and an archive are shown", left() == [(True, True)] * 2)
        in_turn(replicas, *fewer)
        holds("and still are when they left the settings and each replica was restarted in turn", left() == [(True, True)] * 2)
        at_once(replicas, *fewer)
        holds("and aren't any more once all were stopped at once", left() == [(False, False)] * 2)
        holds("while what stayed in the settings is", shown(replicas) == [OLD, OLD])


def try_forgetting(folder):
    """With `forget` what left the settings goes though no more than one replica is stopped at a time."""
    with contextlib.ExitStack() as stack:
        archives = {"arc.example": Archive(stack, OLD), "left.example": Archive(stack, NEW)}
        withdrawn = folder / "withdrawn"
        withdrawn.write_text("")
        replicas = two_replicas(stack, forget=1, withdrawn_file=str(withdrawn))
        for replica in replicas:
            replica.start(archives, (KEPT, LEFT))
        replicas[0].rounds(2)
        holds("an original is shown by both", all(shown(replicas, LEFT)))
        withdrawn.write_text("archive left.example\n")
        in_turn(replicas, {"arc.example": archives["arc.example"]}, (KEPT,))
        until("once it left the settings of both it is gone, and so is what the withdrawn archive had",
              lambda: shown(replicas, LEFT) == [None] * 2 and not any(NEW in replica.service.get("/state")[2] for replica in replicas))
        holds("while what stayed in the settings is shown", shown(replicas) == [OLD, OLD])


def try_end():
    """SIGTERM: a reply that is being sent is cut, though its reader reads nothing more, and the program has no status of its own."""
    with contextlib.ExitStack() as stack:
        replica = two_replicas(stack)[0].start({"arc.example": Archive(stack, "http://m.example/" + "x" * 8_000)},
                                               [f"http://a.example/{number}" for number in range(1000)])
        reader = stack.enter_context(socket.create_connection(("127.0.0.1", replica.gate), PATIENCE))
        reader.sendall(b"GET /state HTTP/1.1\r\nHost: a\r\n\r\n")
        head = reader.recv(1000)
        process = replica.service.process
        process.terminate()
        with contextlib.suppress(subprocess.TimeoutExpired):
            process.wait(PATIENCE)
        ended, came = process.poll(), len(head)
        process.kill()
        holds("the program ends while its reader reads nothing, by the signal", ended == -signal.SIGTERM)
        with contextlib.suppress(ConnectionError):
            while data := reader.recv(1 << 20):
                came += len(data)
        promised = int(head.lower().partition(b"content-length: ")[2].partition(b"\r\n")[0])
        holds(f"a reply that is being sent is cut: {came} bytes of {promised}", came < promised)


def main():
    needs("cc")
    with tempfile.TemporaryDirectory() as folder:
        try_clock(compiled(pathlib.Path(folder), TOP / "tests/leftovers/ahead.c"))
        try_settings()
        try_forgetting(pathlib.Path(folder))
        try_end()
    print("what a clock ahead and forgotten settings left went when all replicas were stopped at once, or forgot, and not in turn")


if __name__ == "__main__":
    main()
