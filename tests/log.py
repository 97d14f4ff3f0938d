#!/usr/bin/env python3
"""What a service tells its log of archives, peers, gates and an output that fail, and of memory that is refused for a harvest or
a publish, and that without the key it tells nothing.

    ./run --unproved && tests/log.py
"""
import contextlib
import http.client
import pathlib
import re
import subprocess
import tempfile

from playing import (BASE, ENVIRONMENT, ORIGINAL, TOP, NoGate, Played, Service, comes_true, compiled, dead_ports, delta, free_ports, get, holds, link,
                     originals, reply, same, slow, told)

BAD_MACHINE = 3
OTHER = "http://b.example/"
SERVED = "its last connection is served"


def serve(stack, log, **more):
    """A service whose outputs are both read, with the key `log` or without it, for one connection. What it logs names a gate as
    the settings do."""
    return Service(stack, **{"ports": free_ports(1), "keys": {"log": log}, "stderr": subprocess.PIPE, "workers": 2, "patience": 5,
                             "connections": 1, **more})


def ask(port):
    """Asks what any gate answers."""
    same("the gate answers", get(port, "/timegate/ftp://a.example/")[0], 400)


def said_of(log):
    return "no key" if log is None else f"log = {str(log).lower()}"


def try_rounds(log):
    """Archives of which one refuses, one loses a page, one is away and one is well; peers that are away, tell garbage, leave
    merges out, refuse, and are well."""
    def losing(target):
        if target == BASE + ORIGINAL:
            return reply(f"</lost>;rel=timemap,{link('http://m.example/1')}")
        return reply(link("http://m.example/2")) if target == BASE + OTHER else reply(status=500)

    with contextlib.ExitStack() as stack:
        away, nobody = (f"http://127.0.0.1:{port}" for port in dead_ports(stack, 2))
        refusing = Played(stack, lambda target: reply(status=503) if target == BASE + OTHER else reply())
        losing, well = Played(stack, losing), Played(stack, lambda _: reply(link("http://m.example/3")))
        garbage, gap = Played(stack, lambda _: reply("nonsense")), Played(stack, lambda _: reply(delta(7, 1, 2)))
        closed, good = Played(stack, lambda _: reply(status=403)), Played(stack, lambda _: reply(delta(7, 0, 0)))
        peers = [nobody, *(peer.address for peer in (garbage, gap, closed, good))]
        service = serve(stack, log, archives=[
            ("away.example", away), ("losing.example", losing.address), ("refusing.example", refusing.address),
            ("well.example", well.address)], originals=[ORIGINAL, OTHER], peers=peers)
        same("standard output says what it says", service.line(), told(1, 8, 5, 1))
        ask(service.ports[0])
        wanted = f"""\
log: round 1: archive away.example: 2 of 2 walks failed, the first: no answer from {away}{BASE}{ORIGINAL}
log: round 1: archive losing.example: 1 harvests in part
log: round 1: archive refusing.example: 1 of 2 walks failed, the first: status 503 from {refusing.address}{BASE}{OTHER}
log: round 1: peer {nobody}: no answer
log: round 1: peer {garbage.address}: not the text of a delta
log: round 1: peer {gap.address}: merges are left out
log: round 1: peer {closed.address}: status 403
log: gate 1 (127.0.0.1:{service.ports[0]}) ended: {SERVED}
"""
        same(f"with {said_of(log)} the log has just what went wrong", service.ending(), (0, "done\n", wanted if log else ""))


def try_gates(log):
    """A gate that has served its last connection while another goes on."""
    with contextlib.ExitStack() as stack:
        service = serve(stack, log, ports=free_ports(2), pause=86_400, rounds=2)
        first, second = service.ports
        same("both gates listen, and the round is told", service.line(), told(1, 0, 0))
        ask(second)
        if log:
            same("its end is told between two rounds", service.complaint(), f"log: gate 2 (127.0.0.1:{second}) ended: {SERVED}\n")
        holds("the program goes on", service.process.poll() is None)
        ask(first)
        if log:
            same("and then that of the other", service.complaint(), f"log: gate 1 (127.0.0.1:{first}) ended: {SERVED}\n")
        else:
            service.kill()
            same("without the key nothing is told", service.process.stderr.read(), "")


def try_output(log):
    """Standard output that can't be written, told while the gate goes on."""
    with contextlib.ExitStack() as stack:
        full = stack.enter_context(open("/dev/full", "w"))
        service = serve(stack, log, stdout=full, rounds=9)
        [port] = service.ports
        wanted = "device fault\n"
        if log:
            same("an output that fails is told at once", service.complaint(), "log: standard output fails: no further round is made\n")
            wanted = f"log: gate 1 (127.0.0.1:{port}) ended: {SERVED}\n{wanted}"
        else:
            wait_for_gate(port)
        ask(port)
        same("and the program ends as it does", service.ending(), (BAD_MACHINE, "", wanted))


def wait_for_gate(port):
    """Waits until somebody listens there, without a connection of its own."""
    line = f":{port:04X} 00000000:0000 0A"
    holds("the gate listens", comes_true(lambda: line in pathlib.Path("/proc/net/tcp").read_text()))


# So often each request for memory is refused in turn, until both refusals were told.
PASSES = 20

# What is told of a refusal, and what the round's line then counts and ends in.
REFUSALS = {
    "log: round 1: nothing was published\n": told(1, 1, 1, end="kept"),
    "log: round 1: 1 harvests not kept: no memory\n": told(1, 1, 0),
}


def play_refused(log, folder, library, archive, number):
    """A round of one harvest in which the request for memory of this number is refused: the round's line, what the log told
    beside the gate's end, and how many requests there were up to then."""
    count = folder / "count"
    environment = {**ENVIRONMENT, "LD_PRELOAD": str(library), "REFUSE": str(number), "COUNT": str(count)}
    with contextlib.ExitStack() as stack:
        try:
            service = serve(stack, log, archives=[("a.example", archive.address)], originals=[ORIGINAL], env=environment)
        except NoGate:
            return None, "", 0
        line = service.line()
        requests = int(count.read_text())
        with contextlib.suppress(OSError, http.client.HTTPException):
            service.get("/timegate/ftp://a.example/")
        service.kill()
        return line, service.process.stderr.read().partition("log: gate ")[0], requests


def try_refusals(log):
    """If memory is refused for a harvest or for a publish, as a round's last requests are in turn, the log says so."""
    with contextlib.ExitStack() as stack:
        folder = pathlib.Path(stack.enter_context(tempfile.TemporaryDirectory()))
        library = compiled(folder, TOP / "tests/memory/refuse.c")
        if library is None:
            print("memory that is refused wasn't tried, which needs a C compiler: apt-get install gcc libc6-dev")
            return
        archive = Played(stack, lambda _: reply(link("http://m.example/1")))
        line, complaint, requests = play_refused(log, folder, library, archive, 0)
        same("if nothing is refused the round is published", (line, complaint), (told(1, 1, 1), ""))
        awaited = dict(REFUSALS)
        # Threads take memory in another order each time, so that a pass over the numbers may miss a request.
        for number in PASSES * list(range(requests, 0, -1)):
            line, complaint, _ = play_refused(log, folder, library, archive, number)
            for told_of, wanted in list(awaited.items()):
                if line == wanted and complaint == (told_of if log else ""):
                    del awaited[told_of]
            if not awaited:
                break
        same(f"with {said_of(log)} a refused publish and a harvest that isn't kept are told as they should be", awaited, {})


def play_ready(folder, library, number):
    """Two rounds by a service with `ready`, the first with a harvest and the second without one, in which the request for memory of this
    number is refused: both lines, the status that a reader gets, and how many requests there were up to the first line."""
    count = folder / "count"
    environment = {**ENVIRONMENT, "LD_PRELOAD": str(library), "REFUSE": str(number), "COUNT": str(count)}
    with contextlib.ExitStack() as stack:
        archive = Played(stack, lambda _: reply(link("http://m.example/1")) if len(archive.heads) == 1 else reply(status=500))
        try:
            service = serve(stack, False, archives=[("a.example", archive.address)], originals=[ORIGINAL], env=environment, rounds=2, pause=1,
                            keys={"ready": True})
        except NoGate:
            return None, None, None, 0
        first, requests = service.line(), int(count.read_text())
        second, status = service.line(), None
        with contextlib.suppress(OSError, http.client.HTTPException):
            status = service.get("/timegate/" + ORIGINAL)[0]
        return first, second, status, requests


def try_ready_at_last():
    """What a round learnt whose publish was refused makes a gate ready once it is published, by whatever round."""
    with contextlib.ExitStack() as stack:
        folder = pathlib.Path(stack.enter_context(tempfile.TemporaryDirectory()))
        library = compiled(folder, TOP / "tests/memory/refuse.c")
        if library is None:
            print("a publish that is refused wasn't tried, which needs a C compiler: apt-get install gcc libc6-dev")
            return
        first, second, status, requests = play_ready(folder, library, 0)
        same("if nothing is refused the first round makes the gate ready", (first, second, status), (told(1, 1, 1), told(2, 1, 0), 302))
        for number in PASSES * list(range(requests, 0, -1)):
            first, second, status, _ = play_ready(folder, library, number)
            if (first, second) == (told(1, 1, 1, end="kept"), told(2, 1, 0)):
                break
        same("if its publish is refused, the second does", (first, second, status),
             (told(1, 1, 1, end="kept"), told(2, 1, 0), 302))


def try_busy():
    """Archives that ask to be left alone: for a quarter of an hour, which two walks meet at once, and for a few seconds."""
    with contextlib.ExitStack() as stack:
        busy = Played(stack, slow(1, reply("", "Retry-After: 900", status=429)))
        brief = Played(stack, lambda _: reply("", "Retry-After: 3", status=429) if len(brief.heads) == 1 else reply(link("http://m.example/1")))
        service = serve(stack, True, archives=[("busy.example", busy.address), ("brief.example", brief.address)], originals=[ORIGINAL, OTHER],
                        workers=4, logged=True, keys={"log": True, "tolerance": 9, "at_once": 2})
        lines = service.logs_until("archive busy.example")
        holds("both were asked at once", comes_true(lambda: len(busy.heads) == 2))
        holds("the other archive is asked again", comes_true(lambda: len(brief.heads) == 3))
        service.kill()
        lines += service.process.stderr.readlines()
        # The seconds count from the moment at which the walk began.
        told_of = [re.fullmatch(r"log: round 1: archive busy\.example: busy, not asked for (\d+) seconds, jobs left: [12]\n", line) for line in lines]
        holds(f"what asks for long is told once, with the time, and what asks for a moment isn't: {lines}",
              len(told_of) == 1 and told_of[0] and 870 <= int(told_of[0][1]) <= 900)


def try_reasons():
    """An archive that fails in three ways: each is told in its own words, and how often it was."""
    with contextlib.ExitStack() as stack:
        answers = [reply("x", "Content-Encoding: gzip")] + 2 * [reply("<")] + 3 * [reply(status=500)]
        archive = Played(stack, lambda _: answers.pop())
        service = serve(stack, True, archives=[("odd.example", archive.address)], originals=originals(len(answers)), workers=1, logged=True,
                        keys={"log": True, "tolerance": 9})
        lines = service.logs_until("no page of a TimeMap")
        same("each reason is told with how often it was", [line.rpartition("odd.example: ")[2] for line in lines if " failed: " in line],
             ["3 failed: another status than 200 and 404\n", "1 failed: a content coding\n", "2 failed: no page of a TimeMap\n"])


def try_wishes():
    """Walks for wishes that fail between rounds."""
    with contextlib.ExitStack() as stack:
        failing, well = Played(stack, lambda _: reply(status=500)), Played(stack, lambda _: reply(link("http://m.example/1")))
        service = serve(stack, True, archives=[("failing.example", failing.address), ("well.example", well.address)], rounds=2, pause=86_400,
                        connections=10, logged=True, keys={"log": True, "wanted": 9})
        same("the first round has no job", service.line(), told(1, 0, 0))
        service.wish(ORIGINAL, well)
        same("a wish that ends is told with the walks that failed", service.logs_until("wishes: ")[-1], "log: wishes: 1 of 1 found, 1 walks failed\n")


def main():
    try_ready_at_last()
    try_busy()
    try_reasons()
    try_wishes()
    for log in (True, False, None):
        for attempt in (try_rounds, try_gates, try_output, try_refusals):
            attempt(log)
    print("the log told each archive, peer, gate and output that failed and each refusal, and nothing if it isn't asked to")


if __name__ == "__main__":
    main()
