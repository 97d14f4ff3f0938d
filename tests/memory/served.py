#!/usr/bin/env python3
"""Refuses each request for memory of a running service in turn: from its settings through a snapshot that it takes in and two
rounds over an archive and a peer to a snapshot that it writes and two connections.

    tests/memory/served.py REFUSE.SO

The service must end before its first round, with `no memory` or `no gate`, or make both rounds. What a round was refused the
other one brings, so behind the second the gate shows the archive's memento, the peer's and, unless the snapshot is set aside, the
one that was kept. The snapshot in the end is the one before, or has all of them. Two clients ask for them. Where the
reply to one is refused (503, or a closed connection), the other gets them. Only where a gate ends for memory both may get none,
and the program then ends with `no memory`. Two more ask for the status, with the same rule, but that the program goes on where its
address ends. Each end is one that OPERATING.md names, and none is waited for in vain.

The program is crates/aggregator/out/aggregator, or what $PROGRAM names. The last line tells how many requests were refused.
"""
import collections
import concurrent.futures
import contextlib
import http.client
import os
import pathlib
import re
import subprocess
import sys
import tempfile
import threading

from playing import BASE, ENVIRONMENT, ORIGINAL, PATIENCE, PROGRAM, Played, delta, entry, get, link, reply, told

OF_ARCHIVE, OF_PEER, OF_BEFORE = "http://m.example/1", "http://m.example/2", "http://m.example/3"
BAD_MACHINE = 3
DELTAS = {"/delta": delta(7, 0, 1, entry(ORIGINAL, OF_PEER)), "/delta/7/1": delta(7, 1, 1)}
STATE = f"memento-state 2\nentries 1\n{entry(ORIGINAL, OF_BEFORE, 'old.example')}end\n"
BEFORE = f"memento-snapshot 1\nsection {len(STATE)}\n{STATE}sections 1\n"
# What a round was refused, by what its line says instead.
LESS = [("a harvest", "harvests 0"), ("a pull", "pulls 0"), ("a publish", "kept")]
# What the log must have told of, each at least once.
CALLS = {"walk": "archive .*no memory", "pull_within or Merger::append_delta": "peer .*no memory",
         "Merger::publish": "nothing was published", "take_snapshot or read_snapshot": "snapshot: no memory, and set aside",
         "keep_snapshot or write_snapshot": "snapshot: not written: no memory"}
STATUS_ENDED = "log: status (127.0.0.1:0) ended: no memory\n"
Outcome = collections.namedtuple("Outcome", "asked lines replies metrics rest complaint status kept bad")


def settings_text(archive, peer):
    return f'''
base = "http://agg.example"
gates = ["127.0.0.1:0"]
connections = 2
rounds = 2
pause = 0
workers = 1
originals = ["{ORIGINAL}"]
peers = ["{peer.address}"]
archives = [{{ name = "arc.example", timemap = "{archive.address}{BASE}" }}]
log = true
snapshot_every = 1
status = "127.0.0.1:0"
'''


def reply_of(port, target="/timemap/link/" + ORIGINAL):
    """What a client gets: the status and the body, or nothing."""
    with contextlib.suppress(OSError, http.client.HTTPException):
        status, _, body = get(port, target)
        return status, body
    return None


def text_of(path):
    return path.read_text() if path.exists() else None


def play(folder, library, number, text):
    """Serves by settings with this text, with the request of this number refused; 0 refuses none."""
    count, kept, settings = (folder / f"{name}{number}" for name in ("count", "kept", "settings"))
    kept.write_text(BEFORE)
    settings.write_text(f'snapshot = "{kept}"\n{text}')
    environment = {**ENVIRONMENT, "LD_PRELOAD": library, "REFUSE": str(number), "COUNT": str(count)}
    lines, replies, metrics = [], [], []
    with subprocess.Popen([PROGRAM, "serve", settings], env=environment, text=True,
                          stdout=subprocess.PIPE, stderr=subprocess.PIPE) as process:
        patience = threading.Timer(PATIENCE, process.kill)
        patience.start()
        for line in iter(process.stdout.readline, ""):
            lines.append(line)
            if line.startswith("round 2 "):
                gate, status = (int(line.rpartition(":")[2]) for line in lines[:2])
                metrics = [reply_of(status, "/metrics"), reply_of(status, "/metrics")]
                replies = [reply_of(gate), reply_of(gate)]
                break
        rest, complaint = process.communicate()
        patience.cancel()
        return Outcome(int(count.read_text()), lines, replies, metrics, rest, complaint, process.returncode, text_of(kept),
                       text_of(kept.with_name(f"{kept.name}.bad")))


def is_whole(came, wanted):
    return came is not None and came[0] == 200 and all(uri in came[1] for uri in wanted)


def check_snapshots(outcome):
    """What became of the snapshot that was there, and whether another one was written."""
    is_aside = "snapshot: no memory, and set aside" in outcome.complaint
    is_left = "snapshot: no memory, and not set aside" in outcome.complaint
    is_unwritten = "snapshot: not written: no memory" in outcome.complaint
    assert outcome.bad in ([BEFORE] if is_aside else [None, BEFORE] if is_left else [None]), "another snapshot was set aside"
    if len(outcome.lines) < 4 or is_unwritten:
        assert outcome.kept == (None if outcome.bad else BEFORE), "another snapshot is kept"
    else:
        assert OF_ARCHIVE in outcome.kept and OF_PEER in outcome.kept, "the snapshot lacks something"
        assert is_aside or is_left or OF_BEFORE in outcome.kept, "the snapshot lacks what was kept before"


def end_of(outcome):
    """The program's own line on standard error, behind those of the log."""
    lines = [line for line in outcome.complaint.splitlines() if not line.startswith("log: ")]
    return outcome.status, "".join(lines)


def effects(outcome):
    """What the refusal led to, or an assertion that fails."""
    check_snapshots(outcome)
    if len(outcome.lines) < 4:
        assert end_of(outcome) in [(BAD_MACHINE, "no memory"), (BAD_MACHINE, "no gate")]
        assert all(line.startswith(("gate ", "status ")) for line in outcome.lines) and not outcome.rest
        return [f"{end_of(outcome)[1]} before the first round"]
    rounds = [line == told(number, 1, 1, 1) for number, line in enumerate(outcome.lines[2:], 1)]
    assert any(rounds), "both rounds lack something"
    found = [what for what, words in LESS if any(words in line for line in outcome.lines)]
    wanted = [OF_ARCHIVE, OF_PEER] + ([] if "snapshot: no memory" in outcome.complaint else [OF_BEFORE])
    less = [came for came in outcome.replies if not is_whole(came, wanted)]
    # Where its address has ended, another service may have been given the port.
    metrics = [None] if STATUS_ENDED in outcome.complaint else outcome.metrics
    unmeasured = [came for came in metrics if not is_whole(came, ["maplewrench_rounds_total 2\n"])]
    assert all(came in (None, (503, "")) for came in less + unmeasured), "another reply"
    if less:
        found.append("a reply")
    if unmeasured:
        found.append("a reply of the status")
        assert len(unmeasured) == 1 or end_of(outcome)[0] == BAD_MACHINE, "neither reply of the status is whole"
    if end_of(outcome) == (BAD_MACHINE, "no memory"):
        return [*found, "a gate, which ended"]
    assert len(less) <= 1, "neither reply is whole"
    assert end_of(outcome) == (0, "") and outcome.rest == "done\n"
    return found


def main():
    library = os.path.abspath(sys.argv[1])
    told_of, seen = collections.Counter(), collections.Counter()
    with contextlib.ExitStack() as stack:
        folder = pathlib.Path(stack.enter_context(tempfile.TemporaryDirectory()))
        archive = Played(stack, lambda _: reply(link(OF_ARCHIVE)))
        peer = Played(stack, lambda target: reply(DELTAS[target]))
        text = settings_text(archive, peer)
        most = play(folder, library, 0, text).asked
        # Threads ask in another order each time, so the last numbers may be met or not.
        numbers = range(1, most + most // 50 + 2)
        pool = stack.enter_context(concurrent.futures.ThreadPoolExecutor(os.cpu_count()))
        for number, outcome in zip(numbers, pool.map(lambda number: play(folder, library, number, text), numbers)):
            try:
                found = effects(outcome)
            except AssertionError as error:
                sys.exit(f"serve: request {number} refused: {error}\n{outcome}")
            seen.update(found or ["nothing that shows"])
            told_of.update(call for call, words in CALLS.items() if re.search(f"(?m)^log: .*{words}", outcome.complaint))
            met = number <= outcome.asked
    if met:
        sys.exit(f"serve: request {number} is still met")
    if missing := [call for call in CALLS if not told_of[call]]:
        sys.exit(f"serve: the log told of no refusal in {', '.join(missing)}")
    print("a service was refused, and served on where it didn't end:")
    for what, count in sorted(seen.items()):
        print(f"{count:7} {what}")
    print("the log told of refusals in these calls:")
    for call, count in sorted(told_of.items()):
        print(f"{count:7} {call}")
    print(f"serve: {most} requests for memory refused in turn")


if __name__ == "__main__":
    main()
