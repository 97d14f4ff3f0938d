#!/usr/bin/env python3
"""Refuses requests for memory of a running service in turn, one of 47 from its start until it has forgotten: something that is withdrawn,
and of the unlisted originals the oldest. While it takes in its snapshot, more of them are refused.

    tests/memory/forgotten.py REFUSE.SO

The service must end before its first round, with `no memory`, `no gate` or `device fault`, or forget both in the end. Meanwhile
each reply about a kept original is the redirect to its memento or, before anything is shown, 404: what was refused left all as it was.
No reply ever leads to what is withdrawn.

The program is crates/aggregator/out/aggregator, or what $PROGRAM names. The last line tells how many requests were refused.
"""
import concurrent.futures
import contextlib
import http.client
import os
import pathlib
import subprocess
import sys
import tempfile
import threading
import time

from playing import ENVIRONMENT, PATIENCE, PROGRAM, get

ARCHIVE = "arc.example"
WITHDRAWN, OLD, YOUNG, LISTED = (f"http://{name}.example/" for name in ("withdrawn", "old", "young", "listed"))
BAD_MACHINE = 3
STRIDE = 47    # there are some thousand requests
EARLY, EARLY_STRIDE = 400, 5    # so many until the snapshot is taken in
TOLD = ("no memory", "no gate", "device fault")


def memento(original):
    return f"http://m.example/{original}"


def snapshot_text():
    """Four originals, which were looked at in different seconds, in two sections: what is withdrawn stands in the first."""
    states = []
    for section in ([(OLD, 10), (WITHDRAWN, 40)], [(LISTED, 5), (YOUNG, 30)]):
        entries = "".join(f"entry {ARCHIVE} {second} 1 {original}\nat {second} 1\n946684800 {memento(original)}\n" for original, second in section)
        states.append(f"memento-state 2\nentries {len(section)}\n{entries}end\n")
    sections = "".join(f"section {len(state)}\n{state}" for state in states)
    return f"memento-snapshot 1\n{sections}sections {len(states)}\n"


def settings_text(folder, number):
    return f'''
base = "http://agg.example"
gates = ["127.0.0.1:0", "127.0.0.1:0"]
connections = 1000000000
rounds = 1000000000
pause = 1
workers = 1
originals = ["{LISTED}"]
peers = []
wanted = 1
forget = 1
again = 86400
publish = 1
snapshot = "{folder}/snapshot{number}"
withdrawn_file = "{folder}/withdrawn"
archives = [{{ name = "{ARCHIVE}", timemap = "http://127.0.0.1:1/" }}]
'''


def says(port, original):
    """Where the gate leads; its status if it leads nowhere; None if it can't be asked."""
    with contextlib.suppress(OSError, http.client.HTTPException):
        status, where, _ = get(port, "/timegate/" + original)
        return where if status == 302 else status
    return None


def see_all(ports):
    """Asks until a gate has neither what is withdrawn nor what is old. What went wrong, if anything."""
    until, kept = time.monotonic() + PATIENCE, {}
    while time.monotonic() < until:
        for port in ports:
            for original in (YOUNG, LISTED):
                came = says(port, original)
                if came not in (None, 404, 503, memento(original)) or came == 404 and kept.get((port, original)):
                    return f"{original} is {came}"
                kept[port, original] = kept.get((port, original)) or came == memento(original)
            if says(port, WITHDRAWN) == memento(WITHDRAWN):
                return "what is withdrawn is shown"
            if kept[port, YOUNG] and says(port, WITHDRAWN) == 404 and says(port, OLD) == 404:
                return None
        time.sleep(0.05)
    return f"not forgotten: {[(original, [says(port, original) for port in ports]) for original in (WITHDRAWN, OLD, YOUNG, LISTED)]}"


def play(folder, library, number):
    """Serves, with the request of this number refused; 0 refuses none. How many were made, and what went wrong, if anything."""
    count, settings = folder / f"count{number}", folder / f"settings{number}.toml"
    settings.write_text(settings_text(folder, number))
    (folder / f"snapshot{number}").write_text(snapshot_text())
    environment = {**ENVIRONMENT, "LD_PRELOAD": library, "REFUSE": str(number), "COUNT": str(count)}
    with subprocess.Popen([PROGRAM, "serve", settings], env=environment, text=True, stdout=subprocess.PIPE, stderr=subprocess.PIPE) as process:
        patience = threading.Timer(2 * PATIENCE, process.kill)
        patience.start()
        gates = [process.stdout.readline(), process.stdout.readline()]
        # Without the snapshot nothing is known, so nothing is to be forgotten.
        is_known = (folder / f"snapshot{number}").exists() and not list(folder.glob(f"snapshot{number}.bad*"))
        fault = see_all([int(gate.rpartition(":")[2]) for gate in gates]) if all(gates) and is_known else None
        if all(gates):
            process.kill()
        _, complaint = process.communicate()
        patience.cancel()
    asked = int(count.read_text())
    if all(gates):
        return asked, fault
    is_told = process.returncode == BAD_MACHINE and complaint.strip().startswith(TOLD)
    return asked, None if is_told else f"status {process.returncode}, {complaint}"


def main():
    library = os.path.abspath(sys.argv[1])
    with contextlib.ExitStack() as stack:
        folder = pathlib.Path(stack.enter_context(tempfile.TemporaryDirectory()))
        (folder / "withdrawn").write_text(f"original {WITHDRAWN}\n")
        most, fault = play(folder, library, 0)
        if fault:
            sys.exit(f"forgetting: nothing is refused: {fault}")
        pool = stack.enter_context(concurrent.futures.ThreadPoolExecutor(os.cpu_count()))
        numbers = sorted({*range(1, EARLY, EARLY_STRIDE), *range(1, most + 1, STRIDE)})
        for number, (_, fault) in zip(numbers, pool.map(lambda number: play(folder, library, number), numbers)):
            if fault:
                sys.exit(f"forgetting: request {number} refused: {fault}")
    print(f"forgetting: {len(numbers)} requests for memory refused in turn")


if __name__ == "__main__":
    main()
