#!/usr/bin/env python3
"""Refuses each request for memory of a running service in turn, from its start until a wished original, another spelling of it and
an original of a file are shown.

    tests/memory/wished.py REFUSE.SO

Its gates hold first questions (`wait`). The service must end before its first round, with `no memory` or `no gate`, or show all
three: what was refused is made up for when readers ask again, and by the next round.

The program is crates/aggregator/out/aggregator, or what $PROGRAM names. The last line tells how many requests were refused.
"""
import concurrent.futures
import contextlib
import http.client
import itertools
import os
import pathlib
import subprocess
import sys
import tempfile
import threading
import time

from playing import BASE, ENVIRONMENT, PATIENCE, PROGRAM, Played, get, link, reply

WANTED = ["http://wished.example/", "https://www.wished.example/", "http://listed.example/"]
BAD_MACHINE = 3


def settings_text(archive, listed):
    return f'''
base = "http://agg.example"
gates = ["127.0.0.1:0", "127.0.0.1:0"]
connections = 1000000000
rounds = 1000000000
pause = 1
workers = 1
originals = []
peers = []
wanted = 9
wait = 1
together = 4
again = 1
alike = true
originals_file = "{listed}"
archives = [{{ name = "arc.example", timemap = "{archive.address}{BASE}" }}]
'''


def is_shown(port, original):
    with contextlib.suppress(OSError, http.client.HTTPException):
        return get(port, "/timegate/" + original)[0] == 302
    return False


def show_all(ports):
    """Asks until all is shown, one gate and then the other: one may have ended."""
    until, left = time.monotonic() + PATIENCE, WANTED
    for port in itertools.cycle(ports):
        left = [original for original in left if not is_shown(port, original)]
        if not left or time.monotonic() > until:
            return left
        time.sleep(0.05)


def play(folder, library, number):
    """Serves, with the request of this number refused; 0 refuses none. How many were made, and what went wrong, if anything."""
    count = folder / f"count{number}"
    environment = {**ENVIRONMENT, "LD_PRELOAD": library, "REFUSE": str(number), "COUNT": str(count)}
    words = [PROGRAM, "serve", folder / "settings.toml"]
    with subprocess.Popen(words, env=environment, text=True, stdout=subprocess.PIPE, stderr=subprocess.PIPE) as process:
        patience = threading.Timer(2 * PATIENCE, process.kill)
        patience.start()
        gates = [process.stdout.readline(), process.stdout.readline()]
        left = show_all([int(gate.rpartition(":")[2]) for gate in gates]) if all(gates) else []
        if all(gates):
            process.kill()
        _, complaint = process.communicate()
        patience.cancel()
    asked = int(count.read_text())
    if all(gates):
        return asked, f"not shown: {left}" if left else None
    is_told = (process.returncode, complaint.strip()) in [(BAD_MACHINE, "no memory"), (BAD_MACHINE, "no gate")]
    return asked, None if is_told else f"status {process.returncode}, {complaint}"


def main():
    library = os.path.abspath(sys.argv[1])
    with contextlib.ExitStack() as stack:
        folder = pathlib.Path(stack.enter_context(tempfile.TemporaryDirectory()))
        archive = Played(stack, lambda _: reply(link("http://m.example/1")))
        (folder / "listed").write_text(WANTED[2] + "\n")
        (folder / "settings.toml").write_text(settings_text(archive, folder / "listed"))
        most, fault = play(folder, library, 0)
        if fault:
            sys.exit(f"wishes: nothing is refused: {fault}")
        pool = stack.enter_context(concurrent.futures.ThreadPoolExecutor(os.cpu_count()))
        for number, (_, fault) in enumerate(pool.map(lambda number: play(folder, library, number), range(1, most + 1)), 1):
            if fault:
                sys.exit(f"wishes: request {number} refused: {fault}")
    print(f"wishes: {most} requests for memory refused in turn")


if __name__ == "__main__":
    main()
