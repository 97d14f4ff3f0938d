#!/usr/bin/env python3
"""How `serve` ends, and what it says, if the machine refuses something: an address, a thread, memory, its standard output, a
connection.

    ./run --unproved && tests/endings.py

Not forced is that a reader's place can't be had, for which no cause is promised.
"""
import contextlib
import itertools
import os
import pathlib
import resource
import shutil
import socket
import subprocess
import tempfile
import time

from playing import (BASE, ENVIRONMENT, ORIGINAL, PATIENCE, PROGRAM, TOP, Service, compiled, free_ports, get, holds, is_listening, settings_text,
                     start_archive, wait_for)

BAD_MACHINE = 3
NOBODY = 61234    # a user without any other process


def ended(folder, gates, log=False, program=PROGRAM, **more):
    """The status, the output and the complaint of a service with these gates that is to end by itself."""
    settings = folder / "settings.toml"
    settings.write_text(settings_text(gates=gates, originals=[ORIGINAL], archives=[("archive.test", "http://127.0.0.1:1")], log=log))
    settings.chmod(0o644)
    ran = subprocess.run([program, "serve", settings], capture_output=True, text=True, timeout=PATIENCE, env=ENVIRONMENT, check=False, **more)
    return ran.returncode, ran.stdout, ran.stderr


def serve(stack, **more):
    """A service over an archive, with rounds to spare."""
    archive = f"http://127.0.0.1:{start_archive(stack)}"
    return Service(stack, archives=[("archive.test", archive)], originals=[ORIGINAL], pause=1, **{"rounds": 1_000_000, **more})


def nothing_comes(reader):
    with contextlib.suppress(TimeoutError):
        reader.recv(1)
        return False
    return True


NO_GATE = (BAD_MACHINE, "", "no gate\n")


def no_thread():
    """What a process does before it becomes the program: it lets itself have no second thread."""
    if os.geteuid() == 0:
        os.setgroups([])
        os.setgid(NOBODY)
        os.setuid(NOBODY)
    resource.setrlimit(resource.RLIMIT_NPROC, (1, 1))


def try_gates(folder):
    taken, other = free_ports(2)
    with socket.create_server(("127.0.0.1", taken)):
        holds("an address in use is no gate", ended(folder, [f"127.0.0.1:{taken}"]) == NO_GATE)
        both = [f"127.0.0.1:{other}", f"127.0.0.1:{taken}"]
        holds("nor is it beside one that is free", ended(folder, both) == NO_GATE)
        holds("nor in front of it", ended(folder, both[::-1]) == NO_GATE)
        holds("and the free one is let go", not is_listening(other))
    holds("an address of another machine is no gate", ended(folder, ["192.0.2.1:8080"]) == NO_GATE)
    program = folder / "aggregator"
    shutil.copy(PROGRAM, program)
    program.chmod(0o755)
    for what, log in (("a gate that gets no thread is none", False), ("which the log has no line for", True)):
        holds(what, ended(folder, [f"127.0.0.1:{other}"], log, program, preexec_fn=no_thread) == NO_GATE)


def try_memory(stack, folder):
    library = compiled(folder, TOP / "tests/memory/refuse.c")
    if library is None:
        return False
    sign = folder / "refuse"
    service = serve(stack, env={**ENVIRONMENT, "LD_PRELOAD": str(library), "REFUSE_WHILE": str(sign)})
    lines = (line.split() for line in service.process.stdout)
    holds("the first round is published", next(lines) == "round 1 jobs 1 harvests 1 pulls 0 published".split())
    sign.touch()
    came = next((line for line in itertools.islice(lines, 5) if line[5] == "0"), [])
    sign.unlink()
    # A publish of nothing takes no memory. That one is refused which has something to show is seen by tests/log.
    holds("a round that is refused all memory keeps no harvest", came[2:] == "jobs 1 harvests 0 pulls 0 published".split())
    again = next((line for line in itertools.islice(lines, 5) if line[5] != "0"), [])
    holds("a later one harvests again", again[2:] == "jobs 1 harvests 1 pulls 0 published".split())
    holds("and the gate still answers", service.get(BASE + ORIGINAL)[0] == 200)
    return True


def try_output(stack):
    """If a line can't be written no further round is made, and the fault is told once the gates have ended."""
    [port] = free_ports(1)
    with open("/dev/full", "w") as full:
        service = serve(stack, ports=[port], connections=2, stdout=full, stderr=subprocess.PIPE)
    wait_for(port)
    holds("with a full device as its output the gate has nothing to answer", get(port, BASE + ORIGINAL)[0] == 404)
    holds("and once it has ended the fault is told", service.ending() == (BAD_MACHINE, "", "device fault\n"))

    service = serve(stack, connections=2, stderr=subprocess.PIPE)
    holds("the first round is told", service.line().startswith("round 1 "))
    service.process.stdout.close()
    service.process.stdout = None
    time.sleep(3)
    holds("without its reader the program goes on", service.process.poll() is None)
    holds("its gate answers", service.get(BASE + ORIGINAL)[0] == 200)
    holds("to its last connection", service.get(f"/timegate/{ORIGINAL}")[0] == 302)
    holds("and then the fault is told", service.ending() == (BAD_MACHINE, "", "device fault\n"))


def try_accept(stack):
    """If there is no descriptor for a connection the gate waits, answers once there is one, and has counted none till then."""
    service = serve(stack, connections=2, rounds=3, logged=True)
    holds("the first round is told", service.line().startswith("round 1 "))
    most = resource.prlimit(service.process.pid, resource.RLIMIT_NOFILE)
    resource.prlimit(service.process.pid, resource.RLIMIT_NOFILE, (3, most[1]))
    with socket.create_connection(("127.0.0.1", service.ports[0]), PATIENCE) as reader:
        reader.sendall(b"GET / HTTP/1.1\r\nHost: aggregator.test\r\nConnection: close\r\n\r\n")
        reader.settimeout(2)
        holds("who can't be accepted waits", nothing_comes(reader))
        resource.prlimit(service.process.pid, resource.RLIMIT_NOFILE, most)
        reader.settimeout(PATIENCE)
        holds("and is answered once there is a descriptor", reader.recv(9) == b"HTTP/1.1 ")
    holds("so is the gate's last connection", service.get("/")[0] == 404)
    status, output, complaint = service.ending()
    holds("the rounds go on", [line.split()[:2] for line in output.splitlines()] == [["round", "2"], ["round", "3"], ["done"]])
    holds("and no fault is told", (status, "ended: its last connection is served" in complaint) == (0, True))


def main():
    with contextlib.ExitStack() as stack:
        folder = pathlib.Path(stack.enter_context(tempfile.TemporaryDirectory()))
        folder.chmod(0o755)
        try_gates(folder)
        try_output(stack)
        try_accept(stack)
        has_refused = try_memory(stack, folder)
    print("serve ended as is said, and told what was refused" if has_refused else
          "serve ended as is said; refused memory wasn't tried, which needs a C compiler: apt-get install gcc libc6-dev")


if __name__ == "__main__":
    main()
