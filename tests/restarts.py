#!/usr/bin/env python3
"""What readers behind nginx (deploy/nginx.conf) see while two replicas are restarted one after the other: that each is
led to a copy, and how many replies are cut; that what nobody has is 404 all the while; that none is cut if nginx first
lets a replica be; and what they would see if gates didn't say that they know nothing yet (`ready`).

    ./run --unproved && tests/restarts.py          some three minutes; needs nginx (nginx-light)

A restart is a SIGTERM, as systemd sends it, and a start.
"""
import collections
import contextlib
import http.client
import os
import pathlib
import tempfile
import threading
import time

from playing import PATIENCE, QUICK, Played, Service, children, free_ports, get, holds, needs, nginx, reload_nginx, reply

RESTARTS = 4
READERS = 8
FAIL_TIMEOUT = 10    # seconds for which nginx leaves alone a gate that refused a connection
SHORT_ROUND = 2    # seconds that the archive takes for a page
LONG_ROUND = FAIL_TIMEOUT + 5    # nginx asks the gate again before its first round is published
LONG = "http://long.example/"
NOBODY = "/timegate/http://nobody.example/"
TARGETS = ["/timegate/http://a.example/", "/timegate/" + LONG, f"/timemap/link/page/1/{LONG}", f"/timemap/link/page/2/{LONG}", NOBODY]
MANY = [*QUICK, ("limit_conn connections 20", "limit_conn connections 1000")]


def page_of(target, seconds):
    """The archive's page of an original, after so many seconds: two mementos, or 2,000 with long addresses."""
    count = 2_000 if target.endswith(LONG) else 2
    lines = (f'<http://m.example/{"x" * 100}/{number}>;rel=memento;datetime="Sat, 01 Jan 2000 00:{number // 60:02}:{number % 60:02} GMT"'
             for number in range(count))
    time.sleep(seconds)
    return reply(",".join(lines))


class Readers:
    """Threads that ask for one target after the other, and count how each reply came."""

    def __init__(self, port):
        self.port, self.seen, self.ended = port, collections.Counter(), threading.Event()
        self.threads = [threading.Thread(target=self.read, args=(number,)) for number in range(READERS)]
        for thread in self.threads:
            thread.start()

    def read(self, number):
        while not self.ended.is_set():
            number += 1
            self.seen[self.ask(TARGETS[number % len(TARGETS)])] += 1

    def ask(self, target):
        try:
            status, _, _ = get(self.port, target)
            wanted = 404 if target == NOBODY else 302 if "timegate" in target else 200
            return "whole" if status == wanted else f"status {status} of {'nothing' if target == NOBODY else 'a copy'}"
        except http.client.IncompleteRead:
            return "cut"
        except (OSError, http.client.HTTPException) as error:
            return type(error).__name__

    def end(self):
        self.ended.set()
        for thread in self.threads:
            thread.join()
        return dict(self.seen)


class Upstream:
    """The gates that nginx leads readers to: a file for each replica's, as an operator edits them."""

    def __init__(self, stack, gates):
        self.folder, self.gates = pathlib.Path(stack.enter_context(tempfile.TemporaryDirectory())), gates
        self.folder.chmod(0o755)
        for number in range(len(gates)):
            self.write(number)

    def write(self, number, mark=""):
        lines = "".join(f"server 127.0.0.1:{port}{mark};\n" for port in self.gates[number])
        (self.folder / f"{number}.conf").write_text(lines)

    def changes(self):
        servers = "\n".join(f"        server 127.0.0.1:{port};" for gates in self.gates for port in gates)
        return (servers, f"        include {self.folder}/*.conf;")

    def set(self, number, mark):
        """Marks a replica's gates, and has nginx take that in: until all that began before has ended."""
        self.write(number, mark)
        [master] = children(os.getpid())
        reload_nginx(master)


def restart(replica):
    """Ends it as systemd does, starts it, and waits until it has published a round."""
    replica.process.terminate()
    replica.process.wait(PATIENCE)
    replica.start()
    replica.rounds()


def try_restarts(what, restarts, drained=False, seconds=SHORT_ROUND, keys=None):
    with contextlib.ExitStack() as stack:
        archive = Played(stack, lambda target: page_of(target, seconds))
        ports = free_ports(4)
        gates = ports[:2], ports[2:]
        replicas = [Service(stack, archives=[("arc.example", archive.address)], originals=["http://a.example/", LONG], workers=2, ports=mine,
                            peers=[f"http://127.0.0.1:{others[0]}"], rounds=1_000_000, pause=3, keys={"together": 64, **(keys or {})}) for mine, others in (gates, gates[::-1])]
        for replica in replicas:
            replica.rounds()
        upstream = Upstream(stack, gates)
        readers = Readers(nginx(stack, ports, *MANY, upstream.changes()))
        for number in range(restarts):
            if drained:
                upstream.set(number % 2, " down")
            restart(replicas[number % 2])
            if drained:
                upstream.set(number % 2, "")
            else:
                time.sleep(FAIL_TIMEOUT + 1)
        seen = readers.end()
        print(f"{what}, over {restarts} restarts: {seen}", flush=True)
        return seen


def main():
    needs("nginx")
    ready = {"ready": True}
    seen = try_restarts("by the settings as they are shipped", RESTARTS, keys=ready)
    holds(f"{seen['whole']:,} replies were whole, and none said that there is no copy", not set(seen) - {"whole", "cut"})
    holds(f"and {seen.get('cut', 0)} were cut, at most one for each reader and restart", seen.get("cut", 0) <= READERS * RESTARTS)
    seen = try_restarts("if nginx lets each replica be before its end", RESTARTS, drained=True, keys=ready)
    holds("no reply is cut", set(seen) == {"whole"})
    seen = try_restarts("if gates don't say that they know nothing yet", 2, seconds=LONG_ROUND)
    holds("a replica that has just been started says that there is no copy", seen.get("status 404 of a copy", 0) > 0)
    print(f"{RESTARTS} restarts of replicas in turn hid no copy from readers")


if __name__ == "__main__":
    main()
