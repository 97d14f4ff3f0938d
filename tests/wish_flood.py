#!/usr/bin/env python3
"""A flood of made-up addresses, each of which is a wish: what the service holds, how many of them archives are asked for, and what
becomes of other readers' wishes meanwhile.

    ./run --unproved && tests/wish_flood.py     50,000 addresses of 2,000 bytes
    tests/wish_flood.py 1000000 32           so many, of so many bytes: two minutes

- Straight at the gates, as fast as they answer: the archive is asked for as many as `wishes` allows in a minute, and the service
  holds what docs/OPERATING.md says of `wanted`.
- Through nginx, which lets one address wish so often, by as many connections as it likes and with `wishes` as shipped: then wishes
  from other addresses are granted as ever.

The archive is an nginx that has what begins with http://real. and nothing else.
"""
import collections
import contextlib
import itertools
import pathlib
import socket
import subprocess
import sys
import tempfile
import threading
import time

from playing import BASE, PATIENCE, Service, comes_true, free_ports, get, holds, needs, nginx, same, start, start_nginx, told

GATES = 3          # that are flooded; one gate more is for the others
BATCH = 200        # requests that are sent at once over a connection that is kept
WANTED = 500
WISHES = 60_000    # that are taken in a minute
SHIPPED = 60       # the same by deploy/settings.toml
CROWD = 30         # connections by which one address asks nginx, more than it lets through
MINUTE = 60        # seconds in which others' wishes are to be granted
ENTRY = 3_072      # bytes that an original takes that is known of an archive, as docs/OPERATING.md says
SLACK = 8_192      # KiB for what gates, workers and their threads hold once they have something to do
NOTE = 200         # bytes that each original takes that is remembered, beside its address, as docs/OPERATING.md says
QUEUE = 1_000      # wishes that wait at a time


def flood(port, first, count, length):
    """Asks one gate for so many made-up addresses. Prints how many it answered in a second."""
    pad = b"x" * max(0, length - 32)
    began, done = time.monotonic(), 0
    with socket.create_connection(("127.0.0.1", port)) as gate:
        while done < count:
            numbers = range(first + done, first + min(done + BATCH, count))
            gate.sendall(b"".join(b"GET /timegate/http://made-up.example/%d%b HTTP/1.1\r\nHost: agg.example\r\n\r\n" % (number, pad)
                                  for number in numbers))
            came = b""
            while came.count(b"no memento\n") < len(numbers):
                more = gate.recv(1 << 20)
                if not more:
                    raise SystemExit("a gate closed")
                came += more
            done += len(numbers)
    print(f"{count / (time.monotonic() - began):.0f}")


class Archive:
    """An nginx that notes what it is asked for."""

    def __init__(self, stack):
        self.folder = pathlib.Path(stack.enter_context(tempfile.TemporaryDirectory()))
        self.folder.chmod(0o755)
        self.noted = self.folder / "asked"
        (self.port,) = free_ports(1)
        kinds = "".join(f"{kind}_temp_path {self.folder}/{kind}; " for kind in ("client_body", "proxy", "fastcgi", "uwsgi", "scgi"))
        start_nginx(stack, self.folder, self.port, f'''
pid {self.folder}/nginx.pid; error_log {self.folder}/error.log; events {{}}
http {{
    log_format asked "$request_uri"; access_log {self.noted} asked; merge_slashes off; large_client_header_buffers 4 8k; {kinds}
    server {{
        listen 127.0.0.1:{self.port};
        if ($request_uri ~ "^{BASE}http://real") {{ return 200 '<http://m.example/1>;rel=memento;datetime="Sat, 01 Jan 2000 00:00:00 GMT"'; }}
        return 404;
    }}
}}
''')
        self.address = f"http://127.0.0.1:{self.port}"

    def asked(self):
        """What it was asked for."""
        return [line.removeprefix(BASE) for line in self.noted.read_text().splitlines()]


class Readers:
    """Others, who ask for an original that the archive has, again and again until it is shown, one original after the other."""

    def __init__(self, port, host):
        self.port, self.host, self.took, self.missed, self.ended = port, host, [], 0, threading.Event()
        self.thread = threading.Thread(target=self.ask_on, daemon=True)
        self.thread.start()

    def ask_on(self):
        number = 0
        while not self.ended.is_set():
            number += 1
            began, original = time.monotonic(), f"http://{self.host}/{number}"
            while get(self.port, "/timegate/" + original, "127.0.0.9")[0] != 302 and not self.ended.is_set():
                if time.monotonic() - began > MINUTE:
                    self.missed += 1
                    break
                time.sleep(0.2)
            else:
                self.took.append(time.monotonic() - began)

    def end(self):
        self.ended.set()
        self.thread.join(PATIENCE)

    def told(self):
        took = sorted(self.took) or [0]
        return (f"{len(self.took)} other wishes were granted meanwhile, half of them within {took[len(took) // 2]:.1f} s and all within "
                f"{took[-1]:.1f}; {self.missed} were not within a minute")


def flooding(stack, ports, count, length):
    """Begins a flood of all these ports, a program for each, as many addresses in all."""
    each = -(-count // len(ports))
    return [start(stack, sys.executable, __file__, "--ask", port, place * each, each, length, stdout=subprocess.PIPE, text=True)
            for place, port in enumerate(ports)]


def rates(floods):
    """How many requests each port answered in a second."""
    return [int(flood.communicate()[0]) for flood in floods]


def serve(stack, archive, gates, **keys):
    service = Service(stack, archives=[("a.example", archive.address)], ports=(0,) * gates, rounds=2, pause=86_400, workers=16, keys=keys)
    same("the first round has no job", service.line(), told(1, 0, 0))
    return service


def try_memory(count, length):
    """As fast as gates answer: what the service holds, and what becomes of others' wishes. How many it answered in a second."""
    with contextlib.ExitStack() as stack:
        archive = Archive(stack)
        service = serve(stack, archive, GATES + 1, wanted=WANTED, wishes=WISHES)
        before, began, first_minute = service.memory("VmHWM"), time.monotonic(), int(time.time()) // 60
        readers = Readers(service.ports[GATES], "real.example")
        rate = sum(rates(flooding(stack, service.ports[:GATES], count, length)))
        took = time.monotonic() - began
        readers.end()
        asked = archive.asked()
        made_up = sum("made-up" in original for original in asked)
        holds(f"of {count:,} made-up addresses of {length} bytes in {took:.0f} s ({rate:,} a second) the archive was asked for {made_up:,}, each once",
              made_up > 2 * WANTED and len(set(asked)) == len(asked))
        minutes = int(time.time()) // 60 - first_minute + 1
        holds(f"which is no more than {WISHES:,} in each of {minutes} minutes", len(asked) <= WISHES * minutes)
        held = service.memory("VmHWM") - before
        bound = ((2 * WANTED + QUEUE) * (NOTE + length) + ENTRY * len(readers.took)) // 1_024 + SLACK
        holds(f"at its most the service held {held} KiB more than the {before} of before; the bound is {bound}", held <= bound)
        known = [original for _, original, _ in service.entries()]
        holds(f"it knows {len(known)} originals, of which none was made up", all(original.startswith("http://real.example/") for original in known))
        holds(f"{readers.told()}", readers.took and not readers.missed)
        return rate


def try_front():
    """Through nginx, one address floods, and another one wishes."""
    with contextlib.ExitStack() as stack:
        archive = Archive(stack)
        service = serve(stack, archive, 2, wanted=WANTED, wishes=SHIPPED)
        front = nginx(stack, service.ports)
        ended, began, said, numbers = threading.Event(), time.monotonic(), collections.Counter(), itertools.count()

        def ask_on():
            # What still waits for its turn at the end is cut.
            while not ended.is_set():
                with contextlib.suppress(OSError):
                    said[get(front, f"/timegate/http://made-up.example/{next(numbers)}", "127.0.0.5", 5 * PATIENCE)[0]] += 1

        flood_of_one = [threading.Thread(target=ask_on, daemon=True) for _ in range(CROWD)]
        for each in flood_of_one:
            each.start()
        readers = Readers(front, "real.example")
        comes_true(lambda: len(readers.took) >= 5 and said.total() > 500)
        ended.set()
        took = time.monotonic() - began
        made_up = sum("made-up" in original for original in archive.asked())
        most = 12 + 20 + 12 / 60 * took + 1
        readers.end()
        holds(f"of {said.total()} requests of one address in {took:.0f} s {said[404]} are answered and the others refused", set(said) == {404, 503})
        # Planted: the 404 of a gate led on as it is, by which the flood has all of a minute's wishes.
        holds(f"and archives are asked for {made_up} of its made-up addresses, at most {most:.0f}", 12 <= made_up <= most < SHIPPED)
        holds(f"from another address, {readers.told()}", len(readers.took) >= 5 and not readers.missed)


def main():
    count = int(sys.argv[1]) if len(sys.argv) > 1 else 50_000
    length = int(sys.argv[2]) if len(sys.argv) > 2 else 2_000
    needs("nginx")
    rate = try_memory(count, length)
    try_front()
    print(f"{count:,} made-up addresses, {rate:,} a second, left the service within its bound, and others' wishes were granted")


if __name__ == "__main__":
    if sys.argv[1:2] == ["--ask"]:
        flood(*map(int, sys.argv[2:]))
    else:
        main()
