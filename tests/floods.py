#!/usr/bin/env python3
"""Many connections and slow ones, to gates by themselves and to nginx in front of two gates by the limits of deploy/nginx.conf:
whoever comes next is served, and a peer's pull doesn't wait for readers.

    ./run --unproved && tests/floods.py

A gate by itself serves one connection after the other, or with the key `together` so many at once; what waits in front of it
is answered in turn. In front, nginx keeps connections to gates that serve as many as deploy/settings.toml has them serve. It lets
one address have 20 connections and 20 requests a second, and a slow client keeps nobody else waiting.
"""
import collections
import concurrent.futures
import contextlib
import re
import shutil
import socket
import threading
import time

from playing import BASE, MEMENTO, ORIGINAL, PATIENCE, TOP, Played, Service, comes_true, get, holds, lacks, link, nginx, reply, same, told

MANY = "http://many.example/"
COPIES = 1_000
GATE = "/timegate/" + ORIGINAL
LONG = BASE + MANY
CROWD = 1_000
HEAD_SECONDS = 10    # that nginx and a gate wait for a head
TOGETHER = int(re.search(r"(?m)^together = (\d+)$", (TOP / "deploy/settings.toml").read_text())[1])


def request(target, *fields, method="GET", close=True):
    lines = [f"{method} {target} HTTP/1.1", "Host: agg.example", *fields, *(["Connection: close"] if close else [])]
    return "\r\n".join([*lines, "", ""]).encode()


def connect(port, source="127.0.0.1"):
    return socket.create_connection(("127.0.0.1", port), PATIENCE, source_address=(source, 0))


def statuses(data):
    """The statuses of the replies in these bytes; each reply has a length."""
    came = []
    while data:
        head, _, rest = data.partition(b"\r\n\r\n")
        lines = head.decode().lower().split("\r\n")
        length = next((int(line.partition(":")[2]) for line in lines if line.startswith("content-length:")), 0)
        came.append(int(lines[0].split()[1]))
        data = rest[length:]
    return came


def told_to(port, sent, source="127.0.0.1"):
    """The statuses of all that comes until the connection is closed; an empty list if it is reset."""
    with contextlib.suppress(OSError), connect(port, source) as client, client.makefile("rb") as stream:
        client.sendall(sent)
        return statuses(stream.read())
    return []


def is_served(port, source="127.0.0.9"):
    return get(port, GATE, source)[:2] == (302, MEMENTO)


def at_once(count, work):
    """What so many threads' work gives, all of which begin together."""
    begin = threading.Barrier(count)

    def each(number):
        begin.wait(PATIENCE)
        return work(number)

    with concurrent.futures.ThreadPoolExecutor(count) as pool:
        return list(pool.map(each, range(count)))


def try_cuts(port):
    whole = request(GATE, "Accept-Datetime: Sat, 01 Jan 2000 00:00:00 GMT")
    for cut in range(len(whole)):
        with connect(port) as client:
            client.sendall(whole[:cut])
        if not is_served(port):
            holds(f"behind {cut} bytes of a request the next is served", False)
    holds(f"behind each of {len(whole)} beginnings of a request the next one is served", True)
    for cut in range(1, len(whole)):
        with connect(port) as client, client.makefile("rb") as stream:
            client.setsockopt(socket.IPPROTO_TCP, socket.TCP_NODELAY, 1)
            client.sendall(whole[:cut])
            time.sleep(0.001)
            client.sendall(whole[cut:])
            if statuses(stream.read()) != [302]:
                holds(f"a request in two pieces, of {cut} bytes and the rest, is answered", False)
    holds(f"and a request that comes in two pieces, cut at any of {len(whole) - 1} places, is answered", True)


def try_heads(service, port):
    big = request(GATE, *[f"X-{k}: {'x' * 8_000}" for k in range(9)])
    many = request(GATE, *[f"X-{k}: y" for k in range(1_000)])
    ranges = request(GATE, "Range: bytes=0-," + ",".join(f"5-{k}" for k in range(1_000)))
    for each in (big, many):
        told_to(port, each)
    before = service.memory()
    for _ in range(100):
        for each in (big, many):
            told_to(port, each)
    grown = service.memory() - before
    holds(f"200 heads that are too large leave {grown} KiB behind", grown < 4_096)
    same("a thousand ranges change nothing", told_to(port, ranges), [302])
    holds("and the next is served", is_served(port))


def try_pipeline(port):
    count = 2_000
    sent = request(GATE, close=False) * (count - 1) + request(GATE)
    same(f"{count} requests at once are answered in order", told_to(port, sent), [302] * count)
    holds("and the next is served", is_served(port))


def try_crowd(service, port):
    before = service.memory()
    came = at_once(CROWD, lambda _: told_to(port, request(GATE)))
    same(f"{CROWD} connections at once to one gate, each with a request, are all answered",
         collections.Counter(map(tuple, came)), {(302,): CROWD})
    holds(f"with {service.memory() - before} KiB more than before", service.memory() - before < 4_096)
    gone = at_once(CROWD, lambda _: connect(port).close())
    holds(f"{len(gone)} that close at once leave the next served", is_served(port))


def try_front_crowd(front):
    """One address has 20 connections; the others are refused, and no other address is."""
    began = time.monotonic()
    crowd = threading.Thread(target=lambda: came.extend(at_once(CROWD, lambda _: told_to(front, request(GATE), "127.0.0.5"))))
    came, served = [], 0
    crowd.start()
    while crowd.is_alive() and is_served(front):
        served += 1
        time.sleep(0.06)
    holds("beside a crowd another address is served", not crowd.is_alive())
    counts, seconds = collections.Counter(map(tuple, came)), time.monotonic() - began
    holds(f"of {CROWD} connections at once from one address nginx serves {counts[(302,)]} and refuses {counts[(503,)]}, within "
          f"{seconds:.1f} s; another address was served each of {served} times",
          set(counts) == {(302,), (503,)} and counts[(302,)] <= 42 + 20 * seconds)


def try_front_rate(front):
    began = time.monotonic()
    came = [get(front, GATE, "127.0.0.6")[0] for _ in range(200)]
    most = 41 + 20 * (time.monotonic() - began) + 1
    holds(f"of 200 requests in a row from one address {came.count(302)} are served and the others refused",
          came[:40] == [302] * 40 and set(came) <= {302, 503} and came.count(302) <= most)
    came = told_to(front, request(GATE, close=False) * 199 + request(GATE), "127.0.0.7")
    holds(f"of 200 at once over one connection {came.count(302)}, in order",
          len(came) == 200 and came[:40] == [302] * 40 and set(came) <= {302, 503})
    holds("and another address is served", is_served(front))


def crawls(client):
    """Sends one byte more: whether the connection still stands."""
    try:
        client.sendall(b"x")
        client.settimeout(0.001)
        while client.recv(1_000):
            pass
    except TimeoutError:
        client.settimeout(PATIENCE)
        return True
    except OSError:
        pass
    client.close()
    return False


def crawl(front, slow):
    """Lets each of these send a byte each half second, until all are closed: the seconds, if others were served all the
    while; else None."""
    began = time.monotonic()
    while slow:
        slow = [client for client in slow if crawls(client)]
        if not is_served(front) or time.monotonic() - began > 3 * HEAD_SECONDS:
            return None
        time.sleep(0.5)
    return time.monotonic() - began


def try_front_slow(front):
    """Slow heads and slow bodies, of 20 connections from each of 10 addresses."""
    sources = [f"127.0.1.{k}" for k in range(10) for _ in range(20)]
    slow = [connect(front, source) for source in sources]
    for client in slow:
        client.sendall(f"GET {GATE} HTTP/1.1\r\nHost: agg.example\r\nX-".encode())
    seconds = crawl(front, slow)
    holds(f"beside {len(slow)} heads that come by bytes the next is served; nginx closed the last after {seconds or 0:.0f} s",
          seconds is not None)
    slow = [connect(front, source) for source in sources]
    for client in slow:
        client.sendall(request(GATE, "Content-Length: 1000", method="POST", close=False))
    for _ in range(4):
        for client in slow:
            with contextlib.suppress(OSError):
                client.sendall(b"x")
        holds(f"beside {len(slow)} bodies that come by bytes the next is served", is_served(front))
        time.sleep(0.2)
    for client in slow:
        client.close()


def try_front_readers(front):
    """Readers that ask for long replies and read nothing."""
    slow = [connect(front, f"127.0.2.{k}") for k in range(3) for _ in range(20)]
    for client in slow:
        client.setsockopt(socket.SOL_SOCKET, socket.SO_RCVBUF, 4_096)
        client.sendall(request(LONG, close=False))
    for _ in range(4):
        holds(f"beside {len(slow)} long replies that nobody reads the next is served", is_served(front))
        time.sleep(0.2)
    for client in slow:
        client.close()
    holds("and once they have gone", is_served(front))


def try_pulls(stack, service, front):
    """On each gate for readers as many slow ones as it serves at once, which no proxy keeps from it: a pull from the gate for
    peers comes at once."""
    slow = [stack.enter_context(connect(port)) for port in service.ports[:2] for _ in range(TOGETHER)]
    for client in slow:
        client.setsockopt(socket.SOL_SOCKET, socket.SO_RCVBUF, 4_096)
        client.sendall(request(LONG, close=False) * 400)

    def is_kept(port):
        """Whether nobody else is answered there."""
        with contextlib.suppress(TimeoutError):
            get(port, "/delta", patience=1)
            return False
        return True

    for port in service.ports[:2]:
        holds(f"{TOGETHER} slow readers keep their gate", comes_true(lambda port=port: is_kept(port)))
    began = time.monotonic()
    came = [get(service.ports[2], "/delta")[0], get(front, "/delta")[0], get(front, "/state")[0]]
    holds(f"beside {TOGETHER} slow readers on each reader's gate pulls come within {time.monotonic() - began:.2f} s",
          came == [200] * 3 and time.monotonic() - began < HEAD_SECONDS)
    for client in slow:
        client.close()


def try_gate(service):
    same("two originals are known", service.line(), told(1, 2, 2))
    port = service.ports[0]
    try_cuts(port)
    try_heads(service, port)
    try_pipeline(port)
    try_crowd(service, port)


def main():
    with contextlib.ExitStack() as stack:
        pages = {ORIGINAL: reply(link(MEMENTO)), MANY: reply(",".join(link(f"http://m.example/{k}") for k in range(COPIES)))}
        archive = Played(stack, lambda target: pages[target.removeprefix(BASE)])
        for keys in ({}, {"together": TOGETHER}):
            service = Service(stack, archives=[("arc.example", archive.address)], originals=list(pages), ports=(0, 0, 0), keys=keys)
            try_gate(service)
        if shutil.which("nginx") is None:
            lacks("a gate by itself served each next client; nginx wasn't tried: apt-get install nginx-light")
        front = nginx(stack, service.ports[:2], ("127.0.0.1:8082", f"127.0.0.1:{service.ports[2]}"))
        try_front_crowd(front)
        try_front_rate(front)
        try_front_slow(front)
        try_front_readers(front)
        try_pulls(stack, service, front)
        holds("the program is still there", service.process.poll() is None)
    print(f"behind {CROWD} connections at once, slow heads, bodies and readers, and cut requests, the next client was served")


if __name__ == "__main__":
    main()
