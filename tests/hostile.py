#!/usr/bin/env python3
"""Hostile and odd requests against a running `serve`, over bare sockets; after each the next connection is served.

    ./run --unproved && tests/hostile.py

Once the gate serves one connection after the other, and once four together. What is told of a reply is its status and, where it
matters, a header.
"""
import contextlib
import socket
import struct
import time

from playing import ORIGINAL, PATIENCE, Service, holds, same, start_archive, told

GATE = b"/timegate/http://a.example/"
# A page of a long list, of some 80,000 bytes: a client that asks for many has replies of megabytes to read.
LONG = b"/timemap/link/page/1/http://many.example/"
FIRST = "Sun, 04 Mar 2001 05:06:07 GMT"
HOST = b"Host: aggregator.test\r\n"
LIMIT_SECONDS = 10    # that a head may take
MOST_SECONDS = 3 * LIMIT_SECONDS    # that a head is waited for, on a machine that is busy
CLOSED = None    # in the place of a status: the connection ended without a reply


def connect(port):
    return socket.create_connection(("127.0.0.1", port), PATIENCE)


def read_reply(stream, has_body=True):
    """Status, headers and body of the next reply; CLOSED if the connection ends first."""
    line = stream.readline()
    if not line:
        return CLOSED, {}, b""
    status, headers = int(line.split()[1]), {}
    while (line := stream.readline()).strip():
        name, _, value = line.decode().partition(":")
        headers[name.lower()] = value.strip()
    return status, headers, stream.read(int(headers.get("content-length", 0))) if has_body else b""


def replies_to(port, sent, count=1, has_body=True, patience=0.3):
    """The next replies to these bytes, and whether the connection was closed behind them within so many seconds."""
    with connect(port) as client:
        with contextlib.suppress(ConnectionResetError, BrokenPipeError):
            client.sendall(sent)
        got, closed = [], False
        with contextlib.suppress(ConnectionResetError), client.makefile("rb") as stream:
            for _ in range(count):
                got.append(read_reply(stream, has_body))
            client.settimeout(patience)
            with contextlib.suppress(TimeoutError):
                closed = stream.read(1) == b""
        return got or [(CLOSED, {}, b"")], closed


def is_served(port):
    """Whether a well-meant request on a new connection gets its redirect."""
    [(status, headers, _)], _ = replies_to(port, b"GET " + GATE + b" HTTP/1.1\r\n" + HOST + b"Connection: close\r\n\r\n")
    return status == 302 and "/web/" in headers.get("location", "")


def request(line, *fields, body=b""):
    return b"\r\n".join([line, HOST.strip(), *fields, b"", b""]) + body


def get(target, *fields, body=b""):
    return request(b"GET " + target + b" HTTP/1.1", *fields, body=body)


ASKED = b"Accept-Datetime: " + FIRST.encode()
BIG = b"X-Filler: " + b"x" * 8000

# What is sent, and the statuses of which one has to come.
ODD = [
    ("a head over 64 KiB", get(GATE, *[BIG] * 9), {431, CLOSED}),
    ("one header of 100,000 bytes", get(GATE, b"X-Filler: " + b"x" * 100_000), {431, CLOSED}),
    ("one line of 1,000,000 bytes", b"G" * 1_000_000, {400, 414, 431, CLOSED}),
    ("a target of 100,000 bytes", get(b"/timegate/http://a.example/" + b"x" * 100_000), {414, 431, CLOSED}),
    ("a target of 10,000 bytes, which is no original", get(b"/timegate/http://a.example/" + b"x" * 10_000), {400}),
    ("100 headers", get(GATE, *[b"X-%d: y" % k for k in range(95)]), {302, 431}),
    ("1,000 headers", get(GATE, *[b"X-%d: y" % k for k in range(1000)]), {302, 431}),
    ("a body with a GET", get(GATE, b"Content-Length: 5", body=b"hello"), {302}),
    ("a chunked body with a GET", get(GATE, b"Transfer-Encoding: chunked", body=b"5\r\nhello\r\n0\r\n\r\n"), {302}),
    ("a chunked body that isn't one", get(GATE, b"Transfer-Encoding: chunked", body=b"hello\r\n\r\n"), {302, 400, CLOSED}),
    ("a length and chunks", get(GATE, b"Content-Length: 5", b"Transfer-Encoding: chunked", body=b"0\r\n\r\n"), {400, CLOSED}),
    ("two lengths", get(GATE, b"Content-Length: 5", b"Content-Length: 6", body=b"hello!"), {400, CLOSED}),
    ("a length that is no number", get(GATE, b"Content-Length: -5"), {400, CLOSED}),
    ("another coding", get(GATE, b"Transfer-Encoding: gzip"), {302, 400, 501, CLOSED}),
    ("a POST with a body", request(b"POST " + GATE + b" HTTP/1.1", b"Content-Length: 5", body=b"hello"), {405}),
    ("an unknown method", request(b"BREW " + GATE + b" HTTP/1.1"), {405}),
    ("a method in lower case", request(b"get " + GATE + b" HTTP/1.1"), {405}),
    ("OPTIONS *", request(b"OPTIONS * HTTP/1.1"), {400, 405}),
    ("CONNECT", request(b"CONNECT a.example:443 HTTP/1.1"), {400, 405}),
    ("HTTP/1.0", b"GET " + GATE + b" HTTP/1.0\r\n" + HOST + b"\r\n", {302}),
    ("HTTP/1.0 without a host", b"GET " + GATE + b" HTTP/1.0\r\n\r\n", {302, 400}),
    ("HTTP/1.1 without a host", b"GET " + GATE + b" HTTP/1.1\r\n\r\n", {400}),
    ("two hosts", get(GATE, b"Host: other.test"), {400}),
    ("HTTP/0.9", b"GET " + GATE + b"\r\n\r\n", {400, CLOSED}),
    ("HTTP/2's preface", b"PRI * HTTP/2.0\r\n\r\nSM\r\n\r\n", {400, 505, CLOSED}),
    ("HTTP/9.9", b"GET " + GATE + b" HTTP/9.9\r\n" + HOST + b"\r\n", {400, 505, CLOSED}),
    ("an absolute target", get(b"http://aggregator.test" + GATE), {302}),
    ("an absolute target without a path", get(b"http://aggregator.test"), {404}),
    ("a target of another scheme", get(b"https://other.test" + GATE), {302}),
    ("a target that is no path", get(b"timegate"), {400, 404}),
    ("a target with a fragment", get(GATE + b"#x"), {302, 400}),
    ("bytes over 127 in the target", get(GATE + b"\xff\xfe"), {302, 400, 404}),
    ("a NUL in the target", get(GATE + b"\0"), {400, CLOSED}),
    ("a NUL in a header", get(GATE, b"X: a\0b"), {400, CLOSED}),
    ("a header without a colon", get(GATE, b"nonsense"), {400, CLOSED}),
    ("a blank before a colon", get(GATE, b"Accept-Datetime : " + FIRST.encode()), {400, CLOSED}),
    ("a header over two lines", get(GATE, b"X: a", b" b"), {302, 400, CLOSED}),
    ("a TLS greeting", bytes.fromhex("16030100c8010000c40303") + bytes(200), {400, CLOSED}),
    ("line ends of LF alone", b"GET " + GATE + b" HTTP/1.1\nHost: aggregator.test\n\n", {302, 400, CLOSED}),
    ("two blank lines first", b"\r\n\r\n" + get(GATE), {302, 400}),
    ("an upgrade to websocket", get(GATE, b"Connection: Upgrade", b"Upgrade: websocket"), {302}),
    ("an upgrade to h2c", get(GATE, b"Connection: Upgrade, HTTP2-Settings", b"Upgrade: h2c", b"HTTP2-Settings: AAAA"), {302}),
    ("Expect: 100-continue", get(GATE, b"Expect: 100-continue"), {302, 417}),
    ("a range", get(b"/timemap/link/http://a.example/", b"Range: bytes=0-10"), {200}),
    ("a datetime in an odd header's case", get(GATE, b"aCCEPT-dATETIME: " + FIRST.encode()), {302}),
    ("two datetimes", get(GATE, ASKED, ASKED), {400}),
    ("a datetime that is none", get(GATE, b"Accept-Datetime: yesterday"), {400}),
    ("bytes over 127 in a datetime", get(GATE, b"Accept-Datetime: \xff"), {400}),
    ("an empty datetime", get(GATE, b"Accept-Datetime:"), {400}),
    ("a datetime of 60,000 bytes", get(GATE, b"Accept-Datetime: " + b"x" * 60_000), {400}),
    ("dot segments", get(b"/timegate/../../etc/passwd"), {400, 404}),
    ("no original", get(b"/timegate/"), {400}),
    ("another route", get(b"/"), {404}),
]


def try_odd(port):
    for what, sent, allowed in ODD:
        [(status, _, _)], closed = replies_to(port, sent)
        end = " and a closed connection" if closed and status is not CLOSED else ""
        holds(f"{what}: {status or 'a closed connection'}{end}", status in allowed and is_served(port))


def try_names(port):
    [(status, headers, _)], _ = replies_to(port, get(GATE, b"ACCEPT-DATETIME: " + FIRST.encode()))
    holds("the datetime counts in a header's any case", status == 302 and "/web/20010304050607/" in headers["location"])
    [(status, headers, body)], _ = replies_to(port, get(GATE, ASKED, ASKED))
    holds("two datetimes are told of", status == 400 and body == b"bad datetime\n" and headers["vary"] == "accept-datetime")
    [(status, headers, _)], _ = replies_to(port, request(b"POST " + GATE + b" HTTP/1.1"))
    holds("a method that isn't served is told the others", status == 405 and headers["allow"] == "GET, HEAD")
    [(status, _, _), (second, _, _)], _ = replies_to(
        port, request(b"HEAD /timemap/link/http://a.example/ HTTP/1.1") + request(b"HEAD " + GATE + b" HTTP/1.1"), 2, False)
    holds("HEAD has no body", status == 200 and second == 302)


def try_pipeline(port):
    sent = get(GATE, ASKED) + get(b"/timemap/link/http://a.example/") + get(b"/nothing") + get(GATE, b"Connection: close")
    got, closed = replies_to(port, sent, 4, patience=PATIENCE)
    holds("pipelined requests are answered in order", [status for status, _, _ in got] == [302, 200, 404, 302] and closed)
    got, _ = replies_to(port, get(GATE) * 500, 500)
    holds("500 of them too", [status for status, _, _ in got] == [302] * 500 and is_served(port))
    got, _ = replies_to(port, get(GATE, b"Content-Length: 5", body=b"hello") * 3, 3)
    holds("and those with bodies", [status for status, _, _ in got] == [302] * 3 and is_served(port))
    smuggled = get(GATE, b"Content-Length: %d" % len(get(b"/smuggled")), body=get(b"/smuggled"))
    got, _ = replies_to(port, smuggled + get(b"/timemap/link/http://a.example/"), 2)
    holds("a request inside a body isn't answered", [status for status, _, _ in got] == [302, 200] and is_served(port))


def try_cut(port):
    whole = get(GATE, ASKED)
    for cut in [0, 1, 3, 4, 20, len(whole) // 2, len(whole) - 2, len(whole) - 1]:
        with connect(port) as client:
            client.sendall(whole[:cut])
        holds(f"{cut} bytes of a request, then a close", is_served(port))
    with connect(port) as client:
        client.sendall(get(GATE, b"Content-Length: 1000", body=b"half a body"))
    holds("half a body, then a close", is_served(port))
    with connect(port) as client:
        client.sendall(whole[:30])
        client.setsockopt(socket.SOL_SOCKET, socket.SO_LINGER, struct.pack("ii", 1, 0))
    holds("half a request, then a reset", is_served(port))
    with connect(port) as client:
        client.sendall(get(LONG) * 100)
        client.setsockopt(socket.SOL_SOCKET, socket.SO_LINGER, struct.pack("ii", 1, 0))
    holds("long replies that nobody reads, then a reset", is_served(port))
    with connect(port) as client:
        client.sendall(get(LONG) * 200)
        client.recv(100)
    holds("the first bytes of two hundred long replies, then a close", is_served(port))
    with connect(port) as client:
        for byte in whole:
            client.sendall(bytes([byte]))
        with client.makefile("rb") as stream:
            status, headers, _ = read_reply(stream)
    holds("a request byte by byte", status == 302 and "/web/20010304050607/" in headers["location"] and is_served(port))
    with connect(port) as client:
        client.sendall(whole)
        client.shutdown(socket.SHUT_WR)
        with client.makefile("rb") as stream:
            status, _, _ = read_reply(stream)
    holds(f"a request, then an end of what is sent: {status or 'a closed connection'}", status in {302, CLOSED} and is_served(port))


def connect_all(stack, port, count, sent):
    """So many connections, over each of which this was sent."""
    clients = [stack.enter_context(connect(port)) for _ in range(count)]
    for client in clients:
        client.sendall(sent)
    return clients


def try_silence(port, together):
    """As many clients that stay as a gate serves at once keep it for as long as a head may take, and no longer."""
    half = b"GET " + GATE + b" HTTP/1.1\r\n"
    for what, sent, replies in [("nothing", b"", 0), ("half a head", half, 0), ("one request and then nothing", get(GATE), 1),
                                ("half a second head", get(GATE) + half, 1)]:
        with contextlib.ExitStack() as stack:
            connect_all(stack, port, together - 1, sent)
            began = time.monotonic()
            holds(f"beside {together - 1} that send {what} and stay, the next is served at once",
                  is_served(port) and time.monotonic() - began < LIMIT_SECONDS / 2)
        began = time.monotonic()
        with contextlib.ExitStack() as stack:
            silent = connect_all(stack, port, together, sent)
            other = stack.enter_context(connect(port))
            other.sendall(get(GATE, b"Connection: close"))
            status = None
            with contextlib.suppress(TimeoutError), other.makefile("rb") as stream:
                status, _, _ = read_reply(stream)
            waited = time.monotonic() - began
            holds(f"beside {together} of them the next waits {waited:.1f} s and is served",
                  status == 302 and LIMIT_SECONDS <= waited < MOST_SECONDS)
            for client in silent:
                with client.makefile("rb") as stream:
                    got = [read_reply(stream)[0] for _ in range(replies + 1)]
                holds("and its own connection is closed", got == [302] * replies + [CLOSED])
    with connect(port) as slow:
        ended = began = time.monotonic()
        with contextlib.suppress(BrokenPipeError, ConnectionResetError):
            for byte in get(GATE) * 10:
                slow.sendall(bytes([byte]))
                ended = time.monotonic()
                if ended - began > MOST_SECONDS:
                    break
                time.sleep(0.5)
        holds(f"a head that comes by a byte in half a second ends after {ended - began:.0f} s", ended - began < MOST_SECONDS)


def try_stalls(port, together):
    """Bodies that don't come keep nobody waiting. Replies that aren't read do if there are as many as a gate serves at once:
    `serve` sets no limit to that."""
    with contextlib.ExitStack() as stack:
        connect_all(stack, port, together, get(GATE, b"Content-Length: 5"))
        holds(f"beside {together} bodies that don't come, the next is served", is_served(port))
    with contextlib.ExitStack() as stack:
        connect_all(stack, port, together - 1, get(LONG) * 200)
        holds(f"beside {together - 1} clients that read none of their long replies, the next is served", is_served(port))
        connect_all(stack, port, 1, get(LONG) * 200)
        other = stack.enter_context(connect(port))
        other.sendall(get(GATE, b"Connection: close"))
        other.settimeout(LIMIT_SECONDS + 3)
        try:
            with other.makefile("rb") as stream:
                told = read_reply(stream)[0]
        except TimeoutError:
            told = "nothing"
        holds(f"beside {together} of them the next is told {told}", told == "nothing")
    holds("once they have gone, others are served", is_served(port))


def try_service(together):
    """All of that, to a gate that serves so many connections at once."""
    with contextlib.ExitStack() as stack:
        archive = start_archive(stack, "--many", 100000, "--pages", 2)
        service = Service(stack, archives=[("archive.test", f"http://127.0.0.1:{archive}")], originals=[ORIGINAL, "http://many.example/"],
                          base="http://aggregator.test", rounds=1_000_000, pause=3600, workers=2,
                          keys={"together": together} if together > 1 else None)
        port = service.ports[0]
        same("it knows two originals", service.line(), told(1, 2, 2))
        holds("a request is served", is_served(port))
        try_odd(port)
        try_names(port)
        try_pipeline(port)
        try_cut(port)
        try_silence(port, together)
        try_stalls(port, together)
        holds("serve is still there", service.process.poll() is None and is_served(port))


def main():
    for together in (1, 4):
        try_service(together)
    print("no request kept the next from being served")


if __name__ == "__main__":
    main()
