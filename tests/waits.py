#!/usr/bin/env python3
"""With `wait` a first question is held while archives are asked, and answered by what they have: in every form, for as long as
the key says at most, by half of a gate's connections at most; and without the key it is answered at once.

    ./run --unproved && tests/waits.py
"""
import contextlib
import http.client
import socket
import threading
import time

from playing import BASE, GOOD, MEMENTO, PATIENCE, Played, Service, get, holds, originals, reply, same, silent, slow, until

NONE = reply(status=404)
MANY = 1_000_000    # rounds, for a service that goes on until it is killed
KEYS = {"wanted": 1_000, "wishes": 6_000, "publish": 1, "together": 8}
HELD = 30    # seconds, of the key `wait`, where archives say nothing for longer than that
SOON = HELD / 2    # seconds in which a reply comes that isn't held, on a machine that is busy


def started(stack, archives, wait, **keys):
    """A service that holds questions, once it shows what it was told of: `http://a.example/0`."""
    names = [(f"a{k}.example", one.address) for k, one in enumerate(archives)]
    service = Service(stack, archives=names, originals=originals(1), rounds=MANY, pause=1, workers=16, patience=PATIENCE,
                      keys={**KEYS, "wait": wait, **keys})
    until("what is listed is shown", lambda: service.shows(originals(1)[0]) == MEMENTO)
    return service


def asked(service, target, method="GET", **headers):
    """The status of the reply, and after how many seconds it came."""
    begun = time.monotonic()
    connection = http.client.HTTPConnection("127.0.0.1", service.ports[0], timeout=PATIENCE)
    with contextlib.closing(connection):
        connection.request(method, target, headers={name.replace("_", "-"): value for name, value in headers.items()})
        came = connection.getresponse()
        came.read()
        return came.status, time.monotonic() - begun


def sent(service, target):
    """A connection over which this was asked. Nobody has read a reply."""
    connection = socket.create_connection(("127.0.0.1", service.ports[0]), PATIENCE)
    connection.sendall(f"GET {target} HTTP/1.1\r\nHost: a\r\n\r\n".encode())
    return connection


def is_silent(connection, seconds):
    """Whether no reply comes in so many seconds."""
    connection.settimeout(seconds)
    try:
        connection.recv(1, socket.MSG_PEEK)
        return False
    except TimeoutError:
        return True


def is_listed(target):
    return target == BASE + originals(1)[0]


def silent_but_listed(target):
    """An archive that has what is listed at once, and says nothing of all else."""
    return GOOD if is_listed(target) else silent(target)


def held(stack, service, archive, *hosts):
    """Connections over which originals at these hosts were asked for, once the archive is asked for each: so each holds its place."""
    connections = [stack.enter_context(sent(service, f"/timegate/http://{host}/")) for host in hosts]
    for host in hosts:
        until(f"the archive is asked for what is held: {host}", lambda host=host: f"{BASE}http://{host}/" in archive.targets())
    return connections


def answers(seconds, answer=GOOD):
    """An archive that has what is listed at once, and answers so for all else after so many seconds."""
    later = slow(seconds, answer)
    return lambda target: GOOD if is_listed(target) else later(target)


def try_each_form():
    """A TimeGate and a TimeMap, whole or its head, in each form: the first question has the answer."""
    with contextlib.ExitStack() as stack:
        archive = Played(stack, lambda target: slow(0.3, NONE if "nobody" in target else GOOD)(target))
        service = started(stack, [archive], HELD, formats=["json", "cdxj"], status="127.0.0.1:0")
        for method, front, status in (("GET", "/timegate/", 302), ("HEAD", "/timegate/", 302), ("GET", BASE, 200), ("HEAD", BASE, 200),
                                      ("GET", "/timemap/json/", 200), ("HEAD", "/timemap/cdxj/", 200)):
            original = f"http://{method.lower()}{front.strip('/').replace('/', '-')}.example/"
            came, seconds = asked(service, front + original, method)
            same(f"{method} {front}: the first question is answered", came, status)
            holds(f"when the archive has answered, after {seconds:.1f} s", 0.25 < seconds < HELD)
        came, seconds = asked(service, "/timegate/http://nobody.example/")
        same("what nobody has is 404", came, 404)
        holds(f"once every archive has said so, after {seconds:.1f} s, and not at the end of {HELD}", 0.25 < seconds < 20)
        for target, status, headers in (
                ("/timegate/http://nobody.example/", 404, {}), (BASE + "page/1/http://page.example/", 404, {}), ("/nothing", 404, {}),
                ("/timegate/ftp://a.example/", 400, {}), ("/timegate/http://date.example/", 400, {"Accept_Datetime": "soon"}),
                ("/timegate/" + originals(1)[0], 302, {})):
            came, seconds = asked(service, target, **headers)
            same(f"{target} is answered at once", (came, seconds < SOON), (status, True))


def try_the_end():
    """An archive that takes longer than the key says: 404 then, and not before; and what it brings is shown later."""
    with contextlib.ExitStack() as stack:
        may_answer = threading.Event()

        def answer(target):
            if not is_listed(target):
                may_answer.wait(PATIENCE)
            return GOOD

        service = started(stack, [Played(stack, answer)], 1)
        came, seconds = asked(service, "/timegate/http://late.example/")
        same("404 comes at the end of the second", came, 404)
        holds(f"and not before: after {seconds:.2f} s, though the archive has said nothing", 0.95 < seconds < SOON)
        may_answer.set()
        until("what came later is shown", lambda: service.shows("http://late.example/") == MEMENTO)


def try_beyond_a_head():
    """A question is held longer than a head may take, and its connection serves on."""
    with contextlib.ExitStack() as stack:
        service = started(stack, [Played(stack, silent_but_listed)], 12)
        connection = http.client.HTTPConnection("127.0.0.1", service.ports[0], timeout=PATIENCE)
        with contextlib.closing(connection):
            statuses, begun = [], time.monotonic()
            for target in ("http://long.example/", originals(1)[0]):
                connection.request("GET", "/timegate/" + target)
                came = connection.getresponse()
                came.read()
                statuses.append(came.status)
            same("a held question and the next over its connection", statuses, [404, 302])
            holds("it was held for twelve seconds", time.monotonic() - begun >= 11.9)


def try_two_in_one_write():
    with contextlib.ExitStack() as stack:
        service = started(stack, [Played(stack, answers(0.5))], HELD)
        with socket.create_connection(("127.0.0.1", service.ports[0]), PATIENCE) as connection:
            heads = [f"GET /timegate/{target} HTTP/1.1\r\nHost: a\r\n" for target in ("http://first.example/", originals(1)[0])]
            connection.sendall(f"{heads[0]}\r\n{heads[1]}Connection: close\r\n\r\n".encode())
            with connection.makefile("rb") as stream:
                whole = stream.read()
        same("both are answered, in their order", whole.count(b"HTTP/1.1 302"), 2)


def try_half_of_the_connections():
    """Half of the connections may be held; what is asked beyond is answered at once, and so is what is known."""
    with contextlib.ExitStack() as stack:
        archive = Played(stack, silent_but_listed)
        service = started(stack, [archive], 2 * HELD)
        kept = held(stack, service, archive, *(f"held{k}.example" for k in range(4)))
        holds("four are held", all(is_silent(one, 0.5) for one in kept))
        came, seconds = asked(service, "/timegate/http://held.example/9")
        same("a fifth is answered at once", (came, seconds < SOON), (404, True))
        for _ in range(20):
            came, seconds = asked(service, "/timegate/" + originals(1)[0])
            if (came, seconds < SOON) != (302, True):
                same("what is known is redirected at once", (came, seconds), (302, "soon"))
        holds("what is known is redirected at once", True)
        kept[0].close()
        tried = iter(range(MANY))

        def is_free():
            with sent(service, f"/timegate/http://free.example/{next(tried)}") as connection:
                return is_silent(connection, 0.5)
        until("the place of a client that went is free again", is_free, HELD / 2)
        service.kill()
        holds("a service that is killed keeps nobody waiting", not is_silent(kept[1], PATIENCE))


def try_many_readers():
    """Thirty readers of one original at once: each archive is asked once, and each reader has the answer."""
    with contextlib.ExitStack() as stack:
        archives = [Played(stack, answers(0.5)) for _ in range(3)]
        service = started(stack, archives, HELD, together=64)
        came = []
        readers = [threading.Thread(target=lambda: came.append(asked(service, "/timegate/http://many.example/")[0])) for _ in range(30)]
        for reader in readers:
            reader.start()
        for reader in readers:
            reader.join()
        same("each is redirected", came, [302] * 30)
        same("each archive was asked once", [one.targets().count(BASE + "http://many.example/") for one in archives], [1] * 3)


def try_counts():
    """A held question is counted once, by the reply that it gets."""
    with contextlib.ExitStack() as stack:
        service = Service(stack, archives=[("a.example", Played(stack, answers(0.5)).address)], rounds=MANY, pause=1, workers=8,
                          patience=PATIENCE, keys={**KEYS, "wait": HELD, "status": "127.0.0.1:0"})
        port = int(service.line().rpartition(":")[2])
        until("something is published", lambda: get(port, "/health")[0] == 200)
        same("a first question", asked(service, "/timegate/http://counted.example/")[0], 302)
        counts = [line for line in get(port, "/metrics")[2].splitlines() if line.startswith("maplewrench_replies_total")]
        holds(f"is one reply: {counts}", sum(int(line.split()[-1]) for line in counts) == 1)


def try_unready():
    """A gate that isn't ready has no answer yet, and holds nobody."""
    with contextlib.ExitStack() as stack:
        service = Service(stack, archives=[("a.example", Played(stack, silent).address)], originals=originals(1), rounds=MANY, pause=1,
                          patience=PATIENCE, keys={**KEYS, "wait": HELD, "ready": True})
        came, seconds = asked(service, "/timegate/http://first.example/")
        same("a gate that isn't ready says so at once", (came, seconds < SOON), (503, True))


def try_no_wish():
    """A question for which no wish can be taken is answered at once: nobody works for it."""
    with contextlib.ExitStack() as stack:
        archive = Played(stack, silent_but_listed)
        service = started(stack, [archive], HELD, wanted=1)
        [kept] = held(stack, service, archive, "held.example")
        holds("the one wish that may stand holds its question", is_silent(kept, 0.5))
        came, seconds = asked(service, "/timegate/http://other.example/")
        same("another question is answered at once", (came, seconds < SOON), (404, True))


def try_last_connection():
    """A gate that takes no further connection answers the questions that it holds."""
    with contextlib.ExitStack() as stack:
        may_answer = threading.Event()
        archive = Played(stack, lambda _: GOOD if may_answer.wait(PATIENCE) else NONE)
        service = Service(stack, archives=[("a.example", archive.address)], rounds=MANY, pause=1, workers=8, patience=PATIENCE, connections=2,
                          keys={**KEYS, "wait": HELD})
        kept = held(stack, service, archive, "last0.example", "last1.example")
        holds("two are held by a gate that takes two connections", all(is_silent(one, 0.3) for one in kept))
        may_answer.set()
        for one in kept:
            one.settimeout(PATIENCE)
        same("both are answered", [one.recv(12) for one in kept], [b"HTTP/1.1 302"] * 2)


def try_without_the_key():
    with contextlib.ExitStack() as stack:
        service = started(stack, [Played(stack, answers(0.5))], None)
        came, seconds = asked(service, "/timegate/http://first.example/")
        same("without the key the first question is 404 at once", (came, seconds < SOON), (404, True))
        until("and the next ones are answered", lambda: service.shows("http://first.example/") == MEMENTO)


def main():
    try_each_form()
    try_the_end()
    try_beyond_a_head()
    try_two_in_one_write()
    try_half_of_the_connections()
    try_many_readers()
    try_counts()
    try_unready()
    try_no_wish()
    try_last_connection()
    try_without_the_key()
    print("a first question was held and answered, and what isn't held was answered at once")


main()
