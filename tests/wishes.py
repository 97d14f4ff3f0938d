#!/usr/bin/env python3
"""What readers ask for is harvested next: an unknown original becomes a 302 while a round goes on and an archive says nothing,
within the bounds of the settings and with nothing of it in the log; and originals come from a file.

    ./run --unproved && tests/wishes.py
"""
import contextlib
import http.client
import os
import pathlib
import re
import tempfile
import threading
import time

from playing import BASE, GOOD, MEMENTO, PATIENCE, Played, Service, free_ports, get, holds, link, originals, reply, same, silent, slow, told, until

NONE = reply(status=404)
MANY = 1_000_000    # rounds, for a service that is to go on until it is killed


def asked(archive, original):
    """How often the archive was asked for an original."""
    return archive.targets().count(BASE + original)


def status(service, method, target, **headers):
    """The status of the answer to a request of whatever method."""
    connection = http.client.HTTPConnection("127.0.0.1", service.ports[0], timeout=PATIENCE)
    with contextlib.closing(connection):
        connection.request(method, target, headers={name.replace("_", "-"): value for name, value in headers.items()})
        return connection.getresponse().status


def try_in_a_round():
    """Of ten archives one says nothing, and a round of hours is under way."""
    with contextlib.ExitStack() as stack:
        archives = [Played(stack, slow(0.2)) for _ in range(9)] + [Played(stack, silent)]
        service = Service(stack, archives=[(f"a{k}.example", one.address) for k, one in enumerate(archives)],
                          originals=originals(20_000), workers=20, keys={"wanted": 100}, logged=True)
        until("the round is under way", lambda: all(len(one.heads) >= 2 for one in archives))
        wished = originals(5, "wished.example")
        for original in wished:
            same(f"nothing is known of {original}", service.shows(original), None)
        for original in wished:
            until("it is shown", lambda original=original: service.shows(original) == MEMENTO)
        until("each archive that answers was asked for each", lambda: all(asked(one, w) for one in archives[:9] for w in wished))
        for original in wished:
            same("and the round isn't over", service.shows(original), MEMENTO)
        same("each was asked once", {asked(one, w) for one in archives[:9] for w in wished}, {1})
        log = "".join(service.logs_until("wishes: "))
        holds(f"the log has how many are over, and none of them: {log!r}", "wished.example" not in log)


def try_between_rounds():
    """Between two rounds that have no job of their own."""
    with contextlib.ExitStack() as stack:
        archive = Played(stack, lambda target: GOOD if "has" in target else NONE)
        service = Service(stack, archives=[("a.example", archive.address)], rounds=2, pause=86_400, keys={"wanted": 100})
        same("the first round has no job", service.line(), told(1, 0, 0))
        same("nothing is known", service.shows("http://has.example/"), None)
        until("it is shown", lambda: service.shows("http://has.example/") == MEMENTO)
        same("what no archive has stays unknown", service.shows("http://not.example/"), None)
        service.wish("http://not.example/", archive)
        service.shows("http://second.has.example/")
        until("a later one is shown", lambda: service.shows("http://second.has.example/") == MEMENTO)
        for _ in range(5):
            same("and what no archive has still isn't", service.shows("http://not.example/"), None)
        same("but isn't asked for again, nor kept",
             (asked(archive, "http://not.example/"), [entry[1] for entry in service.entries()]),
             (1, ["http://has.example/", "http://second.has.example/"]))
        third = "http://third.has.example/"
        until("a HEAD wishes, too", lambda: status(service, "HEAD", "/timemap/link/" + third) in (404, 200) and asked(archive, third))
        until("and is granted", lambda: service.shows(third) == MEMENTO)


def try_what_wishes_nothing():
    """Pages, bad dates, other methods and other addresses."""
    with contextlib.ExitStack() as stack:
        archive = Played(stack, lambda _: GOOD)
        service = Service(stack, archives=[("a.example", archive.address)], rounds=2, pause=86_400, keys={"wanted": 100})
        same("the first round has no job", service.line(), told(1, 0, 0))
        same("a page of a TimeMap", service.get("/timemap/link/page/2/http://page.example/")[0], 404)
        same("a bad date", service.get("/timegate/http://date.example/", Accept_Datetime="soon")[0], 400)
        same("another method", status(service, "POST", "/timegate/http://post.example/"), 405)
        same("another address", service.get("/other/http://other.example/")[0], 404)
        same("no original", service.get("/timegate/nothing")[0], 400)
        service.shows("http://last.example/")
        until("what is wished for behind them is shown", lambda: service.shows("http://last.example/") == MEMENTO)
        same("and is all that was asked for", archive.targets(), [BASE + "http://last.example/"])


def odd_targets(original, count):
    """So many targets of each kind whose replies are about an original: other cases, dot segments, and pages of its TimeMap."""
    host = original.removeprefix("http://").removesuffix("/")
    for k in range(count):
        yield f"/timegate/HTTP://{host.upper()}/" + "./" * k
        yield f"/timegate/{original}{k}/../"
        yield f"/timemap/link/page/1/{original}" + "x/../" * k


def try_odd_targets():
    """However what is shown is asked for, nothing but its original is harvested and kept, and unknown originals are wished for as before."""
    with contextlib.ExitStack() as stack:
        archive = Played(stack, lambda _: GOOD)
        listed, wished, unknown = "http://listed.example/", "http://wished.example/", "http://unknown.example/"
        service = Service(stack, archives=[("a.example", archive.address)], originals=[listed], rounds=2, pause=86_400,
                          keys={"wanted": 20, "wishes": 6_000})
        same("the round", service.line(), told(1, 1, 1))
        service.shows("HTTP://wished.Example")
        until("what is wished for in another spelling is shown", lambda: service.shows(wished) == MEMENTO)
        for original in (listed, wished):
            statuses = [service.get(target)[0] for target in odd_targets(original, 30)]
            same("each question is answered", statuses, [302, 302, 200] * 30)
        service.shows(unknown)
        until("an unknown original is shown", lambda: service.shows(unknown) == MEMENTO)
        same("each original was asked for once, and nothing else", archive.targets(), [BASE + one for one in (listed, wished, unknown)])
        same("or is kept", sorted(entry[1] for entry in service.entries()), sorted([listed, wished, unknown]))


def try_without_the_key():
    """Nothing is wished for if the settings don't have the key."""
    with contextlib.ExitStack() as stack:
        archive = Played(stack, lambda _: GOOD)
        service = Service(stack, archives=[("a.example", archive.address)], originals=originals(1), rounds=3, pause=1)
        same("the first round", service.line(), told(1, 1, 1))
        same("nothing is known", service.shows("http://wished.example/"), None)
        same("the second round", service.line(), told(2, 1, 1))
        same("nothing is known still", service.shows("http://wished.example/"), None)
        same("nobody was asked for it", set(archive.targets()), {BASE + originals(1)[0]})


def try_wishes_in_a_minute():
    """As many as the settings allow, and some thousand that are made up take no memory to speak of."""
    with contextlib.ExitStack() as stack:
        archive = Played(stack, lambda target: GOOD if "has" in target else NONE)
        service = Service(stack, archives=[("a.example", archive.address)], rounds=2, pause=86_400,
                          keys={"wanted": 50, "wishes": 5, "status": "127.0.0.1:0"})
        port = int(service.line().rpartition(":")[2])
        same("the first round has no job", service.line(), told(1, 0, 0))
        begun, before = int(time.time()) // 60, service.memory()
        for original in originals(3_000, "made-up.example"):
            same_status = service.shows(original)
            if same_status is not None:
                same("what is made up isn't shown", same_status, None)
        until("some are asked for", lambda: len(archive.heads) >= 5)
        minutes = int(time.time()) // 60 - begun + 1
        holds(f"of 3,000 in {minutes} minutes {len(archive.heads)} were asked for", len(archive.heads) <= 5 * minutes)
        until("the others are counted as late", lambda: 'maplewrench_wishes_total{outcome="late"} 0' not in get(port, "/metrics")[2])
        holds(f"they took {service.memory() - before} KiB", service.memory() - before < 20_000)


def try_no_room():
    """As many unknown originals as are wanted, and the log says that more were turned away."""
    with contextlib.ExitStack() as stack:
        archive = Played(stack, lambda _: GOOD)
        service = Service(stack, archives=[("a.example", archive.address)], rounds=MANY, pause=1,
                          keys={"wanted": 3, "wishes": 1_000}, logged=True)
        for original in originals(3, "wished.example"):
            service.shows(original)
            until("it is shown", lambda original=original: service.shows(original) == MEMENTO)
        for original in originals(20, "more.example"):
            same("no more are taken", service.shows(original), None)
        counts = {}    # by the round; a few aren't counted, where another thread had the book of wishes
        while sum(counts.values()) < 10 and (lines := service.logs_until("wishes turned away: no room")):
            number, count = map(int, re.fullmatch(r"log: round (\d+): (\d+) wishes turned away: no room\n", lines[-1]).groups())
            holds(f"of round {number} the log says once that {count} were turned away", number not in counts)
            counts[number] = count
        holds(f"of 20 that were turned away the log tells: {counts}", 10 <= sum(counts.values()) <= 20)
        same("and those three are known", len(service.entries()), 3)


def try_room_before_the_first_round():
    """Also before something is published no more unknown originals are harvested than are wanted."""
    with contextlib.ExitStack() as stack:
        archive, peer = Played(stack, lambda _: GOOD), Played(stack, silent)
        service = Service(stack, archives=[("a.example", archive.address)], peers=[peer.address], patience=6, rounds=2, pause=86_400,
                          keys={"wanted": 2, "wishes": 1_000, "pull": 1})
        wished = originals(20, "wished.example")
        until("the peer is asked", lambda: peer.heads)
        shown = set()
        while len(shown) < 2:
            shown.update(one for one in wished if service.shows(one) == MEMENTO)
        for _ in range(3):
            for original in wished:
                service.shows(original)
            time.sleep(0.3)
        same("of twenty two are harvested while a peer is waited for", len(service.entries()), 2)
        same("and no more are asked for", len(set(archive.targets())), 2)
        same("before the first round", service.line(), told(1, 0, 0))


def try_later_look():
    """What a round looks at later wins over what a wish looked at earlier."""
    with contextlib.ExitStack() as stack:
        listed, is_shown = originals(100), threading.Event()
        last = BASE + listed[-1]

        def answer(target):
            if not is_shown.is_set():
                time.sleep(0.25)
            number = archive.targets().count(last) if target == last else 1
            return reply(link(f"http://m.example/{number}"))

        archive = Played(stack, answer)
        service = Service(stack, archives=[("a.example", archive.address)], originals=listed, rounds=2, pause=86_400, keys={"wanted": 9})
        until("the round is under way", lambda: len(archive.heads) > 5)
        service.shows(listed[-1])
        until("the last original is harvested for a wish", lambda: service.shows(listed[-1]) == "http://m.example/1")
        holds("when the round hasn't come to it", asked(archive, listed[-1]) == 1 and len(archive.heads) < 90)
        time.sleep(1.1)    # what is looked at in one second counts as one look
        is_shown.set()
        same("the round comes to it", service.line(), told(1, 100, 100))
        same("the archive was asked twice", asked(archive, listed[-1]), 2)
        same("and what it said last is shown", service.shows(listed[-1]), "http://m.example/2")


def try_again():
    """What is known is looked after again when it is asked for later, and not before."""
    with contextlib.ExitStack() as stack:
        times = []

        def answer(_):
            times.append(time.monotonic())
            return GOOD

        archive = Played(stack, answer)
        service = Service(stack, archives=[("a.example", archive.address)], rounds=2, pause=86_400,
                          keys={"wanted": 9, "again": 2})
        same("the first round has no job", service.line(), told(1, 0, 0))
        original = "http://wished.example/"
        service.shows(original)
        until("it is shown", lambda: service.shows(original) == MEMENTO)
        until("and asked for again", lambda: service.shows(original) == MEMENTO and asked(archive, original) == 2)
        # Its age counts in whole seconds of the clock, from one that isn't over when the archive is asked.
        holds(f"{times[1] - times[0]:.1f} s later", times[1] - times[0] > 0.9)


def try_replicas():
    """What one replica harvested on demand the other shows after its next pull."""
    with contextlib.ExitStack() as stack:
        archive = Played(stack, slow(0.1))
        first, second = free_ports(2)
        archives = [("a.example", archive.address)]
        asking = Service(stack, archives=archives, ports=(first,), rounds=MANY, pause=1, keys={"wanted": 9},
                         peers=[f"http://127.0.0.1:{second}"], patience=2)
        other = Service(stack, archives=archives, ports=(second,), rounds=MANY, pause=1, keys={"wanted": 9},
                        peers=[f"http://127.0.0.1:{first}"], patience=2)
        original = "http://wished.example/"
        asking.shows(original)
        until("the one that was asked shows it", lambda: asking.shows(original) == MEMENTO)
        until("and the other knows it", lambda: len(other.entries()) == 1)
        same("and shows it", other.shows(original), MEMENTO)
        other.shows("http://last.example/")
        until("and a wish behind", lambda: other.shows("http://last.example/") == MEMENTO)
        same("and the archive was asked once", asked(archive, original), 1)


def try_alike():
    """The other spellings of what is asked for in vain are looked after, and shown under their own names alone."""
    spellings = ["http://page.example/", "https://page.example/", "http://www.page.example/", "https://www.page.example/"]
    for alike in (True, False):
        with contextlib.ExitStack() as stack:
            archive = Played(stack, lambda target: GOOD if target == BASE + spellings[3] else NONE)
            service = Service(stack, archives=[("a.example", archive.address)], rounds=2, pause=86_400,
                              keys={"wanted": 9, "alike": alike})
            same("the first round has no job", service.line(), told(1, 0, 0))
            same("it isn't known", service.shows(spellings[0]), None)
            service.wish(spellings[0], archive)
            service.wish("http://after.example/x?y", archive)
            if not alike:
                same("no other spelling was asked for", [asked(archive, one) for one in spellings], [1, 0, 0, 0])
                continue
            until("each spelling was asked for", lambda: all(asked(archive, one) for one in spellings))
            until("the one that the archive has is there", lambda: len(service.entries()) == 1)
            same("under its own name", [service.shows(one) for one in spellings], [None, None, None, MEMENTO])
            service.wish("http://last.example/x?y", archive)
            same("and each spelling once", [asked(archive, one) for one in spellings], [1, 1, 1, 1])


def try_alike_once():
    """Spellings don't wish for each other, however short a time makes them due again."""
    with contextlib.ExitStack() as stack:
        archive = Played(stack, lambda _: NONE)
        service = Service(stack, archives=[("a.example", archive.address)], rounds=2, pause=86_400,
                          keys={"wanted": 9, "alike": True, "again": 1})
        service.wish("http://page.example/", archive)
        until("each spelling was asked for", lambda: len(set(archive.targets())) == 4)
        time.sleep(3)
        same("once", len(archive.heads), 4)


def try_paces():
    """A wish's walk counts in how many of an archive run at once."""
    with contextlib.ExitStack() as stack:
        lock, now_open, most = threading.Lock(), [0], [0]

        def answer(_):
            with lock:
                now_open[0] += 1
                most[0] = max(most[0], now_open[0])
            time.sleep(0.1)
            with lock:
                now_open[0] -= 1
            return GOOD

        archive = Played(stack, answer)
        service = Service(stack, archives=[("a.example", archive.address, {"at_once": 2})], originals=originals(200), workers=8,
                          keys={"wanted": 100}, logged=True)
        wished = originals(8, "wished.example")
        for original in wished:
            service.shows(original)
        until("all are shown", lambda: all(service.shows(original) == MEMENTO for original in wished))
        same("and the archive was asked twice at once at most", most[0], 2)


def try_log():
    """What a round tells of an archive is of the round's walks alone."""
    with contextlib.ExitStack() as stack:
        archive = Played(stack, slow(0.1, reply(status=500)))
        service = Service(stack, archives=[("a.example", archive.address)], originals=originals(40), workers=2,
                          keys={"wanted": 100, "again": 86_400}, rounds=2, pause=86_400, logged=True)
        wished = originals(3, "wished.example")
        for original in wished:
            same("it isn't known", service.shows(original), None)
        for original in wished:
            service.wish(original, archive)
        log = "".join(service.logs_until("failed: another status"))
        holds("which has none of them", "wished.example" not in log)
        holds(f"and counts 40 walks: {log!r}", "40 of 40 walks failed" in log)
        same("as the round's line does", service.line(), told(1, 40, 0))


def try_file():
    """Originals from a file that is replaced, cut, and gone."""
    with contextlib.ExitStack() as stack:
        folder = pathlib.Path(stack.enter_context(tempfile.TemporaryDirectory()))
        path = folder / "originals.txt"
        archive = Played(stack, lambda _: GOOD)

        def put(text):
            (folder / "new").write_text(text)
            os.replace(folder / "new", path)

        def until_jobs(what, count):
            until(what, lambda: int(service.line().split()[3]) == count)

        put("\n".join(["  http://b.example/1\r", "", "no original", "http://b.example/2", "http://b.example/1",
                       "http://b.example/0"]))
        service = Service(stack, archives=[("a.example", archive.address)], originals=["http://b.example/0"], rounds=MANY,
                          pause=1, keys={"originals_file": str(path)}, logged=True)
        same("each original counts once", service.line(), told(1, 3, 3))
        log = service.logs_until("no original")
        same("the bad line is told by its number", log[-1], "log: round 1: list: line 3 is no original\n")
        log = service.logs_until("round 2: list: ")
        same("and once more in a round that finds the file as it was", log[-1], "log: round 2: list: line 3 is no original\n")
        put("http://b.example/3")
        until_jobs("a replaced file counts from the next round on", 2)
        put("\n".join(["bad"] * 25))
        until_jobs("where it has none, those of the settings stay", 1)
        log = "".join(service.logs_until("more lines"))
        for line in (": list: line 20 is no original\n", ": list: 5 more lines are no originals\n"):
            holds(f"of 25 bad lines 20 are told, and how many more: {line!r}", line in log)
        holds("and not the next", ": list: line 21 " not in log)
        put("http://b.example/3\nhttp://b.example/4\n")
        until_jobs("another one", 3)
        path.unlink()
        log = service.logs_until(": list: not read: the originals of before stay")
        number = int(log[-1].split()[2].rstrip(":"))
        while int((line := service.line().split())[1]) < number:
            pass
        same("where it is gone, the originals of before stay, which the log says", line[3], "3")


def try_listed():
    """What rounds look after isn't wished for again where it is shown."""
    with contextlib.ExitStack() as stack:
        archive = Played(stack, lambda _: GOOD)
        service = Service(stack, archives=[("a.example", archive.address)], originals=originals(1), rounds=2, pause=86_400,
                          keys={"wanted": 9, "again": 1})
        same("the round", service.line(), told(1, 1, 1))
        time.sleep(1.5)
        for _ in range(5):
            same("it is shown", service.shows(originals(1)[0]), MEMENTO)
        service.shows("http://wished.example/")
        until("a wish behind is granted", lambda: service.shows("http://wished.example/") == MEMENTO)
        same("and the original of the settings wasn't asked for again", asked(archive, originals(1)[0]), 1)


def try_listed_file():
    """What a file lists isn't wished for where it is shown, also once the file is replaced, and in rounds that find it as it was."""
    with contextlib.ExitStack() as stack:
        folder = pathlib.Path(stack.enter_context(tempfile.TemporaryDirectory()))
        path = folder / "originals.txt"
        archive = Played(stack, lambda _: GOOD)
        first, second = originals(2)
        path.write_text(first)
        service = Service(stack, archives=[("a.example", archive.address)], rounds=MANY, pause=1,
                          keys={"wanted": 9, "again": 1, "status": "127.0.0.1:0", "originals_file": str(path)})
        port = int(service.line().rpartition(":")[2])
        for listed in (first, second):
            (folder / "new").write_text(listed)
            os.replace(folder / "new", path)
            until("a round took it in", lambda listed=listed: listed in [entry[1] for entry in service.entries()])
            for _ in range(20):
                same("it is shown", service.shows(listed), MEMENTO)
                time.sleep(0.2)
        told = [line for line in get(port, "/metrics")[2].splitlines() if line.startswith("maplewrench_wishes_total")]
        same("nobody wished for anything", {line.split()[-1] for line in told}, {"0"})


def minute_now():
    return int(time.time()) // 60


def try_restart():
    """A question for what is known since before a restart asks no archive, and isn't one of the minute's wishes."""
    with contextlib.ExitStack() as stack:
        folder = pathlib.Path(stack.enter_context(tempfile.TemporaryDirectory()))
        archive = Played(stack, lambda _: GOOD)
        known, unknown = originals(3, "known.example"), originals(3, "unknown.example")
        keys = {"wanted": 100, "snapshot": str(folder / "known"), "snapshot_every": 1}
        served = {"archives": [("a.example", archive.address)], "rounds": 2, "pause": 86_400}
        service = Service(stack, keys=keys, **served)
        for original in known:
            service.shows(original)
            until("it is shown", lambda original=original: service.shows(original) == MEMENTO)
        until("all are kept", lambda: (folder / "known").is_file() and all(f"{one}\n" in (folder / "known").read_text() for one in known))
        service.kill()
        service = Service(stack, keys={**keys, "wishes": 1}, **served)
        for first, second in zip(known, unknown):
            minute = minute_now()
            same("it is known from before", service.shows(first), MEMENTO)
            until("what is asked for behind it is granted", lambda second=second: service.shows(second) == MEMENTO, 2 * PATIENCE)
            ended = minute_now()
            if ended == minute:
                break
            # The wish may have been taken in the next minute, which then has no other.
            until("the next minute comes", lambda ended=ended: minute_now() > ended, 2 * PATIENCE)
        else:
            holds("in the same minute, as its one wish", False)
        same("and what is known wasn't asked for again", {asked(archive, one) for one in known}, {1})


def main():
    for attempt in (try_in_a_round, try_between_rounds, try_what_wishes_nothing, try_odd_targets, try_without_the_key,
                    try_wishes_in_a_minute, try_no_room, try_room_before_the_first_round, try_later_look, try_again, try_replicas, try_alike,
                    try_alike_once, try_paces, try_log, try_file, try_listed, try_listed_file, try_restart):
        print(f"--- {attempt.__name__}", flush=True)
        attempt()
    print("what readers ask for is harvested next, within bounds")


if __name__ == "__main__":
    main()
