#!/usr/bin/env python3
"""A running service among archives and peers that this script plays: what it asks them, which of their answers it takes, and
when readers see what came.

    ./run --unproved && tests/rounds.py
"""
import contextlib
import re
import resource
import threading
import time

from playing import (BASE, CHUNKED, MEMENTO, ORIGINAL, PATIENCE, Played, Service, ask, chunk, dead_ports, delta, free_ports, holds, link,
                     reply, same, told)

LATER = "http://m.example/2"
FIRST, SECOND = "Sat, 01 Jan 2000 00:00:00 GMT", "Mon, 03 Jan 2000 00:00:00 GMT"
MOST_BYTES = 8_388_608    # of a body
MOST_MEMENTOS = 100_000    # of a harvest
WALKS = 300


def try_round():
    """From an archive to a reader, and over the first replica's gate to a second one that walks and pulls it."""
    with contextlib.ExitStack() as stack:
        archive = Played(stack, lambda _: reply(link(MEMENTO)))
        first = Service(stack, archives=[("one.example", archive.address)], originals=[ORIGINAL])
        same("a round is told of", first.line(), told(1, 1, 1))
        second = Service(stack, archives=[("two.example", first.address)], originals=[ORIGINAL], peers=[first.address + "/"],
                         connections=3)
        same("a replica's gate is an archive and a peer to another", second.line(), told(1, 1, 1, 1))
        same("whose TimeGate leads to the archive's memento", second.shows(), MEMENTO)
        known = second.entries()
        same("and which knows it from both", [(archive, original) for archive, original, _ in known],
             [("one.example", ORIGINAL), ("two.example", ORIGINAL)])
        same("with the revision that the first gave it", known[0], first.entries()[0])
        text = second.get("/state")[2]
        same("and the memento's second and address", text.count(f"\n946684800 {MEMENTO}\n"), 2)
        same("after its last connection the program is done", (second.line(), second.process.wait(PATIENCE)), ("done\n", 0))


def try_requests():
    """What a walk asks: the target as it stands in the URL, and the bytes as they are."""
    original = "http://a.example/?q=1"
    first = "/x/.." + BASE + original

    def answer(target):
        if target == first:
            return reply(f"{link(MEMENTO)},<HTTP://127.0.0.1:{archive.port}/next/?p=2>;rel=timemap")
        return reply(link(LATER, SECOND))

    with contextlib.ExitStack() as stack:
        archive = Played(stack, answer)
        service = Service(stack, archives=[("arc.example", archive.address + "/x/..")], originals=[original])
        same("pages are walked", service.line(), told(1, 1, 1))
        same("in order, each by its address word for word", archive.targets(), [first, "/next/?p=2"])
        for head in archive.heads:
            fields = [line.lower().partition(":") for line in head[1:]]
            fields = [(name, value.strip()) for name, _, value in fields]
            holds(f"by HTTP/1.1 and GET: {head[0]}", head[0].startswith("GET ") and head[0].endswith(" HTTP/1.1"))
            same("naming the host once", [value for name, value in fields if name == "host"], [f"127.0.0.1:{archive.port}"])
            holds("and asking for no coding", all(value == "identity" for name, value in fields if name == "accept-encoding"))
        status, _, text = service.get("/timemap/link/" + original)
        holds("a gate reads the target as it is sent", status == 200 and f'<{original}>; rel="original"' in text)
        holds("and tells the mementos of all pages", text.count('datetime="') == 2 and MEMENTO in text and LATER in text)


def padded(length):
    """A page of a memento that is so long."""
    front, end = link(MEMENTO) + ';x="', '"'
    return front + "x" * (length - len(front) - len(end)) + end


PAGE = link(MEMENTO)
IN_CHUNKS = CHUNKED + chunk(PAGE.encode()) + chunk(b"")

# What an archive answers if it has the original: each is a harvest of one memento.
HARVESTS = {
    "a page": reply(PAGE),
    "chunks": IN_CHUNKS,
    "a body up to the connection's end": f"HTTP/1.1 200 Said\r\n\r\n{PAGE}".encode(),
    "no coding, said twice": reply(PAGE, "Content-Encoding: identity", "Vary: x", "Content-Encoding: Identity"),
    "as many bytes as may be": reply(padded(MOST_BYTES)),
}

# What is no harvest.
FAULTS = {
    "301": reply(PAGE, "Location: /elsewhere", status=301),
    "302": reply(PAGE, "Location: /elsewhere", status=302),
    "307": reply(PAGE, "Location: /elsewhere", status=307),
    "500": reply(PAGE, status=500),
    "a packed body": reply(PAGE, "Content-Encoding: gzip"),
    "a coding behind another": reply(PAGE, "Content-Encoding: identity", "Vary: x", "Content-Encoding: br"),
    "a body that ends too early": reply(PAGE, length=len(PAGE) + 1),
    "chunks that end too early": IN_CHUNKS[:-5],
    "half a head": b"HTTP/1.1 200",
    "nothing": b"",
    "a byte more than may be": reply(padded(MOST_BYTES + 1)),
    "what is no page": reply("no page"),
}


def try_answers():
    """Which answers of an archive are harvests."""
    rows = {"an absent original": reply(status=404), **HARVESTS, **FAULTS}
    originals = {f"http://a.example/{k}": name for k, name in enumerate(rows)}
    answers = {BASE + original: rows[name] for original, name in originals.items()}
    with contextlib.ExitStack() as stack:
        archive = Played(stack, answers.get)
        service = Service(stack, archives=[("arc.example", archive.address)], originals=originals)
        same("the harvests are counted", service.line(), told(1, len(rows), len(HARVESTS) + 1))
        known = {original for _, original, _ in service.entries()}
        for original, name in originals.items():
            is_harvest = name not in FAULTS
            same(f"{name}: {'a' if is_harvest else 'no'} harvest", (original in known, service.shows(original)),
                 (is_harvest, MEMENTO if name in HARVESTS else None))
        same("each is asked for once, and no redirect is followed", sorted(archive.targets()), sorted(answers))


def try_counts():
    """A harvest's most mementos, over pages of which one repeats some."""
    def page(numbers, following):
        return reply(",".join([*(link(f"http://m.example/{k}") for k in numbers), f"<{following}>;rel=timemap"]))

    half = MOST_MEMENTOS // 2
    pages = {
        BASE + "http://more.example/": page([MOST_MEMENTOS], "/half"),
        BASE + ORIGINAL: page(range(half), "/again"),
        "/half": page(range(half), "/again"),
        "/again": page(range(10), "/rest"),
        "/rest": page(range(half, MOST_MEMENTOS), "/end"),
        "/end": reply(),
    }
    with contextlib.ExitStack() as stack:
        archive = Played(stack, pages.get)
        service = Service(stack, archives=[("arc.example", archive.address)], originals=[ORIGINAL, "http://more.example/"])
        same("as many mementos as may be are a harvest, and one more is none", service.line(), told(1, 2, 1))
        same("which has each once", [original for _, original, _ in service.entries()], [ORIGINAL])
        same("the walk with one too many ended where it came", archive.targets(),
             [BASE + ORIGINAL, "/again", "/rest", "/end", BASE + "http://more.example/", "/half", "/again", "/rest"])


def page_of(number, original=ORIGINAL):
    return f"{BASE}page/{number}/{original}"


PLAIN, LINKS = "text/plain", "application/link-format"
NO_MEMENTO, NO_PAGE, BAD_ORIGINAL = (404, PLAIN, "no memento\n"), (404, PLAIN, "no such page\n"), (400, PLAIN, "bad original\n")

# What is asked of a gate that knows a list of two pages and one of a single page, and its answer.
PAGE_REQUESTS = [
    ("page 0", page_of(0), NO_PAGE),
    ("the page behind the last", page_of(3), NO_PAGE),
    ("the greatest number", page_of(2 ** 64 - 1), NO_PAGE),
    ("a number above it", page_of(2 ** 64), BAD_ORIGINAL),
    ("a number that begins with 0", page_of("01"), BAD_ORIGINAL),
    ("two zeros", page_of("00"), BAD_ORIGINAL),
    ("a signed number", page_of("+1"), BAD_ORIGINAL),
    ("no number", page_of(""), BAD_ORIGINAL),
    ("a number alone", BASE + "page/1", BAD_ORIGINAL),
    ("a page of nothing", page_of(1, ""), BAD_ORIGINAL),
    ("a page of what can't be read", page_of(1, "nonsense"), BAD_ORIGINAL),
    ("page 0 of what can't be read", page_of(0, "ftp://a.example/"), BAD_ORIGINAL),
    ("a page of an original that isn't known", page_of(1, "http://b.example/"), NO_MEMENTO),
    ("page 0 of it", page_of(0, "http://b.example/"), NO_MEMENTO),
    ("page 2 of a list of one", page_of(2, "http://one.example/"), NO_PAGE),
]


def try_page_requests():
    """Bad requests for pages, each with its answer, and HEAD of each and of pages that are there."""
    text = ",".join(link(f"http://m.example/{k}") for k in range(1_001))
    answers = {BASE + ORIGINAL: reply(text), BASE + "http://one.example/": reply(PAGE)}
    with contextlib.ExitStack() as stack:
        archive = Played(stack, answers.get)
        service = Service(stack, archives=[("arc.example", archive.address)], originals=[ORIGINAL, "http://one.example/"])
        same("1,001 mementos and one are harvested", service.line(), told(1, 2, 2))

        def asked(method, target):
            status, fields, body = ask(service.ports[0], target, method)
            return status, fields.get("content-type"), body

        for what, target, wanted in PAGE_REQUESTS:
            same(f"{what}: {wanted[0]} {wanted[2].strip()}", asked("GET", target), wanted)
            same("by HEAD without the text", asked("HEAD", target), (*wanted[:2], ""))
        for original, number, count in ((ORIGINAL, 1, 1000), (ORIGINAL, 2, 1), ("http://one.example/", 1, 1)):
            status, kind, came = asked("GET", page_of(number, original))
            same(f"page {number} of {original}: {count} mementos", (status, kind, came.count('datetime="')), (200, LINKS, count))
            same("and by HEAD none", asked("HEAD", page_of(number, original)), (200, LINKS, ""))


def try_long_lists():
    """From one service to another that has it as an archive: if the first's TimeMap is an index, over all its pages."""
    def mementos(service):
        return [line for line in service.get("/state")[2].splitlines() if line[0].isdigit()]

    for count, pages in ((1_000, 0), (1_001, 2), (2_000, 2), (MOST_MEMENTOS, 100)):
        with contextlib.ExitStack() as stack:
            text = ",".join(link(f"http://m.example/{k}", (FIRST, SECOND)[k % 2]) for k in range(count))
            archive = Played(stack, lambda _: reply(text))
            [port] = free_ports(1)
            first = Service(stack, archives=[("one.example", archive.address)], originals=[ORIGINAL], ports=[port],
                            base=f"http://127.0.0.1:{port}")    # so that the addresses which it tells lead to it
            same(f"{count:,} mementos are harvested", first.line(), told(1, 1, 1))
            index = first.get(BASE + ORIGINAL)[2]
            same(f"and told in {pages} pages", index.count('rel="timemap"'), pages)
            second = Service(stack, archives=[("two.example", first.address)], originals=[ORIGINAL])
            same("a second service harvests them from the first", second.line(), told(1, 1, 1))
            known = mementos(first)
            same("all of them", (len(known), mementos(second)), (count, known))
            holds("as a whole harvest", re.search(r"^entry two\.example \d+ 1 http://a\.example/$", second.get("/state")[2], re.M))


def try_lost_pages():
    """An index of three pages over three rounds: the second page comes in the second round alone."""
    first, go_on = BASE + ORIGINAL, [threading.Event() for _ in range(3)]

    def answer(target):
        number = archive.targets().count(first)
        if target == first:
            go_on[number - 1].wait(PATIENCE)
            return reply(",".join(f"</page/{k}>;rel=timemap" for k in (1, 2, 3)))
        return reply(status=500) if target == "/page/2" and number != 2 else reply(link("http://m.example" + target))

    def known():
        """The entry's whole revision, or `-`, how many revisions it has, and the pages whose mementos are shown."""
        [entry] = [line.split() for line in service.get("/state")[2].splitlines() if line.startswith("entry ")]
        return entry[2], entry[3], re.findall(r"<http://m\.example/page/(\d)>", service.get(first)[2])

    with contextlib.ExitStack() as stack:
        archive = Played(stack, answer)
        service = Service(stack, archives=[("arc.example", archive.address)], originals=[ORIGINAL], rounds=3, pause=1)
        go_on[0].set()
        same("a walk that loses a page is a harvest", service.line(), told(1, 1, 1))
        same("a part one, of the pages that came", known(), ("-", "1", ["1", "3"]))
        go_on[1].set()
        same("the page comes in the next round", service.line(), told(2, 1, 1))
        whole, revisions, pages = known()
        same("whose harvest is whole, and stands alone", (whole.isdigit(), revisions, pages), (True, "1", ["1", "2", "3"]))
        go_on[2].set()
        same("it is lost again", service.line(), told(3, 1, 1))
        same("and stays shown, the part harvest beside the whole one", known(), (whole, "2", ["1", "2", "3"]))
        same("each round asked for each page", archive.targets(), [first, "/page/1", "/page/2", "/page/3"] * 3)


def try_batches():
    """A worker is given eight jobs at a time. All of a round is seen at once."""
    originals = [f"http://a.example/{k}" for k in range(9)]
    last, go_on = threading.Event(), threading.Event()

    def answer(target):
        if target == BASE + originals[-1]:
            last.set()
            go_on.wait(PATIENCE)
        return reply(link(MEMENTO))

    with contextlib.ExitStack() as stack:
        archive = Played(stack, answer)
        service = Service(stack, archives=[("arc.example", archive.address)], originals=originals)
        holds("the job behind the first batch is asked too", last.wait(PATIENCE))
        same("while a round goes on, nothing of it is shown", service.shows(originals[0]), None)
        go_on.set()
        same("all jobs are counted", service.line(), told(1, 9, 9))
        same("each original was asked for once, in order", archive.targets(), [BASE + original for original in originals])
        same("and all are shown then", [service.shows(original) for original in originals], [MEMENTO] * 9)


def try_workers():
    """As many walks at once as there are workers, and what they bring is shown by each of the most gates."""
    originals = [f"http://a.example/{k}" for k in range(8)]
    all_came = threading.Barrier(4)

    def answer(_):
        with contextlib.suppress(threading.BrokenBarrierError):
            all_came.wait(PATIENCE)
            return reply(link(MEMENTO))
        return reply(status=500)

    with contextlib.ExitStack() as stack:
        archive = Played(stack, answer)
        service = Service(stack, archives=[("arc.example", archive.address)], originals=originals, workers=4, ports=[0] * 64)
        same("four workers walk at once", service.line(), told(1, 8, 8))
        same("64 gates show it", [service.shows(originals[0], gate) for gate in range(64)], [MEMENTO] * 64)
        holds("each at a port of its own", len(set(service.ports)) == 64)


def try_walks():
    """With `walks` as many walks run at once as it says, whatever `workers` says: in threads with small stacks, which a name that
    has to be looked up and the longest pages fit into."""
    originals = [f"http://a.example/{k}" for k in range(WALKS)]
    longest = {BASE + original: reply(page) for original, page in zip(originals, (
        ",".join(link(f"http://m.example/{k}") for k in range(MOST_MEMENTOS)), padded(MOST_BYTES),
        PAGE + ";" * (MOST_BYTES - len(PAGE)), "," * (MOST_BYTES - len(PAGE)) + PAGE))}
    all_came = threading.Barrier(WALKS)

    def answer(target):
        with contextlib.suppress(threading.BrokenBarrierError):
            all_came.wait(PATIENCE)
            return longest.get(target, reply(PAGE))
        return reply(status=500)

    with contextlib.ExitStack() as stack:
        most = resource.getrlimit(resource.RLIMIT_NOFILE)
        resource.setrlimit(resource.RLIMIT_NOFILE, (most[1], most[1]))
        stack.callback(resource.setrlimit, resource.RLIMIT_NOFILE, most)
        archive = Played(stack, answer)
        service = Service(stack, archives=[("arc.example", f"http://localhost:{archive.port}")], originals=originals, workers=1, rounds=2,
                          pause=86_400, keys={"walks": WALKS})
        same(f"{WALKS} walks run at once", service.line(), told(1, WALKS, WALKS))
        same("the longest pages among them", [service.shows(original) is not None for original in originals], [True] * WALKS)
        held = service.memory("VmData")
        holds(f"in {held // 1024} MiB, and not {WALKS} stacks of 8 MiB", held < WALKS * 4 * 1024)


def try_second_round():
    """What an archive has no more is shown no more, by a revision of the round's own second."""
    go_on = threading.Event()

    def answer(_):
        if len(archive.heads) == 1:
            return reply(link(MEMENTO))
        go_on.wait(PATIENCE)
        return reply()

    with contextlib.ExitStack() as stack:
        archive = Played(stack, answer)
        before = int(time.time())
        service = Service(stack, archives=[("arc.example", archive.address)], originals=[ORIGINAL], rounds=2, pause=1)
        same("the first round's memento", service.line(), told(1, 1, 1))
        same("is shown", service.shows(), MEMENTO)
        [(_, _, first)] = service.entries()
        holds(f"its revision is the clock's second: {first}", before <= int(first) <= time.time())
        go_on.set()
        same("a harvest without mementos is one", service.line(), told(2, 1, 1))
        same("and nothing is shown any more", service.shows(), None)
        [(name, original, second)] = service.entries()
        same("though the archive and the original stay known", (name, original), ("arc.example", ORIGINAL))
        holds(f"by a later revision: {second}", int(first) < int(second) <= time.time())


def old_delta(incarnation, begin, end, original=None):
    """A delta in the first format, of one memento of this original, or of nothing."""
    entry = f"entry p.example 5 1 {original}\n946684800 {MEMENTO}\n" if original else ""
    return f"memento-delta 1\nfrom {incarnation} {begin} {end}\nentries {int(bool(entry))}\n{entry}end\n"


REFUSED = old_delta(7, 0, 1, "http://refused.example/")

# What a peer answers, round by round, where it is asked, and whether that is taken.
PULLS = [
    ("a delta with status 404", "/delta", reply(REFUSED, status=404), False),
    ("with 500", "/delta", reply(REFUSED, status=500), False),
    ("with a redirect", "/delta", reply(REFUSED, "Location: /delta", status=302), False),
    ("what is no delta", "/delta", reply("nonsense"), False),
    ("a delta that ends too early", "/delta", reply(REFUSED, length=len(REFUSED) + 1), False),
    ("no answer", "/delta", b"", False),
    ("what follows on more than is held", "/delta", reply(old_delta(7, 1, 2, "http://refused.example/")), False),
    ("a delta from the beginning", "/delta", reply(old_delta(7, 0, 1, "http://one.example/")), True),
    ("one that follows, of nothing", "/delta/7/1", reply(old_delta(7, 1, 1)), True),
    ("one behind a gap", "/delta/7/1", reply(old_delta(7, 2, 3, "http://refused.example/")), False),
    ("one that follows", "/delta/7/1", reply(old_delta(7, 1, 2, "http://two.example/")), True),
    ("one of a peer that restarted", "/delta/7/2", reply(old_delta(8, 0, 4, "http://three.example/")), True),
    ("one that follows on that", "/delta/8/4", reply(old_delta(8, 4, 4)), True),
]


def try_pulls():
    """Which answers of a peer are taken, and from where it is asked next."""
    with contextlib.ExitStack() as stack:
        nobody = f"http://127.0.0.1:{dead_ports(stack, 1)[0]}"
        peer = Played(stack, lambda _: PULLS[len(peer.heads) - 1][2])
        service = Service(stack, peers=[nobody, peer.address + "/"], rounds=len(PULLS))
        for number, (what, asked, _, taken) in enumerate(PULLS, 1):
            same(f"{what} is {'' if taken else 'not '}taken", service.line(), told(number, 0, 0, int(taken)))
            same(f"and was asked for at {asked}", peer.targets()[number - 1], asked)
        same("what was taken is known, and nothing else", service.entries(),
             sorted(("p.example", f"http://{name}.example/", "5") for name in ("one", "two", "three")))
        same("and shown", [service.shows(f"http://{name}.example/") for name in ("one", "two", "three")], [MEMENTO] * 3)


# What is no delta, beside each beginning of one.
NO_DELTAS = [
    old_delta(7, 3, 2),
    old_delta(7, 2 ** 64, 2 ** 64),
    old_delta(2 ** 64, 0, 0),
    "memento-delta 1\nfrom 7 0 1\nentries 2\nentry b1 1 0 http://a.example/\nentry a1 1 0 http://a.example/\nend\n",
    "memento-delta 1\nfrom 7 0 1\nentries 18446744073709551615\n",
    "memento-delta 1\nfrom 07 0 1\nentries 0\nend\n",
    "memento-delta 1\nfrom 7 0\nentries 0\nend\n",
    "memento-delta 1\nentries 0\nend\n",
    "memento-delta 2\nfrom 7 0 1\nentries 1\nentry a1 3 0 http://a.example/\nend\n",
    "memento-delta 1\nfrom 7 0 1\nentries 1\nentry a1 3 1 http://a.example/\nat 3 0\nend\n",
    "memento-delta 2\nfrom 7 0 1\nentries 1\nentry a1 3 1 http://a.example/\nat 2 0\nend\n",
    "memento-delta 2\nfrom 7 0 1\nentries 18446744073709551615\n",
    "memento-delta 2\nfrom 07 0 1\nentries 0\nend\n",
    "memento-delta 2\nfrom 7 0\nentries 0\nend\n",
    "memento-delta 2\nentries 0\nend\n",
    old_delta(7, 0, 1) + "\n",
    "memento-state 1\nentries 0\nend\n",
]


def try_texts():
    """What a peer tells that is no delta is no pull, whole or in part."""
    good = old_delta(7, 0, 1, ORIGINAL)
    texts = [*NO_DELTAS, *(good[:end] for end in range(len(good))), good]
    with contextlib.ExitStack() as stack:
        peer = Played(stack, lambda _: reply(texts[len(peer.heads) - 1]))
        service = Service(stack, peers=[peer.address], rounds=len(texts))
        for number, text in enumerate(texts, 1):
            came, wanted = service.line(), told(number, 0, 0, int(text == good))
            if came != wanted:
                same(f"{text!r}", came, wanted)
        holds(f"of {len(texts)} texts the last is a delta", peer.targets() == ["/delta"] * len(texts))
        same("and is known alone", service.entries(), [("p.example", ORIGINAL, "5")])


def try_revision():
    """All jobs of a round have the revision of its start, however long it takes."""
    originals = [f"http://a.example/{k}" for k in range(3)]

    seconds = []

    def answer(_):
        seconds.append(int(time.time()))
        time.sleep(1.1)
        return reply(link(MEMENTO))

    with contextlib.ExitStack() as stack:
        archive = Played(stack, answer)
        began = int(time.time())
        service = Service(stack, archives=[("a.example", archive.address)], originals=originals)
        same("a slow round is told of", service.line(), told(1, 3, 3))
        revisions = {int(revision) for _, _, revision in service.entries()}
        same("its harvests have one revision", len(revisions), 1)
        holds("that of its start", began <= revisions.pop() <= seconds[0] < seconds[1])


def try_cursors():
    """Each peer is asked from where it was left itself."""
    with contextlib.ExitStack() as stack:
        peers = [Played(stack, lambda _, number=number: reply(delta(number, 0, number))) for number in (5, 6)]
        service = Service(stack, peers=[peer.address for peer in peers], rounds=2)
        same("two peers give deltas", service.line(), told(1, 0, 0, 2))
        same("and again", service.line(), told(2, 0, 0, 2))
        same("each is asked by its own cursor", [peer.targets() for peer in peers],
             [["/delta", "/delta/5/5"], ["/delta", "/delta/6/6"]])


def main():
    for attempt in (try_round, try_requests, try_answers, try_counts, try_page_requests, try_long_lists, try_lost_pages,
                    try_batches, try_workers, try_walks, try_second_round, try_pulls, try_cursors, try_revision, try_texts):
        attempt()
    print("a service asked archives and peers word for word, took just what may be taken, and showed each round at once")


if __name__ == "__main__":
    main()
