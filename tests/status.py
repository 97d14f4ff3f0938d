#!/usr/bin/env python3
"""What the address of the key `status` tells: metrics in Prometheus' text format that are what archives, peers, gates and readers
did, and health; and that without the key nothing more listens.

    ./run --unproved && tests/status.py
"""
import collections
import contextlib
import itertools
import pathlib
import re
import shutil
import socket
import subprocess
import tempfile
import threading
import time

from playing import (BASE, ORIGINAL, PATIENCE, TOP, NoGate, Played, Service, ask, comes_true, dead_ports, delta, entry, free_ports, holds, link, reply, same)

OTHER = "http://b.example/"
UNKNOWN = "http://c.example/"
TOLERANCE = 10**9    # never dormant
FORMAT = "text/plain; version=0.0.4"
# These have samples only where the settings have the key that they tell of.
OWN_KEYS = ["maplewrench_wishes_total", "maplewrench_wanted_used", "maplewrench_wanted_limit", "maplewrench_snapshots_total",
            "maplewrench_last_snapshot_timestamp_seconds", "maplewrench_snapshot_behind", "maplewrench_list_bad_lines",
            "maplewrench_last_list_timestamp_seconds"]

# ---- the format, strictly ----

NAME = r"[a-zA-Z_][a-zA-Z0-9_]*"
SAMPLE = re.compile(rf'({NAME})(?:\{{({NAME}="(?:[^"\\\n]|\\[\\"n])*"(?:,{NAME}="(?:[^"\\\n]|\\[\\"n])*")*)\}})? (\d+)')
LABEL = re.compile(rf'({NAME})="((?:[^"\\]|\\.)*)"')
ESCAPES = {"\\\\": "\\", '\\"': '"', "\\n": "\n"}


class Unread(Exception):
    """A text isn't in the format."""


def is_read(text):
    with contextlib.suppress(Unread):
        return bool(read_metrics(text))
    return False


def read_metrics(text):
    """The kind and the samples of each metric by its name; a sample is its value by its labels. Anything that isn't the format, a
    sample before its metric's two lines or twice, and a metric twice, is a fault."""
    if not text.endswith("\n"):
        raise Unread(f"no line's end: {text[-80:]!r}")
    metrics, name, is_helped = {}, None, False
    for line in text[:-1].split("\n"):
        if help_line := re.fullmatch(rf"# HELP ({NAME}) (\S.*)", line):
            name, is_helped = help_line[1], True
            if name in metrics:
                raise Unread(f"a metric twice: {line}")
        elif type_line := re.fullmatch(rf"# TYPE ({NAME}) (counter|gauge)", line):
            if not is_helped or type_line[1] != name or (type_line[2] == "counter") != name.endswith("_total"):
                raise Unread(f"a type out of place: {line}")
            metrics[name], is_helped = (type_line[2], {}), False
        elif (sample := SAMPLE.fullmatch(line)) and sample[1] == name in metrics:
            labels = tuple((label, re.sub(r"\\.", lambda escape: ESCAPES[escape[0]], value)) for label, value in LABEL.findall(sample[2] or ""))
            if labels in metrics[name][1] or len({label for label, _ in labels}) != len(labels):
                raise Unread(f"a sample or a label twice: {line}")
            metrics[name][1][labels] = int(sample[3])
        else:
            raise Unread(f"no line of the format: {line}")
    return metrics


def try_reader():
    """The reader of this test refuses what isn't the format."""
    head = "# HELP m_total x\n# TYPE m_total counter\n"
    same("labels are read", read_metrics(head + 'm_total{a="\\\\\\"\\n",b=""} 7\n'), {"m_total": ("counter", {(("a", '\\"\n'), ("b", "")): 7})})
    bad = [head + "m_total 1", head + "m_total 1\nm_total 1\n", head + 'm_total{a="x} 1\n', head + 'm_total{a="\\x"} 1\n', "m_total 1\n",
           head + "n_total 1\n", head + "m_total -1\n", head + "m_total  1\n", head + head, head + "m_total{} 1\n", head + 'm_total{a="",a=""} 1\n',
           "# HELP m x\n# TYPE m counter\n", "# TYPE m gauge\n"]
    same("what isn't the format is refused", [text for text in bad if is_read(text)], [])


# ---- services ----


def status_of(service):
    """The port of its status, which it writes behind its gates' lines."""
    return int(re.fullmatch(r"status 127\.0\.0\.1:(\d+)\n", service.line())[1])


class Told:
    """What the status at this port tells now."""

    def __init__(self, port):
        status, fields, text = ask(port, "/metrics")
        if (status, fields["content-type"]) != (200, FORMAT):
            raise SystemExit(f"the metrics are {status}, {fields}")
        self.text, self.metrics = text, read_metrics(text)

    def value(self, name, **labels):
        return self.metrics[name][1][tuple(labels.items())]

    def row(self, name, label, **labels):
        """The values that aren't 0, by the last label, of the samples that have the others."""
        samples = self.metrics[name][1].items()
        return {key[-1][1]: value for key, value in samples if value and key[-1][0] == label and dict(key[:-1]) == labels}

    def walks(self, archive):
        return self.row("maplewrench_walks_total", "outcome", archive=archive)

    def pulls(self, peer, number):
        return self.row("maplewrench_pulls_total", "outcome", peer=peer, number=str(number))

    def archive(self, name, label):
        return self.value(f"maplewrench_archive_{name}_timestamp_seconds", archive=label)

    def replies(self, gate):
        return self.row("maplewrench_replies_total", "status", gate=str(gate))


def failing(count=10**9, text=None):
    """An archive's answers: so many times 500, and then this page."""
    asked = iter(range(10**9))
    return lambda _: reply(status=500) if next(asked) < count else reply(text)


def walked_archives(stack):
    """Archives of which each ends its walks in another way, and in which way."""
    silent, closed = dead_ports(stack, 1), lambda _: b""
    page = link("http://m.example/1")
    two = page + "," + link("http://m.example/3", "Sun, 02 Jan 2000 00:00:00 GMT")

    def losing(target):
        return reply(f"</lost>;rel=timemap,{page}") if target == BASE + ORIGINAL else reply(status=404)

    answers = {"whole": lambda _: reply(two), "part": losing, "status": failing(), "encoded": lambda _: reply(page, "Content-Encoding: gzip"),
               "no_page": lambda _: reply("nonsense"), "no_answer": closed}
    archives = [(outcome.replace("_", "-") + ".example", Played(stack, answer).address) for outcome, answer in answers.items()]
    return [*archives, ("nobody.example", f"http://127.0.0.1:{silent[0]}")]


def try_rounds(stack):
    """Two rounds of archives and peers that end in each way, and two gates that readers ask."""
    news, gap = Played(stack, lambda _: reply(delta(7, 0, 1, entry(ORIGINAL, "http://m.example/2")))), Played(stack, lambda _: reply(delta(7, 1, 2)))
    closed, garbage = Played(stack, lambda _: reply(status=403)), Played(stack, lambda _: reply("nonsense"))
    (away,) = dead_ports(stack, 1)
    peers = [news.address, gap.address, closed.address, garbage.address, f"http://127.0.0.1:{away}"]
    begun = int(time.time())
    archives = walked_archives(stack)
    service = Service(stack, archives=archives, originals=[ORIGINAL, OTHER], peers=peers, ports=(0, 0), rounds=2, workers=4,
                      patience=5, keys={"status": "127.0.0.1:0"})
    port = status_of(service)
    service.rounds(2)
    same("the gates answer", [service.get("/timegate/" + ORIGINAL)[0], service.get("/timemap/link/" + ORIGINAL)[0], service.get("/timegate/x")[0],
                              ask(service.ports[0], "/state", "POST")[0], service.get("/timegate/" + UNKNOWN, 1)[0],
                              service.get("/timegate/" + UNKNOWN, 1)[0]], [302, 200, 400, 405, 404, 404])
    told = Told(port)
    outcomes = {name: told.walks(name) for name, _ in archives}
    same("walks are told by archive and by how they ended", outcomes, {
        "whole.example": {"whole": 4}, "part.example": {"part": 2, "whole": 2}, "status.example": {"status": 4}, "encoded.example": {"encoded": 4},
        "no-page.example": {"no_page": 4}, "no-answer.example": {"no_answer": 4}, "nobody.example": {"no_answer": 4}})
    same("pulls by peer and by how they ended", [told.pulls(peer, number) for number, peer in enumerate(peers, 1)],
         [{"news": 2}, {"gap": 2}, {"status": 2}, {"no_delta": 2}, {"no_answer": 2}])
    same("replies by gate and by status", [told.replies(1), told.replies(2)], [{"200": 1, "302": 1, "400": 1, "405": 1}, {"404": 2}])
    same("rounds and their jobs", [told.value(f"maplewrench_{name}") for name in ("rounds_total", "round_jobs", "round_jobs_done", "shown")], [2, 14, 14, 1])
    now = int(time.time())
    times = [told.value("maplewrench_last_publish_timestamp_seconds"), told.value("maplewrench_clock_seconds")]
    holds("times are those of the clock", all(begun <= moment <= now for moment in times) and times[0] <= times[1])
    last = [told.value("maplewrench_peer_last_delta_timestamp_seconds", peer=peer, number=str(number)) for number, peer in enumerate(peers, 1)]
    holds("a peer's last delta is told, and that others gave none", begun <= last[0] <= now and last[1:] == [0] * 4)
    entries, mementos = len(service.entries()), sum(line[:1].isdigit() for line in service.get("/state")[2].splitlines())
    same("entries and mementos", [told.value("maplewrench_entries"), told.value("maplewrench_mementos")], [entries, mementos])
    holds("the memory that the process holds", 0.5 < told.value("process_resident_memory_bytes") / 1024 / service.memory() < 2)
    same("publishes", told.row("maplewrench_publishes_total", "outcome"), {"published": 2})
    same("nothing is told of wishes, snapshots and a file of originals where there are none", {name: told.metrics[name][1] for name in OWN_KEYS},
         dict.fromkeys(OWN_KEYS, {}))
    return port, told


def try_replies(port):
    """What else the address replies."""
    replies = Told(port).metrics["maplewrench_replies_total"]
    status, fields, body = ask(port, "/metrics", "HEAD")
    same("a HEAD has the fields and no body", (status, fields["content-type"], body), (200, FORMAT, ""))
    status, fields, body = ask(port, "/metrics", "POST")
    same("another method", (status, fields["allow"], fields["content-type"], body), (405, "GET, HEAD", "text/plain", "bad method\n"))
    for target in ("/", "/metric", "/metrics/", "/metrics?a=b", "/state", "/timegate/" + ORIGINAL, "/health/"):
        status, fields, body = ask(port, target)
        same(f"no route {target}", (status, fields["content-type"], body), (404, "text/plain", "no such route\n"))
    same("a HEAD elsewhere", ask(port, "/health", "HEAD")[::2], (200, ""))
    same("asking here counts for no gate", Told(port).metrics["maplewrench_replies_total"], replies)


def try_health(stack):
    """503 until something is published, and then 200."""
    answers, go_on = failing(1, link("http://m.example/1")), [threading.Event(), threading.Event()]

    def answer(target):
        go_on[len(archive.heads) - 1].wait(PATIENCE)
        return answers(target)

    archive = Played(stack, answer)
    service = Service(stack, archives=[("a.example", archive.address)], originals=[ORIGINAL], rounds=2, pause=1, keys={"status": "127.0.0.1:0"})
    port = status_of(service)
    before = ask(port, "/health")
    go_on[0].set()
    service.rounds(1)
    failed, shown = ask(port, "/health"), Told(port).value("maplewrench_shown")
    go_on[1].set()
    service.rounds(1)
    after, later = ask(port, "/health"), Told(port).value("maplewrench_shown")
    same("health before anything was published", (before[0], before[2]), (503, "nothing published\n"))
    same("a publish of nothing shows nothing", (failed[0], failed[2], shown), (503, "nothing published\n", 0))
    same("health once something is", (after[0], after[1]["content-type"], after[2], later), (200, "text/plain", "ok\n", 1))


def try_dormant(stack):
    """An archive that is dormant, and until when, and jobs that are passed over."""
    bad, good = Played(stack, failing()), Played(stack, lambda _: reply(link("http://m.example/1")))
    begun = int(time.time())
    service = Service(stack, archives=[("bad.example", bad.address), ("good.example", good.address)], originals=[ORIGINAL, OTHER, UNKNOWN], rounds=2,
                      keys={"status": "127.0.0.1:0", "tolerance": 2, "dormant": 600, "again": 600})
    port = status_of(service)
    service.rounds(2)
    told = Told(port)
    until = told.archive("dormant_until", "bad.example")
    holds("until when an archive is dormant", begun + 600 <= until <= time.time() + 601)
    same("and that another isn't", told.archive("dormant_until", "good.example"), 0)
    same("and that neither asked to be left alone", [told.archive("aside_until", name) for name in ("bad.example", "good.example")], [0, 0])
    same("walks until then", [told.walks("bad.example"), told.walks("good.example")], [{"status": 2}, {"whole": 3}])
    same("jobs that are passed over", told.value("maplewrench_round_jobs_passed_over"), 3)


def try_aside(stack):
    """An archive that asks to be left alone, until when, and that it isn't any more once it has answered."""
    asked = iter(range(10**9))
    busy = Played(stack, lambda _: reply("", "Retry-After: 2", status=429) if next(asked) < 1 else reply(link("http://m.example/1")))
    gone = Played(stack, lambda _: reply("", "Retry-After: 900", status=503))
    begun = int(time.time())
    service = Service(stack, archives=[("busy.example", busy.address), ("gone.example", gone.address)], originals=[ORIGINAL], rounds=1,
                      keys={"status": "127.0.0.1:0", "tolerance": 5, "dormant": 600})
    port = status_of(service)
    holds("an archive that asks to be left alone is told at once", comes_true(lambda: Told(port).archive("aside_until", "gone.example")))
    told = Told(port)
    holds("with the second in which it is asked again", begun + 900 <= told.archive("aside_until", "gone.example") <= time.time() + 901)
    same("it isn't dormant", told.archive("dormant_until", "gone.example"), 0)
    holds("one that answers again isn't left alone any more", comes_true(lambda: Told(port).walks("busy.example") == {"busy": 1, "whole": 1}))
    holds("and told so", comes_true(lambda: Told(port).archive("aside_until", "busy.example") == 0))


def try_twice(stack):
    """Two peers with one base are told apart."""
    peer = Played(stack, lambda _: reply(delta(7, 0, 1, entry(ORIGINAL, "http://m.example/2"))))
    service = Service(stack, peers=[peer.address, peer.address], keys={"status": "127.0.0.1:0"})
    port = status_of(service)
    service.rounds(1)
    told = Told(port)    # which refuses a sample that stands twice
    same("each has its pulls", [told.pulls(peer.address, number) for number in (1, 2)], [{"news": 1}, {"news": 1}])
    same("and its number", [dict(labels)["number"] for labels in told.metrics["maplewrench_peer_last_delta_timestamp_seconds"][1]], ["1", "2"])


def try_snapshots(stack):
    """When a snapshot was written last, and how many couldn't be."""
    folder = pathlib.Path(stack.enter_context(tempfile.TemporaryDirectory()))
    asked, is_new = itertools.count(1), threading.Event()
    is_new.set()
    archive = Played(stack, lambda _: reply(link(f"http://m.example/{next(asked)}")) if is_new.is_set() else reply("", status=503))
    begun = int(time.time())
    service = Service(stack, archives=[("a.example", archive.address)], originals=[ORIGINAL], rounds=1_000, pause=1,
                      keys={"status": "127.0.0.1:0", "snapshot": str(folder / "kept/snapshot"), "snapshot_every": 1})
    port = status_of(service)

    def told():
        came = Told(port)
        return came.row("maplewrench_snapshots_total", "outcome"), came.value("maplewrench_last_snapshot_timestamp_seconds"), came.value("maplewrench_snapshot_behind")

    holds("a snapshot that can't be written is counted", comes_true(lambda: told()[0].get("failed", 0) > 1))
    counts, last, behind = told()
    same("none was written, and what is published isn't kept", (counts.get("written", 0), last, behind), (0, 0, 1))
    (folder / "kept").mkdir()
    holds("one that is written is counted", comes_true(lambda: told()[0].get("written", 0) > 0))
    holds("and its second is told", comes_true(lambda: begun <= told()[1] <= time.time()))
    # While each round brings a harvest, what is published is kept for moments only.
    is_new.clear()
    holds("then what is published is kept", comes_true(lambda: told()[2] == 0))


def try_list(stack):
    """Lines of the file of originals that hold none, and when it was read last."""
    folder = pathlib.Path(stack.enter_context(tempfile.TemporaryDirectory()))
    listed = folder / "originals"
    listed.write_text(f"{ORIGINAL}\nftp://a.example/\nnone\n\n# a comment\nhttp://\n")
    archive = Played(stack, lambda _: reply(link("http://m.example/1")))
    begun = int(time.time())
    service = Service(stack, archives=[("a.example", archive.address)], originals=[], rounds=1_000, pause=1,
                      keys={"status": "127.0.0.1:0", "originals_file": str(listed)})
    port = status_of(service)
    service.rounds(1)

    def two_rounds_later():
        """The lines and the second that are told once two rounds more have begun and ended, at least a second each."""
        rounds = Told(port).value("maplewrench_rounds_total")
        holds("rounds go on", comes_true(lambda: Told(port).value("maplewrench_rounds_total") > rounds + 2))
        told = Told(port)
        return told.value("maplewrench_list_bad_lines"), told.value("maplewrench_last_list_timestamp_seconds")

    count, last = two_rounds_later()
    same("lines that hold no original", count, 4)
    holds("and when the file was read", begun + 1 <= last <= time.time())
    listed.unlink()
    gone = two_rounds_later()
    same("a file that is gone isn't read", two_rounds_later(), gone)
    holds("and what was told of it stays", gone[0] == 4 and gone[1] >= last)


def try_ahead(stack):
    """Entries whose revision is ahead of the clock, and the version that runs."""
    now = int(time.time())
    entries = entry(ORIGINAL, "http://m.example/1", revision=now + 86_400) + entry(OTHER, "http://m.example/2", revision=now - 5) \
        + entry(UNKNOWN, "http://m.example/3", revision=now + 10)
    peer = Played(stack, lambda _: reply(delta(7, 0, 1, entries)))
    service = Service(stack, peers=[peer.address], keys={"status": "127.0.0.1:0"})
    port = status_of(service)
    service.rounds(1)
    told = Told(port)
    same("entries that are ahead by more than a minute", (told.value("maplewrench_entries"), told.value("maplewrench_revisions_ahead")), (3, 1))
    number = re.search(r"(?m)^## ([0-9][0-9.]*)", (TOP / "CHANGELOG.md").read_text(encoding="utf-8"))[1]
    same("the version is that of CHANGELOG.md", told.metrics["maplewrench_build_info"][1], {(("version", number),): 1})


def try_wishes(stack):
    """A wish that is granted and ends."""
    archive = Played(stack, lambda _: reply(link("http://m.example/1")))
    service = Service(stack, archives=[("a.example", archive.address)], originals=[], rounds=1_000, pause=60,
                      keys={"status": "127.0.0.1:0", "wanted": 10})
    port = status_of(service)
    same("nothing is known of what is wished for", service.shows(), None)
    holds("a wish is fulfilled", comes_true(lambda: service.shows() == "http://m.example/1"))
    holds("and told as granted and ended",
          comes_true(lambda: Told(port).row("maplewrench_wishes_total", "outcome") == {"granted": 1, "ended": 1}))
    same("its walk is told too", Told(port).walks("a.example"), {"whole": 1})
    holds("and how much of the room is used",
          comes_true(lambda: [Told(port).value(f"maplewrench_wanted_{name}") for name in ("used", "limit")] == [1, 10]))


def try_late(stack):
    """Wishes beyond those of the minute."""
    archive = Played(stack, lambda _: reply(link("http://m.example/1")))
    service = Service(stack, archives=[("a.example", archive.address)], originals=[], rounds=1_000, pause=60,
                      keys={"status": "127.0.0.1:0", "wanted": 10, "wishes": 1})
    port = status_of(service)
    asked = 0

    def late():
        return Told(port).row("maplewrench_wishes_total", "outcome").get("late", 0)

    while asked < 2 or late() < 2 and asked < 100:    # one in a minute is granted
        same("nothing is known of what is wished for", service.shows(f"http://w{asked}.example/"), None)
        asked += 1
    holds(f"of {asked} wishes those that came too late are told", comes_true(lambda: 2 <= late()) and late() < asked)


def threads_of(service):
    return len(list(pathlib.Path(f"/proc/{service.process.pid}/task").iterdir()))


def try_faults(stack):
    """An address that is taken is no gate, and without the key nothing more listens."""
    (taken,) = free_ports(1)
    with contextlib.closing(socket.create_server(("127.0.0.1", taken))):
        try:
            service = Service(stack, keys={"status": f"127.0.0.1:{taken}"})
            holds("an address that is taken is told", service is None)
        except NoGate:
            holds("no gate serves where the status can't be bound", True)
    (port,) = free_ports(1)
    kept = Service(stack, connections=1, keys={"status": f"127.0.0.1:{port}"})
    same("the address of the settings", kept.line(), f"status 127.0.0.1:{port}\n")
    kept.rounds(1)
    same("the program ends with its gates", (kept.get("/state")[0], kept.line(), kept.ending()[0]), (200, "done\n", 0))
    plain = Service(stack)
    same("without the key no line more is written", plain.line(), "round 1 jobs 0 harvests 0 pulls 0 published\n")
    shown = Service(stack, keys={"status": "127.0.0.1:0"})
    status_of(shown)
    shown.rounds(1)
    holds("nor is a thread more there: that of the rounds and that of the gate", comes_true(lambda: threads_of(plain) == 2))
    holds("and with it one more is", comes_true(lambda: threads_of(shown) == 3))


def try_promtool(told):
    """Prometheus' own tool, if it is installed."""
    if shutil.which("promtool") is None:
        return "promtool isn't installed"
    ran = subprocess.run(["promtool", "check", "metrics"], input=told.text, capture_output=True, text=True, check=False)
    same("promtool check metrics", (ran.returncode, ran.stdout, ran.stderr), (0, "", ""))
    return "promtool agrees"


def try_documents(stack, told):
    """The metrics in docs/OPERATING.md are those that are told, with their kinds, in their order. The last ones are told only where
    something may be forgotten, and where peers are asked for parts."""
    more = Told(status_of(Service(stack, keys={"status": "127.0.0.1:0", "forget": 3600, "parts": 1}))).metrics
    same("what is told without `forget` and `parts` comes first", list(more)[:len(told.metrics)], list(told.metrics))
    same("and with them there is more", len(more) - len(told.metrics), 7)
    rows = re.findall(rf"^\| `({NAME})` \| (counter|gauge) \|", (TOP / "docs/OPERATING.md").read_text(encoding="utf-8"), re.M)
    same("docs/OPERATING.md names the metrics", rows, [(name, kind) for name, (kind, _) in more.items()])


def main():
    try_reader()
    with contextlib.ExitStack() as stack:
        port, told = try_rounds(stack)
        try_replies(port)
        try_documents(stack, told)
        for each in (try_health, try_dormant, try_aside, try_twice, try_snapshots, try_list, try_ahead, try_wishes, try_late, try_faults):
            each(stack)
        prometheus = try_promtool(told)
    count = sum(len(samples) for _, samples in told.metrics.values())
    kinds = collections.Counter(kind for kind, _ in told.metrics.values())
    print(f"{count} samples of {kinds['counter']} counters and {kinds['gauge']} gauges are what archives, peers and readers did; {prometheus}")


if __name__ == "__main__":
    main()
