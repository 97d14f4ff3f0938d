#!/usr/bin/env python3
"""What nobody asks for is forgotten, and nobody notices: two replicas that pull from each other, fifty unknown originals one after
the other, a bound in mementos, and what a status and a log tell of it.

    ./run --unproved && tests/forgetting.py
"""
import contextlib
import http.client
import pathlib
import re
import tempfile
import threading
import time

from playing import BASE, PATIENCE, Played, Service, comes_true, free_ports, get, holds, link, originals, reply, same, until

MANY = 1_000_000    # rounds, for a service that is to go on until it is killed
WANTED = 5
# After how many seconds each replica knows what the other forgot or learnt, which pull from each other each second.
SETTLED = 4
LISTED = originals(4, "listed.example")


def memento(original, number=0):
    return f"http://m.example/{number}/{original}"


class Archive(Played):
    """Has so many mementos of each original."""

    def __init__(self, stack, copies=3):
        self.copies = copies
        super().__init__(stack, self.page)

    def page(self, target):
        original = target.removeprefix(BASE)
        return reply(",\n".join(link(memento(original, k)) for k in range(self.copies)))

    def asked(self, original):
        """How often it was asked for an original."""
        return self.targets().count(BASE + original)


def unlisted(service, listed=()):
    """The originals that a service knows beside those."""
    return {original for _, original, _ in service.entries()} - set(listed)


def is_steady(replicas):
    """Whether these replicas know no more than is wanted for three seconds."""
    for _ in range(6):
        if any(len(unlisted(replica, LISTED)) > WANTED for replica in replicas):
            return False
        time.sleep(0.5)
    return True


def wish(service, original, seconds=15):
    """Asks until it is shown, and says for how long that took."""
    begun = time.monotonic()
    holds(f"{original} is shown within {seconds} s",
          comes_true(lambda: service.shows(original) not in (None, 503), seconds))
    return time.monotonic() - begun


class Readers:
    """Readers that ask these gates for these originals without a pause, and note each reply that isn't as it was."""

    def __init__(self, ports, texts):
        self.texts, self.wrong, self.count, self.over = texts, [], 0, threading.Event()
        self.threads = [threading.Thread(target=self.read, args=(port,), daemon=True) for port in ports for _ in range(2)]
        for thread in self.threads:
            thread.start()

    def read(self, port):
        while not self.over.is_set():
            for original, text in self.texts.items():
                try:
                    status, _, body = get(port, "/timemap/link/" + original)
                except (OSError, http.client.HTTPException) as fault:
                    status, body = repr(fault), ""
                if (status, body) != (200, text):
                    self.wrong.append((original, status, body[:100]))
                self.count += 1

    def end(self):
        self.over.set()
        for thread in self.threads:
            thread.join(PATIENCE)
        holds(f"{self.count} replies to readers meanwhile, and none is wrong: {self.wrong[:3]}", not self.wrong)


def two_replicas(stack, folder, archive, listed=tuple(LISTED), **keys):
    """Two replicas that pull from each other each second. Each has two gates."""
    ports = free_ports(4)
    replicas = []
    for k in range(2):
        own = {"log": True, "again": 86_400, "publish": 1, "pull": 1, "wanted": WANTED, "wishes": 60_000, "forget": 1,
               "snapshot": str(folder / f"snapshot{k}"), "snapshot_every": 1, **{key: value(k) if callable(value) else value
                                                                              for key, value in keys.items()}}
        replicas.append(Service(stack, archives=[("arc", archive.address)], originals=listed, ports=ports[2 * k:2 * k + 2],
                                peers=[f"http://127.0.0.1:{ports[2 * (1 - k)]}"], rounds=MANY, pause=1, workers=4, patience=5, keys=own,
                                stderr=open(folder / f"log{k}", "w", encoding="utf-8"), stdout=open(folder / f"out{k}", "w", encoding="utf-8")))
    for replica in replicas:
        for gate in range(2):
            until("all that is listed is shown", lambda replica=replica, gate=gate: all(
                listens(replica, gate) and replica.shows(original, gate) == memento(original) for original in listed))
    return replicas


def listens(service, gate):
    with contextlib.suppress(OSError):
        return service.get("/", gate)[0] > 0
    return False


def ask_slowly(replicas, asked):
    """Asks one replica and then the other for each of these originals, six a second at most. When it began to ask for each, and when
    that was shown."""
    times = {}
    for number, original in enumerate(asked):
        begun = time.monotonic()
        wish(replicas[number % 2], original)
        times[original] = begun, time.monotonic()
        time.sleep(max(0.0, begun + 1 / 6 - time.monotonic()))
    return times


def try_two_replicas(folder):
    with contextlib.ExitStack() as stack:
        archive = Archive(stack)
        replicas = two_replicas(stack, folder, archive)
        texts = {original: replicas[0].get("/timemap/link/" + original)[2] for original in LISTED}
        readers = Readers([replica.ports[0] for replica in replicas], texts)
        asked = originals(50, "asked.example")
        times = ask_slowly(replicas, asked)
        gone = {original for original, (_, shown) in times.items()
                if sum(begun > shown + SETTLED for begun, _ in times.values()) > WANTED}
        holds(f"50 originals are shown one after the other, and {len(gone)} of them are too old to be kept", len(gone) >= 10)
        # What one has forgotten and the other not comes once more, if it is young.
        until("both replicas know no more than is wanted for three seconds", lambda: is_steady(replicas))
        most, back = 0, set()
        for _ in range(20):
            for replica in replicas:
                known = unlisted(replica, LISTED)
                most, back = max(most, len(known)), back | known & gone
            time.sleep(0.5)
        holds(f"and in ten pulls it stays so: {most} at most", most <= WANTED)
        same("nothing that was forgotten came back", back, set())
        before = archive.asked(asked[0])
        wish(replicas[0], asked[0])
        same("what was forgotten is asked for once more when it is asked for", archive.asked(asked[0]), before + 1)
        readers.end()
        for replica in replicas:
            same("what is listed has the same bytes at each gate",
                 [[replica.get("/timemap/link/" + original, gate)[2] for original in LISTED] for gate in range(2)],
                 [list(texts.values())] * 2)
        for k in range(2):
            log = (folder / f"log{k}").read_text()
            counts = re.findall(r"forgotten: (\d+) entries, kept: (\d+), in \d+ milliseconds", log)
            holds(f"the log tells of {len(counts)} forgettings", counts)
            holds("after each of them no more than what is listed and wanted was kept",
                  all(int(kept) <= WANTED + len(LISTED) for _, kept in counts))


def try_kills(folder):
    """A replica that forgets each second is killed again and again: what is listed and what its peer keeps is there after each start."""
    with contextlib.ExitStack() as stack:
        archive = Archive(stack)
        replicas = two_replicas(stack, folder, archive)
        for turn in range(6):
            for original in originals(4, f"asked{turn}.example"):
                wish(replicas[turn % 2], original)
            time.sleep(0.2 * turn)
            replicas[turn % 2].kill()
            replicas[turn % 2].start()
            until("what is listed is shown after a kill", lambda turn=turn: listens(replicas[turn % 2], 0) and all(
                replicas[turn % 2].shows(original) == memento(original) for original in LISTED))
        for replica in replicas:
            until("no more is known than is wanted", lambda replica=replica: len(unlisted(replica, LISTED)) <= WANTED)
        for k in range(2):
            log = (folder / f"log{k}").read_text()
            holds("each snapshot was whole", "set aside" not in log and "snapshot: taken in" in log)


def try_most(folder):
    """Wished originals have 100 mementos each; no more than 250 may be known, so a third makes the next forgetting let the oldest go."""
    with contextlib.ExitStack() as stack:
        archive = Archive(stack, 100)
        service = Service(stack, archives=[("arc", archive.address)], originals=LISTED[:1], ports=(0,), rounds=MANY, pause=1, workers=4,
                          keys={"log": True, "again": 86_400, "publish": 1, "wanted": 1000, "wishes": 60_000, "forget": 4, "most": 250,
                                "snapshot": str(folder / "most"), "snapshot_every": 1},
                          stderr=open(folder / "log", "w", encoding="utf-8"))
        until("what is listed is shown", lambda: service.shows(LISTED[0]) == memento(LISTED[0]))
        asked = originals(3, "asked.example")
        for original in asked[:2]:
            wish(service, original)
            time.sleep(1.1)     # a harvest's age is told by its second
        same("a third doesn't fit", service.shows(asked[2]), None)
        service.wish(asked[2], archive)
        until("and that is told", lambda: "wished harvests dropped: too many mementos" in (folder / "log").read_text())
        known = unlisted(service, LISTED)
        holds(f"no more is known than may be: {sorted(known)}", len(known) <= 2)
        same("what is known is shown as before", service.shows(asked[1]), memento(asked[1]))
        until("the oldest is forgotten", lambda: asked[0] not in unlisted(service, LISTED))
        same("the younger one isn't", service.shows(asked[1]), memento(asked[1]))
        until("the log tells that one entry went and two are kept", lambda: re.findall(
            r"forgotten: (\d+) entries, kept: (\d+),", (folder / "log").read_text())[:1] == [("1", "2")])
        until("a snapshot is written that has it", lambda: asked[1].encode() in (folder / "most").read_bytes()
              and asked[0].encode() not in (folder / "most").read_bytes())
        fourth = "http://fourth.example/"
        wish(service, fourth)


def try_without_wanted(folder):
    """Without `wanted` nothing is kept but what is listed, whatever a peer has."""
    with contextlib.ExitStack() as stack:
        archive = Archive(stack)
        peer = Service(stack, archives=[("arc", archive.address)], originals=LISTED, ports=(0,), rounds=MANY, pause=1)
        until("a peer shows all", lambda: all(peer.shows(original) for original in LISTED))
        service = Service(stack, archives=[("arc", archive.address)], originals=LISTED[:2], ports=(0,), rounds=MANY, pause=1,
                          peers=[peer.address], keys={"pull": 1, "publish": 1, "again": 86_400, "forget": 1})
        until("what is listed is shown", lambda: all(service.shows(original) for original in LISTED[:2]))
        came = set()
        for _ in range(30):     # the peer's rounds look after all originals anew each second, so each pull has them again
            came |= unlisted(service, LISTED[:2])
            time.sleep(0.1)
        same("and nothing else, in three seconds", came, set())


def try_status(folder):
    with contextlib.ExitStack() as stack:
        archive = Archive(stack)
        (port,), begun = free_ports(1), int(time.time())
        service = Service(stack, archives=[("arc", archive.address)], originals=LISTED[:1], ports=(0,), rounds=MANY, pause=1,
                          keys={"status": f"127.0.0.1:{port}", "again": 86_400, "publish": 1, "wanted": 3, "wishes": 60_000, "forget": 1})

        def sample(name):
            found = re.search(rf"^{re.escape(name)} (\d+)$", get(port, "/metrics")[2], re.M)
            return int(found[1]) if found else None

        until("what is listed is shown", lambda: service.shows(LISTED[0]))
        same("nothing is forgotten yet", sample("maplewrench_floor_timestamp_seconds"), 0)
        for original in originals(8, "asked.example"):
            wish(service, original)
        until("a forgetting is counted", lambda: (sample('maplewrench_forgettings_total{outcome="forgotten"}') or 0) > 0)
        holds("and what went", sample("maplewrench_forgotten_entries_total") >= 1)
        holds("and since when unlisted originals are kept",
              begun <= sample("maplewrench_floor_timestamp_seconds") <= time.time() + 1)


def main():
    for attempt in (try_two_replicas, try_kills, try_most, try_without_wanted, try_status):
        with tempfile.TemporaryDirectory() as folder:
            attempt(pathlib.Path(folder))
    print("what nobody asked for was forgotten, and nobody noticed")


if __name__ == "__main__":
    main()
