#!/usr/bin/env python3
"""Random wishes beside kills: readers ask three replicas that pull from each other for originals that nobody knows, over archives
that fail now and then, while one replica after the other is killed and started again.

    ./run --unproved && tests/wish_soak.py       half a minute
    tests/wish_soak.py 600                    so many seconds

- A memento that is shown stood on a page that an archive had sent whole, and a replica that shows an original goes on showing it
  until it is killed.
- Once nothing is killed and nobody asks, what one replica knows of a wished original all come to know by their pulls.
- Readers who then ask again get what the archives have: of each wished original all replicas give the same bytes, with all copies,
  so that no wish is lost for good.

The first replica keeps a snapshot. It and the second give and take parts, and the third gives and takes whole deltas.

What the archives do follows from a fixed seed, for each original and each time that it is asked for.
"""
import collections
import contextlib
import http.client
import pathlib
import random
import re
import sys
import tempfile
import threading
import time

from playing import BASE, PATIENCE, Played, Service, comes_true, free_ports, get, holds, link, reply, same

SEED = 20_000_102
LISTED = [f"http://listed.example/{k}" for k in range(3)]
REPLICAS, READERS = 3, 4
EACH = 0.25    # seconds between two new originals that are wished for
MOST_COPIES = 5
ENTRY = 3      # KiB that an original of an archive takes, as docs/OPERATING.md says


class Archive:
    """Has most originals, of each one copy more each time that it is asked for it, and fails now and then."""

    def __init__(self, stack, name):
        self.name, self.lock, self.asked, self.told, self.is_steady = name, threading.Lock(), collections.Counter(), set(), False
        self.address = Played(stack, self.answer).address

    def has(self, original):
        return original in LISTED or random.Random(f"{SEED} {self.name} {original}").random() < 0.7

    def copies(self, original):
        """What it has of an original by now."""
        if not self.has(original):
            return []
        return [f"http://{self.name}/{k}/{original}" for k in range(max(1, min(self.asked[original], MOST_COPIES)))]

    def answer(self, target):
        original = target.removeprefix(BASE)
        with self.lock:
            self.asked[original] += not self.is_steady
            dice = random.Random(f"{SEED} {self.name} {original} {self.asked[original]}")
            kind = "well" if self.is_steady else dice.choices(["well", "fails", "half", "late"], [12, 2, 2, 2])[0]
            copies = self.copies(original)
        if kind == "late":
            time.sleep(0.3)
        if kind == "fails":
            return reply(status=500)
        if not copies:
            return reply(status=404)
        text = ",".join(map(link, copies))
        if kind == "half":
            return reply(text[:len(text) // 2], length=len(text))
        with self.lock:
            self.told.update(copies)
        return reply(text)


class Replica:
    """A service that is killed and started again. Its number of starts is odd while it may answer."""

    def __init__(self, stack, archives, port, peers, keys):
        self.service = Service(stack, archives=[(archive.name, archive.address) for archive in archives], originals=LISTED, ports=(port,),
                               peers=[f"http://127.0.0.1:{peer}" for peer in peers], rounds=1_000_000, pause=1, workers=8,
                               keys={"wanted": 100_000, "wishes": 60_000, "again": 2, "pull": 1, "publish": 1, **keys})
        self.port, self.life, self.most = port, 1, 0
        self.read()

    def read(self):
        """Has what it writes read, so that it never waits for that."""
        threading.Thread(target=collections.deque, args=(self.service.process.stdout, 0), daemon=True).start()

    def kill(self):
        self.most = max(self.most, self.service.memory("VmHWM"))
        self.life += 1
        self.service.kill()

    def start(self):
        self.service.start()
        self.read()
        self.life += 1


class Seen:
    """What readers were shown, and what was wrong with it."""

    def __init__(self, archives):
        self.archives, self.lock, self.shown, self.counts, self.faults = archives, threading.Lock(), set(), collections.Counter(), []
        self.wished = list(LISTED)

    def note(self, replica, original, life, was_shown, came):
        status, where, body = came
        with self.lock:
            self.counts[status] += 1
            copies = [where] if status == 302 else re.findall(r'<([^>]*)>; rel="[^"]*memento"', body) if status == 200 else []
            if status not in (200, 302, 404, 503):
                self.faults.append(f"{original} is answered by {came}")
            if not all(any(copy in archive.told for archive in self.archives) for copy in copies):
                self.faults.append(f"{original} has copies that no page had: {copies}")
            if life != replica.life:
                return
            if status == 404 and was_shown:
                self.faults.append(f"{original} was shown at port {replica.port} before, and isn't any more")
            if copies:
                self.shown.add((replica, life, original))


def ask(seen, replica, original, is_timemap):
    """Asks for an original, and notes the reply; none comes from a replica that is killed."""
    life = replica.life
    with seen.lock:
        was_shown = (replica, life, original) in seen.shown
    try:
        came = get(replica.port, (BASE if is_timemap else "/timegate/") + original)
    except (OSError, http.client.HTTPException):
        if life % 2 and life == replica.life:
            seen.faults.append(f"port {replica.port} gave no reply, and wasn't killed")
        return None
    seen.note(replica, original, life, was_shown, came)
    return came


def read(seen, replicas, number, ended):
    """A reader asks for any original that was wished for, mostly for one of the latest."""
    dice = random.Random(f"{SEED} reader {number}")
    while not ended.is_set():
        with seen.lock:
            original = dice.choice(seen.wished[-12:] if dice.random() < 0.7 else seen.wished)
        ask(seen, dice.choice(replicas), original, dice.random() < 0.3)
        time.sleep(0.02)


def wish(seen, replicas, ended):
    """New originals, each of which is asked for at one replica first."""
    dice = random.Random(f"{SEED} wishes")
    for number in range(1_000_000):
        if ended.wait(EACH):
            return
        original = f"http://wished.example/{number}"
        ask(seen, dice.choice(replicas), original, dice.random() < 0.3)
        with seen.lock:
            seen.wished.append(original)


def kill(replicas, seconds):
    """Kills one replica after the other at random, and starts it again. How often."""
    dice, until, count = random.Random(f"{SEED} kills"), time.monotonic() + seconds, 0
    while time.monotonic() < until:
        time.sleep(dice.random() * 3)
        replica = dice.choice(replicas)
        replica.kill()
        time.sleep(dice.random())
        replica.start()
        count += 1
    return count


def soak(replicas, seen, seconds):
    ended = threading.Event()
    threads = [threading.Thread(target=read, args=(seen, replicas, number, ended), daemon=True) for number in range(READERS)]
    threads.append(threading.Thread(target=wish, args=(seen, replicas, ended), daemon=True))
    for thread in threads:
        thread.start()
    count = kill(replicas, seconds)
    ended.set()
    for thread in threads:
        thread.join(PATIENCE)
    return count


def is_due(archives, original, text):
    """Whether a TimeMap lacks a copy that an archive tells of, or has one that no archive tells of."""
    with contextlib.ExitStack() as stack:
        for archive in archives:
            stack.enter_context(archive.lock)
        wanted = {copy for archive in archives for copy in archive.copies(original)}
    return set(re.findall(r'<(http://(?:one|two)\.test/[^>]*)>', text)) != wanted


def known(replica):
    """What a replica knows of what was wished for: `/state` wishes for nothing."""
    return [entry for entry in replica.service.entries() if entry[1] not in LISTED]


class Ending:
    """What is still to come once nothing fails any more: readers ask on until all replicas give the same bytes."""

    def __init__(self, archives, replicas, seen):
        self.archives, self.replicas, self.seen, self.left = archives, replicas, seen, list(seen.wished)

    def is_over(self):
        self.left = [original for original in self.left if self.is_open(original)]
        return not self.left

    def is_open(self, original):
        came = [ask(self.seen, replica, original, True) for replica in self.replicas]
        has = any(archive.has(original) for archive in self.archives)
        if not all(came) or any(one != came[0] for one in came):
            return True
        return came[0][0] != (200 if has else 404) or (has and is_due(self.archives, original, came[0][2]))


def check_memory(replicas, seen, archives):
    """Each replica holds no more than what docs/OPERATING.md says of entries, beside what any replica holds."""
    for number, replica in enumerate(replicas, 1):
        most, bound = max(replica.most, replica.service.memory("VmHWM")), 16_384 + ENTRY * len(seen.wished) * len(archives)
        holds(f"replica {number} held {most / 1024:.1f} MiB at most, and the bound is {bound / 1024:.1f}", most < bound)


def main():
    seconds = int(sys.argv[1]) if len(sys.argv) > 1 else 25
    with contextlib.ExitStack() as stack:
        folder = pathlib.Path(stack.enter_context(tempfile.TemporaryDirectory()))
        archives = [Archive(stack, "one.test"), Archive(stack, "two.test")]
        ports = free_ports(REPLICAS)
        kept = {"snapshot": str(folder / "known"), "snapshot_every": 1}
        replicas = [Replica(stack, archives, port, [peer for peer in ports if peer != port], keys)
                    for port, keys in zip(ports, ({**kept, "parts": 1}, {"parts": 1}, {}))]
        seen = Seen(archives)
        kills = soak(replicas, seen, seconds)
        counts = dict(seen.counts)
        same(f"of {sum(counts.values())} replies none was wrong ({counts})", seen.faults, [])
        for archive in archives:
            archive.is_steady = True
        alike = comes_true(lambda: all(known(replica) == known(replicas[0]) for replica in replicas))
        holds(f"without a question all three come to know the same {len(known(replicas[0]))} entries", alike)
        began, ending = time.monotonic(), Ending(archives, replicas, seen)
        comes_true(ending.is_over, 5 * PATIENCE)
        same(f"{time.monotonic() - began:.0f} s later all replicas give the same bytes of each of {len(seen.wished)} originals, with all that "
             "archives have", ending.left, [])
        same("and no reply meanwhile was wrong", seen.faults, [])
        has = sum(any(archive.has(original) for archive in archives) for original in seen.wished)
        check_memory(replicas, seen, archives)
    print(f"over {seconds} s and {kills} kills {len(seen.wished):,} originals were asked for: {has:,} that archives have are shown alike by "
          f"all replicas, after {sum(counts.values()):,} replies")


if __name__ == "__main__":
    main()
