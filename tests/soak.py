#!/usr/bin/env python3
"""Two replicas that pull from each other, over archives whose pages change, lose pages, and answer 404, 500, garbage and half
bodies; one of them with two gates behind nginx. All replies are kept and read afterwards.

    ./run --unproved && tests/soak.py        half a minute
    tests/soak.py long                    ten minutes

- Each reply is the one that some state of that replica allows which a round published, and what one gate answers goes through
  these states in their order. What was published before a request began is in its reply.
- Each memento of each state stood on a page that an archive had sent whole.
- The memory of both stays as it was, though each keeps what it knows in a file every second.
- Once the archives are steady, all gates of both answer each TimeMap with the same bytes.

What the archives do follows from a fixed seed, for each original and each time that it is asked for.
"""
import bisect
import collections
import contextlib
import pathlib
import random
import sys
import tempfile
import threading
import time
from email.utils import formatdate

from playing import BASE, PATIENCE, QUICK, Played, Service, comes_true, free_ports, get, holds, link, needs, nginx, reply, same

SEED = 20_000_101
ORIGINALS = [f"http://{name}.example/" for name in ("a", "b", "c", "d", "e")]
FIRST = 946_684_800
DAY = 86_400


def date(second):
    return formatdate(second, usegmt=True)


class Archive:
    """Pages that change each time that they are asked for, and what they told if they were sent whole."""

    def __init__(self, stack, name):
        self.name, self.lock, self.asked, self.is_steady, self.told = name, threading.Lock(), {}, False, set()
        self.played = Played(stack, self.answer)
        self.address = self.played.address

    def mementos(self, original, time_asked):
        """What it has of an original when it is asked for it this often: one more each time, and from time to time one less."""
        dice = random.Random(f"{SEED} {self.name} {original}")
        kept = []
        for count in range(time_asked):
            kept.append((FIRST + dice.randrange(4_000) * DAY, f"http://{self.name}/{count}/{original}"))
            if dice.random() < 0.4:
                kept.pop(dice.randrange(len(kept)))
        return kept[-40:]

    def page(self, mementos, further):
        links = [link(uri, date(second)) for second, uri in mementos] + [f"<{address}>;rel=timemap" for address in further]
        return ",\n".join(links)

    def whole(self, mementos, further=()):
        with self.lock:
            self.told.update(mementos)
        return reply(self.page(mementos, further))

    def answer(self, target):
        if target.startswith(BASE):
            original = target.removeprefix(BASE)
            with self.lock:
                count = self.asked[original] = self.asked.get(original, 0) + (not self.is_steady)
            return self.first_page(original, count)
        _, _, count, part, original = target.split("/", 4)
        return self.further_page(original, int(count), int(part))

    def first_page(self, original, count):
        dice = random.Random(f"{SEED} {self.name} {original} {count}")
        mementos = self.mementos(original, count)
        further = [f"/page/{count}/{part}/{original}" for part in (1, 2)] if dice.random() < 0.5 else []
        kind = "well" if self.is_steady else dice.choices(["well", "absent", "fails", "garbage", "half"], [12, 1, 2, 1, 2])[0]
        return self.said(kind, mementos[::3] if further else mementos, further)

    def further_page(self, original, count, part):
        dice = random.Random(f"{SEED} {self.name} {original} {count} {part}")
        kind = "well" if self.is_steady else dice.choices(["well", "absent", "fails", "garbage", "half"], [8, 1, 1, 1, 1])[0]
        return self.said(kind, self.mementos(original, count)[part::3], ())

    def said(self, kind, mementos, further):
        match kind:
            case "well":
                return self.whole(mementos, further)
            case "absent":
                return reply(status=404)
            case "fails":
                return reply(self.page(mementos, further), status=500)
            case "garbage":
                return reply("\x00<<" + self.page(mementos, further))
            case _:
                text = self.page(mementos, further)
                return reply(text[:len(text) // 2], length=len(text) + 1)


def shown_by(text):
    """The mementos of each original that a delta from the beginning says are shown, and its number of merges."""
    lines = text.splitlines()
    shown, original = {}, None
    for line in lines[3:-1]:
        first, _, rest = line.partition(" ")
        if first == "entry":
            original = rest.split()[-1]
        elif first != "at":
            shown.setdefault(original, set()).add((int(first), rest))
    return {original: sorted(mementos) for original, mementos in shown.items()}, int(lines[1].split()[3])


def timemap(original, mementos):
    """The bytes of a TimeMap of at most 1,000 mementos."""
    begin, end = date(mementos[0][0]), date(mementos[-1][0])
    links = [f'<{original}>; rel="original"', f'<http://agg.example/timegate/{original}>; rel="timegate"',
             f'<http://agg.example{BASE}{original}>; rel="self"; type="application/link-format"; from="{begin}"; until="{end}"']
    for k, (second, uri) in enumerate(mementos):
        words = ["first"] * (k == 0) + ["last"] * (k == len(mementos) - 1) + ["memento"]
        links.append(f'<{uri}>; rel="{" ".join(words)}"; datetime="{date(second)}"')
    return ",\n".join(links) + "\n"


def expected(shown, original, is_timemap, asked):
    """Status, location and body of the reply."""
    mementos = shown.get(original)
    if not mementos:
        return 404, None, "no memento\n"
    if is_timemap:
        return 200, None, timemap(original, mementos)
    wanted = mementos[-1][0] if asked is None else asked
    return 302, min(mementos, key=lambda memento: (abs(memento[0] - wanted), *memento))[1], ""


class Replica:
    """A service, the states that its rounds published, and the memory that it held after each."""

    def __init__(self, stack, archive, ports, peer):
        self.kept = pathlib.Path(stack.enter_context(tempfile.TemporaryDirectory())) / "known"
        self.service = Service(stack, archives=[(archive.name, archive.address)], originals=ORIGINALS, peers=[peer], ports=ports,
                               rounds=1_000_000, pause=1, workers=2, keys={"snapshot": str(self.kept), "snapshot_every": 1, "together": 64})
        self.ports = ports
        self.published, self.shown, self.memory, self.merges = [], [{}], [], 0
        threading.Thread(target=self.watch, daemon=True).start()

    def watch(self):
        """After each round, what a gate says that the replica knows; None if another round was published meanwhile."""
        while line := self.service.line().split():
            came = time.monotonic()
            self.merges += int(line[5]) + int(line[7])
            shown, merges = shown_by(get(self.ports[0], "/delta")[2])
            self.shown.append(shown if merges == self.merges else None)
            self.published.append(came)
            self.memory.append(self.service.memory())

    def is_kept(self):
        """Whether the file has what it knows now."""
        return get(self.ports[0], "/state")[2] in self.kept.read_text()


class Reader(threading.Thread):
    """Asks at one port, one request after the other, and keeps the replies."""

    def __init__(self, replica, port, seed, source, pause, ended):
        super().__init__(daemon=True)
        self.replica, self.port, self.source, self.pause, self.ended = replica, port, source, pause, ended
        self.dice, self.kept, self.refused = random.Random(f"{SEED} {seed}"), [], 0

    def run(self):
        while not self.ended.is_set():
            original = self.dice.choice(ORIGINALS)
            is_timemap = self.dice.random() < 0.3
            asked = None if is_timemap or self.dice.random() < 0.3 else FIRST + self.dice.randrange(4_200 * DAY)
            target = (BASE if is_timemap else "/timegate/") + original
            fields = {} if asked is None else {"Accept_Datetime": date(asked)}
            began = time.monotonic()
            came = get(self.port, target, self.source, **fields)
            if came[0] == 503:    # by nginx: more than it lets one address ask
                self.refused += 1
            else:
                self.kept.append((began, original, is_timemap, asked, came))
            time.sleep(self.pause)

    def check(self, kept=None, is_told=True):
        """The number of published states that the replies (those that it kept) go through in order; None if one doesn't
        fit."""
        state, seen = 0, set()
        for began, original, is_timemap, asked, came in self.kept if kept is None else kept:
            state = max(state, bisect.bisect_left(self.replica.published, began))
            while state < len(self.replica.shown):
                shown = self.replica.shown[state]
                if shown is None or expected(shown, original, is_timemap, asked) == came:
                    break
                state += 1
            else:
                if is_told:
                    print(f"{original} asked {asked}: {came} is what no state allows")
                return None
            seen.add(state)
        return len(seen)


def check_memory(name, memory):
    """The most in the second quarter of the rounds, and in the last one."""
    quarter = max(1, len(memory) // 4)
    before, after = max(memory[quarter:2 * quarter] or memory), max(memory[-quarter:])
    holds(f"{name} holds {before / 1024:.1f} MiB in the second quarter of {len(memory)} rounds, and {after / 1024:.1f} in the "
          "last", after < before * 1.15 + 8_192)


def check_checking(reader):
    """That a gate which went back, and one that led to another memento, would be noticed."""
    back = [(reader.kept[0][0], *kept[1:]) for kept in reversed(reader.kept)]
    holds("a gate that went back would be noticed", reader.check(back, is_told=False) is None)
    began, original, is_timemap, asked, came = next(kept for kept in reversed(reader.kept) if kept[4][0] == 302)
    other = (302, came[1] + "0", came[2])
    holds("and so would another memento", reader.check([(began, original, is_timemap, asked, other)], is_told=False) is None)


def rounds_from_now(replicas, count):
    wanted = [len(replica.published) + count for replica in replicas]
    holds("rounds go on", comes_true(lambda: all(len(replica.published) >= least for replica, least in zip(replicas, wanted)), 2 * PATIENCE))


def soak(stack, seconds):
    one, two, three, for_peers = free_ports(4)
    front = nginx(stack, [one, two], *QUICK, ("127.0.0.1:8082", f"127.0.0.1:{for_peers}"))
    archives = [Archive(stack, "one.test"), Archive(stack, "two.test")]
    replicas = [Replica(stack, archives[0], (one, two, for_peers), f"http://127.0.0.1:{three}"),
                Replica(stack, archives[1], (three,), f"http://127.0.0.1:{front}")]
    ended = threading.Event()
    readers = [Reader(replicas[0], one, "first gate", "127.0.0.1", 0.02, ended),
               Reader(replicas[0], two, "second gate", "127.0.0.1", 0.02, ended),
               Reader(replicas[1], three, "the other's gate", "127.0.0.1", 0.02, ended)]
    through = [Reader(replicas[0], front, f"nginx {k}", f"127.0.0.{k + 2}", 0.03, ended) for k in range(2)]
    for reader in readers + through:
        reader.start()
    time.sleep(seconds)
    for archive in archives:
        archive.is_steady = True
    rounds_from_now(replicas, 4)
    ended.set()
    for reader in readers + through:
        reader.join(PATIENCE)
    return archives, replicas, readers, through, front


def main():
    needs("nginx")
    seconds = 600 if sys.argv[1:] == ["long"] else 25
    with contextlib.ExitStack() as stack:
        archives, replicas, readers, through, front = soak(stack, seconds)
        texts = [[get(port, BASE + original) for original in ORIGINALS] for replica in replicas for port in replica.ports]
        alike = [text == texts[0] for text in texts]
        same("once the archives are steady all gates answer with the same bytes", alike, [True] * 4)
        holds("what each knows is kept", all(comes_true(replica.is_kept) for replica in replicas))
        told = set().union(*(archive.told for archive in archives))
        for name, replica in zip(("the first", "the second"), replicas):
            known = [shown for shown in replica.shown if shown is not None]
            holds(f"{len(known)} of {len(replica.shown)} states of {name} were seen", len(known) * 3 > len(replica.shown) * 2)
            shown = {memento for state in known for mementos in state.values() for memento in mementos}
            holds(f"their {len(shown)} mementos stood on pages that were sent whole", shown <= told)
            check_memory(name, replica.memory)
        for name, reader in zip(("the first gate", "the second gate", "the other replica's gate"), readers):
            states = reader.check()
            holds(f"{name}: {len(reader.kept)} replies through {states} states, in their order", states is not None)
        check_checking(readers[0])
        for reader in through:
            states = reader.check()
            holds(f"through nginx: {len(reader.kept)} replies through {states} states, in their order; {reader.refused} refused",
                  states is not None)
        rounds = [len(replica.published) for replica in replicas]
        said = collections.Counter(kept[4][0] for reader in readers + through for kept in reader.kept)
        memory = [max(replica.memory) / 1024 for replica in replicas]
    print(f"{said.total():,} replies in {seconds} s over {rounds[0]} and {rounds[1]} rounds were as some published state allows "
          f"({said[302]:,} redirects, {said[200]:,} TimeMaps, {said[404]:,} of 404); "
          f"two replicas held at most {memory[0]:.0f} and {memory[1]:.0f} MiB and ended alike")


if __name__ == "__main__":
    main()
