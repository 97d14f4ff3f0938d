#!/usr/bin/env python3
"""A replica that is killed in each phase of a round, as by a machine that fails, and started again: what its peers pull from it
next is taken, and after two quiet rounds all replicas answer with the same bytes.

    ./run --unproved && tests/kills.py       each phase once, without a snapshot and with one
    tests/kills.py long                   each phase ten times

Of three replicas the first is killed. It pulls from the second, the second from both others, and the third from the second: so
it knows the first by hearsay.
"""
import contextlib
import pathlib
import sys
import tempfile
import threading
import time

from playing import BASE, PATIENCE, Played, Relay, Service, free_ports, holds, link, reply, same

ORIGINALS = ["http://a.example/", "http://b.example/"]
ROUND = 0.1    # seconds that each archive takes over a first page


class Stage:
    """A place where what is played stops until the replica is killed."""

    def __init__(self):
        self.wanted, self.reached, self.go_on = None, threading.Event(), threading.Event()

    def ask_for(self, name):
        self.reached.clear(), self.go_on.clear()
        self.wanted = name

    def meet(self, name):
        if self.wanted == name:
            self.wanted = None
            self.reached.set()
            self.go_on.wait(PATIENCE)


class Archive:
    """Two pages of each original, with one memento more each time that `count` rises."""

    def __init__(self, stack, name, stage):
        self.name, self.stage, self.count = name, stage, 1
        self.played = Played(stack, self.answer)
        self.address = self.played.address

    def page(self, original, kept, *further):
        links = [link(f"http://{self.name}/{k}/{original}") for k in range(self.count) if k % 2 == kept]
        return ",".join([*links, *(f"<{address}>;rel=timemap" for address in further)])

    def answer(self, target):
        if target.startswith(BASE):
            original = target.removeprefix(BASE)
            time.sleep(ROUND)
            self.stage.meet("before a first page comes")
            return reply(self.page(original, 0, "/more/" + original))
        self.stage.meet("between two pages of a walk")
        return self.in_two(reply(self.page(target.removeprefix("/more/"), 1)))

    def in_two(self, whole):
        half = len(whole) // 2
        yield whole[:half]
        self.stage.meet("within a page")
        yield whole[half:]


class StagedRelay(Relay):
    """A relay that may stop before it asks, within the answer, and behind it."""

    def __init__(self, stack, gate, stage, *places):
        self.stage, self.places = stage, places
        super().__init__(stack, gate)

    def pass_on(self, target):
        before, within, behind = self.places
        self.stage.meet(before)
        whole = self.fetch(target)
        half = len(whole) // 2
        yield whole[:half]
        self.stage.meet(within)
        yield whole[half:]
        self.stage.meet(behind)


class Replica:
    """A service whose lines are read as they come."""

    def __init__(self, service):
        self.service, self.rounds = service, []
        self.watch()

    def watch(self):
        threading.Thread(target=self.read, args=(self.service.process.stdout,), daemon=True).start()

    def read(self, lines):
        for line in lines:
            self.rounds.append(line.split())

    def wait(self, count, wanted=lambda line: True):
        """The place behind the first line from this place on which is as wanted."""
        ended = time.monotonic() + PATIENCE
        while time.monotonic() < ended:
            for place in range(count, len(self.rounds)):
                if wanted(self.rounds[place]):
                    return place + 1
            time.sleep(0.005)
        holds(f"a round comes, behind {self.rounds[-1]}", False)

    def restart(self):
        self.service.start()
        self.watch()


def pulled(count):
    return lambda line: line[6:] == ["pulls", str(count), "published"]


def quiet_round(replicas):
    """Lets each replica begin and end a round."""
    places = [len(replica.rounds) for replica in replicas]
    for replica, place in zip(replicas, places):
        for _ in range(2):
            place = replica.wait(place)


class Play:
    def __init__(self, stack, keys):
        self.stage = Stage()
        first, second, third = free_ports(3)
        quiet = Stage()
        self.archive = Archive(stack, "one.test", self.stage)
        others = [Archive(stack, name, quiet) for name in ("two.test", "three.test")]
        self.to_second = StagedRelay(stack, second, self.stage, "before a peer's delta comes", "within a peer's delta",
                               "as it publishes")
        self.to_first = StagedRelay(stack, first, self.stage, "before it is pulled from", "while it is pulled from", None)

        def serve(archive, port, peers, keys=None):
            return Service(stack, archives=[(archive.name, archive.address)], originals=ORIGINALS, peers=peers, ports=[port],
                           rounds=1_000_000, keys=keys)

        to_third = f"http://127.0.0.1:{third}"
        self.first = Replica(serve(self.archive, first, [self.to_second.address], keys))
        self.second = Replica(serve(others[0], second, [self.to_first.address, to_third]))
        self.third = Replica(serve(others[1], third, [f"http://127.0.0.1:{second}"]))
        self.replicas = [self.first, self.second, self.third]

    def texts(self):
        return [[replica.service.get(BASE + original) for original in ORIGINALS] for replica in self.replicas]

    def kill(self, phase, wait, delay=0.0):
        """Kills the first replica once `wait` is over, starts it again, and looks at what comes of it."""
        self.archive.count += 1
        wait()
        time.sleep(delay)
        self.first.service.kill()
        place, asked = len(self.second.rounds), len(self.to_first.seen)
        self.stage.go_on.set()
        down = self.second.wait(place, pulled(1))
        before = len(self.to_second.seen)
        begun = len(self.first.rounds)
        self.first.restart()
        self.second.wait(down, pulled(2))
        answers = [(target, lines[1].split()[1:]) for target, lines in self.to_first.seen[asked:] if len(lines) > 1]
        # One that it gave before it was killed may have been on its way then.
        target, told = next((it for it in answers if [it[1][0]] != it[0].split("/")[2:3]), answers[-1])
        taken = self.first.wait(begun, pulled(1))
        mine = self.to_second.seen[before][0]
        holds(f"killed {phase}: the next delta from it is one from the beginning ({target} gave {' '.join(told)}), and is taken",
              target.startswith("/delta/") and told[1] == "0" and told[0] != target.split("/")[2])
        same("it asks its peer for all, and takes it", (mine, self.first.rounds[taken - 1][6:8]), ("/delta", ["pulls", "1"]))
        quiet_round(self.replicas), quiet_round(self.replicas)
        texts = self.texts()
        same("after two quiet rounds all three give the same bytes", [text == texts[0] for text in texts], [True] * 3)
        same("with what is new", [text.count("http://one.test/") for _, _, text in texts[0]],
             [self.archive.count] * len(ORIGINALS))

    def at(self, phase):
        def wait():
            self.stage.ask_for(phase)
            holds(f"comes to the place: {phase}", self.stage.reached.wait(PATIENCE))
        return wait

    def kill_in(self, phases):
        """Kills the first replica in each of these phases, and around its peer's delta and its line. Says how often."""
        for phase in phases:
            self.kill(phase, self.at(phase))
        for delay in (0, 0.001, 0.004):
            self.kill(f"{delay * 1000:.0f} ms after its last peer's delta", self.at("as it publishes"), delay)
        self.kill("as it tells of a round", self.at_line)
        self.kill("a little after a round", self.at_line, 0.02)
        return len(phases) + 5

    def at_line(self):
        self.first.wait(len(self.first.rounds))


def main():
    phases = ["before a first page comes", "between two pages of a walk", "within a page", "before a peer's delta comes",
              "within a peer's delta", "before it is pulled from", "while it is pulled from"]
    times = 10 if sys.argv[1:] == ["long"] else 1
    count = 0
    for is_kept in (False, True):
        with contextlib.ExitStack() as stack:
            folder = pathlib.Path(stack.enter_context(tempfile.TemporaryDirectory()))
            play = Play(stack, {"snapshot": str(folder / "known"), "snapshot_every": 1} if is_kept else None)
            quiet_round(play.replicas), quiet_round(play.replicas), quiet_round(play.replicas)
            texts = play.texts()
            same(f"three replicas answer alike{', of which one has a snapshot' if is_kept else ''}", [text == texts[0] for text in texts], [True] * 3)
            for _ in range(times):
                count += play.kill_in(phases)
            same("a snapshot is kept where one is asked for", (folder / "known").exists(), is_kept)
    print(f"killed {count} times, in each phase of a round, a replica's peers took its next delta and all ended alike")


if __name__ == "__main__":
    main()
