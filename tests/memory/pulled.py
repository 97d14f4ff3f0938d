#!/usr/bin/env python3
"""Refuses requests for memory of a running service that forgets, while it takes what a peer gives: of one delta the first request, of
the next the second, and so on, until all that the service asks for is granted before it pulls again. A second service asks for deltas in parts.

    tests/memory/pulled.py REFUSE.SO

Each delta has newer mementos of what is kept, beside what is withdrawn or too old: first of a listed original and of one that
isn't, both harvested lately; and then of a listed original that was harvested long ago. A delta of which something is refused
leaves the gates as they were, and the service asks for it once more. Or the service asks from the delta's end on: then the gates
show all of it without another delta. They do so in the end after each delta, and never show what is withdrawn or too old.

The program is crates/aggregator/out/aggregator, or what $PROGRAM names. The last line tells how many requests were refused.
"""
import collections
import contextlib
import mmap
import os
import pathlib
import re
import struct
import sys
import tempfile
import threading
import time

from playing import ENVIRONMENT, PATIENCE, Played, Service, comes_true, delta, entry, free_ports, get, reply, wait_for

ARCHIVE, OTHER = "arc.example", "other.example"
WITHDRAWN, OLD, YOUNG, LISTED, AGED = (f"http://{name}.example/" for name in ("withdrawn", "old", "young", "listed", "aged"))
SHOWN, NEVER_SHOWN = (YOUNG, LISTED, AGED), (WITHDRAWN, OLD)
LATELY = (ARCHIVE, WITHDRAWN), (ARCHIVE, OLD), (ARCHIVE, YOUNG), (ARCHIVE, LISTED)
LONG_AGO = (ARCHIVE, OLD), (OTHER, AGED)
# The archive that rounds ask had nothing of it lately, so that they pass it over.
PASSED_OVER = (ARCHIVE, AGED)
INCARNATION = 7
MANY = 1_000_000_000
HEADS = {"delta": "", "part": "memento-part 1\nbehind -\nuntil -\n"}
QUIET = 3    # so many deltas without a refusal end a row of them


def memento(original, merge):
    return f"http://m.example/{merge}/{original}"


class Countdown:
    """After how many requests for memory one is refused: refuse.c maps the same file."""

    def __init__(self, path):
        path.write_bytes(bytes(8))
        with path.open("r+b") as file:
            self.place = mmap.mmap(file.fileno(), 8)

    def set(self, number):
        struct.pack_into("=q", self.place, 0, number)

    def stop(self):
        """Refuses nothing from now on. Whether a request was refused."""
        left, = struct.unpack_from("=q", self.place)
        self.set(0)
        return left == 0


class Peer:
    """A peer with merges, each of newer mementos. It answers the pull behind one that brought news when it is told to."""

    def __init__(self, stack, countdown):
        self.begun, self.countdown = int(time.time()) - 10_000, countdown
        self.merges = [{*LATELY, *LONG_AGO, PASSED_OVER}]    # of each the archives and originals
        self.refused, self.is_given = 0, False
        self.asked, self.is_met, self.kinds = None, False, set()
        self.is_asked, self.may_answer = threading.Event(), threading.Event()
        self.address = Played(stack, self.answer).address

    def last(self, original):
        """The last merge that has something of an original."""
        return max(merge for merge, keys in enumerate(self.merges, 1) if any(original == named for _, named in keys))

    def row(self, key, merge):
        """The lines of an entry that a merge has."""
        archive, original = key
        second = merge if archive == OTHER else self.begun if original == OLD else self.begun + merge
        if key == PASSED_OVER:
            return f"entry {archive} {second} 1 {original}\nat {second} 0\n"
        return entry(original, memento(original, merge), archive, second)

    def text(self, start, end):
        """What it gives of the merges behind the first ones: of each archive and original the newest."""
        newest = {key: merge for merge in range(start + 1, end + 1) for key in self.merges[merge - 1]}
        return delta(INCARNATION, start, end, "".join(self.row(key, merge) for key, merge in sorted(newest.items())))

    def give(self, keys, refused):
        """Has one merge more. Once that is given the request of this number is refused. Whether the service asks again."""
        self.is_asked.clear()
        self.may_answer.clear()
        self.refused = refused
        self.merges.append(keys)
        return self.is_asked.wait(PATIENCE)

    def answer(self, target):
        kind, start = re.fullmatch(rf"/(delta|part)(?:/{INCARNATION}/(\d+))?", target).groups()
        start, end = int(start or 0), len(self.merges)
        self.kinds.add(kind)
        if self.is_given:
            self.note_again(start)
        elif self.refused and start < end:
            self.is_given = True
            self.countdown.set(self.refused)
        return reply(f"{HEADS[kind]}{self.text(start, end)}")

    def note_again(self, start):
        """The service asks again, from this merge on."""
        self.is_met, self.asked = self.countdown.stop(), start
        self.is_given, self.refused = False, 0
        self.is_asked.set()
        self.may_answer.wait(PATIENCE)


class Trial:
    """A service that forgets, and its peer."""

    def __init__(self, stack, folder, library, more):
        (folder / "withdrawn").write_text(f"original {WITHDRAWN}\n")
        countdown = Countdown(folder / "next")
        self.log = folder / "log"
        self.peer = Peer(stack, countdown)
        self.ports = free_ports(2)
        Service(stack, archives=[(ARCHIVE, "http://127.0.0.1:1")], originals=[LISTED, AGED], peers=[self.peer.address], ports=self.ports,
                rounds=MANY, stdout=stack.enter_context((folder / "out").open("w")), stderr=stack.enter_context(self.log.open("w")),
                env={**ENVIRONMENT, "LD_PRELOAD": library, "REFUSE_NEXT": str(folder / "next")},
                keys={"log": True, "wanted": 1, "forget": 1, "again": 86_400, "withdrawn_file": str(folder / "withdrawn"), **more})
        for port in self.ports:
            wait_for(port)

    def logs(self, words):
        return words in self.log.read_text(encoding="utf-8")

    def shows(self, original):
        """Where the gates lead, or their statuses."""
        came = [get(port, "/timegate/" + original) for port in self.ports]
        return {where if status == 302 else status for status, where, _ in came}

    def shows_all(self):
        return all(self.shows(original) == {memento(original, self.peer.last(original))} for original in SHOWN)

    def begin(self):
        """Takes all that the peer has, and forgets what is too old. What went wrong, if anything."""
        is_begun = comes_true(lambda: self.shows_all() and self.logs("forgotten: "))
        return None if is_begun else "what the peer gave isn't shown, or nothing is forgotten"

    def fault(self, keys, refused):
        """What goes wrong as this request is refused, if anything."""
        before = {original: {memento(original, self.peer.last(original))} for original in SHOWN}
        if not self.peer.give(keys, refused):
            return "the service pulls no more"
        came = {original: self.shows(original) for original in SHOWN}
        self.peer.may_answer.set()
        is_asked_anew = self.peer.asked == len(self.peer.merges) - 1
        for original, shown in came.items():
            if not shown <= before[original] | (set() if is_asked_anew else {memento(original, self.peer.last(original))}):
                return f"the service asks from merge {self.peer.asked} on, and {original} is {shown}"
        if not comes_true(self.shows_all):
            return f"the service asked from merge {self.peer.asked} on, and lacks merge {len(self.peer.merges)}"
        return None

    def what_came(self):
        """From where the service asked once it was given a delta."""
        last = len(self.peer.merges)
        return {last: "taken", last - 1: "given once more"}.get(self.peer.asked, "given with all before")


def refuse_in_turn(trial, keys):
    """How often each end came."""
    ends, number, quiet = collections.Counter(), 0, 0
    while quiet < QUIET:
        number += 1
        if fault := trial.fault(keys, number):
            sys.exit(f"pulls: request {number} refused: {fault}")
        quiet = 0 if trial.peer.is_met else quiet + 1
        ends.update([trial.what_came()] if trial.peer.is_met else [])
    if not ends["taken"] or not ends["given once more"]:
        sys.exit(f"pulls: not each end came: {ends}")
    return ends


def refused_of(library, kind, more):
    """How often each end came for a service with these keys more, which asks for this kind of text."""
    with contextlib.ExitStack() as stack:
        folder = pathlib.Path(stack.enter_context(tempfile.TemporaryDirectory()))
        trial = Trial(stack, folder, library, more)
        if fault := trial.begin():
            sys.exit(f"pulls: nothing is refused: {fault}")
        ends = refuse_in_turn(trial, LATELY) + refuse_in_turn(trial, LONG_AGO)
        if any(trial.shows(original) != {404} for original in NEVER_SHOWN):
            sys.exit("pulls: what is withdrawn or too old is shown")
        if not trial.logs(f"peer {trial.peer.address}: no memory"):
            sys.exit("pulls: the log tells of no refusal")
        if trial.peer.kinds != {kind}:
            sys.exit(f"pulls: the service asks for {trial.peer.kinds}")
    return ends


def main():
    library = os.path.abspath(sys.argv[1])
    ends = refused_of(library, "delta", {}) + refused_of(library, "part", {"parts": 1})
    print("deltas of which a request was refused:")
    for end, count in sorted(ends.items()):
        print(f"{count:7} {end}")
    print(f"pulls: {sum(ends.values())} requests for memory refused in turn")


if __name__ == "__main__":
    main()
