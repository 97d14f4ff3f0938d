#!/usr/bin/env python3
"""Wishes in a collection in three shards of two replicas each (deploy/shards), behind the readers' nginx: what nobody knows is
harvested by the shard that its hash names, and by no other.

    ./run --unproved && tests/wish_shards.py
"""
import contextlib
import pathlib
import re
import subprocess
import tempfile

from playing import (BASE, PROGRAM, QUICK, TOP, Played, ask, comes_true, free_ports, get, holds, link, needs, nginx, nginx_of_shards, reply, same,
                     settings_text, start)
import sharding

SHARDS, REPLICAS, GATES = 3, 2, 1
LISTED = [f"http://listed.example/{number}" for number in range(9)]
WISHED = [f"http://wished.example/{number}" for number in range(18)]
PLACEHOLDER = "http://127.0.0.1:1"    # the archive's address in the settings that all have in common


class Shards:
    """All programs, each shard with an archive of its own, and nginx in front."""

    def __init__(self, stack, folder):
        self.owners = sharding.owners(SHARDS)
        self.archives = {shard: Played(stack, self.answer(shard)) for shard in range(1, SHARDS + 1)}
        self.first = free_ports(SHARDS * REPLICAS * (GATES + 1) + SHARDS + 2, in_a_row=True)[0]
        self.entry = self.first + SHARDS * REPLICAS * (GATES + 1)
        self.folder, self.programs = folder / "cut", {}
        self.cut(folder)
        for line in (self.folder / "programs").read_text().splitlines():
            self.serve(stack, line.split()[1])
        nginx_of_shards(stack, self.folder / "shards.conf", self.entry)
        self.front = nginx(stack, [self.entry], *QUICK)

    @staticmethod
    def answer(shard):
        return lambda target: reply(link(f"http://of-{shard}.example/{target.removeprefix(BASE)}"))

    def cut(self, folder):
        (folder / "originals").write_text("".join(f"{original}\n" for original in LISTED))
        (folder / "common.toml").write_text(settings_text(
            gates=["127.0.0.1:1"], archives=[("archive.test", PLACEHOLDER)], rounds=1_000_000, pause=3600, workers=4, wanted=1_000,
            wishes=60_000, pull=1, publish=1, patience=2))
        words = [TOP / "deploy/shards", folder / "originals", SHARDS, self.folder, "--settings", folder / "common.toml", "--port", self.first,
                 "--entry", self.entry, "--gates", GATES, "--replicas", REPLICAS, "--program", PROGRAM]
        subprocess.run([str(word) for word in words], check=True, stdout=subprocess.DEVNULL)

    def serve(self, stack, name):
        """A program, which asks its shard's archive, once it has made its first round."""
        settings, shard = self.folder / name, int(name.split("-")[1])
        text = settings.read_text()
        holds(f"{name} names the archive", PLACEHOLDER + BASE in text)
        settings.write_text(text.replace(PLACEHOLDER + BASE, self.archives[shard].address + BASE))
        program = start(stack, PROGRAM, "serve", settings, stdout=subprocess.PIPE, stderr=subprocess.DEVNULL, text=True)
        self.programs[name] = program
        if not any(line.startswith("round 1 ") for line in program.stdout):
            raise SystemExit("a program made no round")

    def owner(self, original):
        """The shard that the original's hash names."""
        return self.owners[sharding.slot_of(original)]

    def asked(self, original):
        """How often each shard's archive was asked for an original."""
        return {shard: archive.targets().count(BASE + original) for shard, archive in self.archives.items()}

    def gate(self, shard, replica):
        return self.first + ((shard - 1) * REPLICAS + replica - 1) * (GATES + 1)

    def known(self, original):
        """The shards and replicas that have an entry of an original: `/state` wishes for nothing."""
        return {(shard, replica) for shard in self.archives for replica in range(1, REPLICAS + 1)
                if re.search(rf"^entry .* {re.escape(original)}$", get(self.gate(shard, replica), "/state")[2], re.M)}

    def shows(self, original):
        """Where the readers' nginx leads."""
        return get(self.front, "/timegate/" + original)[:2]

    def stop(self, shard):
        for replica in range(1, REPLICAS + 1):
            program = self.programs[f"shard-{shard}-replica-{replica}.toml"]
            program.kill()
            program.wait(10)


def of(shard, original):
    """What the readers' nginx says once the shard's archive was asked for an original."""
    return 302, f"http://of-{shard}.example/{original}"


def come(what, shards, wished):
    """Waits until each is shown by its shard."""
    left = list(wished)

    def have_come():
        left[:] = [original for original in left if shards.shows(original) != of(shards.owner(original), original)]
        return not left

    comes_true(have_come)
    holds(f"{what}{f', but not {left[:3]}' if left else ''}", not left)


def try_owners(shards):
    """Each wish goes to the shard of its original, and what it brings to both replicas of that shard."""
    counts = [sum(shards.owner(original) == shard for original in WISHED) for shard in shards.archives]
    holds(f"of {len(WISHED)} originals that nobody knows each shard owns some: {counts}", all(counts))
    same("nobody was asked for any", [sum(shards.asked(original).values()) for original in WISHED], [0] * len(WISHED))
    for original in WISHED:
        status, fields, _ = ask(shards.front, "/timegate/" + original)
        if (status, fields.get("retry-after")) != (404, "3"):
            same(f"{original} is asked for in vain, and nginx says to ask again", (status, fields.get("retry-after")), (404, "3"))
    come("and all are redirects to what the shard's own archive has soon after", shards, WISHED)
    for original in WISHED:
        owner, asked = shards.owner(original), shards.asked(original)
        others = {shard: count for shard, count in asked.items() if shard != owner}
        # Either replica of the shard may have been asked before the other had told it.
        if not 1 <= asked[owner] <= REPLICAS or any(others.values()):
            holds(f"{original} of shard {owner} is asked for there alone: {asked}", False)
    holds("each was asked for by the shard that its hash names, and by no other", True)
    for original in WISHED:
        wanted = {(shards.owner(original), replica) for replica in range(1, REPLICAS + 1)}
        if not comes_true(lambda original=original, wanted=wanted: shards.known(original) == wanted):
            same(f"{original} is known to the replicas of its shard", shards.known(original), wanted)
    holds("and is known to both replicas of that shard, and to no other", True)
    listed = {original: shards.asked(original) for original in LISTED}
    holds("nor was what rounds look after asked for by another shard's",
          all(not count for original, asked in listed.items() for shard, count in asked.items() if shard != shards.owner(original)))


def try_down(shards):
    """A shard that is down: what it owns waits for it, and the others go on being asked."""
    gone = 2
    shards.stop(gone)
    new = [f"http://later.example/{number}" for number in range(12)]
    its = [original for original in new if shards.owner(original) == gone]
    others = [original for original in new if shards.owner(original) != gone]
    holds(f"of {len(new)} more {len(its)} belong to a shard that is down", its and others)
    come("the others' wishes are granted", shards, others)
    same("its own are answered with 503", {shards.shows(original)[0] for original in its}, {503})
    same("and nobody else is asked for them", [sum(shards.asked(original).values()) for original in its], [0] * len(its))


def try_spelled(shards):
    """A spelling that isn't plain is asked of all shards, since its hash names none: so each of them harvests it."""
    spelled, original = "HTTP://Spelled.Example:80/x/../", "http://spelled.example/"
    same("another spelling of what nobody knows is 404", get(shards.front, "/timegate/" + spelled)[0], 404)
    holds("and a redirect soon after", comes_true(lambda: get(shards.front, "/timegate/" + spelled)[0] == 302))
    same("it was asked for as the original that it names", sum(archive.targets().count(BASE + spelled) for archive in shards.archives.values()), 0)
    holds("by every shard, as no hash of another spelling names one", comes_true(lambda: all(shards.asked(original).values())))
    come("and its shard answers for it by its own name", shards, [original])


def main():
    needs("nginx")
    with contextlib.ExitStack() as stack:
        folder = pathlib.Path(stack.enter_context(tempfile.TemporaryDirectory()))
        folder.chmod(0o755)
        shards = Shards(stack, folder)
        try_owners(shards)
        try_spelled(shards)
        try_down(shards)
    print(f"{len(WISHED)} originals that nobody knew were harvested by the shards that their hashes name, and by no other")


if __name__ == "__main__":
    main()
