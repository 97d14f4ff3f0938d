#!/usr/bin/env python3
"""A collection in three shards of two replicas each, behind nginx (deploy/shards): who answers for which original, in which
spellings, and what readers see of a replica or a shard that is down.

    ./run --unproved && tests/shards.py
"""
import argparse
import collections
import contextlib
import itertools
import pathlib
import random
import re
import socket
import subprocess
import tempfile
import threading
import time
import tomllib

import playing
from playing import (BASE, PROGRAM, TOP, Played, free_ports, holds, link, needs, nginx_of_shards, reload_nginx, reply, settings_text, start,
                     start_archive)
import sharding

SHARDS, REPLICAS, GATES = 3, 2, 2

# What the file of originals has, and other spellings of what it then names.
PLAIN = [f"http://{host}.example/{path}" for host in ("a", "b-c", "d.e") for path in ("", "x/y.html", "p?q=1&r=/s", "~u/%20", "k/9")]
SPELLED = {
    "http://a.example/": ["HTTP://A.Example", "http://a.example:80/", "http:a.example/", "http://a.example/#top", "http://a.example/b/.."],
    "http://b-c.example/x/y.html": ["http://B-C.EXAMPLE/x/./y.html", "http://b-c.example/z/%2e%2E/x/y.html", "http:/b-c.example\\x\\y.html"],
    "http://d.e.example/p?q=1&r=/s": ["http://D.e.example/p?q=1&r=/s#f", "http://d.e.example:0080/p?q=1&r=/s"],
    "http://odd.example/": ["HTTP://Odd.Example", "http://odd.example"],
    "http://odd.example:8080/x": ["http://odd.example:8080/x", "http://ODD.example:8080/y/../x"],
    "http://odd.example/%C3%BC": ["http://odd.example/%C3%BC", "http://odd.example/./%C3%BC"],
    "http://xn--mnchen-3ya.example/": ["http://xn--mnchen-3ya.example/", "http://XN--mnchen-3ya.example"],
    "http://192.0.2.1/": ["http://192.0.2.1/", "http://192.0.513/", "http://0xc0.0.2.1"],
    "http://odd.example/it's": ["http://odd.example/it's", "http://odd.EXAMPLE/it's"],
}
ODD_LINES = ["HTTP://Odd.Example", "http://odd.example:8080/x", "http://odd.example/ü", "http://München.example", "http://192.0.513/",
             "http://odd.example/it's"]


def read_lines(path):
    return path.read_text().splitlines()


def get(port, target):
    """The status, where the answer leads, and its body; asked again if nginx says that too much was asked at once."""
    while (answer := playing.get(port, target, Host="aggregator.test"))[0] == 429:
        time.sleep(0.1)
    return answer


def write_originals(folder, lines):
    (folder / "originals").write_text("# a collection\n\n" + "".join(f"{line}\n" for line in lines))
    return folder / "originals"


def common_settings(folder, archive):
    (folder / "common.toml").write_text(settings_text(gates=["127.0.0.1:1"], archives=[("archive.test", f"http://127.0.0.1:{archive}")],
                                                      rounds=1_000_000, pause=3600, workers=4))
    return folder / "common.toml"


def run_shards(*words):
    return subprocess.run([str(word) for word in (TOP / "deploy/shards", *words, "--program", PROGRAM)], capture_output=True, text=True)


class Shards:
    """All programs of all shards, and nginx in front."""

    def __init__(self, stack, folder, archive, lines):
        self.first = free_ports(SHARDS * REPLICAS * (GATES + 1) + SHARDS + 2, in_a_row=True)[0]
        self.entry = self.first + SHARDS * REPLICAS * (GATES + 1)
        ran = run_shards(write_originals(folder, lines), SHARDS, folder / "cut", "--settings", common_settings(folder, archive),
                         "--port", self.first, "--entry", self.entry, "--from", SHARDS - 1)
        holds(f"deploy/shards cuts the collection: {ran.stdout.strip()!r}{ran.stderr}", ran.returncode == 0)
        self.stack, self.folder, self.programs = stack, folder / "cut", {}
        for line in (self.folder / "programs").read_text().split("\n")[:-1]:
            self.serve(line.split()[1])
        for program in self.programs.values():
            self.wait_for_round(program)
        self.originals = {shard: tomllib.loads((self.folder / f"shard-{shard}-replica-1.toml").read_text())["originals"]
                          for shard in range(1, SHARDS + 1)}
        nginx_of_shards(stack, self.folder / "shards.conf", self.entry)

    def serve(self, name):
        self.programs[name] = start(self.stack, PROGRAM, "serve", self.folder / name, stdout=subprocess.PIPE, text=True)
        return self.programs[name]

    @staticmethod
    def wait_for_round(program):
        if not any(line.startswith("round 1 ") for line in program.stdout):
            raise SystemExit("a program made no round")

    def stop(self, shard, replica):
        program = self.programs[f"shard-{shard}-replica-{replica}.toml"]
        program.kill()
        program.wait(10)

    def gate(self, shard, replica=1):
        """The first gate of a replica."""
        return self.first + ((shard - 1) * REPLICAS + replica - 1) * (GATES + 1)

    def status(self, original):
        return get(self.entry, "/timegate/" + original)[0]


def try_owners():
    """What moves when a shard is added: the part of the new one, and nothing between the others."""
    for count in range(1, 20):
        before, after = sharding.owners(count), sharding.owners(count + 1)
        moved = {slot for slot in range(sharding.SLOTS) if before[slot] != after[slot]}
        sizes = collections.Counter(after).values()
        if {after[slot] for slot in moved} != {count + 1} or len(moved) != sharding.SLOTS // (count + 1) or max(sizes) - min(sizes) > 1:
            holds(f"from {count} shards to {count + 1}", False)
    holds("a shard that is added takes its part, from the others in equal parts, up to 20 shards", True)


def try_places():
    """If the hosts of all programs that run are named, a shard that is added moves none of them."""
    def places(count, hosts):
        return sharding.place_replicas(argparse.Namespace(shards=count, replicas=REPLICAS, gates=GATES, port=8300, hosts=hosts))

    before = places(3, ["10.0.3.1", "10.0.3.2"])
    after = places(4, [host for host, _ in before.values()] + ["10.0.3.3", "10.0.3.4"])
    holds("a shard that is added moves no program", all(after[place] == before[place] for place in before))
    holds("and goes to the new hosts", [after[4, replica][0] for replica in (1, 2)] == ["10.0.3.3", "10.0.3.4"])


def try_plain(folder):
    """A spelling that counts as plain is written as it stands."""
    chance = random.Random(36)
    letters = "abcxyz019" * 3 + "-._~!$&()*+,;=:@%/" + "%2e%41"
    texts = set()
    while len(texts) < 150:
        host = ".".join("".join(chance.choices("abz09-", k=chance.randrange(1, 5))) for _ in range(3)) + ".example"
        path = "".join(chance.choices(letters + "/.?", k=chance.randrange(30)))
        text = f"{chance.choice(['http', 'https'])}://{host}/{path}"
        if re.fullmatch(sharding.PLAIN, text):
            texts.add(text)
    holds(f"{len(texts)} spellings that count as plain are written as they stand", sharding.written_by(PROGRAM, list(enumerate(texts))) == texts)
    odd = [text for texts in SPELLED.values() for text in texts
           if text not in SPELLED and re.fullmatch(sharding.PLAIN, text)]
    holds("and no other spelling of one counts as plain", not odd)


def try_refusals(folder):
    settings = common_settings(folder, 1)
    ran = run_shards(write_originals(folder, ["http://a.example/", "ftp://a.example/"]), 2, folder / "none", "--settings", settings)
    holds(f"a line that is no original is named: {ran.stderr.strip()}", ran.returncode == 2 and "line 4 " in ran.stderr)
    # Planted: each of the two refusals left out.
    listed = write_originals(folder, ["http://a.example/"])
    for hosts, replicas, status in (("::1", 2, 2), ("10.0.3.1,fd00::7", 2, 2), ("::1", 1, 0), ("10.0.3.1", 2, 0)):
        ran = run_shards(listed, 2, folder / ("none" if status else "some"), "--settings", settings, "--hosts", hosts, "--replicas", replicas)
        holds(f"{replicas} replicas on {hosts}: {ran.stderr.strip() or 'taken'}", ran.returncode == status and ("IPv4 alone" in ran.stderr) == (status == 2))
    for alike, status in (("true", 2), ("false", 0)):
        (folder / "alike.toml").write_text(f"alike = {alike}\n" + settings.read_text())
        ran = run_shards(listed, 2, folder / ("none" if status else "some"), "--settings", folder / "alike.toml")
        holds(f"with alike = {alike}: {ran.stderr.strip() or 'taken'}", ran.returncode == status and ("no use in shards" in ran.stderr) == (status == 2))
    many = [f"http://a.example/{number:040}" for number in range(30_000)]
    ran = run_shards(write_originals(folder, many), 1, folder / "none", "--settings", settings)
    holds(f"more than settings hold is refused: {ran.stderr.strip()}", ran.returncode == 2 and "take more shards" in ran.stderr)
    holds("and then nothing is written", not (folder / "none").exists())


def try_log(folder):
    """Each program tells of failures, unless the settings in common say otherwise."""
    common = common_settings(folder, 1)
    for key in ("log", "ready"):
        for line, wanted in (("", True), (f"{key} = true\n", True), (f"{key} = false\n", False)):
            (folder / "log.toml").write_text(line + common.read_text())
            out = folder / f"{key}-{wanted}"
            ran = run_shards(write_originals(folder, ["http://a.example/"]), 2, out, "--settings", folder / "log.toml")
            written = [tomllib.loads(file.read_text()).get(key) for file in sorted(out.glob("shard-*.toml"))]
            holds(f"by {line.strip() or 'settings without the key'} all four programs have {key} = {str(wanted).lower()}",
                  ran.returncode == 0 and written == [wanted] * 4)


def try_snapshots(folder):
    """Each program keeps what it knows in a file of its own."""
    for kept, wanted in (("known", "{}.known"), ("/var/lib/a/known", "/var/lib/a/{}.known")):
        (folder / "kept.toml").write_text(f'snapshot = "{kept}"\n' + common_settings(folder, 1).read_text())
        ran = run_shards(write_originals(folder, ["http://a.example/"]), 2, folder / "kept", "--settings", folder / "kept.toml")
        written = {file.stem: tomllib.loads(file.read_text()).get("snapshot") for file in (folder / "kept").glob("shard-*.toml")}
        holds(f"beside {kept} each of {len(written)} programs keeps a file of its own",
              ran.returncode == 0 and len(written) == 4 and all(path == wanted.format(name) for name, path in written.items()))


def try_files(folder):
    """Each shard's originals stand in a file of their own, which its programs name; and each host has its compose file."""
    (folder / "filed.toml").write_text('originals_file = "/srv/lists/web"\n' + common_settings(folder, 1).read_text())
    many = {f"http://a.example/{number:040}" for number in range(30_000)}
    words = (write_originals(folder, sorted(many)), 2, folder / "filed", "--settings", folder / "filed.toml", "--hosts", "10.0.3.1,10.0.3.2")
    ran = run_shards(*words, "--image", "localhost/a:1")
    listed = {shard: (folder / f"filed/originals/shard-{shard}.web").read_text().splitlines() for shard in (1, 2)}
    holds(f"each of {len(many)} originals stands in the file of one shard: {ran.stderr.strip()}",
          sorted(listed[1] + listed[2]) == sorted(many) and min(map(len, listed.values())) > 10_000)
    named = {file.stem: tomllib.loads(file.read_text()) for file in (folder / "filed").glob("*.toml")}
    holds("and settings name it alone", len(named) == 4 and all(
        (keys["originals"], keys["originals_file"]) == ([], f"/srv/lists/shard-{name[6]}.web") for name, keys in named.items()))
    for number, host in enumerate(("10.0.3.1", "10.0.3.2"), 1):
        text = (folder / f"filed/{host}.compose.yaml").read_text()
        wanted = [f"shard-{shard}-replica-{number}" for shard in (1, 2)]
        holds(f"the containers of {host} are {wanted}", re.findall(r"(?m)^  (\S+):$", text.partition("\nvolumes:")[0]) == wanted)
        mounted = [folder / "filed" / name for name in re.findall(r"- \./([^:]+):", text)]
        holds("each with its settings and the folder of originals", len(mounted) == 4 and all(file.exists() for file in mounted)
              and text.count("./originals:/srv/lists:ro") == 2)
    ran = run_shards(*words[:2], folder / "unnamed", *words[3:])
    holds("without an image there is no compose file", ran.returncode == 0 and not list((folder / "unnamed").glob("*.yaml")))
    try:
        sharding.MOST_LISTED, most = 10_000, sharding.MOST_LISTED
        list(sharding.files_of({"originals_file": "web"}, listed))
        holds("a file that is too long is refused", False)
    except sharding.Refused as fault:
        holds(f"a file that is too long is refused: {fault}", "take more shards" in str(fault))
    finally:
        sharding.MOST_LISTED = most


class Growing:
    """Shards of one replica each, whose originals stand in files, behind nginx."""

    def __init__(self, stack, folder):
        self.stack, self.folder, self.lists, self.programs = stack, folder, folder / "lists", {}
        self.originals = [f"http://grown.example/{number}" for number in range(60)]
        self.first = free_ports(3 * 2 + 5, in_a_row=True)[0]
        self.entry = self.first + 3 * 2
        self.lists.mkdir()
        archive = Played(stack, lambda target: reply(link(f"http://kept.example/1/{target.removeprefix(BASE)}")))
        (folder / "grown.toml").write_text(settings_text(gates=["127.0.0.1:1"], archives=[("archive.test", archive.address + BASE)], rounds=1_000_000,
                                                         pause=1, workers=4, originals_file=str(self.lists / "web")))
        self.conf, self.nginx = folder / "grown.conf", None

    def cut(self, shards, *more):
        self.cut_into = self.folder / f"grown-{shards}"
        ran = run_shards(write_originals(self.folder, self.originals), shards, self.cut_into, "--settings", self.folder / "grown.toml", "--port", self.first,
                         "--entry", self.entry, "--replicas", 1, "--gates", 1, *more)
        holds(f"{shards} shards are cut: {ran.stdout.strip()!r}{ran.stderr}", ran.returncode == 0)

    def give_files(self):
        """Each file of originals takes the place of the one before, as an operator copies it."""
        for file in (self.cut_into / "originals").iterdir():
            (self.lists / "new").write_bytes(file.read_bytes())
            (self.lists / "new").replace(self.lists / file.name)

    def start(self, shard):
        self.programs[shard] = start(self.stack, PROGRAM, "serve", self.cut_into / f"shard-{shard}-replica-1.toml", stdout=subprocess.PIPE, text=True)

    def makes_round_of(self, shard):
        """Whether one of the next rounds of a shard looks after as many originals as its file has now."""
        count = len(read_lines(self.lists / f"shard-{shard}.web"))
        lines = (line for line in self.programs[shard].stdout if line.startswith("round "))
        return any(f" jobs {count} " in line for line in itertools.islice(lines, 10))

    def lead(self):
        """nginx leads readers as the last cut says."""
        self.conf.write_text((self.cut_into / "shards.conf").read_text())
        if self.nginx:
            reload_nginx(self.nginx.pid)
        else:
            self.nginx = nginx_of_shards(self.stack, self.conf, self.entry)


def try_growth(stack, folder):
    """A shard is added while readers ask: all are led to copies meanwhile, and the other shards let go of what moved."""
    service = Growing(stack, folder)
    service.cut(2)
    service.give_files()
    for shard in (1, 2):
        service.start(shard)
    holds("two shards look after what their files name", all(service.makes_round_of(shard) for shard in (1, 2)))
    service.lead()
    seen, over = collections.Counter(), threading.Event()

    def read():
        for original in itertools.cycle(service.originals):
            if over.is_set():
                return
            seen[get(service.entry, "/timegate/" + original)[0]] += 1

    reader = threading.Thread(target=read)
    reader.start()
    try:
        service.cut(3, "--from", 2)
        before = read_lines(service.lists / "shard-1.web")
        (service.lists / "shard-3.web").write_bytes((service.cut_into / "originals/shard-3.web").read_bytes())
        service.start(3)
        holds("the new shard looks after what moves", service.makes_round_of(3))
        service.lead()
        service.give_files()
        holds("and then the others don't", all(service.makes_round_of(shard) for shard in (1, 2))
              and set(read_lines(service.lists / "shard-1.web")) < set(before))
    finally:
        over.set()
        reader.join()
    holds(f"readers were led to copies meanwhile: {dict(seen)}", set(seen) == {302} and seen[302] > 100)


def try_peers(service):
    """Peers pull at gates that no reader is led to."""
    led = set(re.findall(r"server (127\.0\.0\.1:\d+);", (service.folder / "shards.conf").read_text()))
    settings = {name: tomllib.loads((service.folder / name).read_text()) for name in service.programs}
    gates = {gate for keys in settings.values() for gate in keys["gates"]}
    peers = [peer.removeprefix("http://") for keys in settings.values() for peer in keys["peers"]]
    holds(f"of {len(gates)} gates {len(peers)} are peers', and no reader is led to them",
          len(set(peers)) == SHARDS * REPLICAS and set(peers) == gates - led and len(led & gates) == SHARDS * REPLICAS * GATES)


def try_all(service):
    of = {original: shard for shard, originals in service.originals.items() for original in originals}
    holds(f"{len(of)} originals stand in the settings of {SHARDS} shards, each once", sorted(of) == sorted(set(PLAIN) | set(SPELLED)))
    for original, shard in of.items():
        status, where, _ = get(service.entry, "/timegate/" + original)
        known = [other for other in service.originals if get(service.gate(other), "/timegate/" + original)[0] == 302]
        if status != 302 or not where.endswith(original) or known != [shard]:
            holds(f"{original} is answered by shard {shard}: {status} {where}, and is known to {known}", False)
    holds("each is answered through nginx, and known to the programs of its shard alone", True)
    for original, spellings in SPELLED.items():
        for spelling in spellings:
            for target, status in [("/timegate/", 302), (BASE, 200), ("/timemap/link/page/1/", 200)]:
                said, wanted = get(service.entry, target + spelling), get(service.gate(of[original]), target + original)
                if said[0] != status or said[::2] != wanted[::2]:
                    holds(f"{target}{spelling} is answered as {original} by {wanted}: {said}", False)
    holds(f"{sum(map(len, SPELLED.values()))} other spellings are answered as the originals that they name, to the byte", True)
    same = [get(service.entry, "/timegate/" + text) for text in ("http://nobody.example/", "http://NOBODY.example/")]
    holds("what no shard has is 404 in each spelling", same == [(404, None, "no memento\n")] * 2)
    holds("what is no original is 400", [service.status(text) for text in ("x", "ftp://a.example/", "http://[/")] == [400] * 3)
    holds("and the shards' states aren't shown", [get(service.entry, target)[0] for target in ("/state", "/delta", "/")] == [404] * 3)


def try_replicas(service):
    """A replica of a shard that is down, and one that has been started again and knows nothing yet, are not noticed."""
    unknown = [f"http://nobody.example/{number}" for number in range(8)]
    originals = service.originals[1]
    service.stop(1, 1)
    holds("with a replica down its shard answers", {service.status(original) for original in originals for _ in range(4)} == {302})
    holds("and what nobody has is 404", {service.status(original) for original in unknown} == {404})
    silent = service.stack.enter_context(socket.create_server(("127.0.0.1", 0)))
    keys = (service.folder / "shard-1-replica-1.toml").read_text().split("originals = ")[0].replace("peers = [", "peers = [] # ")
    archive = f'[[archives]]\nname = "silent.test"\ntimemap = "http://127.0.0.1:{silent.getsockname()[1]}/"\n'
    (service.folder / "empty.toml").write_text(f"{keys}originals = {originals[:1]}\n{archive}")
    program = service.serve("empty.toml")
    for _ in range(GATES + 1):
        program.stdout.readline()
    time.sleep(11)    # until nginx asks those gates again
    holds("that one is up again, and knows nothing", get(service.gate(1), "/timegate/" + originals[0])[0] == 503)
    holds("and its shard answers", {service.status(original) for original in originals for _ in range(8)} == {302})
    holds("and what nobody has is 404", {service.status(original) for original in unknown} == {404})


def try_down(service):
    """A shard that is down leaves the others."""
    for replica in range(1, REPLICAS + 1):
        service.stop(2, replica)
    others = [original for shard in (1, 3) for original in service.originals[shard]]
    holds("with a shard down the others answer", {service.status(original) for original in others} == {302})
    spelled = {original: {service.status(text) for text in texts} for original, texts in SPELLED.items()}
    holds("in each spelling", {status for original in others if original in spelled for status in spelled[original]} == {302})
    lost = service.originals[2]
    holds("what it has is 503, and never 404", {service.status(original) for original in lost} == {503})
    holds("in each spelling", {status for original in lost if original in spelled for status in spelled[original]} == {503})


def main():
    needs("nginx")
    with contextlib.ExitStack() as stack:
        folder = pathlib.Path(stack.enter_context(tempfile.TemporaryDirectory()))
        folder.chmod(0o755)
        try_owners()
        try_places()
        try_plain(folder)
        try_refusals(folder)
        try_log(folder)
        try_snapshots(folder)
        try_files(folder)
        try_growth(stack, folder)
        service = Shards(stack, folder, start_archive(stack, "--copies", 3), PLAIN + ODD_LINES)
        try_peers(service)
        try_all(service)
        try_replicas(service)
        try_down(service)
    print("three shards answered each original in each spelling, and without the one that was down")


if __name__ == "__main__":
    main()
