#!/usr/bin/env python3
"""The forward to archives (deploy/forward) against archives by https on this machine: a walk over several pages, a certificate of
another name, an archive that says nothing, how many connections an archive is asked by, which paths are led on, and that
nothing that the forward says itself takes away what is known.

    ./run --unproved && tests/forward.py
"""
import concurrent.futures
import contextlib
import json
import pathlib
import re
import socket
import subprocess
import tempfile
import threading
import time
import tomllib

from playing import (BASE, PATIENCE, PROGRAM, TOP, Listener, Played, ask, comes_true, dead_ports, free_ports, get, holds, link, needs, reload_nginx,
                     reply, same, settings_text, start, told, wait_for)

ORIGINALS = [f"http://a.example/{number}" for number in range(4)]
# Seconds for which the forward waits for an archive: enough for one that answers at once, on a machine that is busy.
PATIENT = ("--read", 3, "--connect", 3)


def certificate(folder, name):
    files = folder / f"{name}.key", folder / f"{name}.pem"
    subprocess.run(["openssl", "req", "-x509", "-newkey", "rsa:2048", "-nodes", "-days", "2", "-subj", f"/CN={name}",
                    "-addext", f"subjectAltName=DNS:{name}", "-keyout", files[0], "-out", files[1]], check=True, capture_output=True)
    return files[1], files[0]


class Counter(Listener):
    """Passes connections on to a port, and counts them; or keeps silent if there is none."""

    def __init__(self, stack, port=None):
        self.to, self.kept = port, []
        super().__init__(stack, self.pass_on)

    def pass_on(self, client):
        if self.to is None:
            self.kept.append(client.dup())
            return
        with socket.create_connection(("127.0.0.1", self.to)) as archive:
            back = threading.Thread(target=self.copy, args=(archive, client), daemon=True)
            back.start()
            self.copy(client, archive)
            back.join()

    @staticmethod
    def copy(source, target):
        with contextlib.suppress(OSError):
            while data := source.recv(65536):
                target.sendall(data)
            target.shutdown(socket.SHUT_WR)


def run_forward(*words):
    return subprocess.run([str(word) for word in (TOP / "deploy/forward", *words)], capture_output=True, text=True)


def write_lists(folder, gate, archives, originals=ORIGINALS):
    text = "".join(f'[[archives]]\nname = "{name}"\ntimemap = "{address}/timemap/link/"\nchecked = {str(checked).lower()}\n'
                   for name, address, checked in archives)
    (folder / "archives.toml").write_text(text)
    (folder / "common.toml").write_text(settings_text(gates=[f"127.0.0.1:{gate}"], originals=originals, rounds=1_000_000, pause=3600, workers=2))
    return folder / "archives.toml", folder / "common.toml"


class Forward:
    """The nginx of a forward, at this port, by the settings that deploy/forward wrote into this folder."""

    def __init__(self, stack, folder, port):
        state = pathlib.Path(stack.enter_context(tempfile.TemporaryDirectory()))
        self.errors = stack.enter_context(open(state / "errors", "w", encoding="utf-8"))
        self.process = start(stack, "nginx", "-p", f"{state}/", "-c", folder / "nginx.conf", "-e", "stderr", "-g", "daemon off;",
                             stderr=self.errors)
        self.port = port
        wait_for(port)


def try_lists(folder, gate):
    """The list that is shipped has nothing checked, and a bad one is refused."""
    lists = write_lists(folder, gate, [("a.example", "https://a.example", False)])
    for path in (lists[0], TOP / "deploy/archives.toml"):
        ran = run_forward(path, folder / "out", "--settings", lists[1])
        holds(f"if nothing was checked nothing is written: {ran.stderr.strip()}", ran.returncode == 2 and not (folder / "out").exists())
    for name, address in (("A", "https://a.example"), ("a", "ftp://a.example"), ("a", 'https://a.example/"; }'), ("a", "https://a.example/$x"),
                          ("a" * 65, "https://a.example"), ("a", "https://a.example/" + "p" * 1024)):
        ran = run_forward(*write_lists(folder, gate, [(name, address.replace('"', '\\"'), True)])[:1], folder / "out", "--settings", lists[1])
        holds(f"{name} {address:.60} is refused: {ran.stderr.strip():.120}", ran.returncode == 2)
    (folder / "archives.toml").write_text('[[archives]]\nname = "a"\ntitle = 7\ntimemap = "https://a.example/"\nchecked = true\n')
    ran = run_forward(folder / "archives.toml", folder / "out", "--settings", lists[1])
    holds(f"a title that is no text is refused: {ran.stderr.strip()}", ran.returncode == 2)
    (folder / "archives.toml").write_text((TOP / "deploy/archives.toml").read_text().replace("checked = false", "checked = true"))
    run_forward(folder / "archives.toml", folder / "titled", "--settings", lists[1])
    titles = json.loads((folder / "titled/archives.json").read_text())
    shipped = tomllib.loads((TOP / "deploy/archives.toml").read_text())["archives"]
    all_checked = [(archive["name"], archive["timemap"].removesuffix("/timemap/link/"), True) for archive in shipped]
    same("the page is told what they are called", titles, {archive["timemap"].split("/")[2]: archive["title"] for archive in shipped})
    ran = run_forward(write_lists(folder, gate, all_checked)[0], folder / "all", "--settings", lists[1])
    ready = subprocess.run([PROGRAM, "check", folder / "all/settings.toml"], capture_output=True, text=True)
    holds(f"with all of them checked: {ready.stdout.strip()}", ran.returncode == 0 and f"archives {len(shipped)} " in ready.stdout)


def nginx_takes(folder):
    """nginx's own word on the settings that were written into this folder."""
    with tempfile.TemporaryDirectory() as state:
        ran = subprocess.run(["nginx", "-t", "-p", f"{state}/", "-c", folder / "nginx.conf", "-e", "stderr"], capture_output=True, text=True)
    return ran.returncode == 0, ran.stderr.strip()


def try_names(folder, gate):
    """nginx takes each archive of the list that is shipped, alone and with all others, and the longest names and addresses.

    Planted: variables that are named by archives (`$pool_archive_web_2e_..`), by which two of those shipped, and the longest name,
    are refused.
    """
    shipped = [(archive["name"], archive["timemap"].removesuffix("/timemap/link/"), True)
               for archive in tomllib.loads((TOP / "deploy/archives.toml").read_text())["archives"]]
    longest = [(("a." * 32)[:62] + f"{number:02}", "https://127.0.0.1/" + "(" * (1024 - 18 - len("/timemap/link/")), True) for number in range(3)]
    for what, archives in (*((name, [(name, address, checked)]) for name, address, checked in shipped), ("all that are shipped", shipped),
                           ("the longest", longest), ("all", shipped + longest)):
        listed, common = write_lists(folder, gate, archives)
        ran = run_forward(listed, folder / "names", "--settings", common, "--log", "off")
        takes, said = nginx_takes(folder / "names")
        holds(f"nginx takes {what}{'' if takes else ': ' + said}", ran.returncode == 0 and takes)
        written = tomllib.loads((folder / "names/settings.toml").read_text())["archives"]
        same("and the service is to ask them all", [archive["name"] for archive in written], [name for name, _, _ in archives])


def try_refused_by_nginx(folder, gate):
    """What nginx doesn't take isn't written, and what stood there stays. A folder that an earlier deploy/forward wrote stays as it is
    when names are looked up, since its nginx.conf wants other variables. Planted: each of the two tests left out."""
    listed, common = write_lists(folder, gate, [("a.test", "http://127.0.0.1:1", True)])
    good = run_forward(listed, folder / "kept", "--settings", common)
    before = {file.name: file.read_bytes() for file in (folder / "kept").iterdir()}
    (folder / "no.pem").write_text("no certificate\n")
    ran = run_forward(write_lists(folder, gate, [("b.test", "http://127.0.0.1:2", True)])[0], folder / "kept", "--settings", common,
                      "--authorities", folder / "no.pem")
    holds(f"what nginx refuses is refused: {ran.stderr.strip():.160}", (good.returncode, ran.returncode) == (0, 2) and "nginx refuses" in ran.stderr)
    same("and nothing is written", {file.name: file.read_bytes() for file in (folder / "kept").iterdir()}, before)
    (folder / "kept/nginx.conf").write_text('proxy_pass https://$pool_archive_a_2e_test$archive_path;\n')
    (folder / "kept/pools.conf").write_text("as it was\n")
    ran = run_forward("--look-up", folder / "kept")
    same(f"pools of an earlier form stay: {ran.stderr.strip()}", (ran.returncode, (folder / "kept/pools.conf").read_text()), (2, "as it was\n"))


def try_memgator(folder, gate):
    """A list of MemGator's is read as it is, what is left out is told, and what is wrong with one is named. Planted: `ignore` not heeded,
    and each check of a type left out."""
    def written(listed, name="list.json"):
        (folder / name).write_text(listed if isinstance(listed, str) else json.dumps(listed))
        return run_forward(folder / name, folder / "gator", "--settings", write_lists(folder, gate, [])[1], "--log", "off")

    good = [{"id": "ia", "name": "Internet Archive", "timemap": "https://127.0.0.1/web/timemap/link/", "timegate": "https://127.0.0.1/web/",
             "probability": 1.0, "ignore": False},
            {"id": "pt", "name": "Portugal", "timemap": "https://127.0.0.1:81/timemap/link/", "timegate": "https://127.0.0.1:81/", "probability": 0.5},
            {"id": "Gone!", "name": "Gone", "timemap": "", "ignore": True}, {"id": "gate", "name": "A gate alone", "timegate": "https://127.0.0.1/"}]
    for name in ("list.json", "list"):
        ran = written(good, name)
        keys = tomllib.loads((folder / "gator/settings.toml").read_text())["archives"] if ran.returncode == 0 else ran.stderr
        same(f"{name}: those that aren't ignored are asked", keys, [
            {"name": "ia", "timemap": "http://127.0.0.1:8100/ia/web/timemap/link/"}, {"name": "pt", "timemap": "http://127.0.0.1:8100/pt/timemap/link/"}])
        holds("what is left out is told, a line each",
              "'Gone!' is left out: it is ignored\n" in ran.stderr and "'gate' is left out: it has no timemap\n" in ran.stderr)
        same("by the names that readers see", json.loads((folder / "gator/archives.json").read_text()),
             {"127.0.0.1": "Internet Archive", "127.0.0.1:81": "Portugal"})
    for what, listed, said in (
            ("no id", [{"timemap": "https://a.example/"}], "name has to be"), ("an id of other letters", [{**good[0], "id": "IA"}], "'IA'"),
            ("a number for an id", [{**good[0], "id": 7}], "name has to be a text"), ("no timemap at all", [{"id": "ia"}], "no archive"),
            ("a number for a timemap", [{**good[0], "timemap": 7}], "ia: timemap has to be a text"),
            ("a word for ignore", [{**good[0], "ignore": "no"}], "ia: ignore has to be true or false"),
            ("a number for a name", [{**good[0], "name": 7}], "ia: title has to be a text"), ("one twice", [good[0], good[0]], "a name twice"),
            ("nobody", [], "no archive"), ("all ignored", [good[2]], "no archive"), ("no list", {"archives": good}, "no list of archives"),
            ("no entries", ["ia"], "no list of archives"), ("half of it", json.dumps(good)[:100], "no JSON")):
        ran = written(listed)
        holds(f"a list with {what} is refused: {ran.stderr.strip():.140}", ran.returncode == 2 and said in ran.stderr)
    for what, text, said in (("a number for a name", 'name = 7\ntimemap = "https://a.example/"\nchecked = true\n', "name has to be a text"),
                             ("a word for checked", 'name = "a"\ntimemap = "https://a.example/"\nchecked = "yes"\n', "a: checked has to be"),
                             ("half a line", "name = ", "no TOML")):
        ran = written("[[archives]]\n" + text, "list.toml")
        holds(f"one of ours with {what} is refused: {ran.stderr.strip():.140}", ran.returncode == 2 and said in ran.stderr)
    ran = written("archives = 7\n", "list.toml")
    holds(f"or with no list: {ran.stderr.strip()}", ran.returncode == 2 and "no list of archives" in ran.stderr)


def try_log(folder, gate):
    """The service tells of failures, and gates say so if they know nothing yet, unless the settings that it begins with say
    otherwise."""
    listed, common = write_lists(folder, gate, [("a.example", "https://a.example", True)])
    for key in ("log", "ready"):
        for line, wanted in (("", True), (f"{key} = true\n", True), (f"{key} = false\n", False)):
            (folder / "log.toml").write_text(line + common.read_text())
            ran = run_forward(listed, folder / "log", "--settings", folder / "log.toml")
            written = tomllib.loads((folder / "log/settings.toml").read_text())
            holds(f"by {line.strip() or 'settings without the key'} the service has {key} = {str(wanted).lower()}",
                  ran.returncode == 0 and written.get(key) is wanted)


def try_forward(stack, folder):
    gate, forward, one, other, wrong, plain = free_ports(6)
    silent = socket.create_server(("127.0.0.1", 0))
    stack.callback(silent.close)
    good, bad = certificate(folder, "localhost"), certificate(folder, "other.test")
    counted = Counter(stack, one)
    for port, words in ((one, ("--pages", 3, "--tls", *good, "--name", f"localhost:{counted.port}")),
                        (other, ("--tls", *good, "--name", f"localhost:{other}")), (wrong, ("--tls", *bad)), (plain, ())):
        start(stack, TOP / "deploy/archive", port, *words, stdout=subprocess.DEVNULL)
    archives = [("one.test", f"https://localhost:{counted.port}", True), ("other.test", f"https://localhost:{other}", True),
                ("wrong.test", f"https://localhost:{wrong}", True), ("plain.test", f"http://127.0.0.1:{plain}", True),
                ("silent.test", f"https://localhost:{silent.getsockname()[1]}", True), ("unchecked.test", "https://a.example", False)]
    (folder / "trusted.pem").write_text(good[0].read_text() + bad[0].read_text())
    listed, common = write_lists(folder, gate, archives)
    ran = run_forward(listed, folder / "out", "--settings", common, "--port", forward, "--authorities", folder / "trusted.pem",
                      *PATIENT, "--agent", "Maplewrench (+https://aggregator.test/)", "--log", folder / "access.log", "--targets")
    holds(f"deploy/forward takes what was checked: {ran.stdout.strip()}{ran.stderr}", ran.returncode == 0 and "unchecked" not in ran.stdout)
    for port in (one, other, wrong, plain):
        wait_for(port)
    Forward(stack, folder / "out", forward)
    begun = time.monotonic()
    serve = start(stack, PROGRAM, "serve", folder / "out/settings.toml", stdout=subprocess.PIPE, stderr=subprocess.PIPE, text=True)
    lines = [serve.stdout.readline().strip() for _ in range(2)]
    holds(f"three of five archives are harvested: {lines[1]}", lines[1] == "round 1 jobs 20 harvests 12 pulls 0 published")
    holds(f"and the silent one holds a round up for seconds alone ({time.monotonic() - begun:.1f})", time.monotonic() - begun < PATIENCE)
    complaints = [serve.stderr.readline().strip() for _ in range(2)]
    wanted = [f"log: round 1: archive {name}: 4 of 4 walks failed, the first: status {status} from "
              f"http://127.0.0.1:{forward}/{name}/timemap/link/{ORIGINALS[0]}" for name, status in (("wrong.test", 502), ("silent.test", 504))]
    holds(f"the log tells of the other two: {complaints}", complaints == wanted)
    text = get(gate, BASE + ORIGINALS[0])[2]
    counts = {at: text.count(f"<{at}/web/") for at in (f"https://localhost:{counted.port}", f"https://localhost:{other}", f"http://127.0.0.1:{plain}")}
    holds(f"each with the forty copies of its pages, under their own addresses: {counts}", set(counts.values()) == {40})
    holds("and none under the forward's", f":{forward}/" not in text)
    parts = [line for line in get(gate, "/state")[2].split("\n") if line.startswith("entry ") and " - " in line]
    holds("all of them whole", not parts)
    holds(f"{len(ORIGINALS) * 3} pages of an archive came by {counted.count} connections", counted.count <= 4)
    log = (folder / "access.log").read_text().split("\n")
    ends = {name: [line for line in log if line.startswith(name) and line.endswith(f": /{name}/timemap/link/{ORIGINALS[0]}")]
            for name in ("one.test", "silent.test")}
    holds(f"the log of requests has each once, with the archive's status and seconds: {ends}",
          [len(lines) for lines in ends.values()] == [1, 1] and re.search(r"one\.test 200 .*archive: 200 after \d+\.\d+ s, connected", ends["one.test"][0])
          and re.search(r"silent\.test 504 .*archive: 504 after [1-9]\d*\.\d+ s", ends["silent.test"][0]))


def try_secrets(stack, folder):
    """What is asked for is in no log, though archives are down, silent, refused their certificate, or asked too much. Planted: the
    target in the form of the lines, and lines of nginx's own at any level (`error_log stderr crit`)."""
    secret = "http://clinic.example/?patient=Miller"
    silent, [down] = Counter(stack), dead_ports(stack, 1)
    cert = certificate(folder, "other.test")
    [tls] = free_ports(1)
    start(stack, TOP / "deploy/archive", tls, "--tls", *cert, stdout=subprocess.DEVNULL)
    wait_for(tls)
    good = Played(stack, lambda target: page_of("http://g.example/1"))
    names = [("good.test", good.address), ("down.test", f"http://127.0.0.1:{down}"), ("silent.test", f"http://127.0.0.1:{silent.port}"),
             ("wrong.test", f"https://localhost:{tls}"), ("nobody.test", "http://nobody.invalid")]
    for words, shown in ((), False), (("--targets",), True):
        place = folder / f"secrets-{shown}"
        forward, _ = forward_to(stack, place, names, "--authorities", cert[0], "--connections", 1, *words)
        for name, _ in names:
            for _ in range(4):
                asked(forward.port, f"/{name}/timemap/link/{secret}")
        with concurrent.futures.ThreadPoolExecutor(4) as pool:
            list(pool.map(lambda _: asked(forward.port, f"/silent.test/timemap/link/{secret}"), range(4)))
        ask(forward.port, "/good.test/timemap/link/http://miller.example/Miller/" + "..%2f" * 8 + "x")
        # A line is written once its reply is on the way.
        comes_true(lambda: any(line.startswith(" 400 ") for line in (place / "access.log").read_text().splitlines()))
        written = {"requests": (place / "access.log").read_text(), "errors": pathlib.Path(forward.errors.name).read_text()}
        same(f"with {words or 'no option'} what is asked for is in the logs: {shown}",
             {kind: "Miller" in text for kind, text in written.items()}, {"requests": shown, "errors": shown})
        lines = {line.split(" ")[0]: line.split(" ")[1] for line in written["requests"].splitlines()}
        same("the archives' names and statuses are, and where nginx reads no path the status alone",
             [lines[name] for name in ("good.test", "wrong.test", "")], ["200", "502", "400"])


def page_of(uri, *further):
    """An archive's answer: a memento, and further pages."""
    return reply(",".join([link(uri), *(f"<{page}>;rel=timemap" for page in further)]))


def forward_to(stack, folder, archives, *words, originals=ORIGINALS[:1]):
    """A forward to these archives, by http or https, and the settings of a service that asks it."""
    gate, port = free_ports(2)
    folder.mkdir(exist_ok=True)
    listed, common = write_lists(folder, gate, [(name, address, True) for name, address in archives], originals)
    write = lambda: run_forward(listed, folder / "out", "--settings", common, "--port", port, *PATIENT, "--log",
                                folder / "access.log", *words)
    ran = write()
    if ran.returncode:
        holds(f"deploy/forward writes: {ran.stderr}", False)
    return Forward(stack, folder / "out", port), write


def asked(port, target):
    """The status of the forward's answer."""
    return ask(port, target)[0]


def try_paths(stack, folder):
    """An archive's page names paths of another archive: those below its TimeMaps' address are asked for, and no other."""
    victim = Played(stack, lambda target: page_of("http://v.example/1"))
    address = f"http://127.0.0.1:{victim.port}"
    beyond = ["/save/http://x.example/", "/timemap/other/http://x.example/", "/timemap/link/../../save/http://x.example/",
              "/timemap/link/%2e%2e/%2E%2E/save/http://x.example/", "/timemap/link/..%2f..%2fsave/http://x.example/", "/timemap/lin%6b/http://x.example/",
              "/save/../timemap/link/http://x.example/", "//timemap/link/http://x.example/", "/timemap/linkage", "/", ""]
    evil = Played(stack, lambda target: page_of("http://e.example/1", *(f"{own}/victim.test{path}" for path in beyond)))
    forward, _ = forward_to(stack, folder / "paths", [("victim.test", address), ("evil.test", f"http://127.0.0.1:{evil.port}")])
    own = f"http://127.0.0.1:{forward.port}"
    # Written as below it, and leading out of it: not the archive's failure. Planted: locations that are chosen by the path as nginx
    # reads it, which say 502 to all, and a forward that leads these on.
    upwards = ["/timemap/link/../../save/http://x.example/", "/timemap/link/%2e%2e/%2E%2E/save/http://x.example/",
               "/timemap/link/..%2f..%2fsave/http://x.example/", "/timemap/link/http://x.example/..%2f..%2f..%2f..%2f..%2ftimegate/x",
               "/timemap/link/http://x.example/..%2f..%2f..%2f..%2f..%2f..%2f..%2fx", "/timemap/link/http://x.example/..%2F..%2F..%2F..%2f..%2f..%2f"
               "evil.test/timemap/link/x", "/timemap/link/http://x.example/50%-off"]
    same("what isn't below the address of an archive's TimeMaps is refused",
         [asked(forward.port, "/victim.test" + path) for path in beyond], [400 if path in upwards else 502 for path in beyond])
    same("what leads upwards from there too, and not as if the archive had failed",
         [asked(forward.port, "/victim.test" + path) for path in upwards], [400] * len(upwards))
    same("also behind another archive's name", [asked(forward.port, path) for path in (
        "/other/../victim.test/timemap/link/http://x.example/", "/save/x/../../victim.test/timemap/link/http://x.example/",
        "/victim.test/../victim.test/save/x")], [502] * 3)
    same("and the archive isn't asked", victim.targets(), [])
    below = ["/timemap/link/2/http://x.example/?a=/../b", "/timemap/link/http://x.example/..%2f..%2fy", "/timemap/link/http://x.example/a%2fb"]
    same("it is for what is below", [asked(forward.port, "/victim.test" + path) for path in below], [200] * 3)
    same("to the byte", victim.targets(), below)
    serve = start(stack, PROGRAM, "serve", folder / "paths/out/settings.toml", stdout=subprocess.PIPE, stderr=subprocess.PIPE, text=True)
    lines = [serve.stdout.readline().strip() for _ in range(2)]
    same("a service harvests both archives", lines[1], "round 1 jobs 2 harvests 2 pulls 0 published")
    same("and by the other's page is led to nothing of it", victim.targets()[3:], ["/timemap/link/" + ORIGINALS[0]])


def try_query(stack, folder):
    """An archive whose TimeMaps' address has a query is asked by that query alone."""
    archive = Played(stack, lambda target: page_of("http://q.example/1"))
    listed = folder / "query.toml"
    listed.write_text(f'[[archives]]\nname = "query.test"\ntimemap = "http://127.0.0.1:{archive.port}/map?kind=link&url="\nchecked = true\n')
    [port] = free_ports(1)
    common = write_lists(folder, 1, [])[1]
    run_forward(listed, folder / "query", "--settings", common, "--port", port, "--log", "off")
    Forward(stack, folder / "query", port)
    same("if the address has a query, it counts", [asked(port, "/query.test/map" + query) for query in (
        "?kind=link&url=http://a.example/", "?kind=drop&url=http://a.example/", "", "?url=http://a.example/")], [200, 502, 502, 502])
    same("and is passed on", archive.targets(), ["/map?kind=link&url=http://a.example/"])


class Known:
    """A service that asks two archives by a forward, and has harvested both."""

    def __init__(self, stack, folder):
        self.place, self.cert = folder / "own", certificate(folder, "localhost")
        self.place.mkdir()
        self.trust(self.cert)
        good = Played(stack, lambda target: page_of("http://g.example/1"))
        [tls] = free_ports(1)
        start(stack, TOP / "deploy/archive", tls, "--tls", *self.cert, "--name", f"localhost:{tls}", stdout=subprocess.DEVNULL)
        wait_for(tls)
        self.tls, self.names = tls, [("good.test", good.address), ("secure.test", f"https://localhost:{tls}")]
        self.forward, self.write = forward_to(stack, self.place, self.names, "--authorities", self.place / "trusted.pem")
        self.settings = (self.place / "out/settings.toml").read_text()
        self.serve = start(stack, PROGRAM, "serve", quick_rounds(self.place / "out/settings.toml"), stdout=subprocess.PIPE,
                           stderr=subprocess.PIPE, text=True)
        said = [self.serve.stdout.readline().strip() for _ in range(2)]
        same("the archives of a forward are harvested", said[1], "round 1 jobs 2 harvests 2 pulls 0 published")
        self.gate, self.rounds = int(said[0].rpartition(":")[2]), Rounds(self.serve.stdout)
        self.copies = self.shown()

    def trust(self, cert):
        (self.place / "trusted.pem").write_text(cert[0].read_text())

    def shown(self):
        """How many copies of each archive readers are told of."""
        text = get(self.gate, "/timemap/link/" + ORIGINALS[0])[2]
        return [text.count(f"<{at}") for at in ("http://g.example/", f"https://localhost:{self.tls}/web/")]

    def fails(self, what, archives, statuses=(502, 502), edit=None):
        """Once the forward has these archives, and its settings this edit, both are asked for as before: these are its
        answers, by which walks fail, and what was known stays."""
        write_lists(self.place, self.gate, [(name, address, True) for name, address in archives])
        self.write()
        (self.place / "out/settings.toml").write_text(self.settings)
        if edit:
            conf = self.place / "out/nginx.conf"
            conf.write_text(edit(conf.read_text()))
        reload_nginx(self.forward.process.pid)
        self.rounds.wait()
        came = [asked(self.forward.port, f"/{name}/timemap/link/{ORIGINALS[0]}") for name, _ in self.names]
        same(f"{what}: {came}", came, list(statuses))
        same("and what was known stays", self.shown(), self.copies)


def with_limit(text):
    """A forward that leads one request to each archive on in a minute."""
    text = text.replace("    include pools.conf;", "    limit_req_zone $archive_name zone=tight:1m rate=1r/m;\n    include pools.conf;")
    return text.replace("        limit_conn archives", "        limit_req zone=tight;\n        limit_conn archives")


def try_few_connections(stack, folder):
    """Where the forward lets fewer requests to an archive through than walks of it would run, the service keeps to that."""
    gate, port = free_ports(2)
    now, most, lock = [0], [0], threading.Lock()

    def answer(_):
        with lock:
            now[0] += 1
            most[0] = max(most[0], now[0])
        time.sleep(0.1)
        with lock:
            now[0] -= 1
        return reply(link("http://m.example/1"))

    archive = Played(stack, answer)
    entry = f'[[archives]]\nname = "few.test"\ntimemap = "{archive.address}/timemap/link/"\nchecked = true\n'
    originals = [f"http://a.example/{number}" for number in range(16)]
    (folder / "common.toml").write_text(settings_text(gates=[f"127.0.0.1:{gate}"], originals=originals, rounds=1, workers=8))

    def limits(text, *words):
        (folder / "archives.toml").write_text(text)
        ran = run_forward(folder / "archives.toml", folder / "few", "--settings", folder / "common.toml", "--port", port, "--log", "off", *words)
        return tomllib.loads((folder / "few/settings.toml").read_text())["archives"][0] if ran.returncode == 0 else ran.stderr.strip()

    for text, words, wanted in ((entry, (), (None, None)), (entry, ("--connections", 8), (None, None)), (entry + "at_once = 2\nevery = 5\n", (), (2, 5)),
                                (entry + "at_once = 9\n", ("--connections", 3), (3, None)), (entry, ("--connections", 3), (3, None))):
        keys = limits(text, *words)
        same(f"with {words or 'as many connections as workers'}, its limits are {wanted}", (keys.get("at_once"), keys.get("every")), wanted)
    (folder / "common.toml").write_text(settings_text(gates=[f"127.0.0.1:{gate}"], originals=originals, rounds=1, workers=8, walks=100))
    for words, wanted in (((), None), (("--connections", 100), None), (("--connections", 99), 99)):
        same(f"of 100 walks with {words or 'as many connections'}, at_once is {wanted}", limits(entry, *words).get("at_once"), wanted)
    for line in ("at_once = 0", "every = 1.5", 'at_once = "2"', "every = true"):
        fault = limits(entry + line + "\n")
        holds(f"{line} is refused: {fault}", "has to be a number from 1 on" in fault)
    limits(entry, "--connections", 3)
    Forward(stack, folder / "few", port)
    serve = start(stack, PROGRAM, "serve", folder / "few/settings.toml", stdout=subprocess.PIPE, text=True)
    line = [serve.stdout.readline() for _ in range(2)][1]
    same("no walk fails for it", line, told(1, 16, 16))
    holds(f"and {most[0]} requests ran at once, of at most three", most[0] <= 3)


def try_own_answers(stack, folder):
    """Each way to an answer that the forward makes itself."""
    known = Known(stack, folder)
    names, [down] = known.names, dead_ports(stack, 1)
    known.fails("renamed", [("better.test", names[0][1]), ("securer.test", names[1][1])])
    known.fails("removed", names[:1], (200, 502))
    known.fails("down", [(name, f"http://127.0.0.1:{down}") for name, _ in names])
    known.fails("down by https", [(name, f"https://localhost:{down}") for name, _ in names])
    known.fails("a name that leads nowhere", [(name, "https://nobody.invalid") for name, _ in names])
    known.fails("another name than the certificate's", [names[0], ("secure.test", f"https://127.0.0.1:{known.tls}")], (200, 502))
    known.trust(certificate(folder, "stranger.test"))
    known.fails("a certificate that nobody vouches for", names, (200, 502))
    known.fails("its own limit of requests", names, edit=with_limit)
    known.fails("a page of its own that isn't there", names, edit=lambda text: re.sub(r"proxy_pass .*;", "root /nobody;", text))
    known.serve.terminate()
    lines = [line for line in known.serve.stderr if "walks failed" in line]
    holds(f"and each is a walk that failed: {len(lines)} lines of the log tell", len(lines) >= 15)


def quick_rounds(settings):
    """The same settings with a pause of a second, in a file of their own."""
    quick = settings.parent / "quick.toml"
    quick.write_text(settings.read_text().replace("pause = 3600", "pause = 1"))
    return quick


class Rounds:
    """Counts the rounds that a service tells of."""

    def __init__(self, lines):
        self.count = 0
        threading.Thread(target=self.read, args=(lines,), daemon=True).start()

    def read(self, lines):
        for line in lines:
            self.count += line.startswith("round ")

    def wait(self):
        """Until a whole round was made from now on."""
        wanted = self.count + 2
        if not comes_true(lambda: self.count >= wanted):
            raise SystemExit("a program made no round")


def try_limits(stack, folder):
    """A cap on connections to one archive that is one, a rate by which what is too much waits, and an archive that is let be."""
    gate = threading.Semaphore(0)
    at_once, most = set(), []

    def slowly(target):
        at_once.add(target)
        most.append(len(at_once))
        gate.acquire(timeout=PATIENCE)
        at_once.discard(target)
        return page_of("http://m.example/1")

    archive = Played(stack, slowly)
    names = [("slow.test", archive.address)]
    forward, _ = forward_to(stack, folder / "limits", names, "--connections", 3, "--read", 30)
    with concurrent.futures.ThreadPoolExecutor(8) as pool:
        came = [pool.submit(asked, forward.port, f"/slow.test/timemap/link/{ORIGINALS[0]}?{number}") for number in range(8)]
        comes_true(lambda: sum(one.done() for one in came) >= 5 and len(at_once) >= 3)
        for _ in range(8):
            gate.release()
        statuses = sorted(one.result() for one in came)
    same("of eight requests at once three are led on, and the others are refused", (statuses, max(most)), ([200] * 3 + [502] * 5, 3))
    quick = Played(stack, lambda target: page_of("http://m.example/1"))
    forward, _ = forward_to(stack, folder / "rate", [("quick.test", quick.address)], "--connections", 64, "--rate", 10, "--read", 30)
    begun = time.monotonic()
    with concurrent.futures.ThreadPoolExecutor(16) as pool:
        statuses = list(pool.map(lambda number: asked(forward.port, f"/quick.test/timemap/link/{ORIGINALS[0]}?{number}"), range(16)))
    seconds = time.monotonic() - begun
    holds(f"with a rate of ten a second sixteen requests wait for their turn, {seconds:.1f} s in all", statuses == [200] * 16 and seconds > 1.4)
    silent = Counter(stack)
    forward, _ = forward_to(stack, folder / "silent", [("silent.test", f"http://127.0.0.1:{silent.port}")])
    statuses = [asked(forward.port, f"/silent.test/timemap/link/{ORIGINALS[0]}") for _ in range(10)]
    same("an archive that failed three times is let be for a while, and costs no time", (statuses, silent.count), ([504] * 3 + [502] * 7, 3))


def main():
    needs("nginx", "openssl")
    with contextlib.ExitStack() as stack:
        folder = pathlib.Path(stack.enter_context(tempfile.TemporaryDirectory()))
        folder.chmod(0o755)
        try_lists(folder, free_ports(1)[0])
        try_names(folder, free_ports(1)[0])
        try_refused_by_nginx(folder, free_ports(1)[0])
        try_memgator(folder, free_ports(1)[0])
        try_log(folder, free_ports(1)[0])
        try_forward(stack, folder)
        try_secrets(stack, folder)
        try_paths(stack, folder)
        try_query(stack, folder)
        try_own_answers(stack, folder)
        try_limits(stack, folder)
        try_few_connections(stack, folder)
    print("a forward led a service to archives by https, page by page, and to nothing else, and took away nothing that was known")


if __name__ == "__main__":
    main()
