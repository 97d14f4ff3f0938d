#!/usr/bin/env python3
"""nginx in front of gates (deploy/nginx.conf, deploy/shards), with gates that a script plays: the longest replies and addresses,
gates that know nothing yet or are down, what is added to replies, and pulls of peers beside slow readers.

    tests/front.py          needs nginx (nginx-light), and no program
"""
import argparse
import collections
import contextlib
import os
import pathlib
import re
import resource
import socket
import subprocess
import tempfile
import time

from playing import ORIGINAL, PATIENCE, QUICK, TEMPORARY, TOP, Played, ask, children, comes_true, dead_ports, free_ports, holds, needs, nginx, nginx_of_shards, reply, same, start_nginx
import sharding

DATETIME = "Mon, 04 Mar 2001 05:06:07 GMT"
BASE = "http://" + "b" * 244 + ".test"    # 256 bytes, the longest
MEMENTO = "http://m.example/" + "m" * (8192 - 17)
LONGEST = "http://a.example/" + "o" * (4096 - 17)
PART = f"/part/{2**64 - 1}/{2**64 - 1}/{'a' * 64}/{LONGEST.encode().hex()}"    # the longest address that a peer asks for
ROUTES = ["/timegate/", *(f"/timemap/{form}/{page}" for form in ("link", "json", "cdxj") for page in ("", "page/1/"))]


def redirect(original, memento):
    """A gate's redirect to a memento, with all that it says of the original."""
    link = (f'<{original}>; rel="original", <{BASE}/timemap/link/{original}>; rel="timemap"; type="application/link-format"; '
            f'from="{DATETIME}"; until="{DATETIME}"')
    return reply("", "Vary: accept-datetime", f"Location: {memento}", f"Link: {link}", f"Date: {DATETIME}", status=302)


def knows(*originals):
    """What a gate says that knows these originals."""
    def answer(target):
        if target.startswith(("/state", "/delta", "/part")):
            return reply("memento-state 2\n")
        asked = re.fullmatch(r"/(?:timegate|timemap/(?:link|json|cdxj)(?:/page/\d+)?)/(\w+:.*)", target)
        if not asked or (original := asked[1]) not in originals:
            return reply("no memento\n", status=404)
        return redirect(original, MEMENTO) if target.startswith("/timegate/") else reply("copies")
    return answer


def knows_nothing_yet(_):
    return reply("not ready\n", "Retry-After: 77", status=503)


def try_longest(port, gates):
    """The longest original and memento: a redirect by each route to it, and the gates stay in."""
    head = len(redirect(LONGEST, MEMENTO))
    for number in range(4):
        status, fields, _ = ask(port, "/timegate/" + LONGEST)
        whole = status == 302 and fields["location"] == MEMENTO and fields["link"].count(LONGEST) == 2
        holds(f"a redirect with a head of {head} bytes comes whole: {status}", whole)
    status, fields, _ = ask(port, "/at/20010304050607/" + LONGEST)
    holds("by a link with a date, too", status == 302 and fields["location"] == MEMENTO)
    same("the longest addresses of a TimeMap and of a page, too",
         [ask(port, route + LONGEST)[0] for route in ("/timemap/link/", f"/timemap/link/page/{2**64 - 1}/")], [200, 200])
    asked = [len(gate.heads) for gate in gates]
    same("and both gates are asked as before", {ask(port, "/timegate/" + ORIGINAL)[0] for _ in range(4)}, {302})
    holds("in turn", all(len(gate.heads) == before + 2 for gate, before in zip(gates, asked)))


def try_request(port, gates):
    """What a gate is asked by: without a body or a length, over a connection that may be kept."""
    for target in ("/timegate/" + ORIGINAL, "/at/20010304050607/" + ORIGINAL):
        before = [len(gate.heads) for gate in gates]
        ask(port, target, Content_Length="0", Accept_Datetime="Sat, 01 Jan 2000 00:00:00 GMT")
        [head] = [gate.heads[-1] for gate, count in zip(gates, before) if len(gate.heads) > count]
        fields = [line.partition(": ") for line in head[1:]]
        asked = [value for name, _, value in fields if name.lower() == "accept-datetime"]
        names = {name.lower(): value for name, _, value in fields}
        holds(f"{target} is asked for without a length: {head}", "content-length" not in names and "connection" not in names)
        wanted = ["Mon, 04 Mar 2001 05:06:07 GMT"] if target.startswith("/at/") else ["Sat, 01 Jan 2000 00:00:00 GMT"]
        same(f"and for {wanted[0]}", asked, wanted)


def try_fields(port):
    """What nginx adds to replies: how long they may be kept, and who may read them."""
    kept = {target: ask(port, target)[1].get("cache-control") for target in (
        "/timegate/" + ORIGINAL, "/at/20010304050607/" + ORIGINAL, "/timemap/link/" + ORIGINAL, "/timegate/http://nobody.example/", "/other")}
    same("a redirect may be kept for a minute, and nothing else", list(kept.values()), ["public, max-age=60"] * 2 + ["no-cache"] * 3)
    for route in ROUTES:
        for original, what in ((ORIGINAL, "what is known"), ("http://nobody.example/", "what isn't")):
            fields = ask(port, route + original, Origin="https://elsewhere.example")[1]
            same(f"{route} of {what} may be read by scripts of any site",
                 (fields.get("access-control-allow-origin"), fields.get("access-control-expose-headers")),
                 ("*", "Link, Location, Vary, Content-Type, Retry-After"))
        status, fields, body = ask(port, route + ORIGINAL, "OPTIONS", Origin="https://elsewhere.example",
                                   Access_Control_Request_Method="GET", Access_Control_Request_Headers="accept-datetime")
        allowed = {name: value for name, value in fields.items() if name.startswith("access-control-")}
        same(f"and {route} says so beforehand", (status, body, allowed), (204, "", {
            "access-control-allow-origin": "*", "access-control-expose-headers": "Link, Location, Vary, Content-Type, Retry-After",
            "access-control-allow-methods": "GET, HEAD", "access-control-allow-headers": "Accept-Datetime", "access-control-max-age": "86400"}))
    others = [ask(port, target, Origin="https://elsewhere.example")[1] for target in ("/state", "/delta", "/", "/other")]
    holds("nothing else may be read by them", not any(name.startswith("access-control-") for fields in others for name in fields))


def try_wishes(stack, gate):
    """If archives are asked for what readers ask for, a 404 of a TimeGate or a TimeMap says when to ask again; a page's doesn't,
    nor does another."""
    nobody = "http://nobody.example/"
    routes = ["/timegate/", "/timemap/link/", "/at/20010304050607/", "/timemap/link/page/1/", "/at/2001/", "/other/"]
    for what, changes, seconds in (("are", [], "3"), ("aren't", [("$wish_seconds { default 3; }", '$wish_seconds { default ""; }')], None)):
        port = nginx(stack, [gate.port], *QUICK, *changes)
        came = [ask(port, route + nobody)[:2] for route in routes]
        same(f"if wishes {what} taken, a 404 says of asking again: {seconds}", [(status, fields.get("retry-after")) for status, fields in came],
             [(404, seconds)] * 3 + [(404, None)] * 3)
        same("and what is known doesn't", [ask(port, route + ORIGINAL)[1].get("retry-after") for route in routes[:4]], [None] * 4)


def try_rate(stack, gate):
    """Who asks too much is told when to ask again, however slowly a machine that is busy lets this test ask."""
    port = nginx(stack, [gate.port], ("rate=20r/s", "rate=1r/s"))
    came = [ask(port, "/timegate/" + ORIGINAL) for _ in range(100)]
    refused = [fields for status, fields, _ in came if status == 503]
    holds(f"{len(refused)} of 100 replies say 503", refused)
    holds("and when to ask again", all(fields.get("retry-after") == "5" and fields["access-control-allow-origin"] == "*" for fields in refused))


def try_routes(stack):
    """Limits are those of the path as it is written, whatever `..%2f` in an original makes of it; and what is written as something
    else isn't led to a gate. Planted: locations that are chosen by the path as nginx reads it."""
    gate, peers = Played(stack, knows(ORIGINAL)), Played(stack, knows(ORIGINAL))
    up = "..%2f" * 4
    front = nginx(stack, [gate.port], ("127.0.0.1:8082", f"127.0.0.1:{peers.port}"), ("rate=20r/s", "rate=1r/m"), ("rate=12r/m", "rate=60000r/m"))
    for target, most in ((f"/timegate/http://z.example/{up}timemap/link/page/1/x", 41), (f"/timemap/link/page/1/http://z.example/{up}timegate/x", 131)):
        port = nginx(stack, [gate.port], ("rate=20r/s", "rate=1r/m"), ("rate=50r/s", "rate=1r/m"), ("rate=12r/m", "rate=60000r/m"))
        before = len(gate.heads)
        for _ in range(160):
            ask(port, target)
        same(f"of 160 requests for {target} so many are led on", len(gate.heads) - before, most)
    before = len(gate.heads)
    others = [f"/timegate/http://z.example/{up}state", f"/timegate/http://z.example/{up}metrics", f"/timegate/http://z.example/{up}x"]
    same("an original that leads up to other routes is asked of a gate", [ask(front, target)[0] for target in others], [404] * 3)
    same("as it is written", gate.targets()[before:], others)
    hidden = ["/x/../timegate/" + ORIGINAL, "/timegat%65/" + ORIGINAL, "/x/%2e%2e/timemap/link/" + ORIGINAL, "/route/replies", "/route/pages", "/route/dates",
              "/./route/replies?/timegate/" + ORIGINAL]
    same("what is another path as it is written is 404", [ask(front, target)[0] for target in hidden], [404] * len(hidden))
    same("and no gate is asked", (len(gate.heads), len(peers.heads)), (before + len(others), 0))
    same("who may is led to the peers' gate", ask(front, "/state")[0], 200)
    closed = nginx(stack, [gate.port], ("127.0.0.1:8082", f"127.0.0.1:{peers.port}"), ("allow 127.0.0.1;", ""))
    before = len(peers.heads)
    same("and for nobody else, however it is written", [ask(closed, target)[0] for target in (
        "/state", "/x/../state", "/%73tate", "/x/%2e%2e/delta", f"/x/{up[:10]}delta/1/1", "/./metrics", "/%6detrics", "/status")], [403] * 4 + [400] + [403] * 3)
    same("so that no peer's gate is asked", len(peers.heads), before)


def try_logs(stack):
    """No log has what readers ask for, or from where: not beyond a limit, nor while gates are down, nor for odd requests. Each request
    that a gate failed is a line with the gate. Planted: `error_log` of a server left out, and at level error; and `combined` in the place of `gates`."""
    folder = pathlib.Path(stack.enter_context(tempfile.TemporaryDirectory()))
    gate, [down] = Played(stack, knows(ORIGINAL)), dead_ports(stack, 1)
    secret = "http://clinic.example/one?patient=Miller"
    for gates in ([gate.port], [down, gate.port], [down]):
        port = nginx(stack, gates, QUICK[2], folder=folder)
        for target in ("/timegate/" + secret, "/at/20010304050607/" + secret, "/timemap/link/" + secret, "/../" + secret, "/%zz/" + secret,
                       "/nothing/" + secret, "/archives.json?" + secret):
            for _ in range(25):
                ask(port, target, source="127.0.0.5")
        with contextlib.ExitStack() as crowd:
            for _ in range(30):
                one = crowd.enter_context(socket.create_connection(("127.0.0.1", port), PATIENCE, source_address=("127.0.0.5", 0)))
                one.sendall(f"GET /timegate/{secret} HTTP/1.1\r\nHost: a\r\n".encode())
    written = {file.name: file.read_text() for file in folder.iterdir() if file.suffix == ".log"}
    holds(f"there are {sorted(written)}", {"error.log", "gates.log"} <= set(written))
    for name, text in written.items():
        same(f"{name} has nothing of what was asked for, or from where", [word for word in ("clinic", "Miller", "127.0.0.5") if word in text], [])
    lines = written["gates.log"].splitlines()
    holds(f"and tells of the gate that failed: {lines[-1]}", re.fullmatch(rf"\S+ 503 after [\d.]+ s: 127\.0\.0\.1:{down} said 502", lines[-1]))


class Reader:
    """Somebody who asks through nginx for what nobody knows, each time for something else."""

    def __init__(self, port, source):
        self.port, self.source, self.count = port, source, 0

    def unknown(self):
        self.count += 1
        return f"/timegate/http://nobody.example/{self.source}/{self.count}"

    def ask(self):
        return ask(self.port, self.unknown(), source=self.source)

    def leave(self):
        """Asks, and leaves at once."""
        with socket.create_connection(("127.0.0.1", self.port), PATIENCE, source_address=(self.source, 0)) as one:
            one.sendall(f"GET {self.unknown()} HTTP/1.1\r\nHost: a\r\n\r\n".encode())
            time.sleep(0.02)


def try_unknown(stack):
    """What no gate knows is a wish. The first twelve replies of 404 to one reader come at once, and further ones so often as is said,
    whoever waits for them and whoever doesn't; other readers, and what is known, aren't kept waiting. Planted: replies of 404 that
    aren't counted (`error_page 404`), and a reader whose connections are free again once they have left
    (`proxy_ignore_client_abort`, in each of its places)."""
    gate = Played(stack, knows(ORIGINAL))
    port = nginx(stack, [gate.port], ("rate=20r/s", "rate=1000r/s"), ("rate=12r/m", "rate=60r/m"))
    one, other, gone = (Reader(port, f"127.0.0.{number}") for number in (5, 6, 7))
    begun = time.monotonic()
    first = [one.ask()[0] for _ in range(12)]
    early = time.monotonic() - begun
    same("twelve replies to one reader are 404", first, [404] * 12)
    later = [one.ask() for _ in range(5)]
    took = time.monotonic() - begun
    holds(f"and come in {early:.1f} s, and five more in {took - early:.1f} s", early < 8 and took > 3)
    same("as a gate says it, and when to ask again", [(status, body, fields["vary"], fields["retry-after"]) for status, fields, body in later],
         [(404, "no memento\n", "accept-datetime", "3")] * 5)
    same("by TimeMaps and dates, too", [ask(port, target + "http://nobody.example/x", source="127.0.0.8")[::2] for target in (
        "/timemap/link/", "/timemap/json/", "/at/20010304050607/")], [(404, "no memento\n")] * 3)
    begun = time.monotonic()
    same("another reader's come at once meanwhile", [other.ask()[0] for _ in range(10)], [404] * 10)
    same("and what is known to the first", [ask(port, "/timegate/" + ORIGINAL, source="127.0.0.5")[0] for _ in range(20)], [302] * 20)
    holds("all of that before they would, if they were counted", time.monotonic() - begun < 9)
    begun, before = time.monotonic(), len(gate.heads)
    while time.monotonic() - begun < 6 or gone.count < 150:
        gone.leave()
    came, most = len(gate.heads) - before, 12 + 20 + (time.monotonic() - begun) + 2
    holds(f"of {gone.count} wishes of a reader who leaves at once a gate is told {came}, at most {most:.0f}", came <= most < gone.count / 2)


def try_networks(stack):
    """Of an IPv6 address the first 64 bits count, and of IPv4 all of it, by whatever socket it comes. Planted: keys by the whole
    address, and by its first 64 bits with IPv4 by a socket of IPv6 among them."""
    gate = Played(stack, knows(ORIGINAL))
    port = nginx(stack, [gate.port], ("rate=20r/s", "rate=1r/m"), ("burst=40", "burst=1"),
                 ("        if ($route)", "        set_real_ip_from 127.0.0.1; real_ip_header X-From;\n        if ($route)"))

    def asks(address):
        return ask(port, "/timegate/" + ORIGINAL, X_From=address)[0]

    same("two of one /64 count as one reader", [asks(f"2001:db8:1:2:{end}::9") for end in range(1, 5)], [302, 302, 503, 503])
    same("two of others count as others", [asks(f"2001:db8:1:{network}::9") for network in (3, 4, "a", "a0a", "d0a")], [302] * 5)
    same("IPv4 counts whole", [asks(address) for address in ("10.0.0.1", "10.0.0.2", "10.0.0.10", "10.0.0.1", "10.0.0.1")], [302] * 4 + [503])
    same("also by a socket of IPv6", [asks(address) for address in ("::ffff:10.0.1.1", "::ffff:10.0.1.2", "::ffff:10.0.1.1", "::ffff:10.0.1.1")],
         [302] * 3 + [503])
    same("and is the same reader there", asks("10.0.1.1"), 503)


def try_harvesters(stack):
    """If readers' replicas stand apart from harvesters, what no replica knows goes on to a harvester, with the date that is asked for."""
    replica, harvester = Played(stack, knows(ORIGINAL)), Played(stack, knows("http://fresh.example/"))
    port = nginx(stack, [replica.port], ("consistent; server 127.0.0.1:8082;", f"consistent; server 127.0.0.1:{harvester.port};"),
                 ("try_files /nothing @unknown;", "proxy_pass http://harvesters$request_uri;"), *QUICK)
    same("what a replica knows is asked of it alone", (ask(port, "/timegate/" + ORIGINAL)[0], len(harvester.heads)), (302, 0))
    odd = "http://nobody.example/..%2f..%2f..%2f..%2fx"
    targets = ["/timegate/http://nobody.example/", "/timemap/json/http://nobody.example/", "/timegate/" + odd]
    same("what it doesn't know is asked of a harvester", [ask(port, target)[0] for target in targets], [404] * 3)
    same("to the byte", harvester.targets(), targets)
    same("a page isn't", (ask(port, "/timemap/link/page/1/http://nobody.example/")[0], len(harvester.heads)), (404, 3))
    for target, date in (("/at/20010304050607/http://fresh.example/", DATETIME), ("/timegate/http://fresh.example/", "x")):
        status, fields, _ = ask(port, target, Accept_Datetime="x")
        same("what the harvester knows is shown", (status, fields["location"]), (302, MEMENTO))
        asked = [line.partition(": ")[2] for line in harvester.heads[-1] if line.lower().startswith("accept-datetime")]
        same(f"and asked for {date}", asked, [date])
    silent = nginx(stack, [replica.port], ("try_files /nothing @unknown;", "proxy_pass http://harvesters$request_uri;"),
                   ("consistent; server 127.0.0.1:8082;", f"consistent; server 127.0.0.1:{dead_ports(stack, 1)[0]};"), *QUICK)
    same("if no harvester can be asked it is what the replica said", ask(silent, "/timegate/http://nobody.example/")[::2], (404, "no memento\n"))


def try_http(stack):
    """http leads to https, to the byte, but for who makes the certificate; replies by https have a browser come by it from then on."""
    folder = pathlib.Path(stack.enter_context(tempfile.TemporaryDirectory()))
    folder.chmod(0o755)
    (folder / "acme/.well-known/acme-challenge").mkdir(parents=True)
    (folder / "acme/.well-known/acme-challenge/token").write_text("proof")
    text = re.search(r"(?ms)^    # ---- http ----\n(.*?^    \}\n)", (TOP / "deploy/nginx.conf").read_text())[1]
    (plain,) = free_ports(1)
    text = text.replace("listen 80;", f"listen 127.0.0.1:{plain};").replace("        listen [::]:80;\n", "").replace("/var/www/acme", f"{folder}/acme")
    gate = Played(stack, knows(ORIGINAL))
    front = nginx(stack, [gate.port], ("    # ---- what no gate knows ----\n", text + "    # ---- what no gate knows ----\n"), *QUICK)
    for target in ("/", "/at/20010304050607/http://a.example//x?y=%2f#", "/timegate/http://a.example/..%2f"):
        status, fields, _ = ask(plain, target, Host="agg.example:80")
        same("http leads to https", (status, fields["location"]), (301, "https://agg.example" + target))
    same("but for the word of who makes the certificate", ask(plain, "/.well-known/acme-challenge/token", Host="agg.example")[::2], (200, "proof"))
    same("and nothing beside it", ask(plain, "/.well-known/acme-challenge/other", Host="agg.example")[0], 404)
    for target in ("/", "/timegate/" + ORIGINAL, "/timegate/http://nobody.example/", "/status", "/nothing"):
        same(f"{target} is to be asked for by https from then on", ask(front, target)[1].get("strict-transport-security"), "max-age=31536000")


def try_whole(stack):
    """deploy/nginx.conf with all of its sockets and TLS, but for the ports: by IPv6 and HTTP/2 where this machine has them."""
    folder = pathlib.Path(stack.enter_context(tempfile.TemporaryDirectory()))
    subprocess.run(["openssl", "req", "-x509", "-newkey", "rsa:2048", "-nodes", "-days", "2", "-subj", "/CN=localhost", "-keyout", folder / "key.pem",
                    "-out", folder / "certificate.pem"], check=True, capture_output=True)
    gate, (secure, plain, unknown) = Played(stack, knows(ORIGINAL)), free_ports(3)
    text = (TOP / "deploy/nginx.conf").read_text()
    for old, new in (("/var/log/nginx/", f"{folder}/"), ("/run/nginx.pid", f"{folder}/nginx.pid"), ("127.0.0.1:8080;", f"127.0.0.1:{gate.port};"),
                     ("/etc/maplewrench/", f"{folder}/"), ("listen 443", f"listen 127.0.0.1:{secure}"), ("listen [::]:443", f"listen [::1]:{secure}"),
                     ("listen 80;", f"listen 127.0.0.1:{plain};"), ("listen [::]:80;", f"listen [::1]:{plain};"), ("127.0.0.1:8079", f"127.0.0.1:{unknown}"),
                     ("        server 127.0.0.1:8081;\n", ""), ("    sendfile on;\n", "".join(f"    {kind}_temp_path {folder}/{kind};\n" for kind in TEMPORARY))):
        text = text.replace(old, new)
    start_nginx(stack, folder, secure, text)
    for address in ("127.0.0.1", "[::1]"):
        for version, wanted in (("--http1.1", "1.1"), ("--http2", "2")):
            ran = subprocess.run(["curl", "-sk", version, "-o", "/dev/null", "-w", "%{http_version} %{http_code} %{redirect_url}",
                                  f"https://{address}:{secure}/timegate/{ORIGINAL}"], capture_output=True, text=True)
            same(f"by {address} and HTTP/{wanted} a TimeGate redirects", ran.stdout, f"{wanted} 302 {MEMENTO}")
        ran = subprocess.run(["curl", "-s", "-o", "/dev/null", "-w", "%{http_code}", f"http://{address}:{plain}/"], capture_output=True, text=True)
        same("and http leads to https", ran.stdout, "301")
    ran = subprocess.run(["curl", "-sk", "--http2", "--parallel", "--parallel-max", "16", "-o", "/dev/null", "-w", "%{http_code}\n",
                          f"https://127.0.0.1:{secure}/timemap/link/page/[1-100]/{ORIGINAL}"], capture_output=True, text=True)
    same("by HTTP/2 a reader gets a hundred pages, sixteen at a time", collections.Counter(ran.stdout.split()), {"200": 100})


def try_beside(stack):
    """By the line of docs/OPERATING.md what stands in deploy/nginx.conf is served beside another site of the same nginx, whose replies and
    log are as they were. Planted: what is said of logs left to the http block."""
    folder = pathlib.Path(stack.enter_context(tempfile.TemporaryDirectory()))
    (folder / "site").mkdir()
    folder.chmod(0o755)
    (folder / "site/index.html").write_text("another site")
    gate, (ours, theirs, unknown) = Played(stack, knows(ORIGINAL)), free_ports(3)
    text = re.sub(r"(?m)^ *ssl_.*\n", "", (TOP / "deploy/nginx.conf").read_text())
    for old, new in (("/var/log/nginx/", f"{folder}/"), ("127.0.0.1:8080;", f"127.0.0.1:{gate.port};"), ("        server 127.0.0.1:8081;\n", ""),
                     ("        listen [::]:443 ssl http2;\n", ""), ("listen 443 ssl http2", f"listen 127.0.0.1:{ours}"), ("127.0.0.1:8079", f"127.0.0.1:{unknown}")):
        text = text.replace(old, new)
    (folder / "example.conf").write_text(re.sub(r"(?ms)^    # ---- http ----\n.*?^    \}\n", "", text))
    lines = re.search(r"(?m)^    (sed -e '1,/From here.*\\\n.*)$", (TOP / "docs/OPERATING.md").read_text())[1]
    lines = lines.replace("/usr/share/doc/maplewrench/examples/nginx.conf", f"{folder}/example.conf").replace("/etc/nginx/conf.d", str(folder))
    subprocess.run(["bash", "-euc", lines], check=True)
    temporary = "".join(f"{kind}_temp_path {folder}/{kind}; " for kind in TEMPORARY)
    start_nginx(stack, folder, ours, f"pid {folder}/nginx.pid; error_log {folder}/main.log; events {{}}\nhttp {{ access_log {folder}/access.log; {temporary}\n"
                f"include {folder}/maplewrench.conf;\nserver {{ listen 127.0.0.1:{theirs}; root {folder}/site; }} }}\n")
    secret = "http://clinic.example//one?patient=Miller"
    same("beside another site readers are led on", [ask(ours, "/timegate/" + original)[0] for original in (ORIGINAL, secret)], [302, 404])
    same("to the byte", gate.targets()[-1], "/timegate/" + secret)
    same("and the other site is served", [ask(theirs, target)[::2] for target in ("/", "//index.html")], [(200, "another site")] * 2)
    # A line is written once its reply is on the way.
    comes_true(lambda: (folder / "access.log").read_text().count("\n") == 2)
    written = {file.name: file.read_text() for file in folder.iterdir() if file.suffix == ".log"}
    same("its log has its own requests, and no log has ours",
         ([line.split('"')[1] for line in written["access.log"].splitlines()], [name for name, text in written.items() if "Miller" in text]),
         (["GET / HTTP/1.1", "GET //index.html HTTP/1.1"], []))


def try_unready(stack, good):
    """A gate that knows nothing yet, and one that is down, beside one that knows something."""
    for what, other in (("knows nothing yet", Played(stack, knows_nothing_yet).port), ("is down", dead_ports(stack, 1)[0])):
        port = nginx(stack, [other, good.port], *QUICK)
        before = len(good.heads)
        same(f"beside a gate that {what} each reader is led on", {ask(port, "/timegate/" + ORIGINAL)[0] for _ in range(8)}, {302})
        same("an unknown original is 404", {ask(port, "/timegate/http://nobody.example/")[0] for _ in range(8)}, {404})
        same("for one request to the other gate", len(good.heads) - before, 16)
    several = [Played(stack, knows(ORIGINAL)) for _ in range(8)]
    port = nginx(stack, [gate.port for gate in several], *QUICK)
    ask(port, "/timegate/http://nobody.example/")
    same("of eight gates one is asked for an unknown original", sum(len(gate.heads) for gate in several), 1)


def try_nobody(stack, kind, ports):
    """If no gate serves, readers are told to come again."""
    port = nginx(stack, ports, *QUICK)
    for _ in range(6):
        status, fields, _ = ask(port, "/timegate/" + ORIGINAL, Origin="https://elsewhere.example")
        same(f"if {kind} it is 503, to be asked again",
             (status, fields.get("retry-after"), fields.get("cache-control"), fields.get("access-control-allow-origin")), (503, "5", "no-cache", "*"))


def try_descriptors():
    """nginx may have open what its connections need, even if it is started with less."""
    limits = []
    for master in children(os.getpid()):
        for worker in children(master):
            text = pathlib.Path(f"/proc/{worker}/limits").read_text()
            limits.append(int(re.search(r"^Max open files +(\d+)", text, re.M)[1]))
    connections = int(re.search(r"worker_connections (\d+);", (TOP / "deploy/nginx.conf").read_text())[1])
    holds(f"nginx may have {set(limits)} descriptors open, for {connections} connections to readers and to gates, each with a file",
          limits and min(limits) >= 3 * connections)


def try_peers(stack):
    """A reader on each gate for readers that reads nothing: a peer's pull comes at once."""
    long = reply("x" * 30_000_000)
    gates = [Played(stack, lambda _: long, in_turn=True) for _ in range(2)]    # as `serve` has them
    peers = Played(stack, knows(ORIGINAL))
    front = nginx(stack, [gate.port for gate in gates], ("127.0.0.1:8082", f"127.0.0.1:{peers.port}"))
    for gate in gates:
        slow = stack.enter_context(socket.create_connection(("127.0.0.1", gate.port), PATIENCE))
        slow.setsockopt(socket.SOL_SOCKET, socket.SO_RCVBUF, 4096)
        slow.sendall(f"GET /timegate/{ORIGINAL} HTTP/1.1\r\nHost: a\r\n\r\n".encode())
        slow.recv(100)
    same("beside a slow reader on each reader's gate a peer's pull comes at once", ask(front, "/delta")[0], 200)
    same("from the gate for peers", peers.targets(), ["/delta"])
    same(f"a part is given at the longest address, of {len(PART)} bytes", (ask(front, PART)[0], peers.targets()[1:]), (200, [PART]))


def serve_shards(stack, gates):
    """The entry of an nginx by shards.conf in front of shards with these gates, each of a replica with one gate for readers."""
    folder = pathlib.Path(stack.enter_context(tempfile.TemporaryDirectory()))
    entry = free_ports(len(gates) + 2, in_a_row=True)[0]
    places = {(shard, replica): ("127.0.0.1", [f"127.0.0.1:{port}", "127.0.0.1:1"])
              for shard, ports in enumerate(gates, 1) for replica, port in enumerate(ports, 1)}
    given = argparse.Namespace(shards=len(gates), replicas=len(gates[0]), gates=1, entry=entry)
    (folder / "shards.conf").write_text(sharding.nginx_text(given, places))
    nginx_of_shards(stack, folder / "shards.conf", entry)
    return entry


def try_shards(stack):
    odd = LONGEST[:-3] + "%41"    # asked of all shards
    gates = [Played(stack, knows(ORIGINAL, LONGEST, odd)) for _ in range(4)]
    entry = serve_shards(stack, [[gate.port for gate in gates[:2]], [gate.port for gate in gates[2:]]])
    for original, what in ((LONGEST, "plain"), (odd, "other")):
        status, fields, _ = ask(entry, "/timegate/" + original)
        holds(f"the longest redirect of a {what} spelling comes through the entry of shards: {status}", status == 302 and fields["location"] == MEMENTO)
    before = sum(len(gate.heads) for gate in gates)
    same("an unknown original is 404", ask(entry, "/timegate/http://nobody.example/")[0], 404)
    same("for one request to one gate", sum(len(gate.heads) for gate in gates) - before, 1)
    for kind, port in (("knows nothing yet", Played(stack, knows_nothing_yet).port), ("is down", dead_ports(stack, 1)[0])):
        entry = serve_shards(stack, [[port, gates[0].port], [port, gates[2].port]])
        same(f"if a replica of each shard {kind} an unknown original is 404", {ask(entry, "/timegate/http://nobody.example/")[0] for _ in range(6)}, {404})
        entry = serve_shards(stack, [[port], [port]])
        for original in ("http://nobody.example/", "http://nobody.example:81/", "http://nobody.example/"):
            status, fields, _ = ask(entry, "/timegate/" + original)
            same(f"if each shard {kind} {original} is 503, to be asked again", (status, fields.get("retry-after")), (503, "5"))


def main():
    needs("nginx", "openssl", "curl")
    most = resource.getrlimit(resource.RLIMIT_NOFILE)[1]
    resource.setrlimit(resource.RLIMIT_NOFILE, (1024, most))
    with contextlib.ExitStack() as stack:
        gates = [Played(stack, knows(ORIGINAL, LONGEST)) for _ in range(2)]
        peers = Played(stack, knows(ORIGINAL))
        front = nginx(stack, [gate.port for gate in gates], ("127.0.0.1:8082", f"127.0.0.1:{peers.port}"), *QUICK)
        try_descriptors()
        try_longest(front, gates)
        try_request(front, gates)
        try_fields(front)
        try_wishes(stack, gates[0])
        try_rate(stack, gates[0])
        try_unready(stack, gates[0])
        try_nobody(stack, "no gate knows anything yet", [Played(stack, knows_nothing_yet).port for _ in range(2)])
        try_nobody(stack, "the one gate knows nothing yet", [Played(stack, knows_nothing_yet).port])
        try_nobody(stack, "all gates are down", dead_ports(stack, 2))
        try_peers(stack)
        try_routes(stack)
        try_logs(stack)
        try_unknown(stack)
        try_networks(stack)
        try_harvesters(stack)
        try_http(stack)
        try_whole(stack)
        try_beside(stack)
        try_shards(stack)
    print("nginx passed on the longest replies, asked one gate for what nobody has, and said 503 if no gate serves")


if __name__ == "__main__":
    main()
