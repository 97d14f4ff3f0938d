#!/usr/bin/env python3
"""The running service, as an operator has it, on this machine alone: an https archive, the forward, `serve`, nginx, and the readers'
page in a browser.

    ./run --unproved && tests/service.py    needs nginx (nginx-light), openssl, chromium and chromedriver (chromium-driver) of Debian
    tests/service.py --pictures          also takes the pictures of the readers' page that stand in docs/pictures
"""
import concurrent.futures
import contextlib
import http.client
import http.server
import json
import pathlib
import re
import shutil
import ssl
import subprocess
import sys
import tempfile
import threading
import time
import urllib.request

from playing import ORIGINAL, PATIENCE, PROGRAM, TOP, dead_ports, free_ports, holds, needs, nginx_text, settings_text, start, wait_for

MANY = "http://many.example/"
SLOW = 300    # seconds that a page of 50,000 copies may take on a machine that is busy


def certificate(folder, name):
    subprocess.run(["openssl", "req", "-x509", "-newkey", "rsa:2048", "-nodes", "-days", "2", "-subj", f"/CN={name}",
                    "-addext", f"subjectAltName=DNS:{name}", "-keyout", folder / "key.pem", "-out", folder / "certificate.pem"],
                   check=True, capture_output=True)
    return folder / "certificate.pem", folder / "key.pem"


def nginx_settings(folder, front, gates, *changes):
    """deploy/nginx.conf with the places that it says are to be changed, changed for this machine; `changes` are further pairs of
    what stands there and what is to stand there."""
    text = nginx_text(
        (TOP / "deploy/nginx.conf").read_text(), folder, ("listen 443 ssl", f"listen 127.0.0.1:{front} ssl"),
        ("/etc/maplewrench/certificate.pem", f"{folder}/certificate.pem"), ("/etc/maplewrench/key.pem", f"{folder}/key.pem"),
        ("127.0.0.1:8080", f"127.0.0.1:{gates[0]}"), ("127.0.0.1:8081", f"127.0.0.1:{gates[1]}"),
        ("127.0.0.1:8082", f"127.0.0.1:{gates[2]}"), ("rate=20r/s", "rate=1000r/s"), ("rate=12r/m", "rate=60000r/m"),
        ("alias /etc/maplewrench/forward/", f"alias {folder}/forward/"), *changes)
    (folder / "nginx.conf").write_text(text)
    return folder / "nginx.conf"


def forwarded_settings(folder, gates, forward, archive, plain):
    """The settings that deploy/forward writes, beside those of its nginx, for an archive by https and one by http."""
    (folder / "common.toml").write_text(settings_text(
        base="https://aggregator.test", gates=[f"127.0.0.1:{gate}" for gate in gates], originals=[ORIGINAL, MANY], rounds=1_000_000, pause=3600,
        workers=2, patience=SLOW, formats=["json", "cdxj"],
        together=64))
    (folder / "archives.toml").write_text(f'''
[[archives]]
name = "archive.test"
title = "The Archive by https"
timemap = "https://localhost:{archive}/timemap/link/"
checked = true
[[archives]]
name = "plain.test"
timemap = "http://127.0.0.1:{plain}/timemap/link/"
checked = true
''')
    subprocess.run([TOP / "deploy/forward", folder / "archives.toml", folder / "forward", "--settings", folder / "common.toml",
                    "--port", str(forward), "--authorities", folder / "certificate.pem", "--log", "off", "--read", str(SLOW)],
                   check=True, stdout=subprocess.DEVNULL)
    return folder / "forward/settings.toml"


class Front:
    """Readers' requests, through nginx."""

    def __init__(self, port, certificate):
        self.port, self.context = port, ssl.create_default_context(cafile=certificate)
        self.context.check_hostname = False

    def get(self, path, source="127.0.0.1", **headers):
        connection = http.client.HTTPSConnection("127.0.0.1", self.port, context=self.context, timeout=PATIENCE, source_address=(source, 0))
        connection.putrequest("GET", path)
        for name, value in headers.items():
            connection.putheader(name.replace("_", "-"), value)
        connection.endheaders()
        reply = connection.getresponse()
        return reply.status, {name.lower(): value for name, value in reply.getheaders()}, reply.read().decode()


def try_service(front, serve, archive):
    lines = [serve.stdout.readline().split() for _ in range(4)]
    holds("serve says where its gates listen", [line[0] for line in lines[:3]] == ["gate"] * 3)
    holds("the round makes four harvests and publishes", lines[3] == "round 1 jobs 4 harvests 4 pulls 0 published".split())
    status, headers, _ = front.get("/timegate/" + ORIGINAL, Accept_Datetime="Sun, 04 Mar 2001 05:06:07 GMT")
    holds("through nginx a TimeGate redirects to the nearest copy", status == 302 and "/web/20010304050607/" in headers["location"])
    holds("and says on what it depends", headers.get("vary", "").lower() == "accept-datetime")
    status, headers, body = front.get("/timemap/link/" + ORIGINAL)
    copies = body.count('datetime="')
    holds("through nginx the TimeMap stands", status == 200 and headers["content-type"] == "application/link-format")
    holds("the walk over the https archive's three pages gave its forty copies", body.count(f"https://localhost:{archive}/web/") == 40)
    holds("beside those of the plain archive", copies == 80)
    status, headers, text = front.get("/timemap/json/" + ORIGINAL)
    holds("in JSON, too", (status, headers["content-type"]) == (200, "application/json") and len(json.loads(text)["mementos"]["list"]) == copies)
    status, headers, text = front.get("/timemap/cdxj/" + ORIGINAL)
    rows = [line for line in text.splitlines() if not line.startswith("!")]
    holds("and in CDXJ", (status, headers["content-type"]) == (200, "application/cdxj+ors") and len(rows) == copies)
    status, headers, _ = front.get("/at/20010304050607/" + ORIGINAL)
    holds("/at/ leads to the copy of that second", status == 302 and "/web/20010304050607/" in headers["location"])
    holds("/at/ with another text is 404", front.get("/at/2001/" + ORIGINAL)[0] == 404)
    peers = [front.get(path)[0] for path in ("/state", "/delta", "/delta/1/1", "/deltas", "/other")]
    holds("/state and /delta stand", peers == [200, 200, 200, 404, 404])
    others = [front.get(path, source="127.0.0.2")[0] for path in ("/state", "/delta", "/delta/1/1", "/timemap/link/" + ORIGINAL)]
    holds("for peers alone: from another address they are refused, and what readers ask for isn't", others == [403, 403, 403, 200])


def long_list(front):
    """How many copies and pages the long list has: the archives' 100,000 and 40, but for those of one second."""
    status, headers, index = front.get("/timemap/link/" + MANY)
    pages = index.count('rel="timemap"')
    holds("the TimeMap of a long list is an index", (status, headers["content-type"]) == (200, "application/link-format") and 'datetime="' not in index)
    last = front.get(f"/timemap/link/page/{pages}/{MANY}")[2].count('datetime="')
    copies = 1000 * (pages - 1) + last
    holds(f"of {pages} pages, with {copies:,} copies", 99_000 < copies <= 100_040 and 0 < last <= 1000)
    return copies, pages


class Browser:
    """Headless Chromium by WebDriver."""

    def __init__(self, port, **more):
        self.base = f"http://127.0.0.1:{port}"
        options = {"binary": shutil.which("chromium"), "args": ["--headless=new", "--no-sandbox", "--ignore-certificate-errors",
                                                                 "--disable-gpu", "--window-size=1000,900", "--disable-dev-shm-usage"], **more}
        self.base += "/session/" + self.call("POST", "/session", {"capabilities": {"alwaysMatch": {
            "browserName": "chrome", "acceptInsecureCerts": True, "goog:chromeOptions": options}}})["sessionId"]

    def call(self, method, path, body=None):
        request = urllib.request.Request(self.base + path, method=method, data=None if body is None else json.dumps(body).encode(),
                                         headers={"Content-Type": "application/json"})
        with urllib.request.urlopen(request, timeout=60) as reply:
            return json.load(reply)["value"]

    def run(self, script, *arguments):
        return self.call("POST", "/execute/sync", {"script": script, "args": list(arguments)})

    def keys(self, text):
        actions = [{"type": kind, "value": key} for key in text for kind in ("keyDown", "keyUp")]
        self.call("POST", "/actions", {"actions": [{"type": "key", "id": "keyboard", "actions": actions}]})

    def keys_together(self, *keys):
        actions = [{"type": "keyDown", "value": key} for key in keys] + [{"type": "keyUp", "value": key} for key in reversed(keys)]
        self.call("POST", "/actions", {"actions": [{"type": "key", "id": "keyboard", "actions": actions}]})

    def element(self, selector, of):
        """What the browser tells a screen reader of an element: its `computedrole` or its `computedlabel`."""
        [element] = self.call("POST", "/element", {"using": "css selector", "value": selector}).values()
        return self.call("GET", f"/element/{element}/{of}")

    def wait(self, script, seconds=60):
        for _ in range(seconds * 20):
            answer = self.run(script)
            if answer:
                return answer
            time.sleep(0.05)
        raise SystemExit(f"the page never came to: {script}")

    def picture(self, path):
        import base64
        path.write_bytes(base64.b64decode(self.call("GET", "/screenshot")))


STATUS = "document.getElementById('status').textContent"
# What is said once no page is to come any more.
DONE = f"return document.getElementById('coming').hidden && /in \\d/.test({STATUS}) && {STATUS}"
TAB, ENTER, DOWN, HOME, END = "\ue004", "\ue007", "\ue015", "\ue011", "\ue010"


def try_alone(browser, front):
    """The page before anything is asked, from its server and from a file."""
    status, headers, text = front.get("/")
    holds("the page is served for some minutes", (status, headers["cache-control"]) == (200, "public, max-age=300"))
    holds("and in no frame", headers["content-security-policy"] == "frame-ancestors 'none'")
    holds("its policy has no exceptions", "unsafe" not in text and re.findall(r"(\S+)-src 'self';", text) == ["connect", "style", "script"])
    for address in (f"https://127.0.0.1:{front.port}/", (TOP / "web/index.html").as_uri()):
        browser.call("POST", "/url", {"url": address})
        browser.wait("return document.activeElement.id == 'address'")
        said = browser.run("const about = document.getElementById('about'); return about.clientHeight && about.textContent")
        holds(f"opened alone as {address.partition(':')[0]} it says what it is", said and "Type the address of a web page" in said)
    holds("and from a file that it has no aggregator", "no aggregator to ask" in browser.run(f"return {STATUS}"))
    browser.keys(ORIGINAL + ENTER)
    holds("which it says when it is asked, too", "can’t be reached" in browser.wait(f"return {STATUS}.startsWith('The') && {STATUS}"))


def try_policy(browser):
    browser.run("""for (const [kind, text] of [['script', 'window.planted = true'], ['style', '#address { display: none }']]) {
            const element = document.createElement(kind);
            element.textContent = text;
            document.head.append(element);
        }""")
    planted = browser.run("return [window.planted, getComputedStyle(document.getElementById('address')).display == 'none']")
    holds("a script or a style that isn't the page's own is not used", planted == [None, False])
    asked = browser.run("""return new Promise(resolve => {
            const element = document.createElement('script');
            element.src = '/timemap/link/' + arguments[0];
            element.onload = () => resolve('run');
            element.onerror = () => resolve('not run');
            document.head.append(element);
        });""", ORIGINAL)
    holds("nor is a list of copies, as a script", asked == "not run")


# What can be used on the page: its role, and the name that a screen reader speaks.
NAMED = [
    ("#address", "textbox", "Address"), ("#ask button", "button", "Show copies"), ("#slider", "slider", "Datetime on the timeline"),
    ("#legend", "list", "Archives"), ("#go button", "button", "Go to the nearest copy"), ("#list", "grid", "Copies by datetime"),
    ("#found", "region", "Copies"),
]
ACTIVE = "document.getElementById(document.getElementById('list').getAttribute('aria-activedescendant'))"


def try_names(browser):
    for selector, role, name in NAMED:
        told = browser.element(selector, "computedrole"), browser.element(selector, "computedlabel")
        holds(f"{selector} is a {role} named {name}: {told}", told == (role, name))
    holds("the datetime has a name", browser.element("#when", "computedlabel") == "Date and time (UTC)")
    row = browser.run(f"return [{ACTIVE}.id, {ACTIVE}.getAttribute('aria-rowindex'), document.getElementById('list').getAttribute('aria-rowcount')]")
    holds(f"the list's active row is the last of all: {row}", row[1] == row[2])
    name = browser.element("#" + row[0], "computedlabel")
    holds(f"and is told by its datetime and its archive: {name}",
          re.fullmatch(r"\d{1,2} [A-Z][a-z]{2} \d{4}, \d\d:\d\d (The Archive by https|127\.0\.0\.1:\d+)", name.strip().replace("\xa0", " ")))
    roles = [browser.element(f"#{row[0]} {inner}", "computedrole") for inner in ("", "span", "a")]
    holds("a row has cells, and the link stands in one", roles == ["row", "gridcell", "link"])
    browser.run("document.getElementById('list').scrollTop = 0")
    browser.wait("return document.getElementById('row0')")
    holds("it stays in the page where it is out of sight", browser.run(f"return {ACTIVE}.id") == row[0])


def try_page(browser, front, archive, plain, pictures):
    browser.call("POST", "/url", {"url": f"https://127.0.0.1:{front}/"})
    browser.wait("return document.activeElement.id == 'address'")
    browser.keys("a.example/" + ENTER)
    browser.wait("return document.querySelectorAll('.row').length > 3")
    said = browser.run(f"return {STATUS}")
    holds(f"the page shows the copies of both archives: {said}", re.search(r"^\d+ copies in 2 archives, 4\xa0Mar\xa02001 to", said))
    holds("as bars of a timeline", browser.run("return document.querySelectorAll('#timeline rect').length > 8"))
    legend = browser.run("return Array.from(document.querySelectorAll('#legend li'), item => [item.textContent, item.title])")
    holds(f"with a legend, which has archives' names where they have one: {legend}", sorted(legend) == sorted(
        [["The Archive by https", f"localhost:{archive}"], [f"127.0.0.1:{plain}", f"127.0.0.1:{plain}"]]))
    if pictures:
        browser.picture(pictures / "readers-page.png")
    try_policy(browser)
    try_names(browser)
    browser.run("document.getElementById('list').focus()")
    browser.keys(HOME)
    holds("Home chooses the first copy", browser.run("return document.getElementById('when').value").startswith("2001-03-04T05:06:07"))
    browser.keys(DOWN)
    browser.keys(DOWN)
    third = browser.run("return document.querySelector('[aria-selected=true] time').dateTime")
    holds("the arrows go on from there", third > "2001-03-04")
    browser.run("document.getElementById('when').value = '2001-03-05T00:00:00'; document.getElementById('when').focus()")
    browser.keys(ENTER)
    where = browser.wait("return location.href.includes('/web/') && location.href")
    holds("Enter leads through the TimeGate to the nearest copy", "/web/20010304050607/" in where)
    browser.call("POST", "/window/rect", {"width": 360, "height": 740})
    browser.call("POST", "/url", {"url": f"https://127.0.0.1:{front}/#{ORIGINAL}"})
    browser.wait("return document.querySelectorAll('.row').length > 3")
    holds("on a phone's width nothing sticks out", browser.run("return document.documentElement.scrollWidth <= innerWidth"))
    rows = browser.run("return Array.from(document.querySelectorAll('.row'), row => [row.innerText, row.scrollWidth <= row.clientWidth])")
    holds(f"rows differ there, and are seen whole: {rows[:2]}", len({text for text, _ in rows}) == len(rows) and all(is_whole for _, is_whole in rows))
    holds("and no keyboard is opened over what a link shows", browser.run("return document.activeElement == document.body"))
    if pictures:
        browser.picture(pictures / "readers-page-phone.png")
    hosts = browser.run("return arguments[0].map(hostOf)", ["http://evil.example\\@web.archive.org/", "http://a:b@web.archive.org:81/x", "HTTPS://Web.Archive.org",
                                                            "javascript:alert(1)//http://a.example/", "ftp://a.example/", "x"])
    holds(f"a copy's host is the one that a link leads to: {hosts}", hosts == ["evil.example", "web.archive.org:81", "web.archive.org", "", "", ""])
    browser.call("POST", "/url", {"url": f"https://127.0.0.1:{front}/#http://nobody.example/"})
    holds("an address without copies is told", "No archive has a copy" in browser.wait(
        f"return {STATUS}.startsWith('No') && {STATUS}"))
    holds("with its other spellings", browser.run(SPELLINGS) == ["http://www.nobody.example/", "https://nobody.example/", "https://www.nobody.example/"])
    spelled = browser.run("return arguments[0].map(spellingsOf)", ["https://WWW.a.example:81/x?y=http://b/", "http://127.0.0.1/", "http://a", "http://[::1]/", "x"])
    holds(f"of an address that is no name there is the other scheme alone: {spelled}", [sorted(each) for each in spelled] == [
        ["http://WWW.a.example:81/x?y=http://b/", "http://a.example:81/x?y=http://b/", "https://a.example:81/x?y=http://b/"],
        ["https://127.0.0.1/"], ["https://a"], ["https://[::1]/"], []])


def try_links(browser, front):
    """A link to the copy nearest to a datetime, which is copied, and pasted into the address."""
    browser.call("POST", "/window/rect", {"width": 360, "height": 740})
    browser.call("POST", "/url", {"url": f"https://127.0.0.1:{front}/#{ORIGINAL}"})
    browser.wait("return document.querySelectorAll('.row').length > 3")
    browser.run("document.getElementById('when').value = '2001-03-05T00:00:00'; document.getElementById('copy').focus()")
    browser.keys(ENTER)
    wanted = f"https://127.0.0.1:{front}/at/20010305000000/{ORIGINAL}"
    said = browser.wait("return document.getElementById('copied').textContent")
    link = browser.run("return document.getElementById('linked').href")
    holds(f"a link to a date is copied: {said}", link == wanted and said == "Copied: " + wanted)
    browser.run("document.getElementById('address').value = ''; document.getElementById('address').focus()")
    browser.keys_together("\ue009", "v")
    holds("and can be pasted", browser.wait("return document.getElementById('address').value") == wanted)
    browser.run("navigator.clipboard.writeText = () => Promise.reject(new Error('no')); document.getElementById('copy').click()")
    said = browser.wait("const said = document.getElementById('copied').textContent; return !said.startsWith('Copied') && said")
    holds(f"where it can't be copied it is shown: {said}", said == "The link: " + wanted)
    holds("and on a phone's width nothing sticks out", browser.run("return document.documentElement.scrollWidth <= innerWidth"))
    browser.run("document.getElementById('linked').click()")
    where = browser.wait("return location.href.includes('/web/') && location.href")
    holds("it leads through the TimeGate to the nearest copy", "/web/20010304050607/" in where)
    browser.call("POST", "/window/rect", {"width": 1000, "height": 900})


SOON, NEVER, NEVER_WWW = "http://soon.example/", "http://never.example/", "https://www.never.example/"
SPELLINGS = "return Array.from(document.querySelectorAll('#others:not([hidden]) a'), link => link.textContent).sort()"


class WishingGate:
    """A gate that is played: for each address the hosts of the copies that it knows, or None if it is broken, which the test
    changes; and what it was asked for."""

    def __init__(self, stack):
        self.asked, self.known = [], {NEVER_WWW: ["one"]}
        gate = self

        class Handler(http.server.BaseHTTPRequestHandler):
            def do_GET(self):
                status, body = gate.answer(self.path)
                self.send_response(status)
                self.end_headers()
                self.wfile.write(body.encode())

            def log_message(self, *_):
                pass

        server = http.server.ThreadingHTTPServer(("127.0.0.1", 0), Handler)
        self.port = server.server_address[1]
        threading.Thread(target=server.serve_forever, daemon=True).start()
        stack.callback(server.shutdown)

    def answer(self, path):
        original = path.removeprefix("/timemap/link/")
        self.asked.append(original)
        hosts = self.known.get(original, [])
        if hosts is None:
            return 500, "broken\n"
        links = [f'<https://{host}.example/{number}>; rel="memento"; datetime="Sun, {number:02} Mar 2001 05:06:07 GMT"'
                 for number, host in enumerate(hosts, 1)]
        return (200, ",\n".join(links)) if links else (404, "no memento\n")

    def count(self, original):
        return self.asked.count(original)


def wishing_front(stack, folder):
    """An nginx that says after two seconds to ask again, before a gate that is played."""
    own, gate, (front,) = folder / "wishing", WishingGate(stack), free_ports(1)
    (own / "forward").mkdir(parents=True)
    for file in ("certificate.pem", "key.pem"):
        shutil.copy(folder / file, own)
    (own / "forward/archives.json").write_text('{"one.example": "The First Archive", "two.example": 2}')
    conf = nginx_settings(own, front, (gate.port,) * 3, ('$wish_seconds { default 3; }', '$wish_seconds { default 2; }'))
    start(stack, "nginx", "-c", conf, "-p", own, "-g", "daemon off;")
    wait_for(front)
    return front, gate


def try_wishes(stack, browser, folder):
    """Where archives are asked for what a reader asks for, the page asks again, and shows copies as they come."""
    front, gate = wishing_front(stack, folder)
    ask = lambda original: browser.call("POST", "/url", {"url": f"https://127.0.0.1:{front}/#{original}"})
    coming = "return !document.getElementById('coming').hidden && document.getElementById('count').textContent"
    ask(SOON)
    said = browser.wait(f"return {STATUS}.includes('being asked') && {STATUS}")
    holds(f"that archives are being asked is said: {said}", SOON in said)
    told = browser.wait(coming)
    holds(f"and when this page asks again: {told}", re.fullmatch(r"This page asks again in \d+ s \(\d of 7 times\)\.", told))
    gate.known[SOON] = ["one"]
    said = browser.wait(f"return {STATUS}.startsWith('1 copy') && {STATUS}")
    told = browser.wait(coming)
    holds(f"the first copy is shown while others are waited for: {said}; {told}", told.startswith("More may come."))
    browser.run("document.getElementById('list').focus()")
    browser.keys(HOME)
    gate.known[SOON] = ["one", "two", "two"]
    said = browser.wait(f"return {STATUS}.startsWith('3 copies in 2 archives') && {STATUS}")
    holds(f"and then the others: {said}", gate.count(SOON) >= 3)
    holds("what was chosen stays chosen", browser.run("return [chosen, shown.uris[chosen]]") == [0, "https://one.example/1"])
    legend = browser.run("return Array.from(document.querySelectorAll('#legend li'), item => item.textContent)")
    holds(f"an archive has the name that the server knows, or its host: {legend}", legend == ["The First Archive", "two.example"])
    browser.run("document.getElementById('stop').click()")
    asked = gate.count(SOON)
    holds("stopped, it shows what came", browser.run(f"return document.getElementById('coming').hidden && {STATUS}") == said)
    ask(NEVER)
    browser.wait(coming)
    browser.run("document.getElementById('stop').click()")
    said = browser.wait(f"return document.getElementById('coming').hidden && {STATUS}")
    holds(f"stopped before anything came, it says so: {said}", said.startswith("No copy of") and "you stopped" in said)
    browser.run("document.querySelector('#ask button').click()")
    browser.wait(coming)
    gate.known[NEVER] = None
    said = browser.wait(f"return document.getElementById('coming').hidden && {STATUS}")
    holds(f"where the service breaks meanwhile, that is said: {said}", "status 500" in said and browser.run(SPELLINGS) == [])
    gate.known[NEVER], before = [], gate.count(NEVER)
    browser.run("document.querySelector('#ask button').click()")
    browser.wait(coming)
    said = browser.wait(f"return document.getElementById('coming').hidden && {STATUS}", 120)
    holds(f"where nothing comes it ends, and says so: {said}", said.startswith("No copy of") and gate.count(NEVER) - before == 1 + 7)
    holds("nor does it ask for what was asked for before", gate.count(SOON) == asked)
    holds("and it names the other spellings", browser.run(SPELLINGS) == ["http://www.never.example/", "https://never.example/", NEVER_WWW])
    browser.run("Array.from(document.querySelectorAll('#others a')).at(-1).focus()")
    browser.keys(ENTER)
    said = browser.wait(f"return {STATUS}.startsWith('1 copy') && {STATUS}")
    holds(f"of which each can be asked for: {said}", browser.run("return document.getElementById('address').value") == NEVER_WWW)
    holds("and then none is named any more", browser.run(SPELLINGS) == [])


def fetched(browser, address, options="{}"):
    """What a script of the page that is open gets: the reply's type, status, fields and text, or the fault."""
    browser.run("""window.came = null;
        fetch(arguments[0], eval('(' + arguments[1] + ')')).then(async reply => {
            const fields = Object.fromEntries(['link', 'location', 'vary', 'content-type', 'retry-after', 'cache-control'].map(name => [name, reply.headers.get(name)]));
            window.came = { type: reply.type, status: reply.status, url: reply.url, fields, text: await reply.text() };
        }).catch(fault => { window.came = { fault: String(fault) }; });""", address, options)
    return browser.wait("return window.came")


def try_scripts(browser, front, elsewhere):
    """What a script of another site's page may read of the aggregator's replies."""
    base = f"https://127.0.0.1:{front}"
    browser.call("POST", "/url", {"url": f"http://127.0.0.1:{elsewhere}/web/20010304050607/http://a.example/"})
    dated = "{ headers: { 'Accept-Datetime': 'Sun, 04 Mar 2001 05:06:07 GMT' }"
    came = fetched(browser, f"{base}/timemap/link/{ORIGINAL}")
    holds("a script of another site reads a TimeMap", came.get("status") == 200 and came["type"] == "cors" and 'rel="timegate"' in came["text"])
    holds("and its type", came["fields"]["content-type"] == "application/link-format")
    index = fetched(browser, f"{base}/timemap/link/{MANY}")["text"]
    came = fetched(browser, f"{base}/timemap/link/page/1/{MANY}")
    holds("an index, and a page of it", 'rel="timemap"' in index and came.get("status") == 200 and came["text"].count('datetime="') == 1000)
    came = fetched(browser, f"{base}/timemap/json/{ORIGINAL}")
    holds("and a TimeMap in JSON", came.get("status") == 200 and came["type"] == "cors" and json.loads(came["text"])["original_uri"] == ORIGINAL)
    came = fetched(browser, f"{base}/timegate/{ORIGINAL}", dated + ", redirect: 'manual' }")
    holds(f"a TimeGate at a date, where it leads elsewhere: {came}", came.get("type") == "opaqueredirect")
    came = fetched(browser, f"{base}/timegate/{ORIGINAL}", dated + " }")
    holds(f"and followed to the copy: {came.get('url', came)}", came.get("status") == 200 and "/web/20010304050607/" in came["url"] and "the archived copy" in came["text"])
    came = fetched(browser, f"{base}/timegate/http://nobody.example/", dated + " }")
    holds(f"an error: {came}", (came.get("status"), came.get("text")) == (404, "no memento\n") and came["fields"]["vary"])
    came = [fetched(browser, f"{base}/timegate/{ORIGINAL}", "{ method: 'DELETE' }"), fetched(browser, f"{base}/delta")]
    holds("and neither another method nor what is for peers", all("fault" in each for each in came))


SAID = "document.getElementById('state').textContent"
ROWS = "document.querySelectorAll('#archives tbody tr').length"


def watched_settings(folder, gate, port, plain, dead):
    """Settings with a status, and 100 archives of which the last ten are dead."""
    archives = [(f"archive{k:02}.test", f"http://127.0.0.1:{plain if k < 90 else dead}") for k in range(100)]
    (folder / "watched.toml").write_text(settings_text(
        base="https://aggregator.test", gates=[f"127.0.0.1:{gate}"], originals=[ORIGINAL, "http://b.example/", "http://c.example/"],
        peers=[f"http://127.0.0.1:{dead}"], archives=archives, rounds=1_000_000, pause=3600, workers=8, tolerance=2, dormant=600,
        status=f"127.0.0.1:{port}"))
    return folder / "watched.toml"


def try_status(stack, browser, folder, front, port, plain):
    """The operators' page, of a service with 100 archives of which some are dead."""
    [gate], [dead] = free_ports(1), dead_ports(stack, 1)
    for path in ("/status", "/metrics"):
        holds(f"a stranger sees no {path}", front.get(path, source="127.0.0.2")[0] == 403)
    status, headers, text = front.get("/status")
    holds("the operators' page is served, in no frame", (status, headers["content-security-policy"]) == (200, "frame-ancestors 'none'"))
    holds("its policy has no exceptions", "unsafe" not in text and re.findall(r"(\S+)-src 'self';", text) == ["connect", "style", "script"])
    browser.call("POST", "/url", {"url": f"https://127.0.0.1:{front.port}/status"})
    holds("without a service it says that no numbers come, and what to set", "set status" in browser.wait(f"return {SAID}.startsWith('No numbers come') && {SAID}"))
    service = start(stack, PROGRAM, "serve", watched_settings(folder, gate, port, plain, dead), stdout=subprocess.PIPE, text=True)
    for _ in range(2):
        service.stdout.readline()
    browser.wait(f"return {ROWS} == 100")
    while not service.stdout.readline().startswith("round "):
        pass
    browser.wait("return document.querySelectorAll('tr.dormant').length == 10")
    holds("there is a row for each archive, and those that are dead are told as dormant", browser.run(f"return {ROWS}") == 100)
    row = browser.run("return Array.from(document.querySelectorAll('tr.dormant td'), cell => cell.textContent).slice(0, 9)")
    holds(f"with why and until when: {row}", row[:2] == ["archive90.test", "2"] and row[6] == "no answer 2" and re.fullmatch(r"\d\d:\d\d:\d\d", row[8]))
    said = browser.wait("return document.getElementById('round').textContent.startsWith('290 of 300') && document.getElementById('round').textContent")
    holds(f"the round's progress: {said}", "1 rounds were made" in said)
    holds(f"that readers are answered: {browser.run('return ' + SAID)}", browser.run(f"return {SAID}.startsWith('Readers are answered. The last publish was ')"))
    peers = browser.run("return Array.from(document.querySelectorAll('#peers tbody td'), cell => cell.textContent)")
    holds(f"a peer that never gave a delta: {peers}", peers[0] == f"http://127.0.0.1:{dead}" and peers[3] != "0" and peers[5] == "never")
    holds("the plots have a point for each answer", browser.wait(
        "return ['memory', 'mementos'].every(id => document.querySelector('#' + id + ' polyline').getAttribute('points').split(' ').length > 2)"))
    try_status_policy(browser)
    holds("the page isn't wider than a phone but for its tables", browser.run(
        "return document.documentElement.scrollWidth <= innerWidth"))
    service.kill()
    holds("once the service is gone it says so, and what stands there stays",
          browser.wait(f"return {SAID}.startsWith('No numbers come')") and browser.run(f"return {ROWS}") == 100)


def try_status_policy(browser):
    browser.run("""const element = document.createElement('script');
            element.textContent = 'window.planted = true';
            document.head.append(element);""")
    holds("a script that isn't this page's own is not used", browser.run("return window.planted") is None)


def count_of(said):
    return int(said.split()[0].replace(",", ""))


def ask_many(browser, front, spoil=""):
    """Asks a page that has just been opened for the long list; `spoil` is run before, so that no page comes earlier than that."""
    browser.call("POST", "/url", {"url": "about:blank"})
    browser.call("POST", "/url", {"url": f"https://127.0.0.1:{front}/"})
    browser.run("""window.longest = 0; window.real = window.fetch; let last = performance.now();
        const tick = now => { window.longest = Math.max(window.longest, now - last); last = now; requestAnimationFrame(tick); };
        requestAnimationFrame(tick);""" + spoil +
        "document.getElementById('address').value = arguments[0]; document.querySelector('#ask button').click();", MANY)


def all_said(browser, stood):
    """What is said once no page is to come any more. Notes for how long the page stood still since it was last asked for."""
    said = browser.wait(DONE, 120)
    stood.append(browser.run("const longest = window.longest; window.longest = 0; return longest"))
    return said


def try_many(browser, front, copies, stood):
    """A long list is shown from its beginning while it comes."""
    browser.call("POST", "/window/rect", {"width": 1000, "height": 900})
    ask_many(browser, front)
    first = browser.wait(f"return /in \\d/.test({STATUS}) && {STATUS}", 60)
    came, told = browser.run("return [!document.getElementById('coming').hidden, document.getElementById('count').textContent]")
    holds(f"the page shows the first copies while others come: {first}; {told}", came and count_of(first) < copies)
    began = browser.run("return shown.uris.slice(0, 1000)")
    browser.run("document.getElementById('list').focus()")
    browser.keys(HOME)
    said = all_said(browser, stood)
    holds(f"and in the end all: {said}", count_of(said) == copies)
    holds("in order, those that came first at the beginning",
          browser.run("return shown.times.every((time, k) => !k || shown.times[k - 1] <= time) && shown.uris.slice(0, 1000)") == began)
    holds("what was chosen meanwhile stays chosen and in sight", browser.run("return [chosen, document.getElementById('list').scrollTop]") == [0, 0])
    browser.run("document.getElementById('list').scrollTop = 1e6")
    holds("with few rows in the page", browser.run("return document.querySelectorAll('.row').length < 60"))


def try_lost_page(browser, front, copies, stood):
    """One page that fails is told, the others are shown, and it can be asked for again."""
    ask_many(browser, front, "window.fetch = (path, more) => /\\/page\\/7\\//.test(path) ? "
                             "Promise.resolve(new Response('', { status: 500 })) : window.real(path, more);")
    some = count_of(all_said(browser, stood))
    told = browser.run("return !document.getElementById('missing').hidden && document.getElementById('faults').textContent")
    holds(f"a page that fails is told, and the others are shown: {told}", some == copies - 1000 and "page 7 (status 500)" in told)
    browser.run("pick(6500, shown.times[6500])")
    chosen = browser.run("return shown.uris[chosen]")
    browser.run("window.fetch = window.real; document.getElementById('again').click()")
    browser.wait("return document.getElementById('coming').hidden && document.getElementById('missing').hidden", 60)
    holds("asked for again it comes", count_of(browser.run(f"return {STATUS}")) == copies)
    holds("and its copies stand among the others in order", browser.run("return shown.times.every((time, k) => !k || shown.times[k - 1] <= time)"))
    holds("what was chosen stays chosen", browser.run("return [chosen, shown.uris[chosen]]") == [7500, chosen])


def try_other_time(browser, copies, stood):
    """A page that isn't of its index's time, as after a round between the two."""
    browser.run("""window.fetch = async (path, more) => {
            const reply = await window.real(path, more);
            if (!reply.ok || !/\\/page\\/5\\//.test(path)) return reply;
            return new Response((await reply.text()).replace(/from="[^"]*"/, 'from="Sat, 01 Jan 2000 00:00:00 GMT"'));
        };
        document.querySelector('#ask button').click();""")
    some = count_of(all_said(browser, stood))
    told = browser.run("return document.getElementById('faults').textContent")
    holds(f"a page of another time than its index is told: {told}", some == copies - 1000 and "page 5 (the list has changed" in told)
    browser.run("window.fetch = window.real; document.getElementById('again').click()")
    whole = count_of(all_said(browser, stood))
    holds("asked for again all comes anew", whole == copies and browser.run("return document.getElementById('missing').hidden"))


def try_stop(browser, copies):
    browser.run("window.fetch = (path, more) => /\\/page\\/9\\//.test(path) ? new Promise(() => {}) : window.real(path, more);"
                "document.querySelector('#ask button').click()")
    browser.wait(f"return {STATUS}.startsWith('8,000 copies')", 60)
    browser.run("document.getElementById('stop').click()")
    told = browser.run("return document.getElementById('faults').textContent")
    kept = browser.run("return document.getElementById('coming').hidden && shown.times.length")
    holds(f"loading can be stopped, and what came stays: {told}", "since you stopped" in told and 8000 <= kept < copies)


def try_rate(front, pages):
    """nginx's own limits let one reader load a long list at once, by as many connections as a browser has."""
    def statuses(count, page, source):
        with concurrent.futures.ThreadPoolExecutor(6) as connections:
            paths = [page.format(1 + k % pages) for k in range(count)]
            return list(connections.map(lambda path: front.get(path, source=source)[0], paths))

    began = time.monotonic()
    came = statuses(pages, f"/timemap/link/page/{{}}/{MANY}", "127.0.0.3")
    holds(f"one address gets {pages} pages without a pause, in {time.monotonic() - began:.1f} s", came == [200] * pages)
    short = "/timemap/link/page/{}/http://nobody.example/"
    began = time.monotonic()
    came = statuses(130, short, "127.0.0.4")
    holds("130 short replies at once too", came == [404] * 130)
    came += statuses(800, short, "127.0.0.4")
    seconds = time.monotonic() - began
    holds(f"of 930 in {seconds:.1f} s {came.count(503)} are refused, so that no more than 131 and 50 a second are served",
          set(came) <= {404, 503} and came.count(404) <= 131 + 50 * seconds)
    holds("which another address doesn't feel", front.get(f"/timemap/link/page/1/{MANY}", source="127.0.0.3")[0] == 200)


def main():
    needs("nginx", "openssl", "chromium", "chromedriver")
    pictures = TOP / "docs/pictures" if "--pictures" in sys.argv else None
    with contextlib.ExitStack() as stack:
        folder = pathlib.Path(stack.enter_context(tempfile.TemporaryDirectory()))
        folder.chmod(0o755)    # nginx keeps long replies for slow readers here, as a user of its own
        front, forward, first, second, third, archive, plain, driver, status = free_ports(9)
        cert, key = certificate(folder, "localhost")
        start(stack, TOP / "deploy/archive", archive, "--pages", 3, "--tls", cert, key, "--name", f"localhost:{archive}", stdout=subprocess.DEVNULL)
        start(stack, TOP / "deploy/archive", plain, "--many", 100000, "--pages", 2, stdout=subprocess.DEVNULL)
        settings = forwarded_settings(folder, (first, second, third), forward, archive, plain)
        # The gates of this service take no wishes.
        conf = nginx_settings(folder, front, (first, second, third), ("127.0.0.1:9090", f"127.0.0.1:{status}"),
                              ('$wish_seconds { default 3; }', '$wish_seconds { default ""; }'))
        for words in (("-c", conf, "-p", folder), ("-c", folder / "forward/nginx.conf", "-p", f"{folder}/forward/", "-e", "stderr")):
            subprocess.run(["nginx", *words, "-t"], check=True, capture_output=True)
            start(stack, "nginx", *words, "-g", "daemon off;")
        holds("nginx takes both configurations, of readers and of the forward", True)
        for port in (archive, plain, forward, front):
            wait_for(port)
        serve = start(stack, PROGRAM, "serve", settings, stdout=subprocess.PIPE, text=True)
        try_service(Front(front, cert), serve, archive)
        start(stack, "chromedriver", f"--port={driver}", stdout=subprocess.DEVNULL)
        wait_for(driver)
        readers = Front(front, cert)
        copies, pages = long_list(readers)
        try_rate(readers, pages)
        browser = Browser(driver)
        stack.callback(lambda: browser.call("DELETE", ""))
        try_alone(browser, readers)
        try_page(browser, front, archive, plain, pictures)
        try_links(browser, front)
        try_wishes(stack, browser, folder)
        try_scripts(browser, front, plain)
        try_status(stack, browser, folder, readers, status, plain)
        stood = []
        try_many(browser, front, copies, stood)
        try_lost_page(browser, front, copies, stood)
        try_other_time(browser, copies, stood)
        try_stop(browser, copies)
        longest = min(stood)
        holds(f"the best of {len(stood)} times the page never stood still for half a second ({longest:.0f} ms)", longest < 500)
    print("all of deploy/ holds")


if __name__ == "__main__":
    main()
