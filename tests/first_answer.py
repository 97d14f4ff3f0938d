#!/usr/bin/env python3
"""Who asks once has the answer: curl, Python's requests and the readers' page in Chromium each ask nginx, by deploy/nginx.conf, for an
original that nobody named before. The service holds the question (`wait`) while nine archives are asked, and the reply is a
redirect. One reader's ten thousand made-up addresses don't keep another reader's first question from being answered.

    ./run --unproved && tests/first_answer.py
"""
import contextlib
import itertools
import subprocess
import sys
import threading
import time

from playing import BASE, GOOD, MEMENTO, PATIENCE, Played, Service, free_ports, get, holds, lacks, needs, nginx, reply, same, slow, start, wait_for
from service import Browser
from wish_page import STATUS, WATCH, ask_page

ARCHIVES = 9
CROWD = 10                   # connections by which one reader floods
FLOOD = 10_000               # made-up addresses of that reader
HASTE = 0.05                 # seconds for which it waits for a reply
ASKED = """import sys, requests
reply = requests.get(sys.argv[1], allow_redirects=False, timeout=60)
print(reply.status_code, reply.headers.get("Location"))"""
CURL = ("curl", "--silent", "--globoff", "--output", "/dev/null", "--write-out", "%{http_code} %{redirect_url}")


def pythons():
    """A Python that has `requests`."""
    for python in (sys.executable, "/usr/bin/python3"):
        if subprocess.run([python, "-c", "import requests"], capture_output=True, check=False).returncode == 0:
            return python
    return lacks("needs requests: apt-get install python3-requests")


def said_by(*words):
    return subprocess.run(words, capture_output=True, text=True, check=True, timeout=2 * PATIENCE).stdout.strip()


def try_programs(front, python):
    address = f"http://127.0.0.1:{front}/timegate/http://{{}}.example/"
    same("curl is redirected by its first question", said_by(*CURL, address.format("curl")), f"302 {MEMENTO}")
    same("so is a script over Python's requests", said_by(python, "-c", ASKED, address.format("requests")), f"302 {MEMENTO}")
    dated = f"http://127.0.0.1:{front}/at/20000101000000/http://dated.example/"
    same("so is an address with a date in it", said_by(*CURL, dated), f"302 {MEMENTO}")
    begun = time.monotonic()
    same("what nobody has is 404", said_by(*CURL, address.format("nobody")), "404")
    holds(f"once all archives have said so, after {time.monotonic() - begun:.1f} s", time.monotonic() - begun < 7)


def try_page(stack, front):
    (driver,) = free_ports(1)
    start(stack, "chromedriver", f"--port={driver}", stdout=subprocess.DEVNULL)
    wait_for(driver)
    browser = Browser(driver)
    stack.callback(lambda: browser.call("DELETE", ""))
    browser.call("POST", "/url", {"url": f"http://127.0.0.1:{front}/"})
    browser.wait("return document.activeElement.id == 'address'")
    browser.run(WATCH)
    ask_page(browser, "chromium.example/")
    said = browser.wait(f"return {STATUS}.includes('asking archives') && {STATUS}")
    holds(f"the page says what it waits for: {said}", "chromium.example" in said)
    said = browser.wait(f"return /^1 copy/.test({STATUS}) && {STATUS}", PATIENCE)
    seen = [row[1:] for row in browser.run("return window.seen") if row[0] == BASE + "http://chromium.example/"]
    same(f"and shows the copies by one request: {said}", seen, [[200, None]])


def try_flood(front):
    """Ten thousand made-up addresses from one address, as fast as nginx takes them; meanwhile another reader asks for what nobody
    named, again and again. The first reader doesn't wait for what nginx delays."""
    numbers, came, others = itertools.count(), [], []

    def flood():
        while (number := next(numbers)) < FLOOD:
            with contextlib.suppress(OSError):
                came.append(get(front, f"/timegate/http://nobody.example/{number}", source="127.0.0.2", patience=HASTE)[0])

    crowd = [threading.Thread(target=flood, daemon=True) for _ in range(CROWD)]
    for one in crowd:
        one.start()
    while any(one.is_alive() for one in crowd) or not others:
        begun = time.monotonic()
        others.append(get(front, f"/timegate/http://other.example/{len(others)}", source="127.0.0.3")[:2])
        time.sleep(max(0, begun + 1 - time.monotonic()))
    same(f"another reader's {len(others)} first questions are answered", others, [(302, MEMENTO)] * len(others))
    holds(f"of {FLOOD} made-up addresses {len(came)} were answered, and none was found", 302 not in came)


def main():
    needs("nginx", "curl", "chromium", "chromedriver")
    python = pythons()
    with contextlib.ExitStack() as stack:
        later = slow(1.5)
        archives = [Played(stack, lambda target: reply(status=404) if "nobody" in target else later(target) if "chromium" in target else GOOD)
                    for _ in range(ARCHIVES)]
        service = Service(stack, archives=[(f"a{k}.example", one.address) for k, one in enumerate(archives)], ports=(0, 0), rounds=2,
                          pause=86_400, workers=64, patience=PATIENCE,
                          keys={"wanted": 10_000, "wishes": 600, "publish": 1, "together": 64, "wait": 8})
        service.line()
        front = nginx(stack, service.ports)
        try_programs(front, python)
        try_page(stack, front)
        try_flood(front)
    print("curl, Python's requests and a browser were led to copies by one question each, also beside ten thousand made-up addresses")


main()
