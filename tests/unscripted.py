#!/usr/bin/env python3
"""The readers' page for a browser without JavaScript, and for eyes: its form leads to the copy nearest to a day, a path that nothing
is at leads home, and each archive's colour stands out in both schemes. Chromium, and nginx by deploy/nginx.conf before a gate that
is played.

    tests/unscripted.py    needs nginx (nginx-light), chromium and chromedriver (chromium-driver) of Debian
"""
import contextlib
import re
import subprocess
import urllib.parse

from playing import TOP, Played, ask, comes_true, free_ports, holds, needs, nginx, reply, same, start, wait_for
from service import Browser

ORIGINAL = "http://a.example/x?y=1&z=%C3%A9"
NO_SCRIPTS = {"prefs": {"profile.managed_default_content_settings.javascript": 2}}
LEAST = 3.0    # the contrast that WCAG 2.2 asks of what isn't text (1.4.11)


def target_of(address, when=None):
    """What a browser asks for that sends the form."""
    return "/find?" + urllib.parse.urlencode({"address": address} if when is None else {"address": address, "when": when})


def follow(front, target):
    """The addresses that nginx leads to, until they are a gate's, and the status of the last reply."""
    went = []
    while len(went) < 5:
        status, fields, _ = ask(front, target)
        if status != 303:
            return went, status
        target = fields["location"]
        went.append(target)
    return went, None


def try_form(front):
    """What nginx makes of the form. Planted: an address that is led on as the form encodes it, a day that isn't one, a line feed."""
    same("an address and a day lead to the copy of that day",
         follow(front, target_of(ORIGINAL, "2015-01-31"))[0][-1], "/at/20150131000000/" + ORIGINAL)
    same("an address alone leads to the last copy", follow(front, target_of(ORIGINAL))[0][-1], "/timegate/" + ORIGINAL)
    same("and an empty day is none", follow(front, target_of(ORIGINAL, ""))[0][-1], "/timegate/" + ORIGINAL)
    same("nor is a text", follow(front, target_of(ORIGINAL, "31.1.2015"))[0][-1], "/timegate/" + ORIGINAL)
    same("without a scheme it is http", follow(front, target_of("a.example"))[0][-1], "/timegate/http://a.example")
    same("https stays", follow(front, target_of("HTTPS://a.example//b"))[0][-1], "/timegate/HTTPS://a.example//b")
    same("no address leads home", [follow(front, target)[0][:1] for target in ("/find", "/find?when=2015-01-31", "/find?address=")], [["/"]] * 3)
    for address in ("http://a.example/../b", "http://a.example/./b", "..", "http://a.example/x/.."):
        same(f"{address} isn't led on, since nginx would resolve it", follow(front, target_of(address)), ([], 400))
    for text in ("http://a.example/\r\nSet-Cookie: a=b", "http://a.example/\n", "http://a b/", "http://a.example/\x00"):
        went, status = follow(front, target_of(text))
        holds(f"no field can be slipped in by {text!r}: {went}, {status}", not re.search(r"[\x00-\x20]", "".join(went)) and status in (302, 400, 404))


def try_nothing(browser, front):
    status, fields, text = ask(front, "/nosuch/page")
    same("a path that nothing is at is 404", status, 404)
    holds("with a page that isn't kept", "<html" in text and fields["cache-control"] == "no-cache")
    browser.call("POST", "/url", {"url": f"http://127.0.0.1:{front}/nosuch/page"})
    [link] = browser.call("POST", "/element", {"using": "css selector", "value": "a"}).values()
    browser.call("POST", f"/element/{link}/click", {})
    holds("and its link leads home", comes_true(lambda: browser.call("GET", "/url") == f"http://127.0.0.1:{front}/"))


def try_typed(browser, front, copies):
    """A person types an address and a day, and presses Enter."""
    for day, wanted in ((None, "/timegate/"), ("2015-01-31", "/at/20150131000000/")):
        browser.call("POST", "/url", {"url": f"http://127.0.0.1:{front}/"})
        for selector, text in (("[name=when]", day and "01312015"), ("#address", ORIGINAL + "\ue007")):
            [element] = browser.call("POST", "/element", {"using": "css selector", "value": selector}).values()
            if text:
                browser.call("POST", f"/element/{element}/value", {"text": text})
        comes_true(lambda: browser.call("GET", "/url") == f"http://127.0.0.1:{copies.port}/copy")
        same(f"without JavaScript the form leads by {wanted} to the copy", browser.call("GET", "/url"), f"http://127.0.0.1:{copies.port}/copy")


def luminance(colour):
    parts = [int(colour[k:k + 2], 16) / 255 for k in (1, 3, 5)]
    red, green, blue = (part / 12.92 if part <= 0.03928 else ((part + 0.055) / 1.055) ** 2.4 for part in parts)
    return 0.2126 * red + 0.7152 * green + 0.0722 * blue


def contrast(one, other):
    darker, lighter = sorted((luminance(one), luminance(other)))
    return (lighter + 0.05) / (darker + 0.05)


def try_colours():
    """The colours of page.css, beside white and beside what Chromium takes for a dark page."""
    text = (TOP / "web/page.css").read_text()
    light, dark = re.split(r"prefers-color-scheme: dark", text)
    for scheme, part, paper in (("light", light, "#ffffff"), ("dark", dark, "#121212")):
        colours = dict(re.findall(r"--(\w+): (#[0-9a-f]{6});", part))
        same(f"the {scheme} scheme has a colour for each of eight archives", {str(k) for k in range(8)} <= colours.keys(), True)
        least = min(colours, key=lambda name: contrast(colours[name], paper))
        holds(f"of which none has less than {LEAST}:1 beside the page: --{least} {contrast(colours[least], paper):.2f}", contrast(colours[least], paper) >= LEAST)


def main():
    needs("nginx", "chromium", "chromedriver")
    with contextlib.ExitStack() as stack:
        copies = Played(stack, lambda target: reply("the archived copy"))
        gate = Played(stack, lambda target: reply("", f"Location: http://127.0.0.1:{copies.port}/copy", status=302))
        front, driver = nginx(stack, [gate.port]), free_ports(1)[0]
        try_colours()
        try_form(front)
        start(stack, "chromedriver", f"--port={driver}", stdout=subprocess.DEVNULL)
        wait_for(driver)
        browser = Browser(driver, **NO_SCRIPTS)
        stack.callback(lambda: browser.call("DELETE", ""))
        try_nothing(browser, front)
        try_typed(browser, front, copies)
    print("the form leads to copies without JavaScript, a path that nothing is at leads home, and colours stand out")


if __name__ == "__main__":
    main()
