#!/usr/bin/env python3
"""A person asks the readers' page for an address that nobody knows: Chromium, nginx by deploy/nginx.conf, a service that takes
wishes, and archives that are played. The page says that archives are being asked, and shows copies as they come.

    ./run --unproved && tests/wish_page.py
"""
import contextlib
import subprocess
import threading

from playing import BASE, PATIENCE, Played, Service, comes_true, free_ports, holds, link, needs, nginx, reply, same, start, told, wait_for
from service import Browser

WISHED, SPELLED, OTHER = "http://wished.example/", "http://spelled.example/", "https://www.spelled.example/"
STATUS = "document.getElementById('status').textContent"
ENTER = "\ue007"
# Notes what the page asks for, what it is told, and when it says that it asks again; a page that was loaded anew would have no notes.
WATCH = """window.seen = [];
    window.counts = [];
    const count = document.getElementById('count');
    new MutationObserver(() => window.counts.push(count.textContent)).observe(count, { childList: true });
    const ask = window.fetch;
    window.fetch = async (path, more) => {
        const reply = await ask(path, more);
        window.seen.push([path, reply.status, reply.headers.get('Retry-After')]);
        return reply;
    };"""


class Archive(Played):
    """Has one original, of which it tells only when it is let."""

    def __init__(self, stack, original, *copies):
        self.original, self.copies, self.may_tell = original, copies, threading.Event()
        super().__init__(stack, self.tell_copies)

    def tell_copies(self, target):
        if target != BASE + self.original:
            return reply(status=404)
        self.may_tell.wait(PATIENCE)
        return reply(",".join(map(link, self.copies)))


def ask_page(browser, address):
    """Asks as a person does: by the keyboard."""
    browser.run("const it = document.getElementById('address'); it.value = ''; it.focus()")
    browser.keys(address + ENTER)


def try_wish(browser, archives):
    quick, slow, _ = archives
    ask_page(browser, "wished.example/")
    said = browser.wait(f"return {STATUS}.includes('being asked') && {STATUS}")
    holds(f"the page says that archives are being asked: {said}", WISHED in said)
    told_of = browser.wait("return window.counts[0]")
    same("and after how many seconds it asks again, as nginx says", told_of, "This page asks again in 3 s (1 of 7 times).")
    quick.may_tell.set()
    said = browser.wait(f"return {STATUS}.startsWith('1 copy') && {STATUS}", PATIENCE)
    told_of = browser.wait("return window.counts.find(text => text.startsWith('More may come.'))")
    holds(f"it asks again by itself, and shows what came first: {said}; {told_of}", "1 copy in 1 archive" in said)
    slow.may_tell.set()
    said = browser.wait(f"return {STATUS}.startsWith('3 copies') && {STATUS}", PATIENCE)
    holds(f"and then what came behind: {said}", said.startswith("3 copies in 2 archives"))
    links = browser.run("return Array.from(document.querySelectorAll('.row a'), link => link.href)")
    same("with a link to each copy", sorted(links), sorted(quick.copies + slow.copies))
    seen = [row[1:] for row in browser.run("return window.seen") if row[0] == BASE + WISHED]
    holds(f"nginx told it to ask again after three seconds, and the copies came: {seen}",
          seen[0] == [404, "3"] and seen[-1] == [200, None] and {status for status, _ in seen} == {404, 200})
    loads = browser.run("return performance.getEntriesByType('navigation').map(entry => entry.type)")
    same("the page was loaded once", loads, ["navigate"])
    asked = [archive.targets().count(BASE + WISHED) for archive in archives]
    same("and each archive was asked once", asked, [1, 1, 1])
    browser.run("document.getElementById('stop').click()")


def try_spelling(browser, service):
    """The archive has another spelling, which the service looks after too, and which the page offers."""
    ask_page(browser, "spelled.example/")
    browser.wait(f"return {STATUS}.includes('being asked for it') && {STATUS}.includes('spelled') && {STATUS}")
    holds("what has another spelling comes to be known", comes_true(lambda: OTHER in [entry[1] for entry in service.entries()]))
    browser.run("document.getElementById('stop').click()")
    browser.wait("return !document.getElementById('others').hidden")
    browser.run("Array.from(document.querySelectorAll('#others a')).find(link => link.textContent == arguments[0]).focus()", OTHER)
    browser.keys(ENTER)
    said = browser.wait(f"return {STATUS}.startsWith('1 copy') && {STATUS}")
    seen = [row[1:] for row in browser.run("return window.seen") if row[0] == BASE + OTHER]
    same(f"the spelling that the page offers has its copies at once: {said}", seen, [[200, None]])


def main():
    needs("nginx", "chromium", "chromedriver")
    with contextlib.ExitStack() as stack:
        archives = [Archive(stack, WISHED, "http://quick.example/1"), Archive(stack, WISHED, "http://slow.example/1", "http://slow.example/2"),
                    Archive(stack, OTHER, "http://third.example/1")]
        archives[2].may_tell.set()
        service = Service(stack, archives=[(f"a{number}.example", archive.address) for number, archive in enumerate(archives)], ports=(0, 0),
                          rounds=2, pause=86_400, workers=8, keys={"wanted": 100, "alike": True})
        same("the round has no job", service.line(), told(1, 0, 0))
        front = nginx(stack, service.ports)
        (driver,) = free_ports(1)
        start(stack, "chromedriver", f"--port={driver}", stdout=subprocess.DEVNULL)
        wait_for(driver)
        browser = Browser(driver)
        stack.callback(lambda: browser.call("DELETE", ""))
        browser.call("POST", "/url", {"url": f"http://127.0.0.1:{front}/"})
        browser.wait("return document.activeElement.id == 'address'")
        browser.run(WATCH)
        try_wish(browser, archives)
        try_spelling(browser, service)
    print("a person who asked for what nobody knew saw its copies come, without a reload")


if __name__ == "__main__":
    main()
