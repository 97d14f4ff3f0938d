#!/usr/bin/env python3
"""Archives whose pages name addresses of this machine: with the key `hosts` nothing is asked but what it names, and no name leads
to this machine.

    ./run --unproved && tests/hosts.py
"""
import contextlib

from playing import BASE, MEMENTO, ORIGINAL, Listener, Played, Service, holds, link, reply, same, told

SECRET = "http://m.example/secret"    # what stands on pages that aren't to be asked for


class Counted(Listener):
    """Answers each connection with a page."""

    def __init__(self, stack, address="127.0.0.1", port=0):
        super().__init__(stack, self.tell, address, port)

    @staticmethod
    def tell(client):
        client.recv(65536)
        client.sendall(reply(link(SECRET)))


def page_with(*further):
    return reply(",".join([link(MEMENTO), *(f"<{address}>;rel=timemap" for address in further)]))


def serve(stack, archive, hosts, address=None):
    return Service(stack, archives=[("arc.example", address or archive.address)], originals=[ORIGINAL], hosts=hosts)


def is_part(service):
    return [whole for _, _, whole in service.entries()] == ["-"]


def try_further_pages(listed):
    """A page of a listed archive names pages of this machine by several names."""
    with contextlib.ExitStack() as stack:
        archive = Played(stack, lambda target: page_with(*addresses) if target == BASE + ORIGINAL else reply(link(SECRET)))
        other = Counted(stack)
        second = Counted(stack, "127.0.0.2", archive.port)
        addresses = [f"http://localhost:{other.port}/latest/meta-data", f"http://127.0.0.1:{other.port}/", f"http://2130706433:{other.port}/",
                     f"http://0.0.0.0:{other.port}/", f"http://127.0.0.2:{archive.port}/"]
        service = serve(stack, archive, [f"127.0.0.1:{archive.port}"] if listed else None)
        if listed:
            same("if the archive alone is listed its page is a harvest", service.line(), told(1, 1, 1))
            same("no other port of this machine saw a connection, by whatever name", other.count, 0)
            same("nor did the same port at another address", second.count, 0)
            same("the archive was asked for its first page alone", archive.targets(), [BASE + ORIGINAL])
            holds("and the harvest is part", is_part(service))
            same("with what the first page names", service.shows(), MEMENTO)
        else:
            same("without the key its page is a harvest", service.line(), told(1, 1, 1))
            holds(f"and whatever it names is asked: {other.count} and {second.count} connections", other.count >= 3 and second.count == 1)


def try_own_pages():
    """Further pages of a listed archive are walked, however its address is written."""
    with contextlib.ExitStack() as stack:
        def answer(target):
            if target == BASE + ORIGINAL:
                return page_with("/2", f"http://127.0.0.1:{archive.port}/3", f"HTTP://2130706433:{archive.port}/4")
            return reply(link(f"http://m.example{target}"))

        archive = Played(stack, answer)
        service = serve(stack, archive, ["web.archive.org", f"127.0.0.1:{archive.port}"])
        same("a listed archive is walked", service.line(), told(1, 1, 1))
        same("over all of its pages", archive.targets(), [BASE + ORIGINAL, "/2", "/3", "/4"])
        holds("and the harvest is whole", not is_part(service))


def try_names():
    """A listed name doesn't lead to this machine, and without the key it does."""
    for hosts, harvests in ((["localhost"], 0), (None, 1)):
        with contextlib.ExitStack() as stack:
            archive = Counted(stack)
            hosts = hosts and [f"{hosts[0]}:{archive.port}"]
            service = serve(stack, archive, hosts, f"http://localhost:{archive.port}")
            same(f"an archive at localhost, if hosts is {hosts}", service.line(), told(1, 1, harvests))
            same("is connected to as often", archive.count, harvests)


def try_ports():
    """A listed host is asked at the listed port alone."""
    with contextlib.ExitStack() as stack:
        archive = Counted(stack)
        service = serve(stack, archive, ["127.0.0.1", f"127.0.0.1:{archive.port ^ 1}"])
        same("a host that is listed with other ports is no harvest", service.line(), told(1, 1, 0))
        same("and sees no connection", archive.count, 0)


def try_none():
    """An empty list, and peers beside it."""
    with contextlib.ExitStack() as stack:
        archive = Counted(stack)
        peer = Service(stack)
        same("a peer makes its round", peer.line(), told(1, 0, 0))
        service = Service(stack, archives=[("arc.example", archive.address)], originals=[ORIGINAL],
                          peers=[peer.address], hosts=[])
        same("if no host is listed no archive is a harvest, and a peer is pulled as ever", service.line(), told(1, 1, 0, 1))
        same("no archive saw a connection", archive.count, 0)


def main():
    try_further_pages(True)
    try_further_pages(False)
    for attempt in (try_own_pages, try_names, try_ports, try_none):
        attempt()
    print("nothing was asked that the settings don't name")


if __name__ == "__main__":
    main()
