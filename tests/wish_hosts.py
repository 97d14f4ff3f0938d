#!/usr/bin/env python3
"""Whatever address a reader asks for, the program connects to the archives of its settings alone: an address is only ever put
behind an archive's own. Readers ask for addresses of this machine and of private networks, in many spellings, for ports, and for
paths that lead upwards.

    ./run --unproved && tests/wish_hosts.py

A library that is preloaded notes each connection that the program begins, and each name that it looks up (connects.c). Beside
that, sockets listen where the addresses would lead to.
"""
import contextlib
import pathlib
import tempfile

from playing import BASE, ENVIRONMENT, TOP, Listener, Played, Service, comes_true, compiled, holds, link, needs, reply, same, told

LAST = "http://last.example/"


def internal(port, port6):
    """Addresses that lead to this machine, to its link, and to private networks, as a reader may write them: and as the service
    does."""
    written = {f"http://{host}/": f"http://{host}/" for host in (
        f"127.0.0.1:{port}", f"localhost:{port}", f"[::1]:{port6}", "localhost", "127.0.0.1", "10.0.0.1", "172.16.0.1", "192.168.1.1:8080",
        "169.254.169.254", "100.64.0.1", "0.0.0.0", "[::1]", "[fe80::1]", "[fd00::1]", "[::ffff:a00:1]",
        "printer.local", "router.lan", "db.internal:5432", "intranet", "user@localhost", "public.example:22")}
    return written | {
        f"http://2130706433:{port}/": f"http://127.0.0.1:{port}/", f"http://0x7f.1:{port}/": f"http://127.0.0.1:{port}/",
        f"HTTP://LOCALHOST:{port}/x": f"http://localhost:{port}/x", "http://169.254.169.254/latest/meta-data/?a=b": "http://169.254.169.254/latest/meta-data/?a=b",
        f"https://localhost:{port}/": f"https://localhost:{port}/", "http://up.example/../../../state": "http://up.example/state",
        "http://up.example/%2e%2e/%2E./../x": "http://up.example/x", "http://up.example/a/?../../b": "http://up.example/a/?../../b"}


def answer(target):
    """The archive has the last address, whose copies are said to lie on this machine, and of what else is asked for nothing."""
    if target == BASE + LAST:
        return reply(link("http://127.0.0.1:1/copy"))
    return reply(status=404)


def main():
    needs("cc")
    with contextlib.ExitStack() as stack:
        folder = pathlib.Path(stack.enter_context(tempfile.TemporaryDirectory()))
        library = compiled(folder, TOP / "tests/wish_hosts/connects.c")
        noted = folder / "connects"
        here, here6 = Listener(stack, lambda _: None), Listener(stack, lambda _: None, "::1")
        archive = Played(stack, answer)
        service = Service(stack, archives=[("a.example", archive.address)], rounds=2, pause=86_400, workers=4,
                          keys={"wanted": 1_000, "wishes": 60_000, "alike": True},
                          env={**ENVIRONMENT, "LD_PRELOAD": str(library), "CONNECTS": str(noted)})
        same("the first round has no job", service.line(), told(1, 0, 0))
        addresses = internal(here.port, here6.port)
        for written in addresses:
            same(f"{written} is asked for in vain, by TimeGate and by TimeMap",
                 [service.get(path + written)[0] for path in ("/timegate/", BASE)], [404, 404])
        wanted = {BASE + original for original in addresses.values()}

        def each_is_asked():
            left = [written for written, original in addresses.items() if BASE + original not in archive.targets()]
            for written in left:    # a gate takes no wish while another thread has the book of wishes
                service.get("/timegate/" + written)
            return not left

        holds("the archive is asked for each, behind its own address", comes_true(each_is_asked) and wanted <= set(archive.targets()))
        service.shows(LAST)
        holds("and for one behind them", comes_true(lambda: service.shows(LAST) == "http://127.0.0.1:1/copy"))
        holds("and for nothing that doesn't stand behind its own address", all(target.startswith(BASE) for target in archive.targets()))
        lines = noted.read_text().splitlines()
        holds(f"of {len(lines)} connections and look-ups each is of the archive: {sorted(set(lines))}",
              len(lines) >= len(archive.heads) and set(lines) <= {f"connect 127.0.0.1 {archive.port}", "look 127.0.0.1"})
        same("the sockets that readers named saw no connection", (here.count, here6.count), (0, 0))
        hosts = {line for head in archive.heads for line in head if line.lower().startswith("host:")}
        same("and each request was to the archive's host", {host.split(None, 1)[1] for host in hosts}, {f"127.0.0.1:{archive.port}"})
    print(f"{len(addresses)} addresses of this machine and of private networks were asked of the archive, and none was connected to")


if __name__ == "__main__":
    main()
