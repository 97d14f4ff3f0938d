#!/usr/bin/env python3
"""What tests/networks.sh does in the machine: inside PACKAGE"""
import contextlib
import pathlib
import subprocess
import sys
import time

from playing import ORIGINAL, Played, link, reply, settings_text

PORT = 8101
PATIENCE = 1    # seconds, of the settings
SETTINGS = pathlib.Path("/etc/maplewrench/settings.toml")
DROP_INS = pathlib.Path("/etc/systemd/system/maplewrench.service.d")

# Addresses that this machine gets, and the names that lead to some. A page names all of them but the IPv6 ones, of
# which no address can be fetched: those stand behind their names alone.
DENIED = {
    "10.1.2.3": "ten.example", "172.16.5.6": None, "172.31.255.254": None, "192.168.7.8": "home.example", "100.64.9.9": None,
    "192.0.0.8": None, "198.18.0.1": None, "198.19.255.254": None, "169.254.169.254": "cloud.example", "fd00::7": "six.example",
}
REACHED = {"127.0.0.1": "here.example", "203.0.113.7": "public.example", "9.255.255.255": None, "11.0.0.1": None, "172.32.0.1": None,
           "192.0.1.1": None, "198.17.255.254": None, "198.20.0.1": None, "2001:db8::7": "publicsix.example"}
ALL = {**DENIED, **REACHED}


def fails(what):
    print(f"FAILS: {what}")
    subprocess.run(["journalctl", "--no-pager", "-u", "maplewrench", "-n", "20"], check=False)
    sys.exit(1)


def holds(what, truth):
    if not truth:
        fails(what)
    print(f"holds: {what}", flush=True)


def run(*words):
    return subprocess.run(words, check=True, capture_output=True, text=True).stdout


class Archive:
    """Answers at each address, and knows at which it was connected to."""

    def __init__(self, stack):
        self.played = {address: Played(stack, self.answer, address=address, port=PORT) for address in ALL}
        self.begin()

    def begin(self):
        self.before = {address: one.count for address, one in self.played.items()}

    def asked(self):
        """The addresses that were connected to since the beginning."""
        return {address for address, one in self.played.items() if one.count > self.before[address]}

    @staticmethod
    def answer(target):
        if not target.endswith(ORIGINAL):
            return reply(link("http://m.example/2"))
        hosts = [address for address in ALL if ":" not in address] + [name for name in ALL.values() if name]
        return reply(",".join([*(f"<http://{host}:{PORT}/more>;rel=timemap" for host in hosts), link("http://m.example/1")]))


def serve_round():
    """Starts the service from nothing, and gives what its first round wrote and how long it took."""
    run("systemctl", "daemon-reload")
    since = f"@{time.time():.6f}"
    begun = time.monotonic()
    run("systemctl", "restart", "maplewrench.service")
    for _ in range(600):
        lines = run("journalctl", "--no-pager", "--output=cat", "-u", "maplewrench", "--since", since).split("\n")
        [*line] = [line for line in lines if line.startswith("round 1 ")]
        if line:
            return line[0], time.monotonic() - begun
        time.sleep(0.1)
    fails("a round ends")


def try_unit(archive, what, wanted, *keys):
    """Whether just the `wanted` addresses are asked, with these keys behind those of the unit."""
    drop_in = DROP_INS / "keys.conf"
    drop_in.write_text("[Service]\n" + "".join(f"{key}\n" for key in keys))
    archive.begin()
    line, seconds = serve_round()
    holds(f"{what} the harvest comes: {line}", line == "round 1 jobs 1 harvests 1 pulls 0 published")
    asked = archive.asked()
    missing, more = set(wanted) - asked, asked - set(wanted)
    if missing or more:
        fails(f"{what} not asked though it should be: {missing}; asked though it shouldn't be: {more}")
    holds(f"{what} {len(wanted)} of {len(ALL)} addresses were asked: {' '.join(sorted(asked))}", True)
    return seconds


def main():
    subprocess.run(["dpkg", "--no-triggers", "--force-depends", "-i", sys.argv[1]], check=True, capture_output=True)
    for address in ALL:
        if address != "127.0.0.1":
            run("ip", "address", "add", f"{address}/{128 if ':' in address else 32}", "dev", "lo", *(["nodad"] if ":" in address else []))
    with open("/etc/hosts", "a", encoding="utf-8") as file:
        file.write("".join(f"{address} {name}\n" for address, name in ALL.items() if name))
    SETTINGS.write_text(settings_text(gates=["127.0.0.1:8080"], originals=[ORIGINAL], archives=[("a.test", f"http://127.0.0.1:{PORT}")],
                                      rounds=1000, pause=3600, patience=PATIENCE))
    DROP_INS.mkdir(parents=True, exist_ok=True)
    with contextlib.ExitStack() as stack:
        try_units(Archive(stack))
    print("systemd kept the service from each private network, by address and by name, and from nothing else")


def try_units(archive):
    open_all = try_unit(archive, "without IPAddressDeny", ALL, "IPAddressDeny=")
    seconds = try_unit(archive, "by the unit as it is shipped", REACHED)
    tries = sum(1 + bool(name) for address, name in DENIED.items() if ":" not in address) + 1
    print(f"holds: a round with {tries} pages that lead into networks that are shut took {seconds:.1f} s, and {open_all:.1f} s if none is shut")
    holds(f"each of them costs the patience of {PATIENCE} s, and no more than twice", tries * PATIENCE <= seconds < 2 * tries * PATIENCE + 5)
    try_unit(archive, "with IPAddressAllow=10.1.2.3 192.168.7.0/24", [*REACHED, "10.1.2.3", "192.168.7.8"],
             "IPAddressAllow=10.1.2.3 192.168.7.0/24")
    listed = SETTINGS.read_text()
    SETTINGS.write_text(f'hosts = ["127.0.0.1:{PORT}", "public.example:{PORT}"]\n' + listed)
    seconds = try_unit(archive, "with hosts beside it", ["127.0.0.1", "203.0.113.7"])
    holds(f"and none of the others costs any time ({seconds:.1f} s)", seconds < tries * PATIENCE)


if __name__ == "__main__":
    main()
