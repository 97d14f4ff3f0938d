#!/usr/bin/env python3
"""What tests/beginning.sh does in the machine: inside PACKAGE DOCUMENT, or, as the stand-in, inside --web CERTIFICATE
KEY"""
import pathlib
import re
import shutil
import ssl
import subprocess
import sys
import time

WEB, MACHINE = "203.0.113.9", "203.0.113.1"    # addresses that stand for nobody
NAME = "web.archive.org"
HEADING = "## From the package to the first redirect\n"
LIMIT = 240    # seconds for the lines of a step, and for what they bring about
AUTHORITIES = "/etc/ssl/certs/ca-certificates.crt"    # those whom this machine trusts

# What has to stand in the output of each step's lines, in this order.
WANTED = [
    ["Setting up maplewrench"],
    ["settings ok: gates 3 archives 1 originals 2 peers 0", "round 1 jobs 2 harvests 2 pulls 0 published", "HTTP/1.1 302 ",
     "location: http://127.0.0.1:8100/web/2015"],
    ["200\n", f"1 archives: {NAME}\n"],
    ["test is successful", "round 1 jobs 1 harvests 1 pulls 0 published", "HTTP/2 302 ", f"location: https://{NAME}/web/"],
]


def stand_in(certificate, key):
    """An archive like deploy/archive whose paths begin with /web."""
    import trial_archive    # of the package, which is installed by now

    class Web(trial_archive.Archive):
        def do_GET(self):
            self.path = self.path.removeprefix("/web") if self.path.startswith("/web/timemap/") else self.path
            super().do_GET()

    server = trial_archive.Server((WEB, 443), Web)
    server.copies, server.many, server.pages, server.base = 40, 40, 3, f"https://{NAME}/web"
    context = ssl.SSLContext(ssl.PROTOCOL_TLS_SERVER)
    context.load_cert_chain(certificate, key)
    server.socket = context.wrap_socket(server.socket, server_side=True)
    server.serve_forever()


def run(*words):
    return subprocess.run([str(word) for word in words], check=True, capture_output=True, text=True).stdout


def certify(folder):
    """A certificate of that name, by an authority that this machine trusts from now on."""
    ca, cert, key = folder / "ca.pem", folder / "web.pem", folder / "web.key"
    run("openssl", "req", "-x509", "-newkey", "rsa:2048", "-nodes", "-days", "2", "-subj", "/CN=Test authority",
        "-keyout", folder / "ca.key", "-out", ca)
    run("openssl", "req", "-x509", "-newkey", "rsa:2048", "-nodes", "-days", "2", "-subj", f"/CN={NAME}", "-CA", ca, "-CAkey", folder / "ca.key",
        "-addext", f"subjectAltName=DNS:{NAME}", "-addext", "basicConstraints=CA:FALSE", "-keyout", key, "-out", cert)
    with open(AUTHORITIES, "a", encoding="ascii") as file:
        file.write(ca.read_text())
    return cert, key


def connect():
    """A network in which that name leads to the stand-in's address."""
    run("ip", "netns", "add", "web")
    run("ip", "link", "add", "to-web", "type", "veth", "peer", "name", "eth0", "netns", "web")
    run("ip", "address", "add", f"{MACHINE}/24", "dev", "to-web")
    run("ip", "link", "set", "to-web", "up")
    run("ip", "-n", "web", "address", "add", f"{WEB}/24", "dev", "eth0")
    run("ip", "-n", "web", "link", "set", "eth0", "up")
    with open("/etc/hosts", "a", encoding="utf-8") as file:
        file.write(f"{WEB} {NAME}\n")


def forget_lists():
    """Has apt know of no package but those that are installed. The machine has no network, so what newer lists name can't be
    brought here, and whether there is anything newer depends on the day."""
    for part in ("/var/lib/apt/lists", "/var/cache/apt"):
        shutil.rmtree(part, ignore_errors=True)
        pathlib.Path(part).mkdir()


def steps_of(document):
    """The lines of each step: those that stand four blanks in, from one bold number to the next."""
    section = document.read_text(encoding="utf-8").split(HEADING)[1].split("\n## ")[0]
    parts = re.split(r"^\*\*\d\. ", section, flags=re.M)[1:]
    return ["".join(line[4:] for line in part.splitlines(keepends=True) if line.startswith("    ")) for part in parts]


def parts_of(lines):
    """The lines that do something, and those that look at what came of it: they begin with a pause, where there is one."""
    does, pause, looks = re.split(r"^(sleep \d+\n)", lines, maxsplit=1, flags=re.M) if "\nsleep " in lines else (lines, "", "")
    return does, pause + looks


def run_lines(lines, folder):
    ran = subprocess.run(["bash", "-euo", "pipefail", "-c", lines], cwd=folder, stdin=subprocess.DEVNULL, stdout=subprocess.PIPE,
                         stderr=subprocess.STDOUT, text=True, timeout=LIMIT)
    return ran.returncode, ran.stdout


def missing(said, wanted):
    """The first of the texts that doesn't stand behind those before it; None if all do."""
    at = 0
    for text in wanted:
        at = said.find(text, at)
        if at < 0:
            return text
        at += len(text)
    return None


def look(lines, before, wanted, folder):
    """Runs lines that look, until they show what they should: on a machine that is busy that takes longer than the pause in
    front of them. Gives the last status, what all lines said, and what is missing."""
    end = time.monotonic() + LIMIT
    while True:
        status, after = run_lines(lines, folder)
        lacks = missing(before + after, wanted)
        if (status == 0 and lacks is None) or time.monotonic() > end:
            return status, before + after, lacks


def try_step(number, lines, wanted, folder):
    begun = time.monotonic()
    does, looks = parts_of(lines)
    status, said = run_lines(does, folder)
    lacks = missing(said, wanted)
    if status == 0 and looks:
        status, said, lacks = look(looks, said, wanted, folder)
    if status or lacks is not None:
        print(f"{said}\nFAILS: step {number} ends with status {status}, and has to say {lacks!r}")
        subprocess.run("journalctl --no-pager -u maplewrench -u nginx -n 20; cat /var/log/nginx/error.log", shell=True, check=False)
        sys.exit(1)
    print(f"holds: step {number}, {len(lines.splitlines())} lines, says {' / '.join(text.strip() for text in wanted)}, "
          f"after {time.monotonic() - begun:.0f} s", flush=True)


def main():
    if sys.argv[1] == "--web":
        return stand_in(*sys.argv[2:])
    package, document = map(pathlib.Path, sys.argv[1:])
    folder = pathlib.Path("/root/beginning")
    folder.mkdir()
    shutil.copy(package, folder)
    forget_lists()
    cert, key = certify(folder)
    connect()
    steps = steps_of(document)
    if len(steps) != len(WANTED):
        sys.exit(f"FAILS: {len(steps)} steps, and not {len(WANTED)}")
    begun = time.monotonic()
    try_step(1, steps[0], WANTED[0], folder)
    web = subprocess.Popen(["ip", "netns", "exec", "web", "python3", __file__, "--web", cert, key])
    try:
        for number in range(1, len(steps)):
            try_step(number + 1, steps[number], WANTED[number], folder)
    finally:
        web.kill()
    print(f"the {sum(len(step.splitlines()) for step in steps)} lines from the package to the first redirect took {time.monotonic() - begun:.0f} s")


if __name__ == "__main__":
    main()
