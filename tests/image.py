#!/usr/bin/env python3
"""The image that deploy/image builds: the same bytes each time, nothing in it but what is needed, and a service that runs in it
as a user without rights, on a root that it can't write to.

    ./run --unproved && tests/image.py

It is run by `runc`, with the network of this machine; if there is no runc, in the image's own root folder.
"""
import contextlib
import json
import os
import pathlib
import re
import shutil
import subprocess
import tempfile

from playing import BASE, ENVIRONMENT, MEMENTO, ORIGINAL, PATIENCE, PROGRAM, TOP, Played, get, holds, lacks, link, reply, same, told

SETTINGS = "etc/maplewrench/settings.toml"
FILES = {"etc/group", "etc/passwd", "etc/nsswitch.conf", SETTINGS, "usr/bin/aggregator", "usr/share/doc/maplewrench/LICENSE",
         "usr/share/doc/maplewrench/copyright",
         *(f"usr/share/maplewrench/web/{name}" for name in ("index.html", "links.js", "copies.js", "page.js", "page.css", "status.html",
                                                            "status.js", "status.css", "404.html"))}


def run(*words, **more):
    return subprocess.run([str(word) for word in words], check=True, capture_output=True, text=True, **more).stdout


def bytes_of(folder):
    return {str(file.relative_to(folder)): file.read_bytes() for file in folder.rglob("*") if file.is_file()}


def build(folder):
    """The image's layout, and the name that it is called by."""
    return run(TOP / "deploy/image", folder, env={**os.environ, "PROGRAM": PROGRAM}).strip()


def try_notices(root):
    """The notices of what is in the image, and the files of those that aren't the program's."""
    ours = root / "usr/share/doc/maplewrench/copyright"
    holds("it has the notices of what is in the program", ours.exists() and ours.read_bytes() == (TOP / "deploy/copyright").read_bytes())
    others = [it for it in root.glob("usr/share/doc/*/copyright") if it != ours]
    named = {root / name[1:] for it in others for name in re.findall(r"/usr/share/common-licenses/[A-Za-z]+(?:-\d+(?:\.\d+)*)?", it.read_text())}
    holds(f"and those of {', '.join(it.parent.name for it in others)}", bool(others) and bool(named))
    same("with the licences that these name", sorted(str(it) for it in named if not it.exists()), [])
    return {str(it.relative_to(root)) for it in [*others, *named]}


def write_settings(root, archive):
    """An operator's settings in the place of the image's own."""
    text = (root / SETTINGS).read_text()
    text = re.sub(r"(?m)^gates = .*", 'gates = ["127.0.0.1:0"]', text)
    text = re.sub(r"(?m)^(rounds|pause) = .*", r"\1 = 1", text)
    text = re.sub(r"(?m)^originals = .*", f'originals = ["{ORIGINAL}"]', text)
    text = re.sub(r"(?m)^hosts = .*\n", "", text)
    text = re.sub(r"(?m)^timemap = .*", f'timemap = "{archive}{BASE}"', text)
    (root / SETTINGS).write_text(text)


def words_to_run(bundle):
    """The words that run the image's own command, and what they are."""
    config = json.loads((bundle / "config.json").read_text())
    process, user = config["process"], config["process"]["user"]
    same("it is ended by a signal that the first process of a container sees", config["annotations"]["org.opencontainers.image.stopSignal"],
         "SIGKILL")
    same("its command is the service, by the settings at their place", process["args"], ["/usr/bin/aggregator", "serve", f"/{SETTINGS}"])
    holds(f"as a user without rights: {user}", user["uid"] > 0 and user["gid"] > 0)
    if shutil.which("runc"):
        process["terminal"], config["root"]["readonly"] = False, True
        config["linux"]["namespaces"] = [it for it in config["linux"]["namespaces"] if it["type"] != "network"]
        (bundle / "config.json").write_text(json.dumps(config))
        return ["runc", "--root", str(bundle / "runc"), "run", "--bundle", str(bundle), f"maplewrench-test-{os.getpid()}"], "runc"
    root = bundle / "rootfs"
    return ["chroot", f"--userspec={user['uid']}:{user['gid']}", str(root), *process["args"]], "chroot: there is no runc"


@contextlib.contextmanager
def running(words, name):
    """A container, or a program, that ends with this."""
    process = subprocess.Popen(words, stdout=subprocess.PIPE, text=True, env=ENVIRONMENT)
    try:
        yield process.stdout
    finally:
        if words[0] == "runc":
            subprocess.run([*words[:3], "kill", name, "KILL"], check=False)
        else:
            process.kill()
        process.wait(PATIENCE)


def try_service(bundle):
    with contextlib.ExitStack() as stack:
        archive = Played(stack, lambda _: reply(link(MEMENTO)))
        write_settings(bundle / "rootfs", archive.address)
        words, how = words_to_run(bundle)
        lines = stack.enter_context(running(words, words[-1]))
        port = int(re.fullmatch(r"gate 127\.0\.0\.1:(\d+)\n", lines.readline())[1])
        same(f"by {how}, it makes a round", lines.readline(), told(1, 1, 1))
        same("and redirects", get(port, "/timegate/" + ORIGINAL)[:2], (302, MEMENTO))
        return how


def try_compose(room):
    """The lines at the head of deploy/compose.yaml but for the last, and the files that it mounts."""
    text = (TOP / "deploy/compose.yaml").read_text()
    folder = shutil.copytree(TOP / "deploy", room / "compose")
    shutil.copytree(TOP / "web", folder / "web")
    listed = folder / "archives.toml"
    listed.write_text(listed.read_text().replace("checked = false", "checked = true"))
    lines = [line[6:] for line in text.splitlines() if line.startswith("#     ")]
    run("bash", "-euc", "\n".join(lines[:-1]), cwd=folder)
    for replica in ("replica-1", "replica-2"):
        said = run(PROGRAM, "check", folder / f"{replica}.toml")
        holds(f"the settings of {replica} can be read: {said.strip()}", said.startswith("settings ok: gates 3 ") and said.endswith("peers 1\n"))
    gates = [set(re.findall(r"127\.0\.0\.1:\d+", re.search("(?m)^gates = .*", (folder / f"replica-{k}.toml").read_text())[0])) for k in (1, 2)]
    led = set(re.findall(r"server (127\.0\.0\.1:\d+);", (folder / "nginx.conf").read_text()))
    same("nginx leads to the gates of both replicas", sorted(led), sorted(gates[0] | gates[1]))
    # Planted: the network kept by `front`, which cuts off the others when it is started again; the host's log in a file that grows.
    services = dict(re.findall(r"(?ms)^  ([\w-]+):(.*?)(?=^  [\w-]+:|\Z)", text.partition("\nservices:")[2].partition("\nvolumes:")[0]))
    same("one container keeps the network of all others, and does nothing else",
         {name: "sleep" if '["sleep", "infinity"]' in its else re.search(r'network_mode: "service:(\w+)"|<<: \*replica', its)[1]
          for name, its in services.items()},
         {"net": "sleep", "front": "net", "forward": "net", "replica-1": "net", "replica-2": None})
    asked = re.findall(r"http://(127\.0\.0\.1:\d+)/health", services["front"])
    told = [re.search('(?m)^status = "(.*)"', (folder / f"replica-{k}.toml").read_text())[1] for k in (1, 2)]
    same("whether a replica shows something is asked where each tells it", asked, told)
    same("nginx writes no file", re.findall(r"(?m)^ *access_log .*/var/log.*", (folder / "nginx.conf").read_text()), [])
    mounted = {source for source in re.findall(r"- (\./[\w./-]+):", text) if not source.endswith(".pem")}
    same("what is mounted stands there, but for a certificate", sorted(it for it in mounted if not (folder / it).exists()), [])


def main():
    if not shutil.which("umoci"):
        lacks("needs umoci: apt-get install umoci")
    if os.getuid() != 0:
        lacks("needs root, to run what is in the image as another user")
    with tempfile.TemporaryDirectory() as room:
        room = pathlib.Path(room)
        room.chmod(0o755)
        image = build(room / "one")
        build(room / "two")
        holds("building it twice gives the same bytes", bytes_of(room / "one") == bytes_of(room / "two"))
        run("umoci", "unpack", "--image", image, room / "bundle")
        notices = try_notices(room / "bundle/rootfs")
        found = {name for name in bytes_of(room / "bundle/rootfs") if not re.match(r"lib(64)?/", name)}
        same("it has what is needed, and nothing else", found - notices, FILES)
        how = try_service(room / "bundle")
        try_compose(room)
    print(f"an image that is built twice alike ran a service without rights, on a root that can't be written to ({how})")


if __name__ == "__main__":
    main()
