"""What the tests share: archives and peers that a script plays, services that it starts, and ways to ask, wait and say.

Everything listens on 127.0.0.1, at ports that were free, and ends with the script. The program is what $PROGRAM names, or
else the one that `programs` finds. A test prints a line for each thing that holds, and ends with status 1 at the first that
doesn't.
"""
import contextlib
import http.client
import os
import pathlib
import random
import re
import shutil
import signal
import socket
import subprocess
import sys
import tempfile
import threading
import time

from programs import program

if sys.version_info < (3, 11):
    sys.exit(f"{pathlib.Path(sys.argv[0]).name}: needs Python 3.11 or later")

TOP = pathlib.Path(__file__).resolve().parent.parent
sys.path.append(str(TOP / "deploy"))    # whose modules can be tried call by call
ORIGINAL, MEMENTO = "http://a.example/", "http://m.example/1"
BASE = "/timemap/link/"    # what stands before an original in the address of its TimeMap, on the archives here
PATIENCE = 60    # seconds for what should come at once
os.environ["PATH"] += ":/usr/sbin:/sbin"    # where Debian has nginx
# A program that is instrumented to find faults of memory is to tell of memory that is refused, and to give it back at once.
ENVIRONMENT = {**os.environ, "ASAN_OPTIONS": "allocator_may_return_null=1:quarantine_size_mb=1"}
LACKS = 77    # the status of a test that needs what this machine hasn't
# Debian's packages, if they have another name than the command.
PACKAGES = {"nginx": "nginx-light", "cc": "gcc libc6-dev", "chromedriver": "chromium-driver"}



def __getattr__(name):
    """PROGRAM is looked for when a test first names it, so that what needs no program asks for none."""
    if name == "PROGRAM":
        return program("aggregator")
    raise AttributeError(f"playing has no {name}")


# ---- saying ----


def holds(what, truth):
    print(("holds: " if truth else "FAILS: ") + what, flush=True)
    if not truth:
        sys.exit(1)


def same(what, came, wanted):
    if came != wanted:
        print(f"{came!r:.2000}\n  and not\n{wanted!r:.2000}")
    holds(what, came == wanted)


def lacks(what):
    print(what)
    sys.exit(LACKS)


def needs(*commands):
    """Skips the test if the machine lacks one of these commands."""
    missing = [command for command in commands if shutil.which(command) is None]
    if missing:
        packages = " ".join(PACKAGES.get(command, command) for command in missing)
        lacks(f"needs {' and '.join(missing)}: apt-get install {packages}")


# ---- waiting ----


def comes_true(condition, seconds=PATIENCE):
    """Whether this condition comes to hold within so many seconds."""
    until = time.monotonic() + seconds
    while not condition():
        if time.monotonic() > until:
            return False
        time.sleep(0.02)
    return True


def until(what, condition, seconds=PATIENCE):
    """Waits until this holds, and says after how many seconds it was."""
    began = time.monotonic()
    came = comes_true(condition, seconds)
    holds(f"{what}, after {time.monotonic() - began:.1f} s" if came else what, came)


def is_listening(port):
    with contextlib.suppress(OSError), socket.create_connection(("127.0.0.1", port), 1):
        return True
    return False


def wait_for(port):
    """Waits until somebody listens there."""
    if not comes_true(lambda: is_listening(port)):
        raise SystemExit(f"nobody listens on port {port}")


# ---- ports and asking ----


KEPT = contextlib.ExitStack()    # the sockets that keep ports for this test, until it ends


def free_ports(count, in_a_row=False):
    """So many ports that were free, perhaps one after the other. They lie below those that connections go out from, so that
    none of these takes one before it is listened at. No other test is given one of them before this test ends, not even while
    a service that listens at one is restarted: each has a socket that is bound to it and doesn't listen. Who listens there has to
    let addresses be used again, as services, nginx and `socket.create_server` do."""
    while True:
        first = random.randrange(10_000, 32_000 - count)
        tried = range(first, first + count) if in_a_row else random.sample(range(10_000, 32_000), count)
        with contextlib.suppress(OSError), contextlib.ExitStack() as stack:
            for port in tried:
                held = stack.enter_context(socket.socket())
                held.bind(("127.0.0.1", port))
                held.setsockopt(socket.SOL_SOCKET, socket.SO_REUSEADDR, 1)
            KEPT.push(stack.pop_all())
            return list(tried)


def dead_ports(stack, count):
    """So many ports at which nobody listens, nor can: they are bound, and refuse connections."""
    held = [stack.enter_context(socket.socket()) for _ in range(count)]
    for each in held:
        each.bind(("127.0.0.1", 0))
    return [each.getsockname()[1] for each in held]


def ask(port, target, method="GET", source="127.0.0.1", patience=PATIENCE, **headers):
    """The status of the reply to this target, word for word; its fields by their names in lower case, with a comma between the
    values of one that comes twice; and its body."""
    connection = http.client.HTTPConnection("127.0.0.1", port, timeout=patience, source_address=(source, 0))
    with contextlib.closing(connection):
        connection.putrequest(method, target, skip_host="Host" in headers)
        for name, value in {"Connection": "close", **headers}.items():
            connection.putheader(name.replace("_", "-"), value)
        connection.endheaders()
        came = connection.getresponse()
        return came.status, {name.lower(): came.getheader(name) for name in came.headers}, came.read().decode()


def get(port, target, source="127.0.0.1", patience=PATIENCE, **headers):
    """The status of the reply, where it leads, and its body."""
    status, fields, body = ask(port, target, source=source, patience=patience, **headers)
    return status, fields.get("location"), body


# ---- what archives and peers say ----


def link(uri, datetime="Sat, 01 Jan 2000 00:00:00 GMT"):
    return f'<{uri}>;rel=memento;datetime="{datetime}"'


def reply(text="", *fields, status=200, length=None):
    """A whole answer with this body. It says what `Played` does: a connection is answered once. Who keeps connections, as nginx does,
    could else ask over one that is closing."""
    body = text.encode()
    head = [f"HTTP/1.1 {status} Said", *fields, f"Content-Length: {len(body) if length is None else length}", "Connection: close"]
    return "\r\n".join([*head, "", ""]).encode() + body


GOOD = reply(link(MEMENTO))


def slow(seconds, answer=GOOD):
    """An archive that gives its answer after so many seconds."""
    def said(_):
        time.sleep(seconds)
        return answer
    return said


def silent(_):
    """An archive that never answers."""
    threading.Event().wait()
    yield b""


def dripped(text, every=1):
    """A byte each second, or as often as that."""
    for byte in text:
        yield bytes([byte])
        time.sleep(every)


def chunk(data):
    return b"%x\r\n%b\r\n" % (len(data), data)


CHUNKED = b"HTTP/1.1 200 Said\r\nTransfer-Encoding: chunked\r\n\r\n"


def delta(incarnation, begin, end, entries=""):
    """A delta with these entries."""
    count = entries.count("\nentry ") + entries.startswith("entry ")
    return f"memento-delta 2\nfrom {incarnation} {begin} {end}\nentries {count}\n{entries}end\n"


def entry(original, uri, archive="p.example", revision=5):
    """The lines of an entry with one memento."""
    return f"entry {archive} {revision} 1 {original}\nat {revision} 1\n946684800 {uri}\n"


def originals(count, host="a.example"):
    return [f"http://{host}/{k}" for k in range(count)]


def told(number, jobs, harvests, pulls=0, end="published"):
    """What the program writes of a round."""
    return f"round {number} jobs {jobs} harvests {harvests} pulls {pulls} {end}\n"


# ---- archives and peers ----


class Listener:
    """Gives each connection to `talk`, in a thread of its own, or with `in_turn` one after the other; and counts them."""

    def __init__(self, stack, talk, address="127.0.0.1", port=0, in_turn=False):
        self.talk, self.in_turn, self.count = talk, in_turn, 0
        family = socket.AF_INET6 if ":" in address else socket.AF_INET
        self.socket = socket.create_server((address, port), family=family, backlog=256)
        self.port = self.socket.getsockname()[1]
        self.address = f"http://{address}:{self.port}"
        stack.callback(self.close)
        threading.Thread(target=self.serve, daemon=True).start()

    def close(self):
        """Ends it, and its thread: one that still waited would take connections of whoever is given the same descriptor later."""
        with contextlib.suppress(OSError):
            self.socket.shutdown(socket.SHUT_RDWR)
        self.socket.close()

    def serve(self):
        with contextlib.suppress(OSError):
            while self.socket.fileno() >= 0:
                client, _ = self.socket.accept()
                self.count += 1
                if self.in_turn:
                    self.serve_one(client)
                else:
                    threading.Thread(target=self.serve_one, args=(client,), daemon=True).start()

    def serve_one(self, client):
        with contextlib.suppress(OSError), client:
            self.talk(client)


class Played(Listener):
    """A server that answers each connection once, with what `answer` gives for the target that was asked for: bytes, or
    an iterator over pieces that are sent as they come."""

    def __init__(self, stack, answer, **more):
        self.answer, self.heads, self.sent = answer, [], []
        super().__init__(stack, self.tell, **more)

    def tell(self, client):
        with client.makefile("rb") as stream:
            head = []
            while line := stream.readline().rstrip(b"\r\n").decode():
                head.append(line)
        if head:
            number = len(self.heads)
            self.heads.append(head)
            self.sent.append(0)
            answer = self.answer(head[0].split()[1]) or b""
            for piece in [answer] if isinstance(answer, bytes) else answer:
                client.sendall(piece)
                self.sent[number] += len(piece)

    def targets(self):
        """What was asked for, in the order in which it came."""
        return [head[0].split()[1] for head in self.heads]


class Relay(Played):
    """Passes requests on to a gate, and notes what was asked and how the body of the answer begins."""

    def __init__(self, stack, gate):
        self.gate, self.seen = gate, []
        super().__init__(stack, self.pass_on)

    def fetch(self, target):
        """The gate's whole answer; nothing if it gives none."""
        with contextlib.suppress(OSError), socket.create_connection(("127.0.0.1", self.gate), PATIENCE) as gate:
            gate.sendall(f"GET {target} HTTP/1.1\r\nHost: gate\r\nConnection: close\r\n\r\n".encode())
            with gate.makefile("rb") as stream:
                whole = stream.read()
            self.seen.append((target, whole.partition(b"\r\n\r\n")[2].decode().splitlines()[:3]))
            return whole
        self.seen.append((target, []))
        return b""

    def pass_on(self, target):
        return self.fetch(target)


# ---- programs ----


def start(stack, *words, **more):
    """A program that ends with the script."""
    process = subprocess.Popen([str(word) for word in words], **more)
    stack.callback(lambda: (process.terminate(), process.wait(PATIENCE)))
    return process


def start_archive(stack, *words):
    """The port of the archive that is shipped to try the service against."""
    process = start(stack, TOP / "deploy/archive", 0, *words, stdout=subprocess.PIPE, text=True)
    return int(process.stdout.readline().strip().rpartition(":")[2])


def compiled(folder, source):
    """A file in C as a library that takes the place of the machine's own in a program; None without a compiler."""
    if shutil.which("cc") is None:
        return None
    library = pathlib.Path(folder) / f"{source.stem}.so"
    subprocess.run(["cc", "-O2", "-shared", "-fPIC", "-o", library, source, "-ldl"], check=True)
    return library


def toml_of(value):
    """How a value is written in settings."""
    match value:
        case str():
            return f'"{value}"'
        case dict():
            return "{ " + ", ".join(f"{key} = {toml_of(each)}" for key, each in value.items()) + " }"
        case bool() | int():
            return str(value).lower()
        case _:
            return "[" + ", ".join(map(toml_of, value)) + "]"


def settings_text(*, archives=(), originals=(), base="http://agg.example", connections=1_000_000_000, rounds=1, pause=0, workers=1,
                  peers=(), **keys):
    """Settings with these keys, but for those that are None. An archive is its name, its address and perhaps a dictionary of keys
    of its own."""
    def archive_of(name, address, own=None):
        return {"name": name, "timemap": address + BASE, **(own or {})}

    written = {"base": base, "connections": connections, "rounds": rounds, "pause": pause, "workers": workers, "originals": list(originals),
               "peers": peers, "archives": [archive_of(*archive) for archive in archives], **keys}
    return "".join(f"{key} = {toml_of(value)}\n" for key, value in written.items() if value is not None)


class NoGate(Exception):
    """A service ended before its gates listened."""


class Service:
    """A service by these settings, what it writes, and what its gates answer. Its gates listen at `ports`, or at free ones; `keys`
    are further keys of the settings. With `logged` its log can be read. What `Popen` takes may be given too."""

    def __init__(self, stack, *, archives=(), originals=(), peers=(), ports=(0,), base="http://agg.example", connections=1_000_000_000,
                 rounds=1, pause=0, workers=1, patience=None, hosts=None, words=(), keys=None, logged=False, **more):
        folder = pathlib.Path(stack.enter_context(tempfile.TemporaryDirectory()))
        if logged:
            keys, more = {"log": True, **(keys or {})}, {"stderr": subprocess.PIPE, **more}
        (folder / "settings.toml").write_text(settings_text(
            gates=[f"127.0.0.1:{port}" for port in ports], archives=archives, originals=originals, peers=peers, base=base,
            connections=connections, rounds=rounds, pause=pause, workers=workers, patience=patience, hosts=hosts, **(keys or {})))
        self.words = [*words, program("aggregator"), "serve", str(folder / "settings.toml")]
        self.more, self.ports = {"env": ENVIRONMENT, "stdout": subprocess.PIPE, "text": True, **more}, list(ports)
        self.process = None
        stack.callback(self.kill)
        self.start()

    def start(self):
        """Starts it, and waits until its gates listen, if what it writes can be read."""
        self.process = subprocess.Popen(self.words, **self.more)
        if self.process.stdout:
            lines = [self.line() for _ in self.ports]
            if not all(lines):
                raise NoGate
            self.ports = [int(re.fullmatch(r"gate 127\.0\.0\.1:(\d+)\n", line)[1]) for line in lines]
        self.address = f"http://127.0.0.1:{self.ports[0]}"

    def kill(self):
        """Ends it as a machine that fails does."""
        if self.process:
            self.process.kill()
            self.process.wait(PATIENCE)

    def ending(self):
        """Its status, the rest of what it writes and what it complains of, once it has ended by itself."""
        output, complaint = self.process.communicate(timeout=PATIENCE)
        return self.process.returncode, output or "", complaint

    def line(self):
        """What it writes next."""
        return self.process.stdout.readline()

    def complaint(self):
        """The next line on standard error."""
        return self.process.stderr.readline()

    def rounds(self, count=1):
        """Waits until it has told of so many rounds more."""
        while count:
            line = self.line()
            if not line:
                raise SystemExit("a service ended")
            count -= line.startswith("round ")

    def logs_until(self, text):
        """The lines of the log up to the first that has this text. A service that doesn't write it in time is killed, so that the
        test goes on and says what is missing."""
        late = threading.Timer(2 * PATIENCE, self.process.kill)
        late.start()
        lines = []
        while line := self.complaint():
            lines.append(line)
            if text in line:
                break
        late.cancel()
        return lines

    def get(self, target, gate=0, **headers):
        """The status of the answer, where it leads, and its body."""
        return get(self.ports[gate], target, **headers)

    def shows(self, original=ORIGINAL, gate=0):
        """The memento that the TimeGate leads to; None if it has none, and its status if it says something else."""
        status, where, _ = self.get("/timegate/" + original, gate)
        return {302: where, 404: None}.get(status, status)

    def wish(self, original, archive):
        """Asks for an original each second, as a reader who misses it does, until the archive is asked for it. A gate takes no wish
        while another thread has the book of wishes, so one question may be in vain."""
        def has_asked():
            return BASE + original in archive.targets()

        def is_asked():
            if not has_asked():
                self.shows(original)
            return comes_true(has_asked, 1)

        until(f"the archive is asked for {original}", is_asked)

    def entries(self):
        """Archive, original and whole revision (or `-`) of each entry that the replica knows."""
        lines = [line.split() for line in self.get("/state")[2].splitlines() if line.startswith("entry ")]
        return sorted((line[1], line[-1], line[2]) for line in lines)

    def memory(self, kind="VmRSS"):
        """The KiB that it holds now."""
        text = pathlib.Path(f"/proc/{self.process.pid}/status").read_text()
        return int(re.search(rf"^{kind}:\s+(\d+) kB$", text, re.M)[1])


# ---- nginx ----

# By these changes to deploy/nginx.conf one address may ask as fast as it can, also for what nobody knows.
QUICK = [("rate=20r/s", "rate=100000r/s"), ("rate=50r/s", "rate=100000r/s"), ("rate=12r/m", "rate=6000000r/m")]
TEMPORARY = ("client_body", "proxy", "fastcgi", "uwsgi", "scgi")    # where nginx keeps bodies, each in a folder of its own


def start_nginx(stack, folder, port, text=None):
    """nginx by the settings in this folder, or by this text, which is written there first, once it listens at the port."""
    if text is not None:
        (folder / "nginx.conf").write_text(text)
    process = start(stack, "nginx", "-c", folder / "nginx.conf", "-p", folder, "-e", folder / "error.log", "-g", "daemon off;")
    wait_for(port)
    return process


def nginx_text(text, folder, *changes):
    """The settings of deploy/nginx.conf for this machine, with what nginx writes in this folder, and with further changes: pairs of what
    stands there and what is to stand there. It speaks HTTP/1.1 at one address of IPv4, and its server at port 80 is left out."""
    temporary = "".join(f"    {kind}_temp_path {folder}/{kind};\n" for kind in TEMPORARY)
    text = re.sub(r"(?ms)^    # ---- http ----\n.*?^    \}\n", "", text)
    text = re.sub(r"(?m)^ *(listen \[::\]|http2_).*\n", "", text).replace("ssl http2;", "ssl;")
    for old, new in [("/var/log/nginx/", f"{folder}/"), ("/run/nginx.pid", f"{folder}/nginx.pid"),
                     ("root /usr/share/maplewrench/web", f"root {TOP}/web"), ("127.0.0.1:8079", f"127.0.0.1:{free_ports(1)[0]}"),
                     ("    sendfile on;\n", temporary + "    sendfile on;\n"), *changes]:
        if old not in text:
            raise SystemExit(f"deploy/nginx.conf has no {old}")
        text = text.replace(old, new)
    return text


def nginx(stack, gates, *changes, folder=None):
    """The port of nginx in front of these gates, by the settings of deploy/nginx.conf but for TLS; `changes` are further pairs
    of what stands there and what is to stand there. It keeps its logs in a folder of its own, or in the one that is given."""
    folder = folder or pathlib.Path(stack.enter_context(tempfile.TemporaryDirectory()))
    (front,) = free_ports(1)
    text = re.sub(r"(?m)^ *ssl_.*\n", "", (TOP / "deploy/nginx.conf").read_text())
    servers = "\n".join(f"        server 127.0.0.1:{gate};" for gate in gates)
    text = re.sub(r"(?m)^        server 127\.0\.0\.1:8080;\n        server 127\.0\.0\.1:8081;$", servers, text)
    start_nginx(stack, folder, front, nginx_text(text, folder, ("listen 443 ssl", f"listen 127.0.0.1:{front}"), *changes))
    return front


def nginx_of_shards(stack, included, entry):
    """nginx by a file that deploy/shards wrote, which listens at the port `entry`."""
    folder = pathlib.Path(stack.enter_context(tempfile.TemporaryDirectory()))
    temporary = "".join(f"{kind}_temp_path {folder}/{kind}; " for kind in TEMPORARY)
    return start_nginx(stack, folder, entry, f"pid {folder}/nginx.pid; error_log {folder}/error.log; events {{}}\n"
                       f"http {{ access_log off; merge_slashes off; {temporary}\ninclude {included}; }}\n")


def children(process, name="nginx"):
    """The numbers of a process's children of this name."""
    ran = subprocess.run(["pgrep", "-P", str(process), "-x", name], capture_output=True, text=True, check=False)
    return [int(line) for line in ran.stdout.split()]


def reload_nginx(master):
    """Has nginx take in its settings anew, and waits until all workers that had the old ones have ended."""
    before = set(children(master))
    os.kill(master, signal.SIGHUP)
    if not comes_true(lambda: (now := set(children(master))) and not now & before):
        raise SystemExit("nginx's workers don't end")
