#!/usr/bin/env python3
"""Asks archives without a service: `aggregator timemap` and `aggregator timegate`, over archives that a script plays. Which text is
written, what is said of an archive that fails, which status it ends with, how a list is read, and what a closed pipe does.

    ./run --unproved && tests/single_questions.py          apt-get install jq
"""
import contextlib
import json
import os
import pathlib
import pty
import re
import subprocess
import tempfile
import threading
import time

from playing import (BASE, ENVIRONMENT, GOOD, MEMENTO, ORIGINAL, PATIENCE, PROGRAM, TOP, Played, comes_true, dead_ports, holds, link, needs, reply,
                     same, settings_text, silent, slow, until)

MISSING = reply(status=404)
JAN, FEB, MAR = [f"{day} Jan 2000 00:00:00 GMT" for day in ("Sat, 01", "Wed, 05", "Sun, 09")]
FIRST, SECOND, THIRD = [f"http://m.example/{number}" for number in (1, 2, 3)]
HEAD = (f'<{ORIGINAL}>; rel="original",\n<http://localhost/timegate/{ORIGINAL}>; rel="timegate",\n'
        f'<http://localhost/timemap/link/{ORIGINAL}>; rel="self"; type="application/link-format"')
WHOLE = (f'{HEAD}; from="{JAN}"; until="{MAR}",\n<{FIRST}>; rel="first memento"; datetime="{JAN}",\n'
         f'<{SECOND}>; rel="memento"; datetime="{FEB}",\n<{THIRD}>; rel="last memento"; datetime="{MAR}"\n')
USAGE = ("usage: aggregator [timemap FILE ORIGINAL [--form link|json|cdxj]"
         " | timegate FILE ORIGINAL [YYYYMMDDhhmmss]]\n")


def settings(folder, archives, **keys):
    """A file that names these archives, and has nothing else but these keys."""
    path = folder / "asked.toml"
    tables = "".join(f'[[archives]]\nname = "{name}"\ntimemap = "{address}{BASE}"\n' for name, address in archives)
    path.write_text("".join(f"{key} = {value}\n" for key, value in keys.items()) + tables)
    return path


def run(*words, given="", seconds=PATIENCE):
    """The status, what is written and what is complained of."""
    ran = subprocess.run([PROGRAM, *map(str, words)], input=given, capture_output=True, text=True, timeout=seconds, env=ENVIRONMENT)
    return ran.returncode, ran.stdout, ran.stderr


def played(stack, **answers):
    """Archives with these names, which give these answers."""
    return [(f"{name}.example", Played(stack, answer if callable(answer) else lambda _, answer=answer: answer).address)
            for name, answer in answers.items()]


def lists(*mementos):
    return reply(",".join(link(uri, datetime) for uri, datetime in mementos))


def one_original(stack, folder):
    """The merged TimeMap of three archives, in each form, and the nearest memento."""
    needs("jq")
    archives = played(stack, a=lists((SECOND, FEB), (FIRST, JAN)), b=lists((THIRD, MAR), (FIRST, JAN)), c=MISSING)
    file = settings(folder, archives)
    same("a file with nothing but archives gives the merged TimeMap", run("timemap", file, ORIGINAL), (0, WHOLE, ""))
    same("the form may be named", run("timemap", file, ORIGINAL, "--form", "link"), (0, WHOLE, ""))
    same("and that before the other words", run("timemap", "--form", "link", file, ORIGINAL), (0, WHOLE, ""))
    same("an original is read as a gate reads it", run("timemap", file, "HTTP://A.Example:80"), (0, WHOLE, ""))
    in_forms(file)
    for asked, found in [((), THIRD), (("20000102000000",), FIRST), (("20000104000000",), SECOND), (("20991231235959",), THIRD)]:
        same(f"the memento nearest to {asked or 'now'}", run("timegate", file, ORIGINAL, *asked), (0, f"{found}\n", ""))
    with_base = folder / "service.toml"
    with_base.write_text(settings_text(archives=archives, gates=["127.0.0.1:0"]))
    same("by the settings of a service the TimeMap names the service's base", run("timemap", with_base, ORIGINAL),
         (0, WHOLE.replace("http://localhost/", "http://agg.example/"), ""))


def in_forms(file):
    """JSON by `jq` and by this script, CDXJ line by line."""
    status, text, complaint = run("timemap", file, ORIGINAL, "--form", "json")
    same("JSON comes without a complaint", (status, complaint), (0, ""))
    query = "[.original_uri, .mementos.first.uri, .mementos.last.uri, (.mementos.list | length)] | @tsv"
    found = subprocess.run(["jq", "-r", query], input=text, capture_output=True, text=True, check=True).stdout
    same("jq finds the first and the last in it", found.split(), [ORIGINAL, FIRST, THIRD, "3"])
    same("it lists the mementos in order", [it["uri"] for it in json.loads(text)["mementos"]["list"]], [FIRST, SECOND, THIRD])
    holds("it ends with its line", text.endswith("}\n"))
    status, text, complaint = run("timemap", file, ORIGINAL, "--form", "cdxj")
    rows = [line.split(" ", 1) for line in text.splitlines() if not line.startswith("!")]
    same("CDXJ has a line for each", [(status, complaint)] + [(at, json.loads(rest)["uri"]) for at, rest in rows],
         [(0, ""), ("20000101000000", FIRST), ("20000105000000", SECOND), ("20000109000000", THIRD)])


def outcomes(stack, folder):
    """One archive is silent, one wrong and one empty: what is said, and the status."""
    silence = Played(stack, silent).address
    (dead,) = dead_ports(stack, 1)
    good, none = played(stack, good=GOOD, none=MISSING)
    wrong = played(stack, wrong=reply(status=500), garbled=reply("<"))
    failing = [*wrong, ("silent.example", silence), ("dead.example", f"http://127.0.0.1:{dead}")]
    said = sorted(["wrong.example: status 500", "silent.example: no answer", "dead.example: no answer"])
    status, text, complaint = run("timemap", settings(folder, [good, *failing], patience=5), ORIGINAL)
    same("a memento is known although archives fail", (status, MEMENTO in text), (0, True))
    told = sorted(complaint.splitlines())
    same("a line for each archive that failed says why", [line for line in told if "garbled" not in line], said)
    holds("one whose page can't be read among them", any(line.startswith("garbled.example: ") for line in told))
    nothing = HEAD + "\n"
    same("each archive says that it has none", run("timemap", settings(folder, [none]), ORIGINAL), (1, nothing, ""))
    same("and a TimeGate's line is empty", run("timegate", settings(folder, [none]), ORIGINAL), (1, "\n", ""))
    file = settings(folder, [none, wrong[0]])
    same("none is known and an archive failed", run("timemap", file, ORIGINAL), (4, nothing, "wrong.example: status 500\n"))
    lost = Played(stack, lambda target: MISSING if target == "/gone" else reply(f"<{lost.address}/gone>;rel=timemap"))
    file = settings(folder, [("part.example", lost.address)])
    same("pages that are missing are a failure", run("timemap", file, ORIGINAL), (4, nothing, "part.example: pages are missing\n"))


def bad_words(stack, folder):
    """What can't be asked is refused in one line."""
    (good,) = played(stack, good=GOOD)
    file = settings(folder, [good])
    for words in [("timemap",), ("timemap", file), ("timemap", file, ORIGINAL, "--form"), ("timemap", file, ORIGINAL, "--form", "xml"),
                  ("timemap", file, ORIGINAL, "20000101000000"), ("timegate", file, ORIGINAL, "20000101000000", "more"),
                  ("timegate", file, ORIGINAL, "--form", "json")]:
        same(f"{len(words)} words that ask for nothing there is: {words[-1]}", run(*words), (2, "", USAGE))
    for original in ("", "ftp://a.example/", "a.example", "http://", "http://a.example/" + 5000 * "x"):
        same(f"{original[:20]!r} is no original", run("timemap", file, original), (2, "", "bad original\n"))
    for digits in ("2000", "20001301000000", "20000230000000", "20000101246060", "2000010100000x", "19690101000000"):
        same(f"{digits} is no datetime", run("timegate", file, ORIGINAL, digits), (2, "", "bad datetime\n"))
    for text, said in [("", "bad settings: archives"), ("archives = []\n", "bad settings: archives"), ("=", "bad settings: text"),
                       ("workers = 65\n" + file.read_text(), "bad settings: workers"), ("walks = 1001\n" + file.read_text(), "bad settings: walks"),
                       ("at_once = 65\n" + file.read_text(), "bad settings: at_once")]:
        (folder / "bad.toml").write_text(text)
        same(f"{said}", run("timemap", folder / "bad.toml", ORIGINAL), (2, "", said + "\n"))
    status, text, complaint = run("timemap", folder / "nosuch.toml", ORIGINAL)
    same("a file that can't be read", (status, text, complaint.splitlines()[0]), (3, "", "device fault"))


def lines_of(originals, form="{}\n"):
    return "".join(form.format(original) for original in originals)


def a_list(stack, folder):
    """The answers of a list stand in its order, though the first takes longest."""
    def said(target):
        number = int(target.rpartition("/")[2])
        time.sleep(1 if number == 0 else 0)
        return reply(link(f"http://m.example/{number}"))

    archive = Played(stack, said)
    file = settings(folder, [("a.example", archive.address)], workers=8, at_once=8)
    originals = [f"http://o.example/{number}" for number in range(40)]
    wanted = lines_of([f"http://m.example/{number}" for number in range(40)])
    same("forty answers stand in the order of the list", run("timegate", file, "-", given=lines_of(originals)), (0, wanted, ""))
    file = settings(folder, [("a.example", archive.address)], workers=1, walks=100, at_once=100)
    same("and so they do with more walks than workers ever are", run("timegate", file, "-", given=lines_of(originals)), (0, wanted, ""))
    given = f"\n  {originals[1]} \r\nnonsense\n{30_000 * 'x'}\n\t\n{originals[2]}"
    same("blank lines are passed over, and bad ones told", run("timegate", file, "-", given=given),
         (2, "http://m.example/1\nhttp://m.example/2\n", "bad original: line 3\nbad original: line 4\n"))
    same("an empty list", run("timegate", file, "-"), (0, "", ""))
    twice = lines_of([originals[3], originals[3]])
    same("an original that stands twice is answered twice", run("timegate", file, "-", given=twice),
         (0, 2 * "http://m.example/3\n", ""))
    status, text, _ = run("timemap", file, "-", "--form", "json", given=lines_of(originals[:3]))
    found = subprocess.run(["jq", "-r", ".original_uri"], input=text, capture_output=True, text=True, check=True).stdout
    same("jq reads the TimeMaps of a list one after the other", (status, found.split()), (0, originals[:3]))
    asked_in_turn(file)
    (wrong,) = played(stack, wrong=reply(status=500))
    status, text, complaint = run("timegate", settings(folder, [wrong]), "-", given=lines_of(originals[:2]))
    same("of a list a failure is told with its original", (status, text, complaint),
         (4, "\n\n", lines_of(originals[:2], "{}: wrong.example: status 500\n")))


def asked_in_turn(file):
    """Each answer comes before the next question, so the list may be a conversation."""
    with subprocess.Popen([PROGRAM, "timegate", file, "-"], stdin=subprocess.PIPE, stdout=subprocess.PIPE, text=True, bufsize=1) as asking:
        late = threading.Timer(PATIENCE, asking.kill)
        late.start()
        for number in (5, 6):
            asking.stdin.write(f"http://o.example/{number}\n")
            same("an answer comes before the next question", asking.stdout.readline(), f"http://m.example/{number}\n")
        asking.stdin.close()
        same("and the end of the list is the end", asking.wait(PATIENCE), 0)
        late.cancel()


def no_further_than_needed(stack, folder):
    """Of a list no more is read than is asked for: it may have no end."""
    file = settings(folder, [("a.example", Played(stack, silent).address)], workers=2)
    with subprocess.Popen([PROGRAM, "timegate", file, "-"], stdin=subprocess.PIPE, stdout=subprocess.PIPE) as asking:
        os.set_blocking(asking.stdin.fileno(), False)
        taken, until = 0, time.monotonic() + 2
        while time.monotonic() < until:
            with contextlib.suppress(BlockingIOError):
                taken += os.write(asking.stdin.fileno(), 100 * b"http://o.example/\n")
        asking.kill()
    holds(f"of a list without an end {taken} bytes are read while two walks are out", 0 < taken < 200_000)


def left_alone(stack, folder):
    """An archive that failed too often isn't asked for the rest of a list; one that asks for patience isn't either."""
    failing = Played(stack, lambda _: reply(status=500))
    busy = Played(stack, lambda _: reply("", "Retry-After: 600", status=503))
    (good,) = played(stack, good=GOOD)
    file = settings(folder, [good, ("wrong.example", failing.address), ("busy.example", busy.address)], tolerance=2, workers=3, at_once=1)
    originals = [f"http://o.example/{number}" for number in range(10)]
    status, text, complaint = run("timegate", file, "-", given=lines_of(originals))
    same("ten originals are answered all the same", (status, text), (0, 10 * f"{MEMENTO}\n"))
    same("the archive that fails was asked twice", failing.count, 2)
    same("the busy one once", busy.count, 1)
    same("for the others it is said that they weren't asked",
         complaint.count("wrong.example: not asked, as it is left alone\n") + complaint.count("busy.example: not asked, as it is left alone\n"),
         8 + 9)


class Asking:
    """A run that is asked for one original after the other, each only once the one before is answered."""

    def __init__(self, stack, file):
        words = [PROGRAM, "timegate", file, "-"]
        self.process = stack.enter_context(subprocess.Popen(words, stdin=subprocess.PIPE, stdout=subprocess.PIPE, stderr=subprocess.DEVNULL,
                                                            text=True, bufsize=1, env=ENVIRONMENT))
        stack.callback(self.process.kill)
        self.count = 0

    def ask(self):
        """Where the TimeGate of an original of its own leads."""
        self.process.stdin.write(f"http://o.example/{self.count}\n")
        self.count += 1
        return self.process.stdout.readline()


def asked_again(stack, folder):
    """An archive that failed is left alone for the seconds that `dormant` says, and asked again then."""
    asked = []

    def answer(_):
        asked.append(time.monotonic())
        return reply(status=500)

    (good,) = played(stack, good=GOOD)
    file = settings(folder, [good, ("wrong.example", Played(stack, answer).address)], tolerance=1, dormant=2)
    asking = Asking(stack, file)
    until("an archive that failed is asked again", lambda: asking.ask() == f"{MEMENTO}\n" and len(asked) > 1)
    holds(f"{asked[1] - asked[0]:.2f} s later, since it is left alone for two", asked[1] - asked[0] > 1.95)


def paced(stack, folder):
    """An archive with a time between two requests has it, to a millisecond of the watch and not to a second."""
    asked = []

    def answer(_):
        asked.append(time.monotonic())
        return GOOD

    archive = Played(stack, answer)
    file = settings(folder, [("slow.example", archive.address)])
    file.write_text(file.read_text() + "every = 300\n")
    begun = time.monotonic()
    status, text, complaint = run("timegate", file, "-", given=lines_of(f"http://o.example/{number}" for number in range(4)))
    same("four originals are answered", (status, text, complaint), (0, 4 * f"{MEMENTO}\n", ""))
    # A request comes at the archive some time after it was sent, so that the next may seem to be early.
    late = [moment - begun - 0.3 * number for number, moment in enumerate(asked)]
    holds(f"with a rest before each but the first, {asked[-1] - begun:.2f} s in all", len(asked) == 4 and min(late) >= 0)


def given_up(stack, folder):
    """A walk that takes longer than the key `walk` says is given up."""
    (late,) = played(stack, late=slow(3))
    same("an archive is waited for", run("timegate", settings(folder, [late]), ORIGINAL), (0, f"{MEMENTO}\n", ""))
    same("and no longer than a walk may take", run("timegate", settings(folder, [late], walk=1), ORIGINAL), (4, "\n", "late.example: no answer\n"))


def closed_pipes(stack, folder):
    """Whoever reads only the begin of the answers ends the program, which says so in a line at most."""
    is_closed = threading.Event()

    def answer(_):
        if archive.count > 100:    # what is answered now is written to a pipe that nobody reads
            is_closed.wait(PATIENCE)
        return GOOD

    archive = Played(stack, answer)
    file = settings(folder, [("a.example", archive.address)], workers=16, at_once=16)
    given = lines_of(f"http://o.example/{number}" for number in range(1000))
    (folder / "list").write_text(given)
    reader = f"(head -n 3; exec <&-; touch '{folder}/closed')"
    command = f"'{PROGRAM}' timegate '{file}' - <'{folder}/list' 2>'{folder}/said' | {reader}; echo \"${{PIPESTATUS[0]}}\""
    asking = subprocess.Popen(["bash", "-c", command], stdout=subprocess.PIPE, text=True, env=ENVIRONMENT)
    same("three of a thousand answers are read, and then the pipe is closed", [asking.stdout.readline() for _ in range(3)], 3 * [f"{MEMENTO}\n"])
    holds("whose reader has ended", comes_true((folder / "closed").exists))
    is_closed.set()
    same("the program ends with the status of a device", asking.communicate(timeout=PATIENCE)[0], "3\n")
    same("and one line", (folder / "said").read_text(), "device fault\n")
    holds(f"before the list was asked for: {archive.count} walks", archive.count < 500)
    full = subprocess.run(["bash", "-c", f"'{PROGRAM}' timemap '{file}' {ORIGINAL} >/dev/full"], capture_output=True, text=True,
                          timeout=PATIENCE, env=ENVIRONMENT)
    same("a device that is full", (full.returncode, full.stderr), (3, "device fault\n"))
    many = run("timegate", file, "-", given=given)
    same("a thousand answers", (many[0], many[1] == 1000 * f"{MEMENTO}\n", many[2]), (0, True, ""))


def pieces(reader):
    """What was written to a terminal whose other end is closed."""
    with contextlib.suppress(OSError), open(reader, "rb", buffering=0) as shown:
        while piece := shown.read(4096):
            yield piece.decode()


def at_a_terminal(stack, folder):
    """At a terminal it says how many have answered; elsewhere nothing."""
    shown, is_shown = [], threading.Event()

    def answer_last(_):
        is_shown.wait(PATIENCE / 2)
        return GOOD

    file = settings(folder, played(stack, a=GOOD, b=answer_last, c=reply(status=500)))
    reader, terminal = pty.openpty()

    def watch():
        for piece in pieces(reader):
            shown.append(piece)
            if "2 of 3 archives have answered" in "".join(shown):
                is_shown.set()

    watching = threading.Thread(target=watch, daemon=True)
    watching.start()
    ran = subprocess.run([PROGRAM, "timegate", file, ORIGINAL], stdout=subprocess.PIPE, stderr=terminal, timeout=PATIENCE, text=True)
    os.close(terminal)
    watching.join(PATIENCE)
    said = "".join(shown)
    same("the answer stays alone on standard output", (ran.returncode, ran.stdout), (0, f"{MEMENTO}\n"))
    holds("progress is shown while one hasn't answered", is_shown.is_set())
    holds("and cleared before a line and at the end", re.search(r"\r\x1b\[Kc\.example: status 500\r\n", said) is not None
          and said.endswith("\r\x1b[K"))


def words_of_its_own():
    """Help and the version are answered on standard output."""
    for word in ("--help", "-h", "help"):
        status, text, complaint = run(word)
        same(f"{word} is answered", (status, "aggregator timemap FILE ORIGINAL" in text, complaint), (0, True, ""))
    same("so is help behind a command", run("timemap", "--help")[0], 0)
    version = subprocess.run([TOP / "deploy/version"], capture_output=True, text=True, check=True).stdout.strip().partition("+")[0]
    same("the version is that of CHANGELOG.md", run("--version"), (0, f"aggregator {version}\n", ""))
    for words in (("--version", "more"), ("help", "more"), ("-v",)):
        same(f"{words} ask for nothing there is", run(*words), (2, "", "usage: aggregator [replay | serve FILE | check FILE]\n"))


def main():
    words_of_its_own()
    for trial in (one_original, outcomes, bad_words, a_list, no_further_than_needed, left_alone, asked_again, paced,
                  given_up, closed_pipes, at_a_terminal):
        with contextlib.ExitStack() as stack:
            trial(stack, pathlib.Path(stack.enter_context(tempfile.TemporaryDirectory())))
    print("questions without a service were answered on standard output, each with its status, and what failed was told beside it")


main()
