#!/usr/bin/env python3
"""Talks to `replay` through pipes: each answer comes before the next question is asked, whatever the pieces in which a
question comes; and a long script is held in the memory of its longest command, and of what its replicas know.

    ./run --unproved && tests/pipes.py
"""
import os
import pathlib
import re
import select
import subprocess

from playing import PATIENCE, PROGRAM, TOP, holds, link, same

LONG = 60    # megabytes of the long script
MOST = 20    # megabytes of memory that may be resident


class Talk:
    """A replay that is asked through a pipe."""

    def __init__(self):
        self.replay = subprocess.Popen([PROGRAM, "replay"], stdin=subprocess.PIPE, stdout=subprocess.PIPE,
                                       stderr=subprocess.PIPE, bufsize=0)

    def says(self, text):
        """Writes this, and expects no answer."""
        self.replay.stdin.write(text)

    def answer(self, length):
        """So many bytes of answers, or what came of them in time."""
        came = b""
        while len(came) < length and select.select([self.replay.stdout], [], [], PATIENCE)[0]:
            piece = os.read(self.replay.stdout.fileno(), length - len(came))
            if not piece:
                break
            came += piece
        return came

    def is_silent(self):
        """Whether nothing is to be read now."""
        return not select.select([self.replay.stdout], [], [], 0)[0]

    def ask(self, question, answer):
        self.says(question)
        same(f"the answer to {question[:40]!r} comes before the next question", self.answer(len(answer)), answer)

    def ends(self, status, said):
        self.replay.stdin.close()
        rest = self.replay.stdout.read()
        error = self.replay.stderr.read().decode()
        return (self.replay.wait(PATIENCE), rest, error) == (status, b"", said)

    def most_resident(self):
        """The most bytes that were resident so far."""
        status = pathlib.Path(f"/proc/{self.replay.pid}/status").read_text()
        return 1024 * int(re.search(r"VmHWM:\s*(\d+) kB", status)[1])


def not_found(reason):
    body = reason.encode()
    return b"reply 404\nContent-Type: text/plain\nbody %d\n%s" % (len(body), body)


QUESTIONS = [
    (b"send 1\n", b"sent 1\n"),
    (b"\n\n\nsend 1\n", b"sent 2\n"),
    (b"deliver 2 1\n", b"joined\n"),
    (b"receive 2 30\nmemento-state 1\nentries 0\nend\n\n", b"received\n"),
    (b"take 1 a1 1 http://m.example/ 0 http://a.example/\n\n", b"taken 0 0 0\n"),
    (b"map 1 http://a.example/\n", not_found("no memento\n")),
    (b"ask 1 GET 0 /nowhere\n", not_found("no such route\n")),
    (b"ask 1 GET 2 /nowhere\none\ntwo\n", not_found("no such route\n")),
    (b"restart 9\n", b"refused no replica\n"),
]


def in_turn():
    talk = Talk()
    talk.says(b"replicas 2 http://agg.example\n")
    for question, answer in QUESTIONS:
        talk.ask(question, answer)
    talk.says(b"no command\n")
    holds("a bad line is told of at once, by its number", talk.replay.wait(PATIENCE) == 2)
    holds("nothing else is written", talk.ends(2, "bad line 21\n"))


def byte_by_byte():
    """No answer comes before the last byte of its question."""
    talk = Talk()
    talk.says(b"replicas 2 http://agg.example\n")
    for question, answer in QUESTIONS:
        for byte in question[:-1]:
            talk.says(bytes([byte]))
        early = not talk.is_silent()
        talk.says(question[-1:])
        came = talk.answer(len(answer))
        if early or came != answer:
            same(f"the answer to {question!r}, which came byte by byte", came, answer)
            holds(f"nothing comes before the end of {question!r}", False)
    holds("each question may come byte by byte", talk.ends(0, ""))


def all_at_once():
    """Questions that come in one piece are answered in order."""
    talk = Talk()
    talk.says(b"replicas 2 http://agg.example\n" + b"".join(question for question, _ in QUESTIONS))
    wanted = b"".join(answer for _, answer in QUESTIONS)
    same("questions that come in one piece are answered in order", talk.answer(len(wanted)), wanted)
    holds("and the replay goes on until its input ends", talk.ends(0, ""))


def long_script():
    """A `take` of 1 MB after the other, of the same original: what is known stays as much as one page's."""
    page = ",\n".join(link(f"http://m.example/{k:06d}/http://a.example/a/page/of/some/length") for k in range(8_500)).encode()
    talk = Talk()
    talk.says(b"replicas 1 http://agg.example\n")
    written = 0
    for revision in range(1, LONG + 1):
        block = b"take 1 a1 %d http://m.example/ %d http://a.example/\n%s\n" % (revision, len(page), page)
        talk.says(block)
        written += len(block)
        answer = b"taken 8500 0 0\n"
        if talk.answer(len(answer)) != answer:
            holds(f"page {revision} is taken", False)
    most = talk.most_resident()
    holds(f"a script of {written // 1_000_000} MB is held in {most // 1_000_000} MB, and {MOST} at most", most <= MOST * 1_000_000)
    holds("the long script ends well", talk.ends(0, ""))


subprocess.run([TOP / "tests/pipes/coprocess.sh", PROGRAM], check=True, timeout=10 * PATIENCE)
holds("a coprocess of bash gets each answer before it asks the next question", True)
in_turn()
byte_by_byte()
all_at_once()
long_script()
print("each answer comes before the next question, and a long script is held in the memory of one command")
