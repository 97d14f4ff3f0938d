#!/usr/bin/env python3
"""Runs programs by turns on one input and compares what they take: ours, a plain program, and perhaps an expert's.

    bench/compare.py KIND SIZE INPUT TIMES COUNTED OURS.. -- PLAIN.. [-- EXPERT..]

All must write the same bytes. COUNTED says what counts of the processor's time: `user`, or `processor` for user and system. A
run does the job TIMES times, and what is told is of one job: the least, the middle and the most of $TURNS runs (7 if it
isn't set), since a machine that does other work as well can only make a run slower. Each turn is on the processor that others
disturb least, and is tried again if that isn't quiet at its end (bench/quiet.py), $TRIES (4) times at most. The most memory that
a run held is told too; less than 15 MB isn't seen, since a run begins as a copy of this script.

With INSTRUCTIONS=1 each program runs once, and what is told are the millions of instructions that it executed outside the
kernel: other work on the machine doesn't change them. `perf stat` counts if the processor lets it, else valgrind. Of a
program whose last word is TIMES those are taken off that a run with 0 there takes: what it does once, as reading its input.

Where $RESULTS names a file, a line for each program is written there: kind, size, program, and then the least, the middle and the
most milliseconds and the megabytes, or the millions of instructions alone; with tabs between. Where $TURNED names a file, a line
is added to it for each turn.
"""
import filecmp
import os
import pathlib
import re
import statistics
import subprocess
import sys
import tempfile

sys.path.insert(0, str(pathlib.Path(__file__).resolve().parent.parent / "tools"))
from command import words_of
from quiet import note_turn

NAMES = "ours", "plain", "expert"
PERF = ["perf", "stat", "-x,", "-e", "instructions:u", "--"]
QUIET = [sys.executable, pathlib.Path(__file__).resolve().parent / "quiet.py"]
TRIES = int(os.environ.get("TRIES", "4"))
VALGRIND = ["valgrind", "--tool=cachegrind", "--cache-sim=no", "--cachegrind-out-file=/dev/null"]


def run(words, source, output):
    """The user and the system time of a run in milliseconds, and the most megabytes that it held."""
    with open(source, "rb") as given, open(output, "wb") as written:
        process = subprocess.Popen(words, stdin=given, stdout=written)
        _, status, spent = os.wait4(process.pid, 0)
        process.returncode = os.waitstatus_to_exitcode(status)
    if process.returncode:
        sys.exit(f"{words[0]} ended with status {process.returncode}")
    return spent.ru_utime * 1000, spent.ru_stime * 1000, spent.ru_maxrss / 1024


def told_by(counter, words, given, written):
    """What a counter of instructions says of a run, which has to end well."""
    ended = subprocess.run([*counter, *words], stdin=given, stdout=written, stderr=subprocess.PIPE, text=True)
    if ended.returncode:
        sys.exit(f"{words[0]} ended with status {ended.returncode}: {ended.stderr[-500:]}")
    return ended.stderr


def perf_counts():
    """Whether perf is there and the processor lets it count."""
    try:
        told = subprocess.run([*PERF, "true"], capture_output=True, text=True).stderr
    except FileNotFoundError:
        return False
    return re.match(r"\d+,", told) is not None


def instructions(words, source, output):
    """The millions of instructions of a run."""
    counter, pattern = (PERF, r"^(\d+),") if perf_counts() else (VALGRIND, r"I +refs: +([\d,]+)")
    with open(source, "rb") as given, open(output, "wb") as written:
        told = told_by(counter, words, given, written)
    return int(re.search(pattern, told, re.M)[1].replace(",", "")) / 1e6


def instructions_of_a_job(words, times, source, output):
    """The millions of instructions of one job, without those that a run takes that does it no time."""
    if words[-1] != times:
        return instructions(words, source, output)
    once = instructions([*words[:-1], "0"], source, os.devnull)
    return (instructions(words, source, output) - once) / int(times)


def parted(words):
    """The words of each program, which `--` parts."""
    programs = [[]]
    for word in words:
        if word == "--":
            programs.append([])
        else:
            programs[-1].append(word)
    return programs


def agree(outputs):
    return all(filecmp.cmp(outputs[0], other, shallow=False) for other in outputs[1:])


def turn(programs, source, outputs):
    """What each program takes, all on the processor that others disturb least; and whether that is quiet at the end."""
    processors = os.sched_getaffinity(0)
    os.sched_setaffinity(0, {int(subprocess.run(QUIET, check=True, capture_output=True, text=True).stdout)})
    try:
        took = [run(program, source, output) for program, output in zip(programs, outputs)]
        return took, subprocess.run([*QUIET, "--is-quiet"]).returncode == 0
    finally:
        os.sched_setaffinity(0, processors)


def quiet_turn(programs, source, outputs):
    """The first turn that is quiet at its end, or else the last of some."""
    for _ in range(TRIES):
        took, is_quiet = turn(programs, source, outputs)
        if is_quiet:
            break
    note_turn(not is_quiet)
    return took


def by_time(programs, source, times, counted, outputs):
    """Of each program the least, middle and most milliseconds, and the megabytes."""
    spent, held = [[] for _ in programs], [0] * len(programs)
    for _ in range(int(os.environ.get("TURNS", "7"))):
        for k, (user, system, megabytes) in enumerate(quiet_turn(programs, source, outputs)):
            spent[k].append((user + system * (counted == "processor")) / times)
            held[k] = max(held[k], megabytes)
    return [[min(each), statistics.median(each), max(each), most] for each, most in zip(spent, held)]


def tell(kind, size, rows):
    told = []
    for name, row in zip(NAMES, rows):
        ratio = "" if name == "ours" or not row[0] else f", ratio {rows[0][0] / row[0]:.2f}"
        if len(row) == 1:
            told.append(f"{name} {row[0]:.1f} million instructions{ratio}")
        else:
            least, middle, most, held = row
            told.append(f"{name} {least:.1f} ms (to {most:.1f}, middle {middle:.1f}), {held:.0f} MB{ratio}")
    print(f"{kind} {size}: {'; '.join(told)}", flush=True)


def write(kind, size, rows):
    with open(os.environ["RESULTS"], "a", encoding="utf-8") as results:
        if results.tell() == 0:
            what = "millions of instructions" if len(rows[0]) == 1 else "least, middle, most ms, MB"
            results.write(f"# kind, size, program; {what}\n")
        for name, row in zip(NAMES, rows):
            results.write("\t".join([kind, size, name, *(f"{number:.2f}" for number in row)]) + "\n")


def main():
    kind, size, source, times, counted, *words = words_of(__doc__, least=7, most=None, options=None)
    programs = parted(words)
    with tempfile.TemporaryDirectory() as folder:
        outputs = [f"{folder}/{k}" for k in range(len(programs))]
        if os.environ.get("INSTRUCTIONS"):
            rows = [[instructions_of_a_job(program, times, source, output)] for program, output in zip(programs, outputs)]
        else:
            rows = by_time(programs, source, int(times), counted, outputs)
        if not agree(outputs):
            sys.exit(f"{kind} {size}: the programs don't write the same")
    tell(kind, size, rows)
    if "RESULTS" in os.environ:
        write(kind, size, rows)


if __name__ == "__main__":
    main()
