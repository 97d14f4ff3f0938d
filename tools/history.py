#!/usr/bin/env python3
"""Keeps the history of speed: bench/history.tsv, with a row for each publish and kind, and its picture, docs/pictures/history.svg.

    tools/history.py             draws the picture
    tools/history.py --add       first adds rows for bench/results.tsv as it is, which bench/publish does after it has measured
    tools/history.py --check     only says, by its status, whether the picture is as the history

A row has the day, the commit that last changed the crates, the kit, the kind and its greatest size, and the least milliseconds of
ours and of the plain program. The rows of earlier publishes, of before this file was kept, are by the commit of the publish itself.
"""
import datetime
import pathlib
import re
import subprocess
import sys

import pictures
import plot
from command import words_of

TOP = pathlib.Path(__file__).resolve().parent.parent
HISTORY, PICTURE = TOP / "bench/history.tsv", TOP / "docs/pictures/history.svg"
LEFT, RIGHT, UPPER, LOWER, WIDE, HIGH = 60, 640, 50, 300, 760, 350


def publishes(rows):
    """The publishes in order: of each its day and commit, and the ratio to plain Rust by kind."""
    found = {}
    for day, commit, _, kind, _, ours, plain in rows:
        found.setdefault((day, commit), {})[kind] = float(ours) / float(plain)
    return list(found.items())


def measured_rows():
    """Rows for what bench/results.tsv has."""
    said = subprocess.run(["git", "-C", TOP, "log", "-1", "--abbrev=8", "--format=%h", "--", "crates", "crates.txt"], capture_output=True, text=True)
    kit = re.search(r"rattle-kit-\w+", (TOP / "README.md").read_text(encoding="utf-8"))[0]
    day = datetime.datetime.now(datetime.timezone.utc).date().isoformat()
    for kind, sizes in plot.results().items():
        ours, _, plain, _ = sizes[max(sizes)]
        yield [day, said.stdout.strip(), kit, kind, str(max(sizes)), f"{ours:.2f}", f"{plain:.2f}"]


def add():
    """Adds the rows of this publish; those of the same day and commit are of an earlier try, and go."""
    new = list(measured_rows())
    head = HISTORY.read_text(encoding="utf-8").split("\n")[0]
    kept = [row for row in plot.rows_of("history") if row[:2] != new[0][:2]]
    HISTORY.write_text("\n".join([head, *("\t".join(row) for row in [*kept, *new])]) + "\n", encoding="utf-8")


def draw():
    found = publishes(plot.rows_of("history"))
    most = max(2.0, *(ratio for _, ratios in found for ratio in ratios.values()))
    picture = pictures.Picture(WIDE, HIGH, "The time of each job as a ratio to plain Rust, publish by publish")

    def place(number, ratio):
        return LEFT + (RIGHT - LEFT) * number / max(len(found) - 1, 1), LOWER - (LOWER - UPPER) * ratio / most

    picture.text((LEFT + RIGHT) / 2, 28, "least time as a ratio to plain Rust, at each publish", 13)
    for mark in range(int(most * 2) + 1):
        y = place(0, mark / 2)[1]
        picture.line(LEFT, y, RIGHT, y, dash="" if mark == 2 else "2 4")
        picture.text(LEFT - 8, y + 4, f"{mark / 2:g}", 11, "end", pictures.FAINT)
    days = None
    for number, ((day, _), _) in enumerate(found):
        if day != days:
            picture.text(place(number, 0)[0], LOWER + 20, f"{int(day[8:])}.{int(day[5:7])}.", 10, colour=pictures.FAINT)
        days = day
    ends = []
    for kind, colour in plot.COLOURS.items():
        points = [place(number, ratios[kind]) for number, (_, ratios) in enumerate(found) if kind in ratios]
        for one, other in zip(points, points[1:]):
            picture.line(*one, *other, colour, 2)
        ends.append((points[-1][1], kind, colour))
    at = UPPER - 20
    for y, kind, colour in sorted(ends):
        at = max(y + 4, at + 14)
        picture.code(RIGHT + 10, at, kind, 12, "start", colour)
    return picture.svg()


def main():
    words = words_of(__doc__, options=["--add", "--check"])
    if "--add" in words:
        add()
    drawn = draw()
    if "--check" in words:
        sys.exit(None if PICTURE.exists() and PICTURE.read_text(encoding="utf-8") == drawn else "history.svg isn't as the history; run tools/history.py")
    PICTURE.write_text(drawn, encoding="utf-8")


if __name__ == "__main__":
    main()
