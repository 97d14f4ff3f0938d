#!/usr/bin/env python3
"""Draws the pictures of speed, and writes the figures of the tables of README.md and docs/SPEED.md.

    bench/publish          measures again, and then does this
    tools/plot.py             draws and writes
    tools/plot.py --check     only says, by its status, whether all are as measured

docs/pictures/speed.svg is drawn from bench/results.tsv: on the left the ratios at the greatest size of each kind, of the least
times and, as a tick, of the middle ones; on the right the least time of one job over its size, ours as a line and the plain
program's dashed. docs/pictures/growth.svg is drawn from bench/growth.tsv.

A row of a table whose first cell begins with a kind in code marks, as `whole`, gets its figures of that kind, in the columns
whose names are known here; a cell stays as it is where nothing was measured.
"""
import math
import pathlib
import re
import sys

import pictures
from command import words_of

TOP = pathlib.Path(__file__).resolve().parent.parent
PICTURES, PAGES = TOP / "docs/pictures", (TOP / "README.md", TOP / "docs/SPEED.md")
COLOURS = {"links": "#1d5fa8", "pages": "#2f7d4f", "states": "#a8491d", "keys": "#7a3f98", "whole": "#8a6d00"}


def rows_of(name):
    """The fields of each line of a file of results, if it is there."""
    path = TOP / "bench" / f"{name}.tsv"
    lines = path.read_text(encoding="utf-8").split("\n") if path.exists() else []
    return [line.split("\t") for line in lines if line and not line.startswith("#")]


def measured(name):
    """By kind, size and program, the numbers of a file that bench/compare.py wrote."""
    found = {}
    for kind, size, program, *numbers in rows_of(name):
        found.setdefault(kind, {}).setdefault(int(size), {})[program] = [float(number) for number in numbers]
    return found


def results():
    """By kind, the rows by size: of ours and then of the plain program the least and the middle time."""
    found = measured("results")
    return {kind: {size: (*row["ours"][:2], *row["plain"][:2]) for size, row in found[kind].items()}
            for kind in COLOURS if kind in found}


def draw_ratios(picture, found):
    left, right, top = 90, 360, 60
    most = max(1.1, *(max(rows[max(rows)][0] / rows[max(rows)][2], rows[max(rows)][1] / rows[max(rows)][3]) for rows in found.values()))
    most = math.ceil(most * 4) / 4

    def across(ratio):
        return left + (right - left) * ratio / most

    picture.text((left + right) / 2, 28, "time, as a ratio to plain Rust; tick: of middle runs", 13)
    bottom = top + 46 * len(found) - 10
    for mark in range(int(most * 4) + 1):
        picture.line(across(mark / 4), top - 14, across(mark / 4), bottom, pictures.FAINT if mark == 4 else "#d5dae0", 1)
        picture.text(across(mark / 4), bottom + 18, f"{mark / 4:g}", 11, colour=pictures.FAINT)
    for k, (kind, rows) in enumerate(found.items()):
        least, middle, plain_least, plain_middle = rows[max(rows)]
        y = top + 46 * k + 8
        picture.code(left - 14, y + 4, kind, 13, "end")
        picture.line(across(0), y, across(least / plain_least), y, COLOURS[kind], 9)
        picture.line(across(middle / plain_middle), y - 9, across(middle / plain_middle), y + 9, pictures.INK, 1.5)
        picture.text(right + 40, y + 4, f"{least / plain_least:.2f}", 12, "end")


def draw_times(picture, found):
    left, right, top, bottom = 470, 830, 46, 270
    sizes = sorted({size for rows in found.values() for size in rows})
    times = [time for rows in found.values() for row in rows.values() for time in (row[0], row[2]) if time > 0]
    low, high = math.floor(math.log10(min(times))), math.ceil(math.log10(max(times)))

    def across(size):
        return left + (right - left) * math.log10(size / sizes[0]) / math.log10(sizes[-1] / sizes[0])

    def up(time):
        return bottom - (bottom - top) * (math.log10(time) - low) / (high - low)

    picture.text((left + right) / 2, 28, "milliseconds over mementos (keys: merges); dashed: plain Rust", 13)
    for power in range(low, high + 1):
        picture.line(left, up(10 ** power), right, up(10 ** power), "#d5dae0", 1)
        picture.text(left - 8, up(10 ** power) + 4, f"{10 ** power:,g}", 11, "end", pictures.FAINT)
    for size in sizes:
        picture.text(across(size), bottom + 20, f"{size:,}", 11, colour=pictures.FAINT)
    ends = []
    for kind, rows in found.items():
        points = sorted(rows.items())
        for (size, row), (after, later) in zip(points, points[1:]):
            picture.line(across(size), up(row[0]), across(after), up(later[0]), COLOURS[kind], 2)
            picture.line(across(size), up(row[2]), across(after), up(later[2]), COLOURS[kind], 1.3, "5 4")
        ends.append((up(points[-1][1][0]), across(points[-1][0]), kind))
    beside = []
    for y, x, kind in sorted(ends):
        y = max([y + 4, *(other + 13 for other, at in beside if at == x)])
        beside.append((y, x))
        picture.box(x + 3, y - 11, 7.4 * len(kind) + 6, 14, pictures.PAPER, pictures.PAPER)
        picture.code(x + 6, y, kind, 12, "start", COLOURS[kind])


def plot():
    found = results()
    picture = pictures.Picture(900, 310, "Times of the layers beside plain Rust programs")
    draw_ratios(picture, found)
    draw_times(picture, found)
    return picture.svg()


def growth():
    """By what grows, the sizes with their milliseconds and megabytes."""
    found = {}
    for kind, size, spent, held in rows_of("growth"):
        found.setdefault(kind, []).append((int(size), float(spent), float(held)))
    return found


def draw_growth(picture, left, rows, what):
    """Time and memory over sizes, each on its own scale of powers of ten."""
    right, top, bottom = left + 300, 46, 250
    sizes = [size for size, _, _ in rows]
    picture.text((left + right) / 2, 28, what, 13)
    for size in sizes:
        x = left + (right - left) * math.log10(size / sizes[0]) / math.log10(sizes[-1] / sizes[0])
        picture.text(x, bottom + 20, f"{size:,}", 10, colour=pictures.FAINT)
    for column, colour, unit in ((1, COLOURS["links"], "ms"), (2, COLOURS["states"], "MB")):
        values = [max(row[column], 1) for row in rows]
        high = math.ceil(math.log10(max(*values, 10)))
        points = [(left + (right - left) * math.log10(size / sizes[0]) / math.log10(sizes[-1] / sizes[0]),
                   bottom - (bottom - top) * math.log10(value) / high) for size, value in zip(sizes, values)]
        for one, other in zip(points, points[1:]):
            picture.line(*one, *other, colour, 2)
        side, anchor = (left - 8, "end") if column == 1 else (right + 8, "start")
        for power in range(high + 1):
            y = bottom - (bottom - top) * power / high
            picture.text(side, y + 4, f"{10 ** power:,g}", 10, anchor, colour)
        picture.text(side, top - 12, unit, 11, anchor, colour)


def growth_plot(found):
    picture = pictures.Picture(900, 290, "Time and memory of an index as it grows")
    draw_growth(picture, 70, found["mementos"], "over mementos, ten of each original")
    draw_growth(picture, 530, found["originals"], "1,000,000 mementos over originals")
    return picture.svg()


def time_of(row):
    return f"{row[0]:,.0f} ({row[1]:,.0f}) ms"


def ratio(row, other, program):
    return f"{row['ours'][0] / other[program][0]:.2f}" if program in other else None


def figures():
    """By kind, what the columns of tables say of it."""
    told = {}
    for kind, rows in measured("results").items():
        row = rows[max(rows)]
        told[kind] = {
            "Here": time_of(row["ours"]), "Plain Rust": time_of(row["plain"]), "Ratio": ratio(row, row, "plain"),
            "Expert's": time_of(row["expert"]) if "expert" in row else None, "Ratio to it": ratio(row, row, "expert"),
            "Memory, here and plain": f"{row['ours'][3]:.0f} MB, {row['plain'][3]:.0f} MB",
        }
    for kind, rows in measured("instructions").items():
        row = rows[max(rows)]
        counts = {f"{name}, instructions": f"{row[program][0]:,.0f} million" if program in row else None
                  for name, program in (("Here", "ours"), ("Plain", "plain"), ("Expert's", "expert"))}
        told.setdefault(kind, {}).update(counts, **{"To plain": ratio(row, row, "plain"), "To expert's": ratio(row, row, "expert")})
    for kind, text in rows_of("service"):
        told.setdefault(kind, {})["Measured"] = text
    for kind, rows in growth().items():
        for size, spent, held in rows:
            told[f"{kind} {size}"] = {"Time": f"{spent:,.0f} ms", "Memory": f"{held:,.0f} MB"}
    return told


ROW = re.compile(r"\| `(\w+(?: \d+)?)`")


def filled(page, told):
    """The page with the figures in its tables."""
    lines, names = [], []
    for line in page.split("\n"):
        cells = line.split("|")
        if line.startswith("|") and not ROW.match(line) and not line.startswith("|---"):
            names = [cell.strip() for cell in cells]
        found = ROW.match(line)
        if found and len(cells) == len(names):
            row = told.get(found[1], {})
            cells = [cell if row.get(name) is None else f" {row[name]} " for name, cell in zip(names, cells)]
            line = "|".join(cells)
        lines.append(line)
    return "\n".join(lines)


def main():
    words = words_of(__doc__, options=["--check"])
    told = figures()
    drawn = {PICTURES / "speed.svg": plot()}
    if growth():
        drawn[PICTURES / "growth.svg"] = growth_plot(growth())
    drawn |= {path: filled(path.read_text(encoding="utf-8"), told) for path in PAGES if path.exists()}
    stale = [path for path, text in drawn.items() if not path.exists() or path.read_text(encoding="utf-8") != text]
    if "--check" in words:
        sys.exit(f"not as measured: {', '.join(path.name for path in stale)}; run tools/plot.py" if stale else 0)
    for path in stale:
        path.write_text(drawn[path], encoding="utf-8")


if __name__ == "__main__":
    main()
