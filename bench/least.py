#!/usr/bin/env python3
"""Of several passes of bench/run over the same kinds, prints each kind's rows as the pass has them that others disturbed least.

    bench/least.py RESULTS..

A pass is chosen by the least times of all programs of a kind and size together, ours and theirs, so that no choice favours one. All
rows of a kind and size come from one pass.
"""
import pathlib
import sys

sys.path.insert(0, str(pathlib.Path(__file__).resolve().parent.parent / "tools"))
from command import words_of


def rows_of(path):
    """The rows by kind and size, and the line above them."""
    with open(path, encoding="utf-8") as file:
        head, *lines = file.read().splitlines()
    rows = {}
    for line in lines:
        kind, size, *_ = line.split("\t")
        rows.setdefault((kind, size), []).append(line)
    return head, rows


def together(lines):
    return sum(float(line.split("\t")[3]) for line in lines)


def main():
    path, *others = words_of(__doc__, least=1, most=None)
    head, first = rows_of(path)
    passes = [first, *(rows_of(other)[1] for other in others)]
    print(head)
    for of in first:
        print("\n".join(min((rows[of] for rows in passes), key=together)))


if __name__ == "__main__":
    main()
