#!/usr/bin/env python3
"""Draws the pictures of the documents from text.

    tools/pictures.py             writes crates.svg, exchange.svg, crossings.svg and service.svg in docs/pictures
    tools/pictures.py --check     only says, by its status, whether they are as drawn

crates.svg is drawn from crates.txt and from layers.txt of that folder, exchange.svg from examples/two.replay and its expected
output, crossings.svg from crossings.txt, service.svg from service.txt.
"""
import pathlib
import re
import sys
from xml.sax.saxutils import escape

from command import words_of

TOP = pathlib.Path(__file__).resolve().parent.parent
PICTURES = TOP / "docs/pictures"
INK, FAINT, PAPER, BOX = "#1f2933", "#5b6773", "#fbfaf7", "#ffffff"
COLOURS = ["#1d5fa8", "#a8491d", "#2f7d4f"]


class Picture:
    """An SVG on paper of its own, so that it is as readable on a dark page as on a light one."""

    def __init__(self, width, height, title):
        self.width, self.height, self.title, self.parts = width, height, title, []

    def text(self, x, y, words, size=13, anchor="middle", colour=INK, style=""):
        self.parts.append(f'<text x="{x:g}" y="{y:g}" font-size="{size}" text-anchor="{anchor}" fill="{colour}"{style}>{escape(words)}</text>')

    def code(self, x, y, words, size=12, anchor="middle", colour=INK):
        self.text(x, y, words, size, anchor, colour, ' font-family="ui-monospace, DejaVu Sans Mono, monospace"')

    def box(self, x, y, width, height, line=FAINT, fill=BOX, thick=1):
        self.parts.append(f'<rect x="{x:g}" y="{y:g}" width="{width:g}" height="{height:g}" rx="6" fill="{fill}" stroke="{line}" stroke-width="{thick}"/>')

    def line(self, x1, y1, x2, y2, colour=FAINT, thick=1, dash=""):
        self.parts.append(f'<line x1="{x1:g}" y1="{y1:g}" x2="{x2:g}" y2="{y2:g}" stroke="{colour}" stroke-width="{thick}"'
                          + (f' stroke-dasharray="{dash}"' if dash else "") + "/>")

    def curve(self, x1, y1, x2, y2, colour, thick):
        middle = (y1 + y2) / 2
        self.parts.append(f'<path d="M{x1:g} {y1:g}C{x1:g} {middle:g} {x2:g} {middle:g} {x2:g} {y2:g}" fill="none" stroke="{colour}" stroke-width="{thick}"/>')

    def head(self, x, y, along, colour=FAINT):
        """An arrow's head whose point is here, along (right, down)."""
        right, down = along
        points = [(x, y), (x - 9 * right + 4 * down, y - 9 * down - 4 * right), (x - 9 * right - 4 * down, y - 9 * down + 4 * right)]
        self.parts.append(f'<polygon points="{" ".join(f"{a:g},{b:g}" for a, b in points)}" fill="{colour}"/>')

    def arrow(self, x1, x2, y, colour=FAINT, dash="", thick=1.3):
        self.line(x1, y, x2 + (-6 if x2 > x1 else 6), y, colour, thick, dash)
        self.head(x2, y, (1 if x2 > x1 else -1, 0), colour)

    def svg(self):
        body = "\n".join(self.parts)
        return (f'<svg xmlns="http://www.w3.org/2000/svg" viewBox="0 0 {self.width:g} {self.height:g}" width="{self.width:g}" height="{self.height:g}" '
                f'role="img" font-family="system-ui, DejaVu Sans, sans-serif">\n<title>{escape(self.title)}</title>\n'
                f'<rect width="{self.width:g}" height="{self.height:g}" rx="10" fill="{PAPER}"/>\n{body}\n</svg>\n')


def rows_of(path):
    """The lines `WORD: TEXT` of a file, without comments."""
    lines = path.read_text(encoding="utf-8").split("\n")
    pairs = (line.partition(":") for line in lines if line.strip() and not line.startswith("#"))
    return [(word.strip(), text.strip()) for word, _, text in pairs]


def below(name, uses):
    """All that a crate stands on."""
    return {deep for low in uses[name] for deep in {low} | below(low, uses)}


def draw_crates():
    words = dict(rows_of(PICTURES / "layers.txt"))
    left_out = words.pop("beside").split()
    ways = [(name, [stretch.split() for stretch in text.split(";")]) for name, text in words.items() if name.startswith("way of ")]
    all_uses = {name.split()[0]: text.split() for name, text in rows_of(TOP / "crates.txt")}
    uses = {name: [low for low in lows if low in all_uses] for name, lows in all_uses.items() if name not in left_out}
    depth = {}
    for name in uses:
        depth[name] = 1 + max((depth[low] for low in uses[name]), default=-1)
    order = list(words)
    layers = [sorted((name for name in uses if depth[name] == k), key=lambda it: order.index(it) if it in order else 99)
              for k in range(max(depth.values()) + 1)]
    wide, high, step, gap = 200, 46, 92, 30
    width = max(len(layer) for layer in layers) * (wide + gap) + gap
    picture = Picture(width, len(layers) * step + 44, "The crates, each above those that it uses, and the ways of data")
    place = {}
    for k, layer in enumerate(layers):
        for n, name in enumerate(layer):
            place[name] = ((width - len(layer) * (wide + gap) + gap) / 2 + n * (wide + gap), (len(layers) - 1 - k) * step + 16)
    on_way = [(start, end, k) for k, (_, stretches) in enumerate(ways) for way in stretches for start, end in zip(way, way[1:])]

    def way_past(k, wanted, start):
        """The middle of the gap nearest to where a way is wanted between the boxes of a layer, or beside them."""
        starts = sorted(place[name][0] for name in layers[k])
        gaps = [starts[0] - gap / 2, *(start + wide + gap / 2 for start in starts)]
        return min(gaps, key=lambda it: (round(abs(it - wanted)), abs(it - start)))

    def route(begin, end, colour, thick, shift=0):
        """A line from one crate up or down to another, past the boxes of the layers between; a thick one ends in an arrow's head."""
        (x1, y1), (x2, y2) = place[begin], place[end]
        start, goal, step_on = x1 + wide / 2, x2 + wide / 2, 1 if y2 < y1 else -1
        passed = range(depth[begin] + step_on, depth[end], step_on)
        beside = [way_past(k, start + (goal - start) * (n + 1) / (len(passed) + 1), start) + shift for n, k in enumerate(passed)]
        aside = 45 if thick > 1 else 0

        def towards(middle, x):
            return middle + shift + (aside if x > middle + 20 else -aside if x < middle - 20 else 0)

        y, x = (y1, towards(start, [*beside, goal][0])) if step_on > 0 else (y1 + high, towards(start, [*beside, goal][0]))
        for k, past in zip(passed, beside):
            top = (len(layers) - 1 - k) * step + 16
            near, far = (top + high, top) if step_on > 0 else (top, top + high)
            picture.curve(x, y, past, near, colour, thick)
            picture.line(past, near, past, far, colour, thick)
            x, y = past, far
        last, tip = towards(goal, [start, *beside][-1]), y2 + high if step_on > 0 else y2
        picture.curve(x, y, last, tip + (9 * step_on if thick > 1 else 0), colour, thick)
        if thick > 1:
            picture.head(last, tip, (0, -step_on), colour)

    drawn = {frozenset(pair) for *pair, _ in on_way}
    for name, lows in uses.items():
        needed = [low for low in lows if not any(low in below(other, uses) for other in lows)]
        for low in needed:
            if frozenset((low, name)) not in drawn:
                route(low, name, "#aab4be", 1)
    for begin, end, k in on_way:
        route(begin, end, COLOURS[k], 2.5, 8 * (k - 1))
    for name, (x, y) in place.items():
        colours = [COLOURS[k] for k, (_, stretches) in enumerate(ways) if any(name in way for way in stretches)]
        picture.box(x, y, wide, high, colours[0] if colours else FAINT, thick=1.6 if colours else 1)
        picture.code(x + wide / 2, y + 19, name, 13)
        picture.text(x + wide / 2, y + 36, words.get(name, ""), 11, colour=FAINT)
    x = 30
    for k, (name, _) in enumerate(ways):
        y = len(layers) * step + 22
        picture.line(x, y, x + 34, y, COLOURS[k], 2.5)
        picture.text(x + 42, y + 4, name, 12, "start")
        x += 190
    picture.line(x, y, x + 34, y, "#aab4be", 1)
    picture.text(x + 42, y + 4, "uses", 12, "start")
    return picture.svg()


def answers_of(text):
    """The answers in a script's output: each a line, and of a reply also its body."""
    answers, at = [], 0
    while at < len(text):
        line, _, _ = text[at:].partition("\n")
        at += len(line) + 1
        body = ""
        if line.startswith("reply"):
            headers, _, rest = text[at:].partition("body ")
            length, _, rest = rest.partition("\n")
            body = rest[:int(length)]
            at += len(headers) + len("body ") + len(length) + 1 + len(body)
        answers.append((line, body))
    return answers


def draw_exchange():
    script = (TOP / "examples/two.replay").read_text().split("\n")
    answers = iter(answers_of((TOP / "examples/two.expected").read_text()))
    columns = {"archive": 90, "1": 330, "2": 570, "reader": 800}
    names = {"archive": "archives", "1": "replica 1", "2": "replica 2", "reader": "reader"}
    commands = [line.split(" ") for line in script if re.match(r"(take|send|deliver|map) ", line)]
    shown = [words for words in commands if words[0] != "send"]
    height = 84 + 52 * len(shown) + 40
    picture = Picture(890, height, "The exchange of examples/two.replay")
    for key, x in columns.items():
        picture.line(x, 50, x, height - 46, "#aab4be", 1, "4 4")
        picture.box(x - 60, 16, 120, 34, FAINT)
        picture.text(x, 38, names[key], 14)
    y, sent, bodies = 84, {}, []
    for words in commands:
        answer, body = next(answers)
        kind, replica = words[0], words[1]
        if kind == "send":
            sent[answer.split()[1]] = replica
            continue
        at = columns[replica]
        if kind == "take":
            page = script[script.index(" ".join(words)) + 1]
            memento = re.search(r'<(.*?)>.*datetime="\w+, (\S+ \S+ \S+)', page)
            picture.arrow(columns["archive"], at, y, COLOURS[0])
            picture.text((columns["archive"] + 330) / 2, y - 7, f"page: {memento[1].removeprefix('http://')}", 12)
            picture.text((columns["archive"] + 330) / 2, y + 16, f"of {memento[2]}", 11, colour=FAINT)
        elif kind == "deliver":
            start = columns[sent[words[2]]]
            picture.arrow(start, at, y, COLOURS[1])
            picture.text((start + at) / 2, y - 7, f"delta with all that replica {sent[words[2]]} took", 12)
            picture.text((start + at) / 2, y + 16, answer, 11, colour=FAINT)
        else:
            bodies.append(body)
            picture.arrow(columns["reader"], at, y, COLOURS[2])
            picture.arrow(at, columns["reader"], y + 20, COLOURS[2], "5 3")
            picture.text((columns["2"] + columns["reader"]) / 2, y - 7, f"TimeMap of {words[2]}", 12)
            picture.text((columns["2"] + columns["reader"]) / 2, y + 36, f"{len(body)} bytes, {body.count('datetime=')} mementos", 11, colour=FAINT)
            y += 10
        y += 52
    if len(set(bodies)) == 1:
        picture.text(445, height - 18, f"the same {len(bodies[0])} bytes from both, and so after any other course of events in which both learn the same", 13)
    return picture.svg()


def draw_crossings():
    rows = rows_of(PICTURES / "crossings.txt")
    stages = sum(kind == "stage" for kind, _ in rows)
    step, high, middle = 84, 34, 300
    height = stages * step
    picture = Picture(900, height, "Which contract carries which crossing, up to the headline")
    place = height - 16 - high
    for kind, text in rows:
        if kind == "stage":
            top = text == rows[-1][1]
            picture.box(middle - 170, place, 340, high, COLOURS[0] if top else FAINT, "#e8f0fa" if top else BOX, 2 if top else 1)
            picture.text(middle, place + 22, text, 14)
            continue
        contract, crate, words = (part.strip() for part in text.split("|"))
        if kind == "cross":
            picture.line(middle, place, middle, place - step + high + 8, COLOURS[0], 2)
            picture.head(middle, place - step + high, (0, -1), COLOURS[0])
            picture.code(middle - 14, place - 20, contract, 13, "end", COLOURS[0])
            picture.text(middle + 14, place - 28, words, 12, "start")
            picture.text(middle + 14, place - 12, crate, 11, "start", FAINT)
            place -= step
        else:
            y = place + high / 2
            picture.arrow(660, middle + 170, y, COLOURS[1])
            picture.code(668, y - 3, contract, 13, "start", COLOURS[1])
            picture.text(668, y + 13, words, 11, "start", FAINT)
    return picture.svg()


def draw_way(picture, start, end, side, words, is_optional):
    """A way between two boxes of one row or one column, with its words on one side of it."""
    (wide, high), colour, dash = BOX_SIZE, COLOURS[1] if is_optional else COLOURS[0], "5 3" if is_optional else ""
    (ax, ay), (bx, by) = start, end
    if ay == by:
        y = ay + high / 2 + 13 * side
        left, right = (ax + wide, bx) if ax < bx else (ax, bx + wide)
        picture.arrow(left, right, y, colour, dash)
        picture.text((left + right) / 2, y + (14 if side > 0 else -6), words, 11)
    else:
        x = ax + wide / 2 + 30 * side
        top, bottom, down = (ay + high, by, 1) if ay < by else (ay, by + high, -1)
        picture.line(x, top, x, bottom - 6 * down, colour, 1.3, dash)
        picture.head(x, bottom, (0, down), colour)
        picture.text(x + 8 * side, (top + bottom) / 2 + 4, words, 11, "end" if side < 0 else "start")


BOX_SIZE = 186, 52


def draw_service():
    picture, places = Picture(1000, 450, "A running service: who hands what to whom"), {}
    wide, high = BOX_SIZE
    for kind, text in rows_of(PICTURES / "service.txt"):
        parts = [part.strip() for part in text.split("|")]
        if kind in ("box", "frame"):
            x, y = 20 + 258 * int(parts[0]), 20 + 116 * int(parts[1])
        if kind == "frame":
            rows = int(parts[2]) - int(parts[1])
            picture.box(x - 12, y - 22, wide + 24, high + 116 * rows + 34, "#aab4be", "#f1efe8")
            picture.text(x - 4, y - 8, parts[3], 11, "start", FAINT)
        elif kind == "box":
            places[parts[2]] = x, y
            picture.box(x, y, wide, high)
            picture.text(x + wide / 2, y + 22, parts[2], 14)
            picture.text(x + wide / 2, y + 39, parts[3], 11, colour=FAINT)
        else:
            draw_way(picture, places[parts[0]], places[parts[1]], int(parts[2]), parts[3], kind == "optional")
    picture.text(20, 438, "Dashed is what optional keys of the settings add: originals_file, wanted, snapshot.", 12, "start", FAINT)
    return picture.svg()


def main():
    words = words_of(__doc__, options=["--check"])
    drawn = {"crates.svg": draw_crates(), "exchange.svg": draw_exchange(), "crossings.svg": draw_crossings(), "service.svg": draw_service()}
    stale = [name for name, text in drawn.items() if not (PICTURES / name).exists() or (PICTURES / name).read_text(encoding="utf-8") != text]
    if "--check" in words:
        sys.exit(f"not as drawn: {', '.join(stale)}; run tools/pictures.py" if stale else 0)
    for name in stale:
        (PICTURES / name).write_text(drawn[name], encoding="utf-8")


if __name__ == "__main__":
    main()
