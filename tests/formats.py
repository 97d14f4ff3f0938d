#!/usr/bin/env python3
"""TimeMaps in JSON and CDXJ: what is written of texts in link-format is read back by Python's json, and by jq where it is
installed, and lists the same mementos in the same order; and a service with the key `formats` answers in these forms what it
answers in link-format. Where there is a C compiler, each request for memory is refused in turn, and no other text is written.

    ./run --unproved aggregator format_probe && tests/formats.py

Prints a line for each thing that holds, and ends with status 1 at the first that doesn't.
"""
import contextlib
import datetime
import json
import os
import pathlib
import random
import re
import shutil
import subprocess
import tempfile

import playing
from playing import ORIGINAL, PATIENCE, TOP, Played, Service, compiled, holds, link, reply, same
from programs import program

FORMATS = program("format_probe")
BASE = "http://agg.example"
PER_PAGE = 1000
TYPES = {"link": "application/link-format", "json": "application/json", "cdxj": "application/cdxj+ors"}
SENTENCE = re.compile(r'<([^>]*)>; rel="([^"]*)"((?:; [a-z]+="[^"]*")*)')


def imf(second):
    return datetime.datetime.fromtimestamp(second, datetime.timezone.utc).strftime("%a, %d %b %Y %H:%M:%S GMT")


def second_of(text, layout):
    return int(datetime.datetime.strptime(text, layout).replace(tzinfo=datetime.timezone.utc).timestamp())


def head(place, original=ORIGINAL):
    return [f'<{original}>; rel="original"', f'<{BASE}/timegate/{original}>; rel="timegate"',
            f'<{BASE}/timemap/link/{place}>; rel="self"; type="application/link-format"']


def timemap(mementos, first=True, last=True, place=ORIGINAL):
    """A TimeMap or a page in link-format, as the service writes it."""
    lines = head(place)
    for number, (second, uri) in enumerate(mementos):
        words = ["first"] * (first and number == 0) + ["last"] * (last and number == len(mementos) - 1) + ["memento"]
        lines.append(f'<{uri}>; rel="{" ".join(words)}"; datetime="{imf(second)}"')
    return ",\n".join(lines) + "\n"


def index(pages):
    """The index of pages with these periods."""
    lines = head(ORIGINAL)
    for number, (begin, end) in enumerate(pages, 1):
        lines.append(f'<{BASE}/timemap/link/page/{number}/{ORIGINAL}>; rel="timemap"; type="application/link-format"; '
                     f'from="{imf(begin)}"; until="{imf(end)}"')
    return ",\n".join(lines) + "\n"


def convert(text, form):
    """What the program writes of a text; None if it says that the text is no listing."""
    done = subprocess.run([FORMATS, form], input=text.encode(), capture_output=True, timeout=PATIENCE)
    return done.stdout.decode()[:-1] if done.returncode == 0 else None


def in_json(text):
    """The mementos of a text in JSON: the second and the address of each."""
    return [(second_of(one["datetime"], "%Y-%m-%dT%H:%M:%SZ"), one["uri"]) for one in json.loads(text)["mementos"]["list"]]


def rows_of(text):
    """The fourteen digits and the JSON of each line of a text in CDXJ that isn't about the text itself."""
    parted = [line.split(" ", 1) for line in text.splitlines() if not line.startswith("!")]
    return [(digits, json.loads(rest)) for digits, rest in parted]


def in_cdxj(text):
    """The mementos of a text in CDXJ."""
    for digits, row in rows_of(text):
        if second_of(digits, "%Y%m%d%H%M%S") != second_of(row["datetime"], "%a, %d %b %Y %H:%M:%S GMT"):
            raise SystemExit(f"{digits} beside {row}")
    return [(second_of(digits, "%Y%m%d%H%M%S"), row["uri"]) for digits, row in rows_of(text)]


def in_link(text):
    """The mementos of a text in link-format, by an expression that knows just what the service writes."""
    found = []
    for uri, rel, rest in SENTENCE.findall(text):
        if "memento" in rel.split():
            found.append((second_of(re.search('datetime="([^"]*)"', rest)[1], "%a, %d %b %Y %H:%M:%S GMT"), uri))
    return found


def about(text):
    """The lines about a text in CDXJ: its name, and its JSON."""
    return [(name, json.loads(rest)) for name, rest in (line.split(" ", 1) for line in text.splitlines() if line.startswith("!"))]


def forms_of(original=ORIGINAL, base=BASE):
    return {f"{name}_format": f"{base}/timemap/{name}/{original}" for name in ("link", "json", "cdxj")}


def by_jq(text, question):
    return subprocess.run(["jq", "-r", question], input=text, capture_output=True, text=True, check=True).stdout.splitlines()


def many(count, seed):
    """Mementos in order, with every character that an address may have, and the ends of the calendar."""
    chance = random.Random(seed)
    letters = [chr(code) for code in range(0x21, 0x7F) if chr(code) not in '"<>']
    seconds = sorted({0, 951782400, 253402300799, *(chance.randrange(253402300800) for _ in range(count))})
    return [(second, "http://m.example/" + "".join(chance.choices(letters, k=chance.randrange(60)))) for second in seconds]


def try_timemap():
    mementos = many(400, 1)
    text = timemap(mementos)
    came, lines = convert(text, "json"), convert(text, "cdxj")
    same("a TimeMap in JSON has the mementos, in order, as Python reads it", in_json(came), mementos)
    same("and so in CDXJ", in_cdxj(lines), mementos)
    value = json.loads(came)
    same("the members of the JSON are MemGator's, in its order", list(value),
         ["original_uri", "self", "mementos", "timemap_uri", "timegate_uri"])
    same("with the list, the first and the last", [list(value["mementos"]), value["mementos"]["first"], value["mementos"]["last"]],
         [["list", "first", "last"], value["mementos"]["list"][0], value["mementos"]["list"][-1]])
    same("and the addresses", [value["original_uri"], value["self"], value["timemap_uri"], value["timegate_uri"]],
         [ORIGINAL, f"{BASE}/timemap/json/{ORIGINAL}", forms_of(), f"{BASE}/timegate/{ORIGINAL}"])
    same("the lines about the CDXJ are MemGator's", about(lines),
         [("!context", ["http://tools.ietf.org/html/rfc7089"]), ("!id", {"uri": f"{BASE}/timemap/cdxj/{ORIGINAL}"}),
          ("!keys", ["memento_datetime_YYYYMMDDhhmmss"]), ("!meta", {"original_uri": ORIGINAL}),
          ("!meta", {"timegate_uri": f"{BASE}/timegate/{ORIGINAL}"}), ("!meta", {"timemap_uri": forms_of()})])
    same("the relations of its rows are those of link-format", [row["rel"] for _, row in rows_of(lines)],
         ["first memento"] + ["memento"] * (len(mementos) - 2) + ["last memento"])
    if shutil.which("jq"):
        same("jq reads the addresses", by_jq(came, ".mementos.list[].uri"), [uri for _, uri in mementos])
        same("and the seconds", by_jq(came, ".mementos.list[].datetime | fromdateiso8601"), [str(second) for second, _ in mementos])
        rest = "\n".join(line.split(" ", 1)[1] for line in lines.splitlines() if not line.startswith("!"))
        same("and the addresses of CDXJ", by_jq(rest, ".uri"), [uri for _, uri in mementos])
    one = json.loads(convert(timemap(mementos[:1]), "json"))["mementos"]
    same("of one memento the first and the last are the same", one["first"], one["last"])


def try_pages():
    mementos = many(30, 2)
    for first, last in [(True, False), (False, False), (False, True)]:
        place = f"page/2/{ORIGINAL}"
        text = timemap(mementos, first, last, place)
        value = json.loads(convert(text, "json"))
        same(f"a page says of the ends what it has: first {first}, last {last}", ["first" in value["mementos"], "last" in value["mementos"]],
             [first, last])
        same("its own address is the page's", value["self"], f"{BASE}/timemap/json/{place}")
        same("and those of the TimeMap the original's", value["timemap_uri"], forms_of())
        same("its mementos are those of the text", [in_json(convert(text, "json")), in_cdxj(convert(text, "cdxj"))], [mementos] * 2)
    periods = [(0, 10), (10, 951782400), (951782401, 253402300799)]
    value, lines = json.loads(convert(index(periods), "json")), convert(index(periods), "cdxj")
    holds("an index has no list of mementos", "mementos" not in value)
    same("but its pages, with their addresses in JSON and their periods",
         [(page["uri"], *(second_of(page[key], "%Y-%m-%dT%H:%M:%SZ") for key in ("from", "until"))) for page in value["pages"]],
         [(f"{BASE}/timemap/json/page/{number}/{ORIGINAL}", *period) for number, period in enumerate(periods, 1)])
    same("and likewise in CDXJ", [(digits, row) for digits, row in rows_of(lines)],
         [(datetime.datetime.fromtimestamp(begin, datetime.timezone.utc).strftime("%Y%m%d%H%M%S"),
           {"uri": f"{BASE}/timemap/cdxj/page/{number}/{ORIGINAL}", "rel": "timemap", "from": imf(begin), "until": imf(end)})
          for number, (begin, end) in enumerate(periods, 1)])


def try_others():
    text = timemap(many(3, 3))
    others = {"nothing": "", "no link-format": "<a", "two links": ",\n".join(head(ORIGINAL)[:2]),
              "a TimeGate of another original": text.replace(f"/timegate/{ORIGINAL}", "/timegate/http://b.example/"),
              "a text at another address": text.replace("/timemap/link/", "/timemap/list/"),
              "a memento without a datetime": text.replace('; datetime="' + imf(0) + '"', ""),
              "a relation of another kind": text.replace('rel="memento"', 'rel="item"')}
    for name, other in others.items():
        same(f"{name} is no listing", [convert(other, form) for form in ("json", "cdxj")], [None, None])


def outcome(text, library, **more):
    """What the program writes of a text in both forms under `refuse.c`, and how it ends."""
    words = {**os.environ, "LD_PRELOAD": str(library), **more}
    done = subprocess.run([FORMATS], input=text.encode(), capture_output=True, timeout=PATIENCE, env=words)
    return done.returncode, done.stdout, done.stderr


def try_refusals():
    """Each request for memory is refused in turn: what is written is all, or a beginning of it with a fault."""
    with tempfile.TemporaryDirectory() as folder:
        library, count = compiled(folder, TOP / "tests/memory/refuse.c"), pathlib.Path(folder, "count")
        for name, text in [("a TimeMap", timemap(many(3, 4))), ("an index", index([(0, 10), (11, 951782400)]))]:
            whole = outcome(text, library, COUNT=str(count))
            asked = int(count.read_text())
            came = [outcome(text, library, REFUSE=str(number)) for number in range(1, asked + 1)]
            faults = [one for one in came if one != whole]
            same(f"{name}: whichever of {asked} requests is refused, no other text is written",
                 [one for one in faults if one[0] == 0 or b"memory" not in one[2] or not whole[1].startswith(one[1])], [])
            holds(f"most are needed: {len(faults)}", 2 * len(faults) > asked)


def ask(service, target, method="GET"):
    """The status, the fields but for the date and the length, and the body."""
    status, fields, body = playing.ask(service.ports[0], target, method)
    return status, {name: value for name, value in fields.items() if name not in ("date", "content-length")}, body


def retyped(fields, form):
    """The fields of the answer in link-format, with the form's type."""
    return {**fields, "content-type": TYPES[form]}


def try_service():
    count = 2 * PER_PAGE + 500
    pages = {"/timemap/link/" + ORIGINAL: ",".join(link(f"http://m.example/{n}", imf(10 ** 9 + n)) for n in range(count)),
             "/timemap/link/http://b.example/": link("http://m.example/b\\c", imf(5))}
    with contextlib.ExitStack() as stack:
        archive = Played(stack, lambda target: reply(pages[target]) if target in pages else reply(status=404))
        named = {"archives": [("arc.example", archive.address)], "originals": list(map(str, [ORIGINAL, "http://b.example/"]))}
        service = Service(stack, keys={"formats": ["json", "cdxj"]}, **named)
        service.line()
        places = ["http://b.example/", *(f"page/{number}/{ORIGINAL}" for number in (1, 2, 3))]
        for place in places:
            status, fields, body = ask(service, "/timemap/link/" + place)
            for form, read in [("json", in_json), ("cdxj", in_cdxj)]:
                came = ask(service, f"/timemap/{form}/{place}")
                same(f"/timemap/{form}/{place} has the mementos of the text in link-format", read(came[2]), in_link(body))
                same("with the same status and fields but for the type", came[:2], (status, retyped(fields, form)))
                if form == "json" and shutil.which("jq"):
                    same("as jq reads it, too", by_jq(came[2], ".mementos.list[].uri"), [uri for _, uri in in_link(body)])
                same("HEAD has the fields alone", ask(service, f"/timemap/{form}/{place}", "HEAD"), (status, retyped(fields, form), ""))
        value = json.loads(ask(service, f"/timemap/json/{ORIGINAL}")[2])
        listed = []
        for page in value["pages"]:
            listed += in_json(ask(service, page["uri"].removeprefix(BASE))[2])
        same("the pages that the index in JSON names have all mementos, in order", listed,
             [(10 ** 9 + n, f"http://m.example/{n}") for n in range(count)])
        for place, method in [("http://c.example/", "GET"), (f"page/4/{ORIGINAL}", "GET"), (f"page/0/{ORIGINAL}", "GET"),
                              ("ftp://a.example/", "GET"), ("", "GET"), (ORIGINAL, "POST"), ("http://c.example/", "HEAD")]:
            wanted = ask(service, "/timemap/link/" + place, method)
            holds(f"{method} {place} is refused in link-format", wanted[0] in (400, 404, 405))
            same("and alike in each form", [ask(service, f"/timemap/{form}/{place}", method) for form in ("json", "cdxj")], [wanted] * 2)
        same("TimeGates are as without the key", ask(service, "/timegate/http://b.example/")[:1], (302,))
        alone = Service(stack, keys={"formats": ["cdxj"]}, **named)
        alone.line()
        same("a form that isn't named is no route", ask(alone, "/timemap/json/http://b.example/")[::2], (404, "no such route\n"))
        holds("and the other is one", ask(alone, "/timemap/cdxj/http://b.example/")[0] == 200)
        without = Service(stack, **named)
        without.line()
        for form in ("json", "cdxj"):
            same(f"without the key /timemap/{form}/ is no route", ask(without, f"/timemap/{form}/http://b.example/")[::2],
                 (404, "no such route\n"))


def main():
    try_timemap()
    try_pages()
    try_others()
    if shutil.which("cc"):
        try_refusals()
    try_service()
    print(f"TimeMaps in JSON and CDXJ are read back{'' if shutil.which('jq') else '; without jq'}"
          f"{'' if shutil.which('cc') else '; without cc, so that no memory was refused'}")


main()
