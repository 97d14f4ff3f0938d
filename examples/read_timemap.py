#!/usr/bin/env python3
"""Prints the mementos of an original, one a line: its datetime and its address. A client of thirty lines, as docs/API.md says.

    examples/read_timemap.py BASE ORIGINAL      as http://127.0.0.1:8080 http://a.example/

It follows the index of a long TimeMap, waits as `Retry-After` says, asks again a few times, and ends with status 1 if there is no
memento.
"""
import pathlib
import re
import sys
import time
import urllib.error
import urllib.request

sys.path.insert(0, str(pathlib.Path(__file__).resolve().parent.parent / "tools"))
from command import words_of

TRIES = 8
LINK = re.compile(r'<([^>]*)>((?:\s*;\s*\w+="[^"]*")*)')


def text_at(url):
    """The text at an address; None if no memento is known."""
    for tries in range(1, TRIES + 1):
        try:
            with urllib.request.urlopen(url) as reply:
                return reply.read().decode()
        except urllib.error.HTTPError as refused:
            seconds = refused.headers.get("Retry-After")
            if refused.code == 404 and (seconds is None or tries == TRIES):
                return None
            if seconds is None or tries == TRIES:
                raise
            time.sleep(int(seconds))


def links(text):
    """The links of a text in link-format: of each its address and its parameters."""
    return [(address, dict(re.findall(r'(\w+)="([^"]*)"', parameters))) for address, parameters in LINK.findall(text)]


def mementos(base, path):
    """The mementos of a TimeMap, in its order. Those of an index are on its pages, whose links lead behind the service's base."""
    for address, parameters in links(text_at(base + path) or ""):
        relations = parameters.get("rel", "").split()
        if "memento" in relations:
            yield parameters["datetime"], address
        elif "timemap" in relations and "/timemap/link/page/" in address:
            yield from mementos(base, address[address.index("/timemap/link/page/"):])


def main():
    base, original = words_of(__doc__, least=2, most=2)
    found = list(mementos(base, f"/timemap/link/{original}"))
    for datetime, address in found:
        print(datetime, address)
    sys.exit(not found)


if __name__ == "__main__":
    main()
