#!/usr/bin/env python3
"""Whether URLs are read and written as the URL Standard's own tests say: those of urltestdata.json, as Debian packages it.

    ./run --unproved && tests/urls.py          apt-get install librust-url-dev

By scripts, since a script can say a URL wherever an archive or a reader can. A case without a base is an original, and so is a case
whose text begins with `http://` or `https://`, since an archived address stands on a page as it is. A case with an http or https
base is a memento's address on a page that was fetched from there. If the URL that should come out is of another scheme, or there
should be none, the original is refused and the memento is left out. A script can't say a text with a line feed, or one that is no
Unicode text; a page can't say one with `>` or a control byte as the target of a link, or an address with a space as its own.

The cases that are known to differ stand in KNOWN, with their reason. Any other that differs fails the test, and so does one of these
that no longer differs.
"""
import glob
import json
import pathlib
import re
import subprocess
import sys

from playing import PROGRAM, lacks

PLACES = "/usr/share/cargo/registry/url-*/tests/urltestdata.json"

# Texts that the standard refuses and the toolchain's `url` takes: the last label of the host begins with `xn--`, and what
# follows is no Punycode of any text.
INVALID_LABEL = "pokxncvks"
KNOWN = {f"http://{host}" + INVALID_LABEL for host in (
    "a.b.c.xn--", "a.b.c.XN--", "a.b.c.Xn--", "10.0.0.xn--", "10.0.0.XN--", "10.0.0.xN--")}

# At least so many cases are tried: fewer would mean that the file has another form than this test reads.
LEAST = 500

IS_WEB = re.compile("https?://", re.I)
MEMENTO = '>; rel="memento"; datetime="Sat, 01 Jan 2000 00:00:00 GMT"'


def cases():
    """The cases that a script can say: the text, its base if it is a reference, and the URL that should come out, or None."""
    found = sorted(glob.glob(PLACES))
    if not found:
        lacks("needs the URL Standard's tests: apt-get install librust-url-dev")
    listed = json.loads(pathlib.Path(found[-1]).read_text(encoding="utf-8"))
    for case in (it for it in listed if isinstance(it, dict)):
        text, base = case["input"], case.get("base")
        href = None if case.get("failure") or not IS_WEB.match(case["href"]) else case["href"]
        is_alone = base in (None, "about:blank") or IS_WEB.match(text)
        if not is_unicode(text + (base or "")) or "\n" in text:
            continue
        if is_alone and text:
            yield text, None, href
        elif not is_alone and IS_WEB.match(base) and not re.search(r"[\x00-\x1f\x7f>]", text) and " " not in base:
            yield text, base, href


def is_unicode(text):
    try:
        text.encode()
    except UnicodeEncodeError:
        return False
    return True


def takes(number, text, base):
    """The commands by which a case is tried: a page is taken, and the TimeMap asked for."""
    if base is None:
        original, page, target = text, "http://arc.example/list", "http://m.example/"
    else:
        original, page, target = f"http://case-{number}.example/", base, text
    block = "<" + target + MEMENTO
    return f"take 1 arc.example {number} {page} {len(block.encode())} {original}\n{block}\nmap 1 {original}\n"


def replies(output):
    """What each pair of commands wrote: the line of the first, and the body of the reply to the second."""
    at = 0

    def line():
        nonlocal at
        end = output.index(b"\n", at)
        text, at = output[at:end].decode(), end + 1
        return text

    while at < len(output):
        taken = line()
        while not (head := line()).startswith("body "):
            pass
        end = at + int(head.split()[1])
        body, at = output[at:end].decode(), end
        yield taken, body


def clean(href):
    """How an address is kept: what would end a link's target or a quoted text is escaped (the standard lets `"` stand in a host)."""
    return "".join(f"%{ord(letter):02X}" if letter in '"<>' else letter for letter in href)


def says(base, href, taken, body):
    """Whether what a case wrote is what should come out."""
    href = href and clean(href)
    if base is None and href is None:
        return taken == "refused bad original" and body == "bad original\n"
    if base is None:
        return taken == "taken 1 0 0" and body.startswith(f'<{href.split("#")[0]}>; rel="original",\n')
    if href is None:
        return taken == "taken 0 0 1" and 'rel="first last memento"' not in body
    return taken == "taken 1 0 0" and f'\n<{href}>; rel="first last memento"' in body


def main():
    tried = list(cases())
    script = "replicas 1 http://agg.example\n" + "".join(takes(number, text, base) for number, (text, base, _) in enumerate(tried))
    ran = subprocess.run([PROGRAM, "replay"], input=script.encode(), capture_output=True)
    if ran.returncode != 0:
        sys.exit(f"status {ran.returncode}: {ran.stderr.decode().strip()}")
    written = list(replies(ran.stdout))
    if len(written) != len(tried) or len(tried) < LEAST:
        sys.exit(f"{len(tried)} cases, and what {len(written)} wrote")
    differ, wrong = set(), []
    for (text, base, href), (taken, body) in zip(tried, written):
        if not says(base, href, taken, body):
            differ.add(text)
            wrong += [] if text in KNOWN else [f"{text!r} at {base!r}: {href!r} should come out, and {taken!r} was written: {body[:150]!r}"]
    wrong += [f"{text!r} is read as it should be now" for text in sorted(KNOWN - differ)]
    if wrong:
        sys.exit("\n".join(wrong))
    references = sum(base is not None for _, base, _ in tried)
    print(f"of {len(tried)} cases of the URL Standard's tests, {references} of them references on a page, {len(tried) - len(differ)} are read "
          f"and written as it says, and the {len(differ)} others are those with an invalid label that are known")


if __name__ == "__main__":
    main()
