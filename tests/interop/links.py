"""Prints the links that requests finds in the text on standard input, one a line: the target, then each parameter
behind a tab. Debian: python3-requests. It reads the value of a Link header, so the lines are first put into one."""

import sys

from requests.utils import parse_header_links

header = sys.stdin.read().strip().replace("\n", " ")
for link in parse_header_links(header):
    target = link.pop("url")
    print("\t".join([target] + [f"{name}={value}" for name, value in link.items()]))
