#!/usr/bin/env bash
# Whether readers of links that nobody here wrote find in our TimeMaps, indexes and pages the links that we mean:
#
#     ./run --unproved && tests/interop.sh
#
# The TimeMap is the last reply to examples/two.replay, the index and its second page are those of the list of 1,001 mementos
# of tests/scripts/paged.py; what is to be found in them stands in two.links, index.links and page.links. The readers are
# Network.HTTP.Link in Haskell (a grammar of Web Linking, the base of RFC 6690) and requests in Python. Those that are
# installed are asked; on Debian: apt-get install ghc libghc-http-link-header-dev python3-requests
set -euo pipefail
. "$(dirname "$0")/saying.sh"
take aggregator
here=$top/tests/interop

# body NAME: the body of the last reply to the script on standard input
body() {
    "$PROGRAM" replay > "$work/output"
    tail -c "$(grep -a '^body [0-9]*$' "$work/output" | tail -n 1 | cut -d ' ' -f 2)" "$work/output" > "$work/$1"
}

body two < "$top/examples/two.replay"
"$top/tests/scripts/paged.py" "$work"
sed '/^map /q' "$work/paged.replay" > "$work/list"
body index < "$work/list"
{ cat "$work/list"; echo "ask 1 GET 0 /timemap/link/page/2/http://a.example/"; } | body page

readers=()
# check READER COMMAND..: the command's lines, given each text, are those that stand here
check() {
    local reader=$1 name
    shift
    for name in two index page; do
        "$@" < "$work/$name" > "$work/found"
        diff "$here/$name.links" "$work/found"
    done
    readers+=("$reader")
}

if command -v ghc > /dev/null && ghc-pkg describe http-link-header > /dev/null 2>&1; then
    check "Network.HTTP.Link (Haskell)" runghc "$here/links.hs"
fi
for python in python3 /usr/bin/python3; do
    if "$python" -c 'import requests' 2> /dev/null; then
        check "requests (Python)" "$python" "$here/links.py"
        break
    fi
done
if [ ${#readers[@]} = 0 ]; then
    echo "needs a reader of links: apt-get install python3-requests, or ghc libghc-http-link-header-dev"
    exit 77
fi
said=$(printf ' and %s' "${readers[@]}")
echo "the $(cat "$here"/*.links | wc -l) links of a TimeMap, an index and a page are found by${said# and}"
