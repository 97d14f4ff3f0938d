#!/usr/bin/env bash
# Takes each page of tests/pages by the program and compares what is read with NAME.expected, which was worked out by
# hand from RFC 7089 (section 5) and RFC 6690 (section 2):
#
#     ./run --unproved && tests/pages.sh
#
# `taken M F D` says how many mementos and further TimeMaps the page names, and how many links were left out.
set -euo pipefail
. "$(dirname "$0")/saying.sh"
take aggregator

count=0
for page in "$top"/tests/pages/*.link; do
    {
        echo "replicas 1 http://agg.example"
        echo "take 1 arc.example 1 http://arc.example/list $(stat -c %s "$page") http://a.example.org/"
        cat "$page"
        echo
        echo "map 1 http://a.example.org/"
    } | "$PROGRAM" replay | diff "${page%.link}.expected" -
    count=$((count + 1))
done
echo "$count pages are read as expected"
