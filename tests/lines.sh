#!/usr/bin/env bash
# Where a script's lines end, and which are bad: each limit from both sides, with what is written worked out by hand.
#
#     ./run --unproved && tests/lines.sh
set -euo pipefail
. "$(dirname "$0")/saying.sh"
take aggregator

# bad NUMBER: the script on standard input writes nothing, and its line of this number is bad.
bad() {
    local status=0
    "$PROGRAM" replay >"$work/out" 2>"$work/err" || status=$?
    [ "$status $(cat "$work/err")" = "2 bad line $1" ] && [ ! -s "$work/out" ] || {
        echo "status $status, $(cat "$work/err"), not bad line $1" >&2
        exit 1
    }
}

# says TEXT: the script on standard input writes this line and ends well.
says() {
    [ "$("$PROGRAM" replay)" = "$1" ] || { echo "it is not '$1' that is written" >&2; exit 1; }
}

first='replicas 1 http://agg.example\n'

while IFS= read -r line; do
    case $line in '#'*) continue ;; esac
    # shellcheck disable=SC2059 # the row is a format, and has no %
    printf "$first$line" | bad 2
done <"$top/tests/lines/bad.txt"
for line in 'replicas 0 http://agg.example' 'replicas 17 http://agg.example' 'replicas 1' 'replicas 1 ftp://agg.example' 'map 1 x'; do
    bad 1 <<<"$line"
done
printf 'replicas 16 http://agg.example' | says ''
printf '\n\n%b\nreceive 1 3\na\nb\n\nrestart 1\n' "$first" | sed '/^restart/q' | says $'refused bad state\nrestarted'
echo "each bad line is bad"

# A line of 65,536 bytes, and one of 65,537.
long() { printf "$first"; printf 'map 1 %0*d' "$1" 0; }
long 65530 | says $'reply 400\nContent-Type: text/plain\nbody 13\nbad original'
long 65531 | bad 2
echo "a line has at most 65,536 bytes"

# A page of so many mementos, taken by this command by a replica in an archive's name.
page() {
    awk -v count="$2" 'BEGIN {
        for (k = 0; k < count; k++)
            printf "<http://m/%d>;rel=memento;datetime=\"Sat, 01 Jan 2000 00:00:00 GMT\",", k
    }' >"$work/page"
    printf "$first"
    printf '%s %s 1 http://m/ %d http://a.example/\n' "$1" "$3" "$(stat -c %s "$work/page")"
    cat "$work/page"
}
for word in take takepart; do
    page $word 100000 '1 a1' | says 'taken 100000 0 0'
    page $word 100001 '1 a1' | says 'refused too many'
    page $word 100001 '2 a1' | says 'refused too many'
    page $word 100001 '2 A1' | says 'refused bad archive'
    page $word 1 '2 a1' | says 'refused no replica'
done
echo "a harvest has at most 100,000 mementos"
echo "$(grep -vc '^#' "$top/tests/lines/bad.txt") bad lines are bad, and each limit of a line holds from both sides"
