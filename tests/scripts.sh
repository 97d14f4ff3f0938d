#!/usr/bin/env bash
# Replays each script of tests/scripts and of examples/, and compares what is written with NAME.expected, which was worked
# out by hand; and long ones, which tests/scripts/paged.py and tests/scripts/cut.py make. Then gives the program each kind of
# words and each kind of fault: what it writes, its line on standard error, its status.
#
#     ./run --unproved && tests/scripts.sh
set -euo pipefail
. "$(dirname "$0")/saying.sh"
take aggregator
usage='usage: aggregator [replay | serve FILE | check FILE]'

# ends STATUS MESSAGE EXPECTED WORDS..: runs the program with these words on standard input, and compares how it ended.
# MESSAGE is what it says on standard error, or empty for nothing; EXPECTED is a file with its standard output.
ends() {
    local status=0 said=$1 message=$2 expected=$3
    shift 3
    "$PROGRAM" "$@" >"$work/out" 2>"$work/err" || status=$?
    if [ "$status" != "$said" ] || ! cmp -s "$work/out" "$expected" ||
        ! printf '%s' "${message:+$message
}" | cmp -s - "$work/err"; then
        echo "words '$*': status $status, on standard error '$(cat "$work/err")', not $said '$message'" >&2
        diff "$expected" "$work/out" >&2
        exit 1
    fi
}

count=0
for script in "$top"/examples/*.replay "$top"/tests/scripts/*.replay; do
    ends 0 '' "${script%.replay}.expected" replay <"$script"
    count=$((count + 1))
done

# Long scripts, which are made with their outputs.
for made in paged cut; do
    "$top/tests/scripts/$made.py" "$work"
    ends 0 '' "$work/$made.expected" replay <"$work/$made.replay"
    count=$((count + 1))
done

first=$top/examples/first
ends 0 '' "$first.expected" <"$first.replay"
for words in serve check 'serve FILE FILE' 'check FILE FILE' 'replay replay' 'replay FILE' Replay replays --nothing; do
    # shellcheck disable=SC2086 # each word is a word of its own
    ends 2 "$usage" /dev/null $words <"$first.replay"
done
ends 2 "$usage" /dev/null '' <"$first.replay"
ends 2 "$usage" /dev/null ' replay' <"$first.replay"
ends 2 "$usage" /dev/null $'\xff' <"$first.replay"
echo "each word asks for what it should"

printf 'restarted\n' >"$work/restarted"
ends 0 '' /dev/null replay </dev/null
ends 2 'bad line 1' /dev/null replay <<<'replicas 17 http://agg.example'
ends 2 'bad line 3' "$work/restarted" replay <<<$'replicas 1 http://agg.example\nrestart 1\nrestarts 1'
ends 3 'device fault' /dev/null replay </
for word in check serve; do
    ends 3 "device fault
can't be read: $work/none" /dev/null $word "$work/none"
    ends 3 "device fault
can't be read: $work" /dev/null $word "$work"
done
ends 2 'bad settings: base' /dev/null check /dev/null
status=0
"$PROGRAM" replay <"$first.replay" >/dev/full 2>"$work/err" || status=$?
[ "$status $(cat "$work/err")" = '3 device fault' ] || { echo "a full device: $status $(cat "$work/err")" >&2; exit 1; }
echo "$count scripts write what is expected; each word and each fault has its output, its line and its status"
