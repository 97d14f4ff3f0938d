#!/usr/bin/env bash
# Talks to the program by a coprocess of bash: each line is asked for once the answer to the one before it came.
#
#     tests/pipes/coprocess.sh PROGRAM
set -euo pipefail
coproc TALK { "$1" replay; }
talk=$TALK_PID
exec {asks}>&"${TALK[1]}" {answers}<&"${TALK[0]}"

# ask QUESTION ANSWER: one question, with its block if it has one, and the one line that answers it.
ask() {
    local answer
    printf '%b' "$1" >&"$asks"
    IFS= read -r -t 60 answer <&"$answers" || { echo "no answer to '$1'" >&2; exit 1; }
    [ "$answer" = "$2" ] || { echo "'$1' is answered by '$answer', and not by '$2'" >&2; exit 1; }
}

printf 'replicas 2 http://agg.example\n' >&"$asks"
ask 'send 1\n' 'sent 1'
ask '\n\ndeliver 2 1\n' 'joined'
ask 'receive 1 4\nno\n\n\n' 'refused bad state'
ask 'take 1 a1 1 http://m.example/ 0 http://a.example/\n\n' 'taken 0 0 0'
ask 'restart 3\n' 'refused no replica'
printf 'restart 1' >&"$asks"
eval "exec ${TALK[1]}>&-" "$asks>&-"
IFS= read -r -t 60 answer <&"$answers" || { echo "the last line is not answered" >&2; exit 1; }
[ "$answer" = restarted ] || { echo "the last line is answered by '$answer'" >&2; exit 1; }
wait "$talk"
