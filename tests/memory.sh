#!/usr/bin/env bash
# Refuses each request for memory in turn: while the program replays a script, checks settings and serves (`served`, `wished`,
# `forgotten`, `pulled`), while two replicas exchange what they know and an archive's pages are walked over (`refusal_probe`), and
# while a merger publishes and its gate is asked, also over a socket (`gate_probe`); and in public calls by themselves
# (`refusal_probe calls` and `service_refusal_probe`), with a table of how often each was refused. `calls` finds all of those in
# the sources, and `others` says of the ones without a row where they are refused:
#
#     ./run --unproved aggregator refusal_probe service_refusal_probe gate_probe && tests/memory.sh
#
# A replay must end with status 3 and `no memory`, and must have written a beginning of the script's output: never another
# answer in place of the fault. What was only to give memory back (a buffer that is cut to its text) may be refused: then the
# output is the whole one. The same holds of settings that are checked. The other programs call again whatever was refused, and
# must print the same in every case.
set -euo pipefail
. "$(dirname "$0")/saying.sh"
needs "cc:gcc libc6-dev"
take aggregator refusal_probe service_refusal_probe gate_probe
cc -O2 -shared -fPIC -o "$work/refuse.so" "$top/tests/memory/refuse.c" -ldl

# How many requests for memory a command makes where none is refused.
requests_of() {
    COUNT=$work/count LD_PRELOAD=$work/refuse.so "$@" >/dev/null
    [ "$(cat "$work/count")" -gt 0 ] || { echo "$1 asks for no memory" >&2; exit 1; }
    cat "$work/count"
}

# A command, with the request of this number refused; leaves its output in $work/out and its errors in $work/err.
run_refused() {
    timeout 60 env "REFUSE=$1" "LD_PRELOAD=$work/refuse.so" "${@:2}" >"$work/out" 2>"$work/err"
}

# A command that ends if it is refused: check_ending NAME INPUT EXPECTED COMMAND..
check_ending() {
    local name=$1 input=$2 expected=$3 number status count unneeded=0
    shift 3
    count=$(requests_of "$@" <"$input")
    for number in $(seq "$count"); do
        status=0
        run_refused "$number" "$@" <"$input" || status=$?
        if [ "$status" = 0 ] && [ ! -s "$work/err" ] && cmp -s "$work/out" "$expected"; then
            unneeded=$((unneeded + 1))
            continue
        fi
        if [ "$status" != 3 ] || [ "$(cat "$work/err")" != "no memory" ]; then
            echo "$name: request $number refused: status $status, $(cat "$work/err")" >&2
            exit 1
        fi
        cmp -s -n "$(stat -c %s "$work/out")" "$work/out" "$expected" || {
            echo "$name: request $number refused: another answer" >&2
            exit 1
        }
    done
    # Few requests only give memory back, or make of a short list a set; were it most, nothing would be refused.
    [ $((unneeded * 10)) -le "$count" ] || { echo "$name: $unneeded of $count requests weren't needed" >&2; exit 1; }
    total=$((total + count))
    echo "$name: $count requests for memory refused in turn, $unneeded without an effect"
}

# A command that calls again whatever was refused: check_calls NAME EXPECTED COMMAND..
check_calls() {
    local name=$1 expected=$2 number count
    shift 2
    count=$(requests_of "$@")
    for number in $(seq "$count"); do
        run_refused "$number" "$@" && cmp "$work/out" "$expected" || {
            echo "$name: request $number refused: another answer, or none in a minute; $(cat "$work/err")" >&2
            exit 1
        }
    done
    total=$((total + count))
    echo "$name: $count requests for memory refused in turn, each time the same answers at the next call"
}

# Makes public calls one by one, refuses each request in turn, and counts the refusals of each call, which names itself where it
# is refused. What other calls here ask for is refused too, and isn't counted. A call that says that it asks for none fails if it
# is refused. The calls of several programs: refuse_calls NAME COMMAND.. notes those of one, and count_calls tells of all.
refuse_calls() {
    local name=$1 number count
    shift
    count=$(requests_of "$@")
    "$@" >"$work/expected"
    for number in $(seq "$count"); do
        run_refused "$number" "$@" && cmp "$work/out" "$work/expected" || {
            echo "$name: request $number refused: another answer, or none in a minute; $(cat "$work/err")" >&2
            exit 1
        }
        cat "$work/err" >>"$work/refused"
    done
    cat "$work/expected" >>"$work/calls"
    total=$((total + count))
}

count_calls() {
    local name
    "$top/tests/memory/calls.py" "$work/calls" || exit 1
    # A list that is gathered asks again where it is refused once, so that one refusal shows nothing.
    grep -v -e ', which asks for none$' -e '^AllowedAddresses$' "$work/calls" | sort -u | while IFS= read -r name; do
        grep -qxF "$name" "$work/refused" || { echo "no request of $name was refused" >&2; exit 1; }
    done
    echo "refusals of public calls, each of which left all as it was and succeeded at the next try:"
    sort "$work/refused" | uniq -c | sort -k2
}

# A service that is refused requests in turn: through two rounds and two connections, until what readers wished for is shown, until
# it has forgotten, and while it takes what a peer gives beside forgetting.
check_serving() {
    export PYTHONPATH=$top/tests    # where playing.py is
    "$top/tests/memory/served.py" "$work/refuse.so" | tee "$work/served"
    "$top/tests/memory/wished.py" "$work/refuse.so" | tee -a "$work/served"
    "$top/tests/memory/forgotten.py" "$work/refuse.so" | tee -a "$work/served"
    "$top/tests/memory/pulled.py" "$work/refuse.so" | tee -a "$work/served"
    total=$((total + $(awk '/^(serve|wishes|forgetting|pulls): / { sum += $2 } END { print sum }' "$work/served")))
}

# Settings with an entry that is no original, and with a key that isn't looked at: where a request is refused in looking for
# these, less is told.
check_naming() {
    local number count status named=0 held=0 holds='originals: 0 to 100000 addresses of http or https'
    sed 's|^originals = .*|other = 1\noriginals = ["http://a.example/", "none"]|' "$top/deploy/settings.toml" >"$work/bad.toml"
    COUNT=$work/count LD_PRELOAD=$work/refuse.so "$PROGRAM" check "$work/bad.toml" 2>"$work/whole" || true
    count=$(cat "$work/count")
    for number in $(seq "$count"); do
        status=0
        run_refused "$number" "$PROGRAM" check "$work/bad.toml" || status=$?
        case "$status $(cat "$work/err")" in
            "3 no memory") ;;
            "2 bad settings: originals") named=$((named + 1)) ;;
            "2 bad settings: originals"$'\n'"$holds"$'\n''unknown key: other') held=$((held + 1)) ;;
            "2 $(cat "$work/whole")") ;;
            *) echo "a bad entry: request $number refused: status $status, $(cat "$work/err")" >&2; exit 1 ;;
        esac
    done
    grep -qx "originals: entry 2 is no original" "$work/whole" || { echo "a bad entry isn't named" >&2; exit 1; }
    grep -qx "unknown key: other" "$work/whole" || { echo "an unknown key isn't named" >&2; exit 1; }
    [ "$named" -gt 0 ] || { echo "nothing is refused where unknown keys are looked for" >&2; exit 1; }
    [ "$held" -gt 0 ] || { echo "nothing is refused where a bad entry is looked for" >&2; exit 1; }
    total=$((total + count))
    echo "a bad entry: $count requests for memory refused in turn"
}

# Settings that can't be read: where a request for the name of their file is refused, the name isn't told.
check_unread() {
    local number count status unnamed=0
    COUNT=$work/count LD_PRELOAD=$work/refuse.so "$PROGRAM" check "$work/none" 2>"$work/whole" || true
    count=$(cat "$work/count")
    for number in $(seq "$count"); do
        status=0
        run_refused "$number" "$PROGRAM" check "$work/none" || status=$?
        case "$status $(cat "$work/err")" in
            "3 no memory") ;;
            "3 device fault") unnamed=$((unnamed + 1)) ;;
            "3 $(cat "$work/whole")") ;;
            *) echo "no file: request $number refused: status $status, $(cat "$work/err")" >&2; exit 1 ;;
        esac
    done
    grep -qxF "can't be read: $work/none" "$work/whole" || { echo "a file that can't be read isn't named" >&2; exit 1; }
    [ "$unnamed" -gt 0 ] || { echo "nothing is refused where a file is named" >&2; exit 1; }
    total=$((total + count))
    echo "no file: $count requests for memory refused in turn"
}

total=0
for script in "$top"/examples/*.replay "$top"/tests/scripts/*.replay; do
    check_ending "$(basename "$script")" "$script" "${script%.replay}.expected" "$PROGRAM" replay
done
"$PROGRAM" check "$top/deploy/settings.toml" >"$work/settings"
check_ending "check deploy/settings.toml" /dev/null "$work/settings" "$PROGRAM" check "$top/deploy/settings.toml"
printf 'http://a.example/\nnone\n' >"$work/list"
sed "/^originals = /a originals_file = \"$work/list\"" "$top/deploy/settings.toml" >"$work/listed.toml"
"$PROGRAM" check "$work/listed.toml" >"$work/settings"
grep -qx "list: line 2 is no original" "$work/settings" || { echo "a bad line isn't named" >&2; exit 1; }
check_ending "check, with originals in a file" /dev/null "$work/settings" "$PROGRAM" check "$work/listed.toml"
check_naming
check_unread
check_serving
check_calls refusal_probe "$top/crates/refusal_probe/stdout" "$REFUSALS"
check_calls 'gate_probe refusals' "$top/tests/memory/gates.expected" "$PROBE" refusals
echo 'each client got its reply, or a refusal and the next its reply' >"$work/replies.expected"
check_calls 'gate_probe replies' "$work/replies.expected" "$PROBE" replies
refuse_calls 'refusal_probe calls' "$REFUSALS" calls
refuse_calls service_refusal_probe "$SERVICES"
count_calls
echo "$total requests for memory were refused in turn, and none changed an answer"
