#!/usr/bin/env bash
# The first commands of a newcomer, in a clone of this test's own, over the program and with a stand-in for the toolchain: what ./run
# and tests/run say and do before anything is built, and with a program that is built; which program they take if sources change;
# how tests/run counts; and that no test builds a program, let alone proves one.
#
#     ./run --unproved && tests/commands.sh
set -euo pipefail
. "$(dirname "$0")/saying.sh"
take aggregator
program=$PROGRAM
# shellcheck disable=SC2046 # each variable that may name a program is a word
unset $(cd "$top/tests" && python3 -c 'from programs import VARIABLES; print(*VARIABLES.values())')
clone=$work/clone
mkdir "$clone"
(cd "$top" && git ls-files -z --cached --others --exclude-standard | tar --null --ignore-failed-read -T - -c) | tar -x -C "$clone"
cd "$clone"
unproved=crates/aggregator/out/unproved proved=crates/aggregator/out/aggregator

# A toolchain that notes what it is asked for, complains, and ends with the status that stands in $work/status.
cat >"$work/rt" <<END
#!/usr/bin/env bash
echo "\$(basename "\$PWD"): \$*" >>"$work/asked"
echo "reply"
echo "races: not looked for" >&2
exit "\$(cat "$work/status")"
END
chmod +x "$work/rt"
export RT=$work/rt
echo 1 >"$work/status"

# runs STATUS COMMAND..: whether a command ends so; what it writes is left in $said, and what it complains of in $complaint.
runs() {
    local wanted=$1 status=0
    shift
    said=$(timeout 120 "$@" 2>"$work/complaint" </dev/null) || status=$?
    complaint=$(cat "$work/complaint")
    [ "$status" = "$wanted" ] || fails "$* ends with status $status, and not $wanted: $said $complaint"
}

# has WHAT TEXT PART..: whether each part stands in the text.
has() {
    local what=$1 text=$2 part
    shift 2
    for part in "$@"; do
        [[ $text == *"$part"* ]] || fails "$what: there is no '$part' in $text"
    done
    holds "$what"
}

# What the toolchain was asked for since this was called last.
asked() {
    [ ! -e "$work/asked" ] || cat "$work/asked"
    rm -f "$work/asked"
}

try_help() {
    local command
    for command in ./run tests/run tests/unproved tests/crate .ci/run; do
        runs 0 "$command" --help
        has "$command --help shows the head of its file" "$said" "    $command"
    done
    runs 2 ./run
    has "./run without words says which it takes" "$complaint" "./run test" "./run --unproved"
    runs 2 ./run --unproved nosuch
    same "a program that isn't there is refused" "$complaint" "run: there is no program crates/nosuch"
    same "the toolchain was asked for nothing" "$(asked)" ""
}

try_without_program() {
    runs 1 ./run --program aggregator
    has "before anything is built a test is told what to type" "$complaint" "./run --unproved aggregator"
    runs 1 ./run replay
    same "a replay is tried, of the crate that needs no sockets" "$(asked)" "replayer: try"
    has "and what the toolchain says is shown if that fails" "$complaint" "about a minute" "races: not looked for"
    echo 0 >"$work/status"
    runs 0 ./run replay
    same "if it ends well its output is the only one" "$said" "reply"
    same "and beside it stands one line" "$(wc -l <"$work/complaint")" 1
    asked >"$work/forgotten"
    runs 1 ./run check deploy/settings.toml
    has "for other words the program is built first" "$complaint" "building aggregator without a proof" "no bitcode came"
    same "and not proved" "$(asked)" "aggregator: try -- --nothing"
    RT=/nosuch/rt runs 127 ./run check deploy/settings.toml
    has "a toolchain that isn't there is said to be missing" "$complaint" "'/nosuch/rt' isn't there" "RT=/path/to/kit/bin/rt"
}

# Each test by itself, before its programs are built: it says what to type, or what the machine lacks, and has nothing built.
try_tests_without_program() {
    local name status count=0
    # shellcheck disable=SC2016 # for the shell that xargs starts
    awk '/^[a-z]/ && $2 != "hours" && $4 != "-" && $1 != "commands" { print $1 }' tests/list.txt |
        xargs -P 4 -I NAME bash -c 'timeout 100 "$(compgen -G "tests/NAME.[ps]*")" >"$0/NAME.said" 2>&1 </dev/null; echo "NAME $?"' "$work" >"$work/ended"
    while read -r name status; do
        if [ "$status" != 77 ]; then
            [ "$status" = 1 ] && grep -q '\./run --unproved' "$work/$name.said" || fails "$name, status $status: $(tail -n 5 "$work/$name.said")"
        fi
        count=$((count + 1))
    done <"$work/ended"
    same "without programs $count tests ask for them, or for what the machine lacks, and the toolchain for" "$(asked)" ""
}

try_with_program() {
    install -D -m 755 "$program" "$unproved"
    runs 0 ./run --program aggregator
    same "a program without a proof is found" "$said" "$clone/$unproved"
    (cd deploy && runs 0 ../run check settings.toml)
    same "and says so in one line" "$(cat "$work/complaint")" "run: this is the unproved program; ./run --build proves and builds"
    runs 3 ./run check settings.toml
    same "a name of a file is the caller's" "$(asked)" ""
    runs 0 ./run --unproved
    same "what is fresh isn't built again" "$(asked)" ""
    sed 's/127\.0\.0\.1:80[0-9]*/127.0.0.1:0/g' deploy/settings.toml >deploy/free.toml
    exec 3< <(cd deploy && exec ../run serve free.toml 2>"$work/complaint")
    local service=$!
    IFS= read -r -t 60 -u 3 said || true
    kill "$service"
    has "./run serve serves" "$said" "gate 127.0.0.1:"
}

try_sources() {
    touch crates/text_tests/src/*.rt crates/memento_time/specs/*
    runs 0 ./run --program aggregator
    same "neither another crate nor a definition makes the unproved program stale" "$said" "$clone/$unproved"
    install -m 755 "$program" "$proved"
    runs 0 ./run --program aggregator
    same "a proved program goes before it" "$said" "$clone/$proved"
    runs 0 ./run --program aggregator unproved
    same "unless the unproved one is asked for" "$said" "$clone/$unproved"
    runs 0 ./run check deploy/settings.toml
    same "and nothing is said of it" "$complaint" ""
    sleep 0.1
    touch crates/memento_time/specs/*
    runs 0 ./run --program aggregator
    same "a definition makes the proved one stale" "$said" "$clone/$unproved"
    touch crates/memento_time/src/lib.rt
    runs 1 ./run --program aggregator
    same "the source of a crate below makes both stale" "$said" ""
    touch "$unproved"
}

# tests/run over a test that passes and others that are planted: one fails, one lacks something, one doesn't end.
try_counts() {
    printf '#!/usr/bin/env bash\n# Fails.\necho so it is\nexit 1\n' >tests/fails.sh
    printf '#!/usr/bin/env bash\n# Lacks something.\necho needs luck\nexit 77\n' >tests/lacks.sh
    printf '#!/usr/bin/env bash\n# Has no end.\nsleep 1000\n' >tests/stays.sh
    chmod +x tests/fails.sh tests/lacks.sh tests/stays.sh
    printf '%s quick 1 -\n' fails lacks stays >>tests/list.txt
    runs 1 tests/run pages fails lacks
    has "a run says of each test what it did" "$said" "4 pages are read as expected" "fails: so it is" "fails: FAILED with status 1" \
        "lacks: left out: needs luck"
    same "and counts them" "$(tail -n 1 <<<"$said")" "1 passed, 1 failed, 1 skipped"
    LIMIT=2 runs 1 tests/run stays
    has "a test without an end is ended, and fails" "$said" "stays: not done after" "0 passed, 1 failed, 0 skipped"
    # Of two that fail one passes when it runs once more, by itself.
    printf '#!/usr/bin/env bash\n# Fails at first.\n[ -e again ] || { : >again; echo busy; exit 1; }\n' >tests/stumbles.sh
    chmod +x tests/stumbles.sh
    echo 'stumbles quick 1 -' >>tests/list.txt
    runs 1 tests/run --again stumbles fails
    has "what failed runs once more if a run is told so" "$said" "UNSTEADY: stumbles: status 1" "busy" "FAILED: fails: status 1" \
        "1 passed, 1 failed, 0 skipped"
    rm again
    runs 1 tests/run stumbles
    has "and else it doesn't" "$said" "FAILED: stumbles: status 1" "0 passed, 1 failed, 0 skipped"
    rm again tests/stumbles.sh
    sed -i '/^stumbles /d' tests/list.txt
    runs 0 ./run test pages lacks
    same "./run test is that command" "$(tail -n 1 <<<"$said")" "1 passed, 0 failed, 1 skipped"
    runs 2 tests/run nosuch
    has "a test that isn't there is refused" "$complaint" "there is no test nosuch"
    sed -i '/^lacks /d' tests/list.txt
    echo 'nosuch quick 1 -' >>tests/list.txt
    runs 1 tests/run pages
    has "a test without a row and a row without a test fail" "$said" "no row for lacks" "a row for nosuch" "1 passed, 2 failed, 0 skipped"
    rm tests/lacks.sh tests/fails.sh tests/stays.sh
}

try_list() {
    cp "$top/tests/list.txt" tests
    runs 0 ./run test --list
    same "the list has a line for each test" "$(wc -l <<<"$said")" "$(grep -c '^[a-z]' tests/list.txt)"
    has "and says what it shows, how long it takes and needs" "$said" "Where a script's lines end" " s " "[aggregator, nginx]" "[rt]"
    same "none of this has asked the toolchain for anything" "$(asked)" ""
}

try_help
try_without_program
try_tests_without_program
try_with_program
try_sources
try_counts
try_list
echo "the first commands say what they do, take the program that is fresh, and no test builds one"
