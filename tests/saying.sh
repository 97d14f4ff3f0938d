# What the tests in bash share: the repository ($top), a folder that goes with the test ($work), and ways to find programs and to say
# what holds. Below its head a test has `set -euo pipefail` and `. "$(dirname "$0")/saying.sh"`.
# shellcheck shell=bash
top=$(cd "$(dirname "${BASH_SOURCE[0]}")/.." && pwd)
PATH=$PATH:/usr/sbin:/sbin
work=$(mktemp -d -p /var/tmp)    # which a machine of tests/machine has too
trap 'rm -r "$work"' EXIT

holds() { echo "holds: $*"; }

fails() {
    echo "FAILS: $*"
    exit 1
}

# same WHAT CAME WANTED
same() {
    [ "$2" = "$3" ] || fails "$1: $2, and not $3"
    holds "$1: $2"
}

lack() {
    echo "needs $*"
    exit 77
}

# needs COMMAND:PACKAGE..: skips the test if the machine lacks one of these commands.
needs() {
    local need lacks=()
    for need in "$@"; do
        command -v "${need%%:*}" >/dev/null || lacks+=("${need#*:}")
    done
    [ ${#lacks[@]} = 0 ] || lack "apt-get install ${lacks[*]}"
}

# take NAME..: finds these programs of crates/, and sets the variables that name them: $PROGRAM to aggregator's, and so on.
take() {
    local name named
    for name in "$@"; do
        named=$(python3 "$top/tests/programs.py" "$name") || exit 1
        declare -gx "$named"
    done
}

# in_machine FILE WORDS..: runs a part of this test in a machine of its own, with the Debian package's file before the words.
in_machine() {
    local package
    take aggregator
    package=$("$top/deploy/package" "$work")
    "$top/tests/machine" "$1" "$package" "${@:2}"
}
