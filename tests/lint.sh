#!/usr/bin/env bash
# Whether each command of the repository prints its head for `--help`, refuses words that it can't take, and changes nothing by either;
# whether pyflakes finds nothing in any file of Python, and shellcheck nothing worse than a hint in any of bash; and whether a merge left
# its marks in no file.
#
#     tests/lint.sh          apt-get install pyflakes3 shellcheck
#
# A linter that isn't installed is left out. What is deliberate is marked in its place (`# noqa`, `# shellcheck disable=`), with a reason.
set -euo pipefail
. "$(dirname "$0")/saying.sh"
cd "$top"

# ---- the files: those of Python and of bash, and of these the commands, which are what can be run and is no test or part of a test ----

python=()
bash=()
commands=()
while IFS= read -r -d '' file; do
    [ -f "$file" ] || continue
    IFS= read -r first <"$file" || true
    case $file:$first in
    *.py:* | *:'#!'*python3) python+=("$file") ;;
    *.sh:* | *:'#!'*bash) bash+=("$file") ;;
    esac
    case $file in
    tests/*.py | tests/*.sh) ;;
    *) [ ! -x "$file" ] || commands+=("$file") ;;
    esac
done < <(git ls-files -z --cached --others --exclude-standard -- ':!crates')
[ ${#python[@]} -gt 0 ] && [ ${#bash[@]} -gt 0 ] && [ ${#commands[@]} -gt 0 ] || fails "git lists no files"

# ---- commands, in a copy that can't be written to, and by a user without rights if there is one who can run Python ----

copy=$work/copy
mkdir "$copy" "$work/home"
git ls-files -z --cached --others --exclude-standard -- ':!crates' | tar --null --ignore-failed-read -T - -c | tar -x -C "$copy"
chmod -R a-w,a+rX "$copy"
chmod 755 "$work"
chmod 777 "$work/home"
by=()
nobody=(setpriv --reuid=65534 --regid=65534 --clear-groups)
if [ "$(id -u)" = 0 ] && "${nobody[@]}" env python3 -c 'import sys; sys.exit(sys.version_info < (3, 11))' 2>/dev/null; then
    by=("${nobody[@]}")
fi

# call COMMAND WORDS..: calls it in the copy, and keeps what it writes in $work/out and $work/err, and its status in $status.
call() {
    status=0
    (cd "$copy" && env -i PATH="$PATH" HOME="$work/home" TMPDIR="$work/home" PYTHONDONTWRITEBYTECODE=1 \
        timeout 120 "${by[@]}" "./$1" "${@:2}") </dev/null >"$work/out" 2>"$work/err" || status=$?
    [ "$(state)" = "$before" ] || fails "$* changes $(diff <(state) <(echo "$before") | grep -m 1 '^[<>]')"
}

# What stands in the copy, with the time of its last change, and in the folder for all else.
state() { (find "$copy" -printf '%p %C@\n'; find "$work/home" -mindepth 1) | sort; }

# The head of a file: a command's in bash is its first comment, a docstring in Python.
head_of() {
    case $(head -n 1 "$1") in
    *bash) awk 'NR > 1 { if (!/^#/) exit; sub(/^# ?/, ""); print }' "$1" ;;
    *) python3 -c 'import ast, sys
print(ast.get_docstring(ast.parse(open(sys.argv[1], encoding="utf-8").read()), clean=False).strip())' "$1" ;;
    esac
}

# Whether what was written is the head of a command, or of a module that this head names; and says how the command is called.
prints_head() {
    local module
    grep -qE "^    (\./|.*[ &])?$1( |$)" "$work/out" || return 1
    for module in "$1" $(head_of "$1" | grep -oE '[a-z_/]*[a-z_]\.py'); do
        [ -f "$module" ] || module=$(dirname "$1")/$module
        [ ! -f "$module" ] || [ "$(head_of "$module")" != "$(cat "$work/out")" ] || return 0
    done
    return 1
}

# is_refused WORDS..: whether a call ends with status 2 and says why.
is_refused() {
    call "$@"
    [ "$status" = 2 ] && [ -s "$work/err" ] && [ ! -s "$work/out" ] && ! grep -q Traceback "$work/err" ||
        fails "$* isn't refused: status $status, $(tail -n 1 "$work/err")"
}

before=$(state)
for command in "${commands[@]}"; do
    call "$command" --help
    [ "$status" = 0 ] && [ ! -s "$work/err" ] || fails "$command --help: status $status, $(tail -n 1 "$work/err")"
    prints_head "$command" || fails "$command --help doesn't print the head of $command, or this doesn't say how it is called"
    case $command in
    run | .ci/run) ;;    # whose words are the program's, or which would begin if it took them for none
    *) is_refused "$command" --no-such-word ;;
    esac
done
for command in .ci/minutes bench/compare.py bench/compare_trees bench/counted bench/least.py bench/stream deploy/forward deploy/image \
    deploy/package deploy/shards deploy/watch tests/machine tests/unproved tools/statements.py; do
    is_refused "$command"
done
is_refused bench/gates nothing
is_refused bench/months 7
is_refused bench/rounds/run nothing
is_refused bench/run nothing
is_refused bench/snapshots many
is_refused bench/stream many
is_refused bench/wishes/run many
is_refused docs/counts now
is_refused tests/planted/both nothing
is_refused tests/planted/run nothing
is_refused tools/statements.py memento_index
is_refused web/hashes now
holds "${#commands[@]} commands print their heads, and refuse other words"

# ---- marks of a merge ----

marked=$(git grep --untracked -lE '^(<{7}|>{7}) ' || true)
[ -z "$marked" ] || fails "a merge left its marks in $marked"
holds "no file has the marks of a merge"

# ---- linters ----

said=()
lacks=()
# try COMMAND PACKAGE WHAT FILE..: has the command look at these files, if it is there.
try() {
    local command=$1 package=$2 what=$3
    shift 3
    if command -v "${command%% *}" >/dev/null; then
        # shellcheck disable=SC2086 # it may have options
        $command "$@"
        said+=("$# files of $what")
    else
        lacks+=("$package")
    fi
}
try pyflakes3 pyflakes3 Python "${python[@]}"
try 'shellcheck --severity=warning --external-sources --source-path=SCRIPTDIR' shellcheck bash "${bash[@]}"
more=${lacks[*]:+; for more: apt-get install ${lacks[*]}}
if [ ${#said[@]} = 0 ]; then
    echo "needs a linter: apt-get install ${lacks[*]}"
    exit 77
fi
words=$(printf ' and %s' "${said[@]}")
echo "${#commands[@]} commands say how they are called; nothing is found in${words# and}$more"
