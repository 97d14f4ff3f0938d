#!/usr/bin/env bash
# The Debian package that deploy/package builds: the same bytes each time, no errors by lintian, units and a manual page
# without a warning; and what is there once it is installed in a root folder of this test's own, upgraded,
# removed and purged.
#
#     ./run --unproved && tests/package.sh
#
# Nothing of this machine is changed.
set -euo pipefail
. "$(dirname "$0")/saying.sh"
take aggregator

needs dpkg:dpkg dpkg-deb:dpkg lintian:lintian systemd-analyze:systemd systemd-sysusers:systemd man:man-db groff:groff-base
[ "$(id -u)" = 0 ] || lack "root, for a root folder"
root=$work/root

# What the package has, and where.
try_contents() {
    package=$("$top/deploy/package" "$work/one")
    cmp "$package" "$("$top/deploy/package" "$work/two")" || fails "building it twice gives the same bytes"
    holds "building it twice gives the same bytes, $(stat -c %s "$package") of them"
    local errors
    errors=$(LC_ALL=C lintian --fail-on error --tag-display-limit 0 "$package" 2>&1 | grep -v '^running with root' || true)
    if grep -q '^E:' <<<"$errors"; then
        fails "lintian has no errors: $errors"
    fi
    holds "lintian has no errors, and $(grep -c '^W:' <<<"$errors" || true) warnings: ${errors:-none}"
    # A package that lintian has to refuse, so that its silence says something.
    dpkg-deb --raw-extract "$package" "$work/bad"
    chmod 4755 "$work/bad/usr/bin/aggregator"
    rm "$work/bad/usr/share/doc/maplewrench/copyright"
    dpkg-deb --root-owner-group --build "$work/bad" "$work/bad.deb" >/dev/null
    if lintian --fail-on error "$work/bad.deb" >/dev/null 2>&1; then
        fails "lintian refuses one without a copyright"
    fi
    holds "lintian refuses one without a copyright"
}

# The notices of all that is in the program: each crate's, and each licence that is named there.
try_notices() {
    local notices crate licence crates=0
    notices=$(dpkg-deb --fsys-tarfile "$package" | tar -xO ./usr/share/doc/maplewrench/copyright)
    for crate in $(sed -n 's/^| `\([a-z0-9_]*\)` |.*/\1/p' "$top/docs/LICENCES.md"); do
        grep -qxE "(Files:)? rattle/$crate/\*" <<<"$notices" || fails "the package has the notice of $crate"
        crates=$((crates + 1))
    done
    [ "$crates" -gt 0 ] || fails "docs/LICENCES.md names what is in the program"
    for licence in $(grep -oE '^License: .*' <<<"$notices" | sed -E 's/^License: //; s/,? (and|or) /\n/g; s/ with .*//' | sort --unique); do
        [ "$(grep -A 1 -E "^License: $licence( with .*)?$" <<<"$notices" | grep -c '^ ')" -ge 1 ] || fails "the package has the licence $licence"
    done
    holds "it has the notices of the $crates crates that are in the program, and the licences that they name"
}

# in_root WORDS..: dpkg in the root folder, whose scripts run here and are told of it by DPKG_ROOT.
in_root() {
    dpkg --root="$root" --force-script-chrootless --force-depends --no-triggers --log="$work/dpkg.log" "$@" >"$work/said" 2>&1 ||
        fails "dpkg $*: $(cat "$work/said")"
}

# Whatever in the root folder belongs to the package.
belongings() { (cd "$root" && find . -path ./var -prune -o \( -ipath '*maplewrench*' -o -name 'aggregator*' \) -type f -print | sort); }

try_install() {
    mkdir -p "$root"/{etc,var/lib/dpkg/{info,updates,triggers}}
    touch "$root"/var/lib/dpkg/{status,available}
    in_root --install "$package"
    local owned
    owned=$(dpkg-deb --contents "$package" | awk '$1 !~ /^d/ { print $6 }' | sort)
    same "all of the package's files stand there, and settings and a list that are nobody's but the operator's" "$(belongings | wc -l)" \
        $(($(wc -l <<<"$owned") + 2))
    for file in settings.toml archives.toml; do
        cmp "$root/usr/share/maplewrench/$file" "$root/etc/maplewrench/$file" || fails "which begin as the package has them"
    done
    (cd "$root" && md5sum --quiet --check var/lib/dpkg/info/maplewrench.md5sums) || fails "with the package's bytes"
    grep -q '^maplewrench:' "$root/etc/passwd" || fails "the user that the service runs as is there"
    holds "the user that the service runs as is there"
    same "the program reads the settings that were installed" \
        "$("$root/usr/bin/aggregator" check "$root/etc/maplewrench/settings.toml")" "settings ok: gates 3 archives 1 originals 2 peers 0"
    (cd "$root/usr/lib/maplewrench" && for tool in archive forward shards watch; do
        ./$tool --help >/dev/null || fails "the tool $tool says how it is called"
    done)
    rm -rf "$root/usr/lib/maplewrench/__pycache__"
    holds "each tool says how it is called"
    # Python as it was before it had what the tools use.
    local said old='import runpy, sys; sys.version_info = (3, 10, 13); sys.modules["tomllib"] = None; runpy.run_path(sys.argv[1], run_name="__main__")'
    for tool in "$root"/usr/lib/maplewrench/{archive,forward,shards,watch} "$top"/tests/{hostile,service}.py "$top/web/hashes"; do
        ! said=$(PYTHONPATH=$top/tests python3 -c "$old" "$tool" 2>&1) && [[ $said =~ ^[a-z/.]+:\ needs\ Python\ 3\.11\ or\ later$ ]] || fails "$tool says which Python it needs: $said"
    done
    holds "and which Python it needs, if it is older"
}

# What the program asks for where it runs: libraries of the packages that the package depends on, and no toolchain.
try_needs() {
    local needed depends library path owner
    depends=$(dpkg-deb --field "$package" Depends)
    needed=$(ldd "$root/usr/bin/aggregator" | awk '$2 == "=>" { print $3 }')
    [ -n "$needed" ] || fails "the program's libraries are told"
    for library in $needed; do
        path=$(readlink -f "$library")
        owner=$(dpkg --search "$path" "${path#/usr}" 2>/dev/null | head -n 1 | cut -d : -f 1 || true)
        [ -n "$owner" ] && grep -qw "$owner" <<<"$depends" || fails "the package depends on what has $library: $depends"
    done
    holds "the program needs $(wc -w <<<"$needed") libraries, all of packages that it depends on: $depends"
    same "it runs with nothing on the path" "$(env -i "$root/usr/bin/aggregator" check "$root/etc/maplewrench/settings.toml" | cut -d : -f 1)" \
        "settings ok"
}

# systemd's own reading of the units: `verify` follows what they name, so it gets a root with the units of this
# machine's systemd.
try_units() {
    local units=lib/systemd/system
    mkdir -p "$work/analyzed/usr" "$work/analyzed/etc/systemd"
    cp -a "$root/." "$work/analyzed/"
    ln -sfn usr/bin "$work/analyzed/bin"
    [ -e "$work/analyzed/$units/basic.target" ] || cp -an /lib/systemd/system/. "$work/analyzed/$units/"
    cp /usr/lib/systemd/systemd "$work/analyzed/usr/bin/" 2>/dev/null || true
    install -D -m 755 /dev/null "$work/analyzed/usr/sbin/nginx"
    ln -sfn /usr/bin/true "$work/analyzed/usr/bin/kill"
    local said
    said=$(verify) || fails "the units are read: $said"
    same "systemd reads the units without a word" "$said" ""
    # A key that it doesn't know, so that its silence says something.
    sed -i 's/^IPAddressDeny=/IPAddressDenied=/' "$work/analyzed/$units/maplewrench.service"
    said=$(verify || true)
    grep -q IPAddressDenied <<<"$said" || fails "it tells of a key that it doesn't know: $said"
    holds "it tells of a key that it doesn't know"
    sed -i 's/^IPAddressDenied=/IPAddressDeny=/' "$work/analyzed/$units/maplewrench.service"
    # In tenths; a unit without any limits has 96.
    for unit in maplewrench.service:20 maplewrench@.service:20 maplewrench-watch@.service:25 maplewrench-watch.service:25 maplewrench-forward.service:25; do
        said=$(systemd-analyze security --offline=true --threshold="${unit#*:}" "$work/analyzed/$units/${unit%:*}" 2>&1 | tail -n 1) ||
            fails "systemd finds ${unit%:*} shut in, to ${unit#*:} tenths at most: $said"
        holds "${said#*→ }"
    done
}
verify() {
    systemd-analyze verify --man=no --root="$work/analyzed" maplewrench.service maplewrench-watch.service maplewrench-watch.timer \
        maplewrench-forward.service maplewrench@two.service maplewrench-watch@two.service maplewrench-watch@two.timer 2>&1
}

# shellcheck disable=SC2069 # standard error alone is wanted
warnings_of() { LC_ALL=C.UTF-8 MANROFFSEQ='' MANWIDTH=80 man --warnings -E UTF-8 -l -Tutf8 -Z "$1" 2>&1 >/dev/null; }
try_manual() {
    local said
    zcat "$root/usr/share/man/man1/aggregator.1.gz" >"$work/aggregator.1"
    same "the manual page has no warning" "$(warnings_of "$work/aggregator.1")" ""
    (cat "$work/aggregator.1" && echo .XX) >"$work/odd.1"
    grep -q "macro 'XX' not defined" <<<"$(warnings_of "$work/odd.1")" || fails "one with an unknown macro has: $(warnings_of "$work/odd.1")"
    said=$(MANWIDTH=200 man -l "$work/aggregator.1" 2>/dev/null | col -b)
    local key
    for key in $(sed -n 's/^\([a-z]*\) = .*/\1/p' "$root/etc/maplewrench/settings.toml" | sort -u) serve check replay timemap timegate --form --help --version /timegate/ /timemap/link/; do
        grep -qF -- "$key" <<<"$said" || fails "the manual page tells of $key"
    done
    holds "it tells of each key of the settings, each word and each path"
}

# completed WORD..: what bash completes the last of these words to, by the package's file.
completed() {
    (. "$root/usr/share/bash-completion/completions/aggregator"
        COMP_WORDS=("$@") COMP_CWORD=$(($# - 1))
        cd "$root/etc/maplewrench" && _aggregator 2>/dev/null
        echo "${COMPREPLY[*]}")
}

try_completion() {
    same "bash completes a command" "$(completed aggregator time)" "timemap timegate"
    same "a form" "$(completed aggregator timemap settings.toml http://a.example/ --form j)" json
    same "and a file of settings" "$(completed aggregator serve se)" settings.toml
    same "each word of the program's help is completed" "$(completed aggregator '')" "serve check replay timemap timegate help --help --version"
}

# next_version VERSION: a package of that version whose settings have another comment.
next_version() {
    local folder=$work/next-$1
    dpkg-deb --raw-extract "$package" "$folder"
    sed -i "s/^Version: .*/Version: $1/" "$folder/DEBIAN/control"
    sed -i "1i # of version $1" "$folder/usr/share/maplewrench/settings.toml" "$folder/usr/share/maplewrench/archives.toml"
    dpkg-deb --root-owner-group --build "$folder" "$folder.deb" >/dev/null
    echo "$folder.deb"
}

# upgrades PACKAGE: dpkg without a terminal and without a word on which file to keep, as unattended-upgrades calls it.
upgrades() {
    in_root --install "$1" </dev/null
    same "it is whole" "$(dpkg-query --admindir="$root/var/lib/dpkg" --show --showformat '${db:Status-Abbrev}${Version}' maplewrench)" \
        "ii $(dpkg-deb --field "$1" Version)"
    same "and what an operator changed stays" "$(tail -n 1 "$root/etc/maplewrench/settings.toml") $(tail -n 1 "$root/etc/maplewrench/archives.toml")" \
        "# mine # mine too"
}

# An upgrade asks nothing, over files that an operator changed and that the next version changes, too. Planted: both files in DEBIAN/conffiles,
# by which dpkg asks, finds no terminal, and leaves the package half installed.
try_upgrade() {
    echo '# mine' >>"$root/etc/maplewrench/settings.toml"
    echo '# mine too' >>"$root/etc/maplewrench/archives.toml"
    upgrades "$(next_version 99.1)"
    same "the settings as they are shipped stand beside them" "$(head -n 1 "$root/usr/share/maplewrench/settings.toml")" "# of version 99.1"
    # From a version in which they were conffiles.
    local before=$work/before
    in_root --purge maplewrench
    dpkg-deb --raw-extract "$package" "$before"
    install -D -m 644 -t "$before/etc/maplewrench" "$before"/usr/share/maplewrench/{settings,archives}.toml
    printf '/etc/maplewrench/%s\n' archives.toml settings.toml >"$before/DEBIAN/conffiles"
    dpkg-deb --root-owner-group --build "$before" "$before.deb" >/dev/null
    in_root --install "$before.deb"
    echo '# mine' >>"$root/etc/maplewrench/settings.toml"
    echo '# mine too' >>"$root/etc/maplewrench/archives.toml"
    upgrades "$(next_version 99.2)"
    holds "an upgrade asks nothing, also from a version in which the settings were the package's"
}

# What an operator changed stays, until the package is purged.
try_removal() {
    in_root --install "$(next_version 99.3)"
    same "settings that were changed stay when it is installed again" "$(tail -n 1 "$root/etc/maplewrench/settings.toml")" "# mine"
    mkdir -p "$root/etc/maplewrench/forward"
    echo 'listen 127.0.0.1:8100;' >"$root/etc/maplewrench/forward/nginx.conf"
    in_root --remove maplewrench
    same "removed, it leaves its settings alone" "$(belongings)" "$(printf './etc/maplewrench/%s\n' archives.toml forward/nginx.conf settings.toml)"
    in_root --purge maplewrench
    same "purged, it leaves nothing" "$(belongings)" ""
}

try_contents
try_notices
try_install
try_needs
try_units
try_manual
try_completion
try_upgrade
try_removal
echo "the package was built, found without errors, installed, upgraded without a question, removed and purged"
