#!/usr/bin/env bash
# A new person's way: the lines of docs/OPERATING.md, from the package to the first redirect, in a machine of its own,
# where a stand-in in a network namespace of its own is web.archive.org by https.
#
#     ./run --unproved && tests/beginning.sh
set -euo pipefail
. "$(dirname "$0")/saying.sh"
lacks=()
# By package, and not by command: what a line installs has to stand here under that very name, since the machine has no network.
for need in nginx-light openssl curl iproute2 ca-certificates; do
    dpkg-query --show --showformat '${db:Status-Abbrev}' "$need" 2>/dev/null | grep -q '^ii' || lacks+=("$need")
done
[ ${#lacks[@]} = 0 ] || lack "apt-get install ${lacks[*]}"
in_machine "$top/tests/beginning/inside.py" "$top/docs/OPERATING.md"
