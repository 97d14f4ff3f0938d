#!/usr/bin/env bash
# Gates beside publishes and beside each other, in threads, which no contract can show: in 1,000 rounds the gate that was told
# never goes back, and the one that wasn't told has seen the one batch or the other; over 200 publishes no gate goes back behind
# what it learnt; and over sockets two gates are served at once, and the next client behind one that left.
#
#     ./run --unproved gate_probe && tests/gates.sh
set -euo pipefail
. "$(dirname "$0")/saying.sh"
take gate_probe
for words in 'rounds 1000' climbs doors; do
    # shellcheck disable=SC2086 # they are words
    timeout 300 "$PROBE" $words
done
