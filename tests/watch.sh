#!/usr/bin/env bash
# Whether systemd restarts a service that is dead while its process lives (deploy/watch), in a machine of its own with the package
# installed: one that was stopped by a signal, one whose standard output is full, one of whose gates has ended; and whether
# it leaves alone one that is well, or that an operator stopped.
#
#     ./run --unproved && tests/watch.sh
set -euo pipefail
. "$(dirname "$0")/saying.sh"
in_machine "$top/tests/watch/inside.sh"
