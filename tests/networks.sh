#!/usr/bin/env bash
# Whether systemd keeps the service from private networks (IPAddressDeny of deploy/maplewrench.service), in a machine of
# its own with the package installed and an address of each network: an archive's page names further pages everywhere,
# by addresses and by names, and who was asked is looked up where it was asked. The settings have no `hosts`, so that
# the unit alone forbids.
#
#     ./run --unproved && tests/networks.sh
set -euo pipefail
. "$(dirname "$0")/saying.sh"
in_machine "$top/tests/networks/inside.py"
