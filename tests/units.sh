#!/usr/bin/env bash
# The units under systemd, in a machine of its own with the package installed: settings that are bad end the service and don't start it
# again; memory beyond LimitDATA is refused, and the program goes on; and neither the forward's nginx nor the readers' keeps the
# other from starting, whatever names archives have.
#
#     ./run --unproved && tests/units.sh
set -euo pipefail
. "$(dirname "$0")/saying.sh"
needs nginx:nginx-light openssl:openssl curl:curl
in_machine "$top/tests/units/inside.sh"
