#!/usr/bin/env bash
# The client in Python, over servers on free ports: all requests and refusals, arguments that aren't sent, timeouts, the examples of its README,
# examples/clinic.py twice in a row, and what pip makes of it. The tests are in clients/python/tests.
# Usage: tests/python.sh [-v]   (from anywhere; wants python3; TABD names another program)
set -u
top=$(cd "$(dirname -- "${BASH_SOURCE[0]}")/.." && pwd)
. "$top/tests/needs" python3
TABD=${TABD:-$("$top/release/program")} || exit 1
export TABD
exec python3 "$top/clients/python/tests" "$@"
