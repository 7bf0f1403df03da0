#!/usr/bin/env bash
# The running server and its shell: command lines, statuses, connections that are cut or side by side, and that a shell prints what a
# script prints. More is said in tests/server.py.
# Usage: tests/server.sh   (from anywhere; wants python3; TABD names another program)
top=$(cd "$(dirname -- "${BASH_SOURCE[0]}")/.." && pwd)
. "$top/tests/needs" python3
program=${TABD:-$("$top/release/program")} || exit 1
exec timeout 300 python3 -B "$top/tests/server.py" "$program"
