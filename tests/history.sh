#!/usr/bin/env bash
# The history of a server in a file: who may read the file, that each event is in it, in order, and that a script's run of it makes a store that
# answers as the server did. More is said in tests/history.py.
# Usage: tests/history.sh   (from anywhere; wants python3; TABD names another program)
top=$(cd "$(dirname -- "${BASH_SOURCE[0]}")/.." && pwd)
. "$top/tests/needs" python3
program=${TABD:-$("$top/release/program")} || exit 1
exec timeout 300 python3 -B "$top/tests/history.py" "$program"
