#!/usr/bin/env bash
# What compactors do while nobody writes: a tablet of several sources becomes one, and where there is none nothing is asked. More is said in
# tests/quiet.py.
# Usage: tests/quiet.sh   (from anywhere; wants python3; TABD names another program)
set -u
top=$(cd "$(dirname -- "${BASH_SOURCE[0]}")/.." && pwd)
. "$top/tests/needs" python3
program=${TABD:-$("$top/release/program")} || exit 1
exec timeout 300 python3 -B "$top/tests/quiet.py" "$program"
