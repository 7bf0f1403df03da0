#!/usr/bin/env bash
# Rotations of a running server: its memory doesn't grow with what it is asked, over one connection and over many, and whoever may asks for a
# rotation of their own beside others' writes. More is said in tests/rotations.py.
# Usage: tests/rotations.sh [EVENTS]   (from anywhere; wants python3; how many events its memory is seen over, 200,000 by default; TABD names
#        another program)
top=$(cd "$(dirname -- "${BASH_SOURCE[0]}")/.." && pwd)
. "$top/tests/needs" python3
program=${TABD:-$("$top/release/program")} || exit 1
exec timeout 900 python3 -B "$top/tests/rotations.py" "$program" "$@"
