#!/usr/bin/env bash
# Writes, scans, sessions, splits, drops, and compactions whole and in parts, in any order: each line is answered as a model of the
# definitions foresees. More is said in tests/interleavings.py.
# Usage: tests/interleavings.sh [STEPS]   (from anywhere; wants python3; TABD names another program; 10,000 by default)
top=$(cd "$(dirname -- "${BASH_SOURCE[0]}")/.." && pwd)
. "$top/tests/needs" python3
program=${TABD:-$("$top/release/program")} || exit 1
exec timeout 110 python3 "$top/tests/interleavings.py" "$program" "$@"
