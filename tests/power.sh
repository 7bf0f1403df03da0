#!/usr/bin/env bash
# Power cuts: behind each call that changes a folder, what a disk may hold then, and a start over it. More is said in tests/power.py.
# Usage: tests/power.sh [MOST]   (from anywhere; wants python3 and a C compiler; of how many folders each moment has at most, 40 by default,
#        and 4096 for all; TABD names another program)
set -u
top=$(cd "$(dirname -- "${BASH_SOURCE[0]}")/.." && pwd)
. "$top/tests/needs" python3 "${CC:-cc}"
program=${TABD:-$("$top/release/program")} || exit 1
exec timeout 7200 python3 -B "$top/tests/power.py" "$program" "$@"
