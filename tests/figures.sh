#!/usr/bin/env bash
# What a server tells of its compactions, and of the disk where it has a folder, in the file of --metrics. More is said in tests/metrics.py.
# Usage: tests/figures.sh   (from anywhere; wants python3; TABD names another program)
top=$(cd "$(dirname -- "${BASH_SOURCE[0]}")/.." && pwd)
. "$top/tests/needs" python3
program=${TABD:-$("$top/release/program")} || exit 1
export PARTS=${PARTS:-stores compactions}
exec timeout 300 python3 -B "$top/tests/metrics.py" "$program"
