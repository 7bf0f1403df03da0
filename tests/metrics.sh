#!/usr/bin/env bash
# What a server tells of itself: the counts in the file of --metrics, read by a strict parser of that form and compared with what was done, and
# a line for each connection with --log. More is said in tests/metrics.py; tests/figures.sh has those of compactions and of a folder.
# Usage: tests/metrics.sh   (from anywhere; wants python3; TABD names another program)
top=$(cd "$(dirname -- "${BASH_SOURCE[0]}")/.." && pwd)
. "$top/tests/needs" python3
program=${TABD:-$("$top/release/program")} || exit 1
export PARTS=${PARTS:-off_by_default all_counted endings files masked}
exec timeout 300 python3 -B "$top/tests/metrics.py" "$program"
