#!/usr/bin/env bash
# Long runs past round sizes: over a million cells in a mutation after another, saved, loaded, merged from seventy sorted tables and read
# in one batch; five thousand lives of a user; over 2^20 events of a server; and writes and scans in turn, which take no longer at the end
# than at the beginning. More is said in tests/large.py.
# Usage: tests/large.sh   (from anywhere; wants python3; TABD names another program)
set -u
top=$(cd "$(dirname -- "${BASH_SOURCE[0]}")/.." && pwd)
. "$top/tests/needs" python3
program=${TABD:-$("$top/release/program")} || exit 1
exec timeout 300 python3 -B "$top/tests/large.py" "$program"
