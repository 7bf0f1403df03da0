#!/usr/bin/env bash
# Input at edges: labels of open parentheses and of quotes at the limit and one byte over it, in lines, frames and images; images of both
# versions cut at each length, with each version's number, unsorted, twice the same, and with bytes behind. More is said in tests/edges.py.
# Usage: tests/edges.sh [--all]   (from anywhere; wants python3; TABD names another program; a sample of the lengths and numbers, or all)
top=$(cd "$(dirname -- "${BASH_SOURCE[0]}")/.." && pwd)
. "$top/tests/needs" python3
program=${TABD:-$("$top/release/program")} || exit 1
exec python3 -B "$top/tests/edges.py" "$program" "$@"
