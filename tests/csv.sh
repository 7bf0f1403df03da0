#!/usr/bin/env bash
# `tabd export --csv` and `tabd import`: what one writes is the CSV of the image, and the other's lines make its records again; lines that mean
# nothing are told, and nothing else is left out. More is said in tests/csv_cases.py.
# Usage: tests/csv.sh   (from anywhere; wants python3; TABD names another program)
top=$(cd "$(dirname -- "${BASH_SOURCE[0]}")/.." && pwd)
. "$top/tests/needs" python3
program=${TABD:-$("$top/release/program")} || exit 1
exec timeout 300 python3 -B "$top/tests/csv_cases.py" "$(readlink -f -- "$program")"
