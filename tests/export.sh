#!/usr/bin/env bash
# `tabd export`: a script's run of its lines makes an image that says the same, but for the numbers of mutations; and the lines for Accumulo's
# shell, read by a model of it (tests/accumulo.py), show nobody more there than here. More is said in tests/export.py.
# Usage: tests/export.sh   (from anywhere; wants python3; TABD names another program)
top=$(cd "$(dirname -- "${BASH_SOURCE[0]}")/.." && pwd)
. "$top/tests/needs" python3
program=${TABD:-$("$top/release/program")} || exit 1
exec timeout 300 python3 -B "$top/tests/export.py" "$(readlink -f -- "$program")"
