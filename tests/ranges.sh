#!/usr/bin/env bash
# Ranges of a session, as many as one request may have: a server, which reads many of them by several threads, tells what a script tells,
# which reads one after another. More is said in tests/ranges.py.
# Usage: tests/ranges.sh   (from anywhere; wants python3 and a C compiler; TABD names another program)
set -u
top=$(cd "$(dirname -- "${BASH_SOURCE[0]}")/.." && pwd)
. "$top/tests/needs" python3 "${CC:-cc}"
program=${TABD:-$("$top/release/program")} || exit 1
exec timeout 300 python3 -B "$top/tests/ranges.py" "$program"
