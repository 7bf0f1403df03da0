#!/usr/bin/env bash
# How servers and shells run: time limits at socket files and behind a first answer, the defaults that are documented, descriptors that run
# out, and compactors that give back what they couldn't do. More is said in tests/running.py.
# Usage: tests/running.sh   (from anywhere; wants python3 and a C compiler; TABD names another program)
set -u
top=$(cd "$(dirname -- "${BASH_SOURCE[0]}")/.." && pwd)
. "$top/tests/needs" python3 "${CC:-cc}"
program=${TABD:-$("$top/release/program")} || exit 1
exec timeout 600 python3 -B "$top/tests/running.py" "$program"
