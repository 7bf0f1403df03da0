#!/usr/bin/env bash
# Scripts that keep what they do in a folder: what was answered is there after each kill. More is said in tests/store.py.
# Usage: tests/store.sh   (from anywhere; wants python3 and a C compiler; TABD names another program)
set -u
top=$(cd "$(dirname -- "${BASH_SOURCE[0]}")/.." && pwd)
. "$top/tests/needs" python3 "${CC:-cc}"
program=${TABD:-$("$top/release/program")} || exit 1
exec timeout 600 python3 -B "$top/tests/store.py" "$program"
