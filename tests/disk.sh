#!/usr/bin/env bash
# What scripts and servers ask of the disk, when, and what comes of it where the disk fails or lets them wait. More is said in tests/disk.py.
# Usage: tests/disk.sh   (from anywhere; wants python3 and a C compiler; TABD names another program)
set -u
top=$(cd "$(dirname -- "${BASH_SOURCE[0]}")/.." && pwd)
. "$top/tests/needs" python3 "${CC:-cc}"
program=${TABD:-$("$top/release/program")} || exit 1
exec timeout 600 python3 -B "$top/tests/disk.py" "$program"
