#!/usr/bin/env bash
# What a store's folder bears: files that are lost or changed, loads whose disk fails, folders of an older version, little memory and no room. More
# is said in tests/folder.py.
# Usage: tests/folder.sh   (from anywhere; wants python3 and a C compiler; TABD names another program)
set -u
top=$(cd "$(dirname -- "${BASH_SOURCE[0]}")/.." && pwd)
. "$top/tests/needs" python3 "${CC:-cc}"
program=${TABD:-$("$top/release/program")} || exit 1
exec timeout 600 python3 -B "$top/tests/folder.py" "$program"
