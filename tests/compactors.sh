#!/usr/bin/env bash
# The compactors of a running server: what is due is compacted again and again, a large tablet is split in two tables, and compactors keep
# nothing of what they did. More is said in tests/compactors.py.
# Usage: tests/compactors.sh   (from anywhere; wants python3 and a C compiler; TABD names another program)
set -u
top=$(cd "$(dirname -- "${BASH_SOURCE[0]}")/.." && pwd)
. "$top/tests/needs" python3 "${CC:-cc}"
program=${TABD:-$("$top/release/program")} || exit 1
exec timeout 300 python3 -B "$top/tests/compactors.py" "$program"
