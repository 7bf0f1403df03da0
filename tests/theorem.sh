#!/usr/bin/env bash
# What docs/THEOREM.md says of its example: what its two readers are shown, in both worlds, the bytes that one is sent, and what a crash leaves.
# More is said in tests/theorem.py.
# Usage: tests/theorem.sh   (from anywhere; wants python3; TABD names another program)
set -u
top=$(cd "$(dirname -- "${BASH_SOURCE[0]}")/.." && pwd)
. "$top/tests/needs" python3
program=${TABD:-$("$top/release/program")} || exit 1
exec timeout 300 python3 -B "$top/tests/theorem.py" "$program"
