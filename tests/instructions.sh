#!/usr/bin/env bash
# What each operation takes in instructions, at most 3 per cent above bench/instructions.txt. More is said in bench/instructions.py.
# Usage: tests/instructions.sh   (from anywhere; wants python3 and valgrind; TABD names another program)
set -u
top=$(cd "$(dirname -- "${BASH_SOURCE[0]}")/.." && pwd)
. "$top/tests/needs" python3 valgrind
program=${TABD:-$("$top/release/program")} || exit 1
TABD=$program exec timeout 3600 python3 -B "$top/bench/instructions.py" --hold "$top/bench/instructions.txt"
