#!/usr/bin/env bash
# Reads and writes that fail, each in turn: of scripts, servers, shells, saves and loads. What was written is a beginning of the answer, a
# server serves on, and of a file the old content or the whole new one is left. More is said in tests/broken.py.
# Usage: tests/broken.sh   (from anywhere; wants python3 and a C compiler; TABD names another program)
top=$(cd "$(dirname -- "${BASH_SOURCE[0]}")/.." && pwd)
. "$top/tests/needs" python3 "${CC:-cc}"
program=${TABD:-$("$top/release/program")} || exit 1
exec python3 -B "$top/tests/broken.py" "$program"
