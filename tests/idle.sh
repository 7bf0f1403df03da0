#!/usr/bin/env bash
# Connections that say nothing, stop inside a frame, or take nothing of what they are told, under `serve --idle`. More is said in tests/idle.py.
# Usage: tests/idle.sh   (from anywhere; wants python3; TABD names another program)
top=$(cd "$(dirname -- "${BASH_SOURCE[0]}")/.." && pwd)
. "$top/tests/needs" python3
program=${TABD:-$("$top/release/program")} || exit 1
exec python3 -B "$top/tests/idle.py" "$program"
