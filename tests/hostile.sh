#!/usr/bin/env bash
# Random hostile input: connections of broken frames, many at once, broken images, lines and replies. No crash and no hang, every reply is the
# protocol's, and afterwards an honest client finds its data and memory is bounded. More is said in tests/hostile.py.
# Usage: tests/hostile.sh [WORD ..]   (from anywhere; wants python3; the words of tests/hostile.py; TABD names another program)
top=$(cd "$(dirname -- "${BASH_SOURCE[0]}")/.." && pwd)
. "$top/tests/needs" python3
TABD=${TABD:-$("$top/release/program")} || exit 1
export TABD
exec python3 -B "$top/tests/hostile.py" "$@"
