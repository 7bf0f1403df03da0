#!/usr/bin/env bash
# Each request for memory refused in turn, over lines, frames, saves and loads: the answer is 17 or the right one, and what is asked
# afterwards is as before or as after the whole event. More is said in tests/denials.py.
# Usage: tests/denials.sh [--anew]   (from anywhere; wants python3 and a C compiler; TABD names another program; with --anew each
#                                     request is refused in a process of its own, which takes minutes)
top=$(cd "$(dirname -- "${BASH_SOURCE[0]}")/.." && pwd)
. "$top/tests/needs" python3 "${CC:-cc}"
program=${TABD:-$("$top/release/program")} || exit 1
exec python3 -B "$top/tests/denials.py" "$program" "$@"
