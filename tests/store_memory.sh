#!/usr/bin/env bash
# Requests for memory refused in turn, of events of a server that keeps what it does in a folder: what was answered is there afterwards. More is
# said in tests/store_memory.py; tests/store_starts.sh has images, starts and ends.
# Usage: tests/store_memory.sh [STEP]   (from anywhere; wants python3 and a C compiler; only each request of so many is refused, 13 by default,
#        and 1 for all, which takes minutes; TABD names another program)
set -u
top=$(cd "$(dirname -- "${BASH_SOURCE[0]}")/.." && pwd)
. "$top/tests/needs" python3 "${CC:-cc}"
program=${TABD:-$("$top/release/program")} || exit 1
export PARTS=${PARTS:-events}
exec timeout 3600 python3 -B "$top/tests/store_memory.py" "$program" "$@"
