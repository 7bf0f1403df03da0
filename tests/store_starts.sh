#!/usr/bin/env bash
# Requests for memory refused in turn, of images that a server makes of its folder, of starts that find something in the journal, and of a script's
# end: what was answered is there afterwards. More is said in tests/store_memory.py.
# Usage: tests/store_starts.sh [STEP]   (from anywhere; wants python3 and a C compiler; only each request of so many is refused, 13 by default,
#        and 1 for all, which takes minutes; TABD names another program)
set -u
top=$(cd "$(dirname -- "${BASH_SOURCE[0]}")/.." && pwd)
. "$top/tests/needs" python3 "${CC:-cc}"
program=${TABD:-$("$top/release/program")} || exit 1
export PARTS=${PARTS:-images starts ends}
exec timeout 3600 python3 -B "$top/tests/store_memory.py" "$program" "$@"
