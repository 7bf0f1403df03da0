#!/usr/bin/env bash
# With ample memory nothing is refused for want of it, past each size at which the program goes on in another way: blocks, slices, batches,
# partitions, caches, queues. More is said in tests/ample.py.
# Usage: tests/ample.sh   (from anywhere; wants python3; TABD names another program)
set -u
top=$(cd "$(dirname -- "${BASH_SOURCE[0]}")/.." && pwd)
. "$top/tests/needs" python3
program=${TABD:-$("$top/release/program")} || exit 1
exec timeout 600 python3 -B "$top/tests/ample.py" "$program"
