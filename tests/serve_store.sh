#!/usr/bin/env bash
# Servers that keep what they did in a folder, but for kills at each call, which tests/kills.sh has: what was answered is there afterwards. More
# is said in tests/serve_store.py.
# Usage: tests/serve_store.sh [SECONDS]   (from anywhere; wants python3 and a C compiler; for how many seconds servers are killed at random times
#        beneath writers, 20 by default; TABD names another program)
set -u
top=$(cd "$(dirname -- "${BASH_SOURCE[0]}")/.." && pwd)
. "$top/tests/needs" python3 "${CC:-cc}"
program=${TABD:-$("$top/release/program")} || exit 1
export PARTS=${PARTS:-folders both_formats intervals intervals_beside_a_history short_batches images_come_later full_disk
    file_limit_is_told reads_wait_for_nothing history_says_yes turned followed copies_beneath_writers beneath_writers}
exec timeout 900 python3 -B "$top/tests/serve_store.py" "$program" "$@"
