#!/usr/bin/env bash
# Servers with a folder that are killed before, in and behind each call that changes it, or in which the call fails or writes less, also while an
# image is made: what was answered is there at the next start. More is said in tests/serve_store.py.
# Usage: tests/kills.sh   (from anywhere; wants python3 and a C compiler; TABD names another program)
set -u
top=$(cd "$(dirname -- "${BASH_SOURCE[0]}")/.." && pwd)
. "$top/tests/needs" python3 "${CC:-cc}"
program=${TABD:-$("$top/release/program")} || exit 1
export PARTS=${PARTS:-kills short_writes checkpoints}
exec timeout 900 python3 -B "$top/tests/serve_store.py" "$program"
