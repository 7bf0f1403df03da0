#!/usr/bin/env bash
# What the page shows of its answers, in a browser: counts, marks, what is compared, what is covered, what is cut by a limit. More is said in
# tests/shown.py.
# Usage: tests/shown.sh   (from anywhere; wants python3 and chromium; TABD names another program)
set -u
top=$(cd "$(dirname -- "${BASH_SOURCE[0]}")/.." && pwd)
. "$top/tests/needs" python3
program=${TABD:-$("$top/release/program")} || exit 1
if ! command -v chromium chromium-browser google-chrome >/dev/null; then
    echo 'skipped: there is no chromium'
    echo '0 passed, 0 failed, 1 skipped'
    exit 0
fi
exec timeout 300 python3 -B "$top/tests/shown.py" "$program"
