#!/usr/bin/env bash
# Each fenced block of each page is run by a test, and here those that print what stands behind them: pages.py says how.
# Usage: tests/pages.sh [--list] [PAGE ..]   (from anywhere; wants python3; a page as docs/OPERATING.md; --list: which test runs which block; TABD names
#        another program)
set -u
top=$(cd "$(dirname -- "${BASH_SOURCE[0]}")/.." && pwd)
. "$top/tests/needs" python3
TABD=${TABD:-$("$top/release/program")} || exit 1
exec python3 -B "$top/tests/pages.py" "$TABD" "$@"
