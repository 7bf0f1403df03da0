#!/usr/bin/env bash
# How long a scan takes that passes over most of what the table holds, and one that passes over nothing.
# Usage: bench/passing.sh [ROUNDS]   (from anywhere; builds the program if it isn't built)
#   ROUNDS  runs of each script, of which the least counts; 5 by default
#   TABD    in the environment: another built program, measured in place of this folder's
set -eu -o pipefail
top=$(cd "$(dirname -- "${BASH_SOURCE[0]}")/.." && pwd)
rounds=${1:-5}
work=$(mktemp -d)
trap 'rm -rf "$work"' EXIT

TABD=${TABD:-$("$top/release/program")}

# The least seconds of so many scans of a table, as microseconds a scan.
row() { # TABLE SCANS TEXT
    local lines=$top/bench/passing/script.py
    python3 "$lines" "$1" first >"$work/first"
    python3 "$lines" "$1" "$2" >"$work/scans"
    "$TABD" script <"$work/first" >"$work/first.out"
    cat "$work/first" "$work/scans" | "$TABD" script >"$work/all.out"
    local first rest
    first=$(stat -c %s "$work/first.out")
    rest=$(($(stat -c %s "$work/all.out") - first))
    for _ in $(seq "$rounds"); do
        python3 "$top/bench/store/phases.py" "$work/first:$first" "$work/scans:$rest" -- "$TABD" script | tail -n 1
    done | awk -v scans="$2" -v text="$3" 'NR == 1 || $1 < least { least = $1 } END { printf "%-44s %12.1f us\n", text, least / scans * 1e6 }'
}

row versions 500 '200,000 puts of one column'
row columns 500 'one column of 10,000'
row plain 50 '10,000 columns, no column named'
row all 50 '10,000 columns, their family named'
row few 50 '10,000 columns of 5 puts each'
row dozen 50 '10,000 columns of 12 puts each'
row many 50 '1,000 columns of 100 puts each'
