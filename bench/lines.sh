#!/usr/bin/env bash
# How fast lines are read and answered, beside awk that prints `end` for each of the same lines, from pipe to pipe.
# Usage: bench/lines.sh [ROUNDS]   (from anywhere; builds the program if it isn't built)
set -eu
top=$(cd "$(dirname -- "${BASH_SOURCE[0]}")/.." && pwd)
rounds=${1:-5}
work=$(mktemp -d)
trap 'rm -rf "$work"' EXIT
program=${TABD:-$("$top/release/program")}

awk 'BEGIN { for (i = 0; i < 1000000; i++) print "# a comment line of some forty bytes, no. " i }' >"$work/comments"
{ echo 'createtable t'; awk 'BEGIN { for (i = 0; i < 200000; i++) print "scan t \\0" }'; } >"$work/scans"
cat "$work/comments" "$work/scans" >"$work/both"

# The least elapsed seconds of a command over a file, through a pipe to a pipe.
least() { # FILE CMD..
    local file=$1 best=
    shift
    for _ in $(seq "$rounds"); do
        local begin end spent
        begin=$(date +%s%N)
        cat "$file" | "$@" | cat >"$work/out"
        end=$(date +%s%N)
        spent=$((end - begin))
        if [ -z "$best" ] || [ "$spent" -lt "$best" ]; then best=$spent; fi
    done
    echo "$best"
}

printf '%-28s %10s %10s %8s\n' lines tabd awk ratio
for case in comments scans both; do
    ours=$(least "$work/$case" "$program" script)
    awks=$(least "$work/$case" awk '{print "end"}')
    awk -v c="$case" -v a="$ours" -v b="$awks" 'BEGIN { printf "%-28s %8.1fms %8.1fms %8.2f\n", c, a / 1e6, b / 1e6, a / b }'
done
