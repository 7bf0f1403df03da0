#!/usr/bin/env bash
# How fast cells are written and scanned, and in how much memory, beside a plain Rust program over std's BTreeMap
# (rustc -O) that answers the same script.
# Usage: bench/store.sh [CELLS | growth] [ROUNDS]   (from anywhere; builds the program if it isn't built)
#   CELLS   cells of the table, 10 or more; 200000 by default. growth: 50,000, 200,000 and 800,000 cells in turn
#   ROUNDS  runs of each script, of which the median counts; 5 by default
#   TABD    in the environment: another built program, measured in place of this folder's
set -eu -o pipefail
top=$(cd "$(dirname -- "${BASH_SOURCE[0]}")/.." && pwd)
case ${1:-200000} in
    growth) sizes='50000 200000 800000' ;;
    *[!0-9]* | ?) echo "usage: $0 [CELLS | growth] [ROUNDS]" >&2; exit 2 ;;
    *) sizes=${1:-200000} ;;
esac
rounds=${2:-5}
scans=20000
work=$(mktemp -d)
trap 'rm -rf "$work"' EXIT

TABD=${TABD:-$("$top/release/program")}
rustc -O -o "$work/plain" "$top/bench/store/plain.rs"

# Makes the parts of the scripts: the inserts, one scan of all, many short ones, and nothing.
make_parts() { # CELLS
    local lines=$top/bench/store/script.py
    python3 "$lines" inserts "$1" >"$work/inserts"
    python3 "$lines" whole >"$work/whole"
    python3 "$lines" short "$1" "$scans" >"$work/short"
    : >"$work/none"
}

# Runs one of the two, at the end of a command that runs it.
run() { # tabd|rust CMD..
    local who=$1
    shift
    case $who in
        tabd) "$@" "$TABD" script ;;
        rust) "$@" "$work/plain" ;;
    esac
}

# Runs a command, and writes its peak resident memory in KiB to the file `peak`. Where python measures, it is at least
# python's own.
with_peak() { # CMD..
    if [ -x /usr/bin/time ]; then
        /usr/bin/time -f %M -o "$work/peak" "$@"
    else
        python3 -c 'import os, subprocess, sys
process = subprocess.Popen(sys.argv[2:])
_, status, usage = os.wait4(process.pid, 0)
print(usage.ru_maxrss, file=open(sys.argv[1], "w"))
sys.exit(os.waitstatus_to_exitcode(status))' "$work/peak" "$@"
    fi
}

# Runs both over the inserts with each part behind, sees that they answer the same, and notes their peaks.
compare() {
    local part who
    for part in none whole short; do
        for who in tabd rust; do
            cat "$work/inserts" "$work/$part" | run "$who" with_peak >"$work/$part.$who" ||
                { echo "$part: $who failed" >&2; exit 1; }
            echo "peak $part $who $(cat "$work/peak")" >>"$work/seen"
        done
        cmp "$work/$part.tabd" "$work/$part.rust" || { echo "$part: the two disagree" >&2; exit 1; }
    done
}

# Both in turn, round by round: the seconds of the inserts and of the part behind.
measure() {
    local part who first rest seconds
    for _ in $(seq "$rounds"); do
        for part in whole short; do
            for who in tabd rust; do
                first=$(stat -c %s "$work/none.$who")
                rest=$(($(stat -c %s "$work/$part.$who") - first))
                seconds=$(run "$who" python3 "$top/bench/store/phases.py" \
                    "$work/inserts:$first" "$work/$part:$rest" -- | cut -d ' ' -f 1 | paste -sd ' ')
                echo "time $part $who $seconds" >>"$work/seen"
            done
        done
    done
}

# The table of what was seen, and a line for each of the two to the file `growth`.
report() { # CELLS
    awk -v cells="$1" -v scans="$scans" -v growth="$work/growth" '
        function note(what, value) { seen[what, ++count[what]] = value }
        function median(what,   i, j, n, value, sorted) {
            n = count[what]
            for (i = 1; i <= n; i++) {
                value = seen[what, i]
                for (j = i - 1; j > 0 && sorted[j] > value; j--) sorted[j + 1] = sorted[j]
                sorted[j + 1] = value
            }
            return (sorted[int((n + 1) / 2)] + sorted[int(n / 2) + 1]) / 2
        }
        function row(name, unit, what,   ours, theirs) {
            ours = median(what " tabd"); theirs = median(what " rust")
            printf "%-24s %9.3f %-3s %9.3f %-3s %8.2f\n", name, ours, unit, theirs, unit, ours / theirs
        }
        function grown(who) {
            print cells, who, median("inserts " who) * 1e9 / cells, median("short " who) * 1e6 / scans >>growth
        }
        $1 == "peak" { note("peak " $2 " " $3, $4 / 1024) }
        $1 == "time" { note("inserts " $3, $4 + 0); note($2 " " $3, $5 + 0) }
        END {
            printf "%-24s %13s %13s %8s\n", cells " cells", "tabd", "rust", "ratio"
            row("inserts", "s", "inserts"); row("whole scan", "s", "whole"); row(scans " short scans", "s", "short")
            row("peak, inserts alone", "MiB", "peak none"); row("peak, with a whole scan", "MiB", "peak whole")
            row("peak, with short scans", "MiB", "peak short")
            grown("tabd"); grown("rust")
        }' "$work/seen"
    rm "$work/seen"
}

for cells in $sizes; do
    make_parts "$cells"
    compare
    measure
    report "$cells"
    echo
done
if [ "${1:-}" = growth ]; then
    printf '%-10s %-6s %14s %18s %18s\n' cells of 'ns an insert' 'ns a log2 of cells' 'us a short scan'
    sort -k2,2r -k1,1n "$work/growth" |
        awk '{ printf "%-10s %-6s %14.0f %18.1f %18.2f\n", $1, $2, $3, $3 / (log($1) / log(2)), $4 }'
fi
