#!/usr/bin/env bash
# How fast labels are parsed and judged, beside the same in plain Rust (rustc -O, std alone).
# Usage: bench/labels.sh [ROUNDS]   (from anywhere; proves the label's crates in a folder of its own, where they aren't built)
set -eu
top=$(cd "$(dirname -- "${BASH_SOURCE[0]}")/.." && pwd)
rounds=${1:-7}
work=$(mktemp -d)
trap 'rm -rf "$work"' EXIT

mkdir -p "$work/crates/labels/src"
cp -a "$top/HANDLES" "$work/"
grep -E '^(tab_key|tab_label):' "$top/crates.txt" >"$work/crates.txt"
echo 'labels: tab_label anyhow' >>"$work/crates.txt"
cp -a "$top/crates/tab_key" "$top/crates/tab_label" "$work/crates/"
cp "$top/bench/labels/main.rt.in" "$work/crates/labels/src/main.rt"
(cd "$work" && git init -q . && cd crates/labels && rt run -- judge 0 >"$work/log" 2>&1) || { tail -n 30 "$work/log" >&2; exit 1; }
rustc -O -o "$work/plain" "$top/bench/labels/plain.rs"

# The elapsed nanoseconds of a command.
spent() {
    local begin
    begin=$(date +%s%N)
    "$@" >/dev/null
    echo $(($(date +%s%N) - begin))
}

# The least time of one round of a program's work: of many rounds, less what it takes to begin.
least() { # PROGRAM WORK TIMES
    local best= none some one
    for _ in $(seq "$rounds"); do
        none=$(spent "$1" "$2" 0)
        some=$(spent "$1" "$2" "$3")
        one=$(((some - none) / $3))
        if [ -z "$best" ] || [ "$one" -lt "$best" ]; then best=$one; fi
    done
    echo "$best"
}

ours=$work/crates/labels/out/labels
for mode in parse judge; do
    [ "$("$ours" $mode 3)" = "$("$work/plain" $mode 3)" ] || { echo "$mode: the two disagree" >&2; exit 1; }
done
printf '%-32s %10s %10s %8s\n' work tabd rust ratio
for line in 'parse 20 a_label_of_1_MiB' 'judge 10 a_million_stored_labels'; do
    set -- $line
    a=$(least "$ours" "$1" "$2") b=$(least "$work/plain" "$1" "$2")
    awk -v n="$1 $3" -v a="$a" -v b="$b" 'BEGIN { printf "%-32s %8.2fms %8.2fms %8.2f\n", n, a / 1e6, b / 1e6, a / b }'
done
