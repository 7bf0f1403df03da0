#!/usr/bin/env bash
# Counts the functions on the way of a write and of a scan through the program, and how deep the calls are: ways.py says how.
# The program is built for it without inlining, by Rattle's own compiler, in a copy of the repository beside its out/ folders.
# Usage: bench/ways.sh [PROGRAM]   (wants valgrind and python3; PROGRAM: one that was built so already)
set -eu
top=$(cd "$(dirname -- "${BASH_SOURCE[0]}")/.." && pwd)
work=$(mktemp -d)
trap 'rm -rf "$work"' EXIT
program=${1:-}
if [ -z "$program" ]; then
    cp -a "$top" "$work/top"
    cd "$work/top/crates/tabd"
    rm -f out/tabd
    sed -i 's/^tabd\b/tabd backend=rattle opt_level=0/' ../../crates.txt
    rt run -- --version >"$work/built" 2>&1 || { tail -n 20 "$work/built"; exit 1; }
    program=$PWD/out/tabd
fi

# What callgrind sees of a run over these lines.
seen() { # NAME LINES
    printf "$2" | valgrind --tool=callgrind --compress-strings=no --compress-pos=no --callgrind-out-file="$work/$1" \
        "$program" script >/dev/null 2>"$work/$1.log"
}

table='createtable t\n'
insert='insert t r f q \\e v 5\n'
scan='scan t \\0\n'
seen table "$table"
seen insert "$table$insert"
seen scan "$table$insert$scan"
echo "a write: $(python3 "$top/bench/ways.py" "$work/table" "$work/insert")"
echo "a scan: $(python3 "$top/bench/ways.py" "$work/insert" "$work/scan")"
