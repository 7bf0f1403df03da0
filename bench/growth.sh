#!/usr/bin/env bash
# How the store grows: what a write and a range of ten take, and the bytes a cell, from 10,000 cells to 10,000,000, beside a plain Rust program
# and RocksDB, where its Debian package is installed. It is bench/engine.sh (tall, freeze) at each size; docs/growth.py draws what it writes.
# Usage: bench/growth.sh [SIZES [ROUNDS]]   (from anywhere; proves the libraries of this checkout if they aren't built)
#   SIZES   numbers of cells, multiples of 1000; "10000 31000 100000 310000 1000000 3100000 10000000" by default
#   ROUNDS  runs of each program at each size, of which the median counts; 5 up to 310,000 cells, 3 below three million, and 1 from there on, by default
#   ENGINE  in the environment: a file that keeps the built program; where it is there already, nothing is proved
#   CLOCK   in the environment: processor, for the processor's time in place of that which elapsed
#   NOTE    in the environment: what else is said of the run, as that other work ran beside it
# It writes bench/growth.txt. The sizes that are there by default take five minutes and 6 GB of memory, and 2 GB of /dev/shm.
set -eu -o pipefail
top=$(cd "$(dirname -- "${BASH_SOURCE[0]}")/.." && pwd)
sizes=${1:-10000 31000 100000 310000 1000000 3100000 10000000}
work=$(mktemp -d)
trap 'rm -rf "$work"' EXIT
mkdir "$work/built"
export ENGINE=${ENGINE:-$work/engine} BUILT=$work/built SHAPES=tall MODES=freeze PEERS=rocksdb FIGURES=$work/figures

rounds_of() { # CELLS
    if [ "$1" -lt 1000000 ]; then echo 5; elif [ "$1" -lt 3000000 ]; then echo 3; else echo 1; fi
}

for cells in $sizes; do
    "$top/bench/engine.sh" "$cells" "${2:-$(rounds_of "$cells")}"
done
{
    echo "# What bench/growth.sh measured$(date -u +' on %-d %B %Y'), on $(nproc) processors${CLOCK:+, $CLOCK time}${NOTE:+; $NOTE}"
    echo '# cells, program, ns a write and the sorting that it puts off, µs a range of ten, bytes a cell'
    cat "$FIGURES"
} >"$work/growth.txt"
mv "$work/growth.txt" "$top/bench/growth.txt"
