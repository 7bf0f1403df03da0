#!/usr/bin/env bash
# The store in one process, without lines or frames: how fast cells are written and scanned, and in how much memory, beside a plain
# Rust program over std's BTreeMap (rustc -O), and beside RocksDB and LevelDB (g++ -O2) where their Debian packages are installed.
# Usage: bench/engine.sh [CELLS [ROUNDS]]   (from anywhere; proves the libraries of this checkout if they aren't built)
#   CELLS   cells of the table, a multiple of 1000; 1000000 by default
#   ROUNDS  runs of each program, of which the median counts; 5 by default
#   CLOCK   in the environment: processor, for the processor's time in place of that which elapsed
#   ENGINE  in the environment: a file that keeps the built program; where it is there already, it is measured and nothing is proved
#   BUILT   in the environment: a folder that keeps the programs beside it, for more runs of the same sources
#   SHAPES  in the environment: those of tall, wide and long that are measured; tall and wide by default
#   MODES   in the environment: those of freeze and compact; both by default
#   PEERS   in the environment: those of rocksdb and leveldb beside which it is measured; both by default
#   FIGURES in the environment: a file to which a line is added for each program and shape that has ranges: the cells, the program, ns of a
#           write (W and F), µs of a range of ten, bytes a cell at rest
set -eu -o pipefail
top=$(cd "$(dirname -- "${BASH_SOURCE[0]}")/.." && pwd)
cells=${1:-1000000}
rounds=${2:-5}
[[ $cells =~ ^[1-9][0-9]*000$ ]] || { echo "usage: $0 [CELLS [ROUNDS]], CELLS a multiple of 1000" >&2; exit 2; }
work=$(mktemp -d)
files=$work
[ ! -w /dev/shm ] || files=$(mktemp -d -p /dev/shm)
trap 'rm -rf "$work" "$files"' EXIT

# The lines of crates.txt of these crates and of all that they stand on, each behind those that it names.
below() { # CRATES
    awk -v tops="$*" -F ':' '
        !/^#/ && NF > 1 { split($1, words, " "); uses[words[1]] = $2; line[words[1]] = $0 }
        function climb(name, words, count, i) {
            if (!(name in uses) || (name in seen)) return
            seen[name] = 1
            count = split(uses[name], words, " ")
            for (i = 1; i <= count; i++) climb(words[i])
            print line[name]
        }
        END { count = split(tops, top, " "); for (i = 1; i <= count; i++) climb(top[i]) }' "$top/crates.txt"
}

# Proves and builds the program in a folder of its own, over copies of this checkout's libraries.
build_tabd() {
    local uses='tab_key tab_label tab_mutation tab_history tab_core' crate part
    mkdir -p "$work/crates/engine/src"
    below "$uses" >"$work/crates.txt"
    for crate in $(sed 's/[ :].*//' "$work/crates.txt"); do
        [ -f "$top/crates/$crate/out/rlib/stamp" ] || { "$top/tabd" --version >/dev/null; break; }
    done
    for crate in $(sed 's/[ :].*//' "$work/crates.txt"); do
        mkdir -p "$work/crates/$crate/out"
        for part in src specs proofs out/rlib; do
            [ ! -d "$top/crates/$crate/$part" ] || cp -a "$top/crates/$crate/$part" "$work/crates/$crate/$part"
        done
    done
    echo "engine: $uses anyhow thiserror" >>"$work/crates.txt"
    cp -a "$top/HANDLES" "$work/"
    cp "$top/bench/engine/main.rt.in" "$work/crates/engine/src/main.rt"
    (cd "$work" && git init -q . && cd crates/engine && rt run -- tall freeze 1000 >"$work/log" 2>&1) ||
        { tail -n 30 "$work/log" >&2; exit 1; }
    cp "$work/crates/engine/out/engine" "$work/tabd"
}

# Builds a program in C++, where the package with its library is installed.
build_peer() { # NAME PACKAGE
    case " ${PEERS-rocksdb leveldb} " in *" $1 "*) ;; *) return 0 ;; esac
    if [ -x "${BUILT:-$work}/$1" ]; then
        peers="$peers $1"
    elif dpkg-query -W -f '${Status}' "$2" 2>/dev/null | grep -q 'ok installed'; then
        g++ -std=c++17 -O2 -o "${BUILT:-$work}/$1" "$top/bench/engine/$1.cc" "-l$1"
        peers="$peers $1"
    else
        echo "$1 is left out: the package $2 isn't installed" >&2
    fi
}

peers='tabd rust'
if [ -x "${ENGINE:-}" ]; then
    cp "$ENGINE" "$work/tabd"
else
    build_tabd
    [ -z "${ENGINE:-}" ] || cp "$work/tabd" "$ENGINE"
fi
[ -x "${BUILT:-$work}/rust" ] || rustc -O -o "${BUILT:-$work}/rust" "$top/bench/engine/plain.rs"
build_peer rocksdb librocksdb-dev
build_peer leveldb libleveldb-dev

# Runs a program once, and notes what it prints and how many bytes of files it leaves.
run() { # NAME SHAPE MODE
    mkdir "$files/store"
    local program=${BUILT:-$work}/$1
    [ "$1" != tabd ] || program=$work/tabd
    "$program" "$2" "$3" "$cells" "$files/store" | sed "s/^/$1 /" >>"$work/seen"
    echo "$1 files $(find "$files/store" -type f -printf '%s\n' | awk '{ sum += $1 } END { print sum + 0 }')" >>"$work/seen"
    rm -r "$files/store"
}

# The table of what was seen. It fails where two programs gave different cells.
report() { # TITLE
    awk -v title="$1" -v peers="$peers" -v cells="$cells" -v clock="${CLOCK:-elapsed}" -v figures="${FIGURES:-/dev/null}" '
        function note(what, value) { seen[what, ++count[what]] = value }
        function median(what,   i, j, n, value, sorted) {
            n = count[what]
            for (i = 1; i <= n; i++) {
                value = seen[what, i]
                for (j = i - 1; j > 0 && sorted[j] > value; j--) sorted[j + 1] = sorted[j]
                sorted[j + 1] = value
            }
            return (sorted[int((n + 1) / 2)] + sorted[int(n / 2) + 1]) / 2
        }
        # A rate in millions of cells a second, and its ratio to that of the plain program.
        function rate(who, part) {
            if (!count[part " " who]) return sprintf("%15s", "")
            return sprintf("%8.2f (%4.2f)", cells * 1e3 / median(part " " who), median(part " rust") / median(part " " who))
        }
        function bytes(who, what) { return count[what " " who] ? sprintf("%9.0f", median(what " " who) / cells) : sprintf("%9s", "-") }
        { time = clock == "processor" ? $4 : $3 }
        $2 == "W" { written = time; note("W " $1, time) }
        $2 == "F" { frozen[$1] = time; note("F " $1, time); note("WF " $1, written + time) }
        $2 == "S" || $2 == "R" {
            note($2 " " $1, time)
            if (!($2 in given)) given[$2] = $5 " " $6
            if (given[$2] != $5 " " $6) { print $2 ": " $1 " gives " $5 " cells in " $6 " bytes, not " given[$2] >"/dev/stderr"; bad = 1 }
        }
        $2 == "base" { base[$3] = $4 }
        $2 == "rest" && $3 == "RssAnon:" { rest = ($4 - base[$3]) * 1024 }
        $2 == "end" && $3 == "VmHWM:" { most = ($4 - base[$3]) * 1024 }
        $2 == "files" { note("rest " $1, rest + $3); if (!$3) note("most " $1, most) }
        END {
            if (bad) exit 1
            printf "%-24s %14s %15s %15s %15s %9s %9s\n", title, "W", "W and F", "S", "R", "at rest", "at most"
            n = split(peers, who, " ")
            for (i = 1; i <= n; i++)
                printf "%-24s %s %s %s %s %s %s\n", who[i], rate(who[i], "W"), rate(who[i], "WF"), rate(who[i], "S"), rate(who[i], "R"),
                    bytes(who[i], "rest"), bytes(who[i], "most")
            for (i = 1; i <= n; i++)
                if (count["R " who[i]])
                    printf "%d %s %.0f %.3f %.0f\n", cells, who[i], median("WF " who[i]) / cells, median("R " who[i]) / cells / 100, median("rest " who[i]) / cells >>figures
            printf "S gives %s bytes%s\n\n", (split(given["S"], s, " ") ? s[1] " cells in " s[2] : ""), ("R" in given ? ", R " (split(given["R"], r, " ") ? r[1] " cells in " r[2] " bytes" : "") : "")
        }' "$work/seen"
}

echo "$cells cells, medians of $rounds rounds, ${CLOCK:-elapsed} time: millions of cells a second (ratio to rust), bytes a cell"
for shape in ${SHAPES:-tall wide}; do
    for mode in ${MODES:-freeze compact}; do
        : >"$work/seen"
        for _ in $(seq "$rounds"); do
            for who in $peers; do run "$who" "$shape" "$mode"; done
        done
        report "$shape, $mode"
    done
done
