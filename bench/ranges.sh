#!/usr/bin/env bash
# Ranges of a session and merges, one after another and by several threads: medians in milliseconds, and what part of the time of one after
# another the other way takes. On an idle machine, or beside something that keeps its processors busy.
# Usage: bench/ranges.sh [CELLS [ROUNDS]]   (from anywhere; proves the libraries of this checkout if they aren't built)
#   CELLS   cells of the table whose ranges are read; 1000000 by default
#   ROUNDS  rounds of each way, in turn; 21 by default
#   RANGES  in the environment: a file that keeps the built program; where it is there already, it is measured and nothing is proved
set -eu -o pipefail
top=$(cd "$(dirname -- "${BASH_SOURCE[0]}")/.." && pwd)
cells=${1:-1000000}
rounds=${2:-21}
work=$(mktemp -d)
trap 'rm -rf "$work"' EXIT

# The lines of crates.txt of these crates and of all that they stand on, each behind those that it names.
below() { # CRATES
    awk -v tops="$*" -F ':' '
        !/^#/ && NF > 1 { split($1, words, " "); uses[words[1]] = $2; line[words[1]] = $0 }
        function climb(name, words, count, i) {
            if (!(name in uses) || (name in seen)) return
            seen[name] = 1
            count = split(uses[name], words, " ")
            for (i = 1; i <= count; i++) climb(words[i])
            print line[name]
        }
        END { count = split(tops, top, " "); for (i = 1; i <= count; i++) climb(top[i]) }' "$top/crates.txt"
}

# Proves and builds the program in a folder of its own, over copies of this checkout's libraries.
build() {
    local uses='tab_key tab_label tab_mutation tab_cells tab_history tab_core' crate part
    mkdir -p "$work/crates/ranges/src"
    below "$uses" >"$work/crates.txt"
    for crate in $(sed 's/[ :].*//' "$work/crates.txt"); do
        [ -f "$top/crates/$crate/out/rlib/stamp" ] || { "$top/tabd" --version >/dev/null; break; }
    done
    for crate in $(sed 's/[ :].*//' "$work/crates.txt"); do
        mkdir -p "$work/crates/$crate/out"
        for part in src specs proofs out/rlib; do
            [ ! -d "$top/crates/$crate/$part" ] || cp -a "$top/crates/$crate/$part" "$work/crates/$crate/$part"
        done
    done
    echo "ranges: $uses anyhow thiserror" >>"$work/crates.txt"
    cp -a "$top/HANDLES" "$work/"
    cp "$top/bench/ranges/main.rt.in" "$work/crates/ranges/src/main.rt"
    (cd "$work" && git init -q . && cd crates/ranges && rt run -- 2000 1 >"$work/log" 2>&1) ||
        { tail -n 30 "$work/log" >&2; exit 1; }
    cp "$work/crates/ranges/out/ranges" "$work/program"
}

if [ -x "${RANGES:-}" ]; then
    cp "$RANGES" "$work/program"
else
    build
    [ -z "${RANGES:-}" ] || cp "$work/program" "$RANGES"
fi
"$work/program" "$cells" "$rounds" | awk '
    { times[$1] = times[$1] " " $2; if (!($1 in seen)) { seen[$1] = 1; order[++names] = $1 } }
    function median(text, part, n, i, j, t) {
        n = split(text, part, " ")
        for (i = 2; i <= n; i++) for (j = i; j > 1 && part[j - 1] + 0 > part[j] + 0; j--) { t = part[j]; part[j] = part[j - 1]; part[j - 1] = t }
        return part[int((n + 1) / 2)] / 1e6
    }
    END {
        for (i = 1; i <= names; i += 2) {
            each = median(times[order[i]]); other = median(times[order[i + 1]])
            printf "%-16s %9.3f ms   %-16s %9.3f ms   %.2f\n", order[i], each, order[i + 1], other, other / each
        }
    }'
