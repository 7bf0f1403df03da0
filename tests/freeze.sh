#!/usr/bin/env bash
# The memory that a freeze takes at its peak beside what was written, at most one and a half times as much: behind the writes comes what
# freezes them first, a scan or a split, rows in any order or rising. (What merges holds what it reads beside what it makes.) And what is
# frozen at once, which lies in several bodies or goes by parts, shows what is frozen bit by bit, which doesn't.
# Usage: tests/freeze.sh   (from anywhere; wants python3; TABD names another program)
set -u
top=$(cd "$(dirname -- "${BASH_SOURCE[0]}")/.." && pwd)
. "$top/tests/needs" python3
work=$(mktemp -d) || exit 1
trap 'rm -rf "$work"' EXIT
program=${TABD:-$("$top/release/program")} || exit 1
cd "$work" || exit 1
passed=0 failed=0

# Cells of 42 bytes of text in rows in random order, each row with so many of them, written by one mutation.
writes() { # ROWS CELLS [FRONT OF THE ROWS]
    seq -w "$1" | shuf --random-source=<(yes) | LC_ALL=C awk -v cells="$2" -v front="${3:-0000}" '{
        printf "mutate t %s%s", front, $1
        for (i = 0; i < cells; i++) printf "%s put f%03d q%03d A&B aaaaaaaaaabbbbbbbbbb 1", i ? " ;" : "", i % 4, i
        print ""
    }'
}

# Whether the peak of a line behind so many writes stays below the limit.
peaks() { # NAME ROWS CELLS LINE ANSWER [sorted]
    echo 'createtable t' >table
    writes "$2" "$3" >written
    [ -z "${6-}" ] || LC_ALL=C sort -o written written
    printf '%s\n' "$4" >line
    mapfile -t told < <(python3 "$top/bench/store/phases.py" "table:3" "written:$((3 * $2))" "line:$((${#5} + 1))" -- "$program" script)
    read -r _ before _ <<<"${told[0]}"
    read -r _ resident _ <<<"${told[1]}"
    read -r _ _ most <<<"${told[2]}"
    local holds=$((resident - before)) peak=$((most - before))
    if [ "$holds" -gt 8192 ] && [ "$peak" -le $((holds * 3 / 2)) ]; then
        passed=$((passed + 1))
    else
        failed=$((failed + 1))
        echo "FAILED: $1: $peak KiB at most, and $holds KiB were written"
    fi
    [ -z "${SHOW-}" ] || echo "$1: $peak of $holds KiB"
}

# Whether the peak of the second of two freezes, each behind so many writes, stays below the limit beside what the first one made.
peaks_again() { # NAME ROWS CELLS
    echo 'createtable t' >table
    writes "$2" "$3" >written
    writes "$2" "$3" 0001 >more
    echo 'scan t \0 [~ [~~' >line
    cp line last
    mapfile -t told < <(python3 "$top/bench/store/phases.py" "table:3" "written:$((3 * $2))" line:4 "more:$((3 * $2))" last:4 -- "$program" script)
    read -r _ before _ <<<"${told[2]}"
    read -r _ resident _ <<<"${told[3]}"
    read -r _ _ most <<<"${told[4]}"
    local holds=$((resident - before)) peak=$((most - before))
    if [ "$holds" -gt 8192 ] && [ "$peak" -le $((holds * 3 / 2)) ]; then
        passed=$((passed + 1))
    else
        failed=$((failed + 1))
        echo "FAILED: $1: $peak KiB at most, and $holds KiB were written"
    fi
    [ -z "${SHOW-}" ] || echo "$1: $peak of $holds KiB"
}

# Whether so many writes, and as many newer ones of the same columns, show the same however often they are frozen.
shows() { # NAME ROWS CELLS WRITES
    writes "$2" "$3" >older
    sed 's/aaaaa/ccccc/g; s/ 1 ;/ 2 ;/g; s/ 1$/ 2/' older | shuf --random-source=<(yes no) >newer
    { echo 'createtable t' && cat older newer && echo 'scan t A&B'; } >once
    awk -v writes="$4" '1; NR % writes == 0 { print "scan t \\0 [~ [~~" }' once >often
    sed -i 's/^scan t A&B$/setauths root A,B\nscan t A,B/' once often
    if "$program" script <once | grep -vxF -e ok -e end >shown && "$program" script <often | grep -vxF -e ok -e end | cmp -s - shown &&
        [ "$(grep -c ' 2 ccccc' shown)" -eq "$(($2 * $3))" ]; then
        passed=$((passed + 1))
    else
        failed=$((failed + 1))
        echo "FAILED: $1: $(wc -l <shown) cells are shown"
    fi
}

shows 'a row for each cell' 20000 1 1500
shows 'wide rows' 200 100 17
shows 'rows of three cells' 7000 3 400
peaks 'the first scan of a table' 200000 1 'scan t \0 [~ [~~' end
peaks 'the first scan of wide rows' 2000 100 'scan t \0 [~ [~~' end
peaks 'a split' 200000 1 'addsplit t 0000100000' ok
peaks_again 'the second freeze of a table' 200000 1
peaks 'rows that come in their order' 200000 1 'scan t \0 [~ [~~' end sorted

echo "$passed passed, $failed failed"
[ "$failed" -eq 0 ]
