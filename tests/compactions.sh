#!/usr/bin/env bash
# Random scripts in which compactions of all kinds fall anywhere: no scan may be answered otherwise than without them, and what
# is counted must agree with what was done.
# Usage: tests/compactions.sh [SCRIPTS]   (from anywhere; TABD names another program; 150 scripts by default)
set -u
top=$(cd "$(dirname -- "${BASH_SOURCE[0]}")/.." && pwd)
work=$(mktemp -d) || exit 1
trap 'rm -rf "$work"' EXIT
program=${TABD:-$("$top/release/program")} || exit 1
cd "$work" || exit 1
passed=0 failed=0

# A script of two tables, whose lines fall on few columns and few times, the same one for each number.
lines() { # NUMBER
    LC_ALL=C awk -v seed="$1" '
        function below(n) { seed = (seed * 69069 + 12345) % 2147483648; return int(seed / 4096) % n }
        function of(list,   words) { return words[1 + below(split(list, words, " "))] }
        function time() { return of("-3 0 1 1 2 2 3 5 9") }
        function column() { return "r" below(3) " f q" below(2) " " of("\\e \\e A B A&B A|C (B)") }
        function update(   word, at) {
            word = column(); sub(/^r[0-9] /, "", word)
            return (below(4) ? "put " word " v" below(100) : "del " word) " -"
        }
        function write(table, timed,   kind, at) {
            kind = below(10); at = timed ? " " time() : ""
            if (kind < 6) return "insert " table " " column() " v" below(100) at
            if (kind < 9) return "delete " table " " column() at
            return "mutate " table " r" below(3) " " update() " ; " update() " ; " update()
        }
        BEGIN {
            for (i = 0; i < 5; i++) below(2)
            print "createtable t versions=" 1 + below(3)
            print "createtable s time=server versions=" 1 + below(2)
            print "setauths root A,B,C"
            for (i = 0; i < 120; i++) {
                kind = below(20)
                if (kind < 8) print write("t", 1)
                else if (kind < 12) print write("s", 0)
                else if (kind < 13) print "at " below(12)
                else if (kind < 15) print of("flush compact") " " of("t s")
                else if (kind < 17) print "compact " of("t s") " " of("partial full")
                else if (kind < 18) print "scan " of("t s") " " of("\\0 A A,B B,C") " [r" below(3) " \\0 f:q" below(2)
                else print "scan " of("t s") " " of("\\0 A A,B A,B,C")
            }
            print "scan t A,B,C\nscan s A,B,C"
        }' | sed 's/^compact \([ts]\)$/compact \1 full/'
}

# What scans print.
scanned() { # FILE
    grep -v '^ok$\|^tablets ' "$1"
}

# So many scripts, each with its compactions, and with counts in their place, since an event moves the clock.
scripts=${1:-150}
for number in $(seq "$scripts"); do
    lines "$number" >with
    sed 's/^flush \(.\)$/status \1/; s/^compact \(.\) .*/status \1/' with >without
    "$program" script <with >with.out 2>&1 && "$program" script <without >without.out 2>&1
    if ! grep -q 'fault\|refused' with.out && cmp -s <(scanned with.out) <(scanned without.out); then
        passed=$((passed + 1))
    else
        failed=$((failed + 1))
        echo "FAILED: script $number"
        diff <(scanned without.out) <(scanned with.out) | head -n 5
    fi
done

# Whether the last line printed for these lines is that.
counts() { # NAME WANTED LINE..
    local name=$1 wanted=$2
    shift 2
    if [ "$(printf '%s\n' "$@" | "$program" script 2>&1 | tail -n 1)" = "$wanted" ]; then
        passed=$((passed + 1))
    else
        failed=$((failed + 1))
        echo "FAILED: $name"
    fi
}

counts 'what was written is one run behind a scan' 'tablets 1 sources 1 records 2' \
    'createtable t' 'insert t a f q \e v 1' 'insert t b f q \e v 1' 'scan t \0' 'status t'
counts 'what was written since is counted' 'tablets 1 sources 1 records 2' \
    'createtable t' 'insert t a f q \e v 1' 'flush t' 'insert t b f q \e v 1' 'status t'
counts 'a refused flush freezes nothing' 'tablets 1 sources 0 records 1' \
    'createtable t' 'insert t a f q \e v 1' 'as eve' 'flush t' 'as root' 'status t'
counts 'a flush drops what a newer put covers' 'tablets 1 sources 1 records 1' \
    'createtable t' 'insert t a f q \e v 1' 'insert t a f q \e w 2' 'flush t' 'status t'
counts 'two versions are kept' 'tablets 1 sources 1 records 2' \
    'createtable t versions=2' 'insert t a f q \e u 1' 'insert t a f q \e v 2' 'insert t a f q \e w 3' 'compact t partial' 'flush t' 'status t'
counts 'a partial compaction of no table merges nothing' 'tablets 1 sources 1 records 3' \
    'createtable t versions=2' 'insert t a f q \e u 1' 'insert t a f q \e v 2' 'insert t a f q \e w 3' 'compact t partial' 'status t'
counts 'a full compaction leaves the marker of a table that takes timestamps' 'tablets 1 sources 1 records 1' \
    'createtable t' 'insert t a f q \e v 1' 'delete t a f q \e 2' 'compact t full' 'status t'
counts 'and drops it once the clock of the server has passed it' 'tablets 1 sources 1 records 0' \
    'createtable t time=server' 'at 1' 'insert t a f q \e v' 'delete t a f q \e' 'at 2' 'compact t full' 'status t'
counts 'a partial compaction of three equal tables keeps that marker' 'tablets 1 sources 1 records 2' \
    'createtable t time=server' 'at 1' 'insert t a f q \e \e' 'flush t' 'insert t b f q \e \e' 'flush t' 'delete t a f q \e' 'flush t' \
    'at 9' 'compact t partial' 'status t'
counts 'three tables of as many bytes are merged' 'tablets 1 sources 1 records 6' \
    'createtable t' 'insert t aaaaaaaaaaa f q \e v 1' 'insert t bbbbbbbbbbb f q \e v 1' 'flush t' 'insert t ccccccccccc f q \e v 1' \
    'insert t ddddddddddd f q \e v 1' 'flush t' 'insert t eeeeeeeeeee f q \e v 1' 'insert t fffffffffff f q \e v 1' 'flush t' \
    'compact t partial' 'status t'
counts 'not where rows of one share their first bytes' 'tablets 1 sources 3 records 6' \
    'createtable t' 'insert t aaaaaaaaaaa f q \e v 1' 'insert t aaaaaaaaaab f q \e v 1' 'flush t' 'insert t ccccccccccc f q \e v 1' \
    'insert t ddddddddddd f q \e v 1' 'flush t' 'insert t eeeeeeeeeee f q \e v 1' 'insert t fffffffffff f q \e v 1' 'flush t' \
    'compact t partial' 'status t'
counts 'tables of no record are sources' 'tablets 1 sources 1 records 0' \
    'createtable t time=server' 'delete t a f q \e' 'at 1' 'compact t full' 'status t'
echo "$passed passed, $failed failed"
[ "$failed" -eq 0 ]
