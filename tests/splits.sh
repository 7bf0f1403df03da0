#!/usr/bin/env bash
# Random scripts in which splits fall anywhere, beside compactions: no scan may be answered otherwise than without them; where a table
# is split, and what is told of its tablets.
# Usage: tests/splits.sh [SCRIPTS]   (from anywhere; TABD names another program; 150 scripts by default)
set -u
top=$(cd "$(dirname -- "${BASH_SOURCE[0]}")/.." && pwd)
work=$(mktemp -d) || exit 1
trap 'rm -rf "$work"' EXIT
program=${TABD:-$("$top/release/program")} || exit 1
cd "$work" || exit 1
passed=0 failed=0

# Counts one test: the command tells whether it passed.
tell() { # NAME COMMAND..
    local name=$1
    shift
    if "$@"; then
        passed=$((passed + 1))
    else
        failed=$((failed + 1))
        echo "FAILED: $name"
    fi
}

# A script of one table of few rows, the same one for each number.
lines() { # NUMBER
    LC_ALL=C awk -v seed="$1" '
        function below(n) { seed = (seed * 69069 + 12345) % 2147483648; return int(seed / 4096) % n }
        function of(list,   words) { return words[1 + below(split(list, words, " "))] }
        function row() { return of("\\e a b b\\x00 c cc d e m zz") }
        function column() { return row() " f q" below(2) " " of("\\e \\e A B A&B A|C") }
        BEGIN {
            for (i = 0; i < 5; i++) below(2)
            print "createtable t versions=" 1 + below(3)
            print "setauths root A,B,C"
            for (i = 0; i < 120; i++) {
                kind = below(20)
                if (kind < 7) print "insert t " column() " v" below(100) " " below(4)
                else if (kind < 9) print "delete t " column() " " below(4)
                else if (kind < 11) print "addsplit t " row()
                else if (kind < 13) print "splitsize t " row() " " of("0 1 1 100 1000000")
                else if (kind < 15) print "flush t"
                else if (kind < 16) print "compact t " of("partial full")
                else if (kind < 18) print "scan t " of("\\0 A A,B") " " of("[ (") row() " " of("\\0 [zz (m") " f:q" below(2)
                else print "scan t " of("\\0 A A,B A,B,C")
            }
            print "scan t A,B,C"
        }'
}

# What scans print.
scanned() { # FILE
    grep -v '^ok$\|^tablets \|^refused 20 BadSplit \|^refused 13 ' "$1"
}

# Whether the scans of two scripts agree, and no line of the first is refused for another reason.
agree() { # WITH WITHOUT
    "$program" script <"$1" >"$1.out" 2>&1 && "$program" script <"$2" >"$2.out" 2>&1 || return 1
    ! scanned "$1.out" | grep -q 'fault\|refused' && cmp -s <(scanned "$1.out") <(scanned "$2.out")
}

# So many scripts, each with its splits and with counts in their place, since an event moves the clock.
scripts=${1:-150}
for number in $(seq "$scripts"); do
    lines "$number" >with
    sed 's/^\(addsplit\|splitsize\) t .*/status t/' with >without
    tell "script $number" agree with without
done

# Whether the lines print that.
prints() { # WANTED LINE..
    local wanted=$1
    shift
    [ "$(printf '%s\n' "$@" | "$program" script 2>&1 | grep -v '^ok$' | paste -sd '/')" = "$wanted" ]
}

tell 'end rows are listed in their order' prints 'b/m/z\x00/end' \
    'createtable t' 'addsplit t m' 'addsplit t z\x00' 'addsplit t b' 'splits t'
tell 'a table without splits has no end row' prints 'end' 'createtable t' 'splits t'
tell 'an end row is refused' prints 'refused 20 BadSplit present/m/end' \
    'createtable t' 'addsplit t m' 'addsplit t m' 'splits t'
tell 'the empty row can be an end row' prints '\e/end/\e f q \e 1 v/a f q \e 1 v/end/tablets 2 sources 2 records 2' \
    'createtable t' 'insert t \e f q \e v 1' 'insert t a f q \e v 1' 'addsplit t \e' 'splits t' 'scan t \0' 'status t'
tell 'the split row belongs to the lower tablet' prints 'tablets 2 sources 2 records 2' \
    'createtable t' 'insert t m f q \e v 1' 'insert t n f q \e v 1' 'addsplit t m' 'compact t full' 'status t'
tell 'a source none of whose records lies in a tablet is its source still' prints 'tablets 3 sources 3 records 1' \
    'createtable t' 'insert t m f q \e v 1' 'addsplit t a' 'addsplit t b' 'status t'
tell 'a refused split freezes nothing' prints 'refused 20 BadSplit present/tablets 2 sources 0 records 1' \
    'createtable t' 'addsplit t m' 'insert t a f q \e v 1' 'addsplit t m' 'status t'
tell 'a split freezes the tablet that it splits alone' prints 'tablets 3 sources 2 records 2' \
    'createtable t' 'addsplit t m' 'insert t a f q \e v 1' 'insert t z f q \e v 1' 'addsplit t c' 'status t'
tell 'a scan freezes all tablets of its table' prints 'end/tablets 2 sources 2 records 2' \
    'createtable t' 'addsplit t m' 'insert t a f q \e v 1' 'insert t z f q \e v 1' 'scan t \0 [c [d' 'status t'
tell 'a split by size asks for the size first' prints 'refused 20 BadSplit small/refused 20 BadSplit small/refused 20 BadSplit onerow' \
    'createtable t' 'splitsize t a 1' 'insert t a f q \e v 1' 'splitsize t a 1' 'flush t' 'splitsize t a 1'
tell 'a limit of none is never small' prints 'refused 20 BadSplit onerow' 'createtable t' 'splitsize t a 0'
tell 'the middle counts what was written since' prints 'c/end' \
    'createtable t' 'insert t a f q \e v 1' 'flush t' 'insert t b f q \e v 1' 'insert t c f q \e v 1' 'insert t d f q \e v 1' 'splitsize t a 1' 'splits t'
tell 'the middle is the next lower row where it is the greatest' prints 'a/end' \
    'createtable t' 'insert t a f q \e v 1' 'insert t b f q \e v 1' 'insert t b f r \e v 1' 'flush t' 'splitsize t a 1' 'splits t'
tell 'a whole table counts for each tablet that has a part of it' prints 'b/c/end' \
    'createtable t' 'insert t a f q \e v 1' 'insert t b f q \e v 1' 'insert t c f q \e v 1' 'insert t d f q \e v 1' 'flush t' \
    'splitsize t a 238' 'splitsize t a 238' 'splits t'
tell 'a row that is too large is refused after who may split' prints 'refused 9 TooLarge row' \
    'createtable t' "addsplit t $(head -c 1048577 /dev/zero | tr '\0' a)"
tell 'who may not change the table may not split it' prints \
    'refused 3 PermissionDenied System.ALTER_TABLE/refused 3 PermissionDenied System.ALTER_TABLE/refused 3 PermissionDenied System.ALTER_TABLE' \
    'createtable t' 'createuser bob' 'grant bob WRITE t' 'as bob' 'addsplit t m' 'splits t' 'splitsize t m 1'
tell 'there must be such a table' prints 'refused 2 NoTable u/refused 2 NoTable u/refused 2 NoTable u' \
    'addsplit u m' 'splits u' 'splitsize u m 1'
tell 'a table that is made again has one tablet' prints 'end' 'createtable t' 'addsplit t m' 'droptable t' 'createtable t' 'splits t'

# A table of so many records of one row is no smaller than that, and no larger. Of each block of 64 the first takes 57 + 3 + 1 + 4 + 1 bytes,
# a later one 57 + 1 + 1, one more where the tens of its qualifier are new and two where the hundreds are.
takes() { # RECORDS BYTES
    { echo 'createtable t' && seq -f 'insert t row f q%03g \e v 1' 0 $(($1 - 1)) && echo 'flush t' && echo "splitsize t row $(($2 + 1))" \
        && echo "splitsize t row $2"; } | "$program" script 2>&1 | tail -n 2 | cmp -s - <(printf 'refused 20 BadSplit %s\n' small onerow)
}
tell 'a record has its size' takes 1 66
tell 'a block of records shares what it may' takes 64 $((66 + 63 * 59 + 6))
tell 'the next record begins a block' takes 65 $((66 + 63 * 59 + 6 + 66))
tell 'so does the one behind two blocks' takes 129 $((66 + 63 * 59 + 6 + 66 + 63 * 59 + 7 + 66))

# Many splits, with a write and a short scan between each two.
many() {
    LC_ALL=C awk 'BEGIN {
        print "createtable t"
        for (i = 0; i < 10000; i++) {
            row = sprintf("r%05d", (i * 7919) % 10007)
            print "insert t " row " f q \\e v 1\naddsplit t " row "\nscan t \\0 [" row " [" row
        }
        print "status t\nscan t \\0"
    }' | timeout 60 "$program" script >many.out 2>&1
    [ "$(grep -c '^ok$' many.out)" -eq 20001 ] && grep -q '^tablets 10001 ' many.out && [ "$(grep -c ' 1 v$' many.out)" -eq 20000 ] \
        && tail -n 10001 many.out | head -n 10000 | LC_ALL=C sort -c
}
tell '10,000 splits with writes and scans between them' many
echo "$passed passed, $failed failed"
[ "$failed" -eq 0 ]
