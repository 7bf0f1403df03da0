#!/usr/bin/env bash
# Scripts at sizes past the program's blocks and at its limits: long lines, labels, values, mutations, and many rounds and users.
# Usage: tests/size.sh   (from anywhere; TABD names another program)
set -u
top=$(cd "$(dirname -- "${BASH_SOURCE[0]}")/.." && pwd)
work=$(mktemp -d) || exit 1
trap 'rm -rf "$work"' EXIT
program=${TABD:-$("$top/release/program")} || exit 1
cd "$work" || exit 1
passed=0 failed=0

# Runs the lines of the file `lines`, and compares what is printed with the file `wanted`.
prints() { # NAME
    if "$program" script <lines >printed 2>err && [ ! -s err ] && cmp -s printed wanted; then
        passed=$((passed + 1))
    else
        failed=$((failed + 1))
        echo "FAILED: $1"
        cmp printed wanted
        cut -c 1-200 err
    fi
}

# So many times the byte.
bytes() { # COUNT BYTE
    head -c "$1" /dev/zero | tr '\0' "$2"
}

long=$(bytes 100000 v)
printf '%s\n' 'createtable t' "insert t r f q \\e $long 5" 'insert t s f q \e short 5' 'scan t \0' >lines
printf '%s\n' ok ok ok "r f q \\e 5 $long" 's f q \e 5 short' end >wanted
prints 'a line of more than a block'

# A label of 1 MiB less one byte is a thousand times a thousand terms; one byte over 1 MiB is too long.
terms=$(bytes 1048574 x | sed 's/xx/|b/g')
for ended in '\n' ''; do
    printf '%s\n' 'createtable t' 'setauths root b' "insert t r f q a$terms v 5" "insert t s f q b${terms}bb v 5" 'scan t b' >lines
    printf '%s\n' 'scan t \0' >>lines
    printf "insert t r f q a${terms}& v 5$ended" >>lines
    printf '%s\n' ok ok ok 'refused 9 TooLarge label' "r f q a$terms 5 v" end end 'refused 5 MalformedVisibility 0 1048575' >wanted
    prints "a label of 1 MiB, read and judged; the last line ends in '$ended'"
done

value=$(bytes 1048576 v) row=$(bytes 1048576 r)
printf '%s\n' 'createtable t' "insert t $row f q \\e $value 5" "insert t r f q \\e v$value 5" "insert t r$row f q \\e v 5" 'scan t \0' >lines
printf '%s\n' ok ok 'refused 9 TooLarge value' 'refused 9 TooLarge row' "$row f q \\e 5 $value" end >wanted
prints 'a put of over 2 MiB, with the longest row and value'

# Each part at its limit and above it: the row first, then update by update family, qualifier and label, and then the values.
over=${value}v
printf '%s\n' 'createtable t' "mutate t r put $value $value \\e $value - ; put $over q \\e v -" "mutate t $over put $over q \\e v -" \
    "mutate t r put f $over \\e v - ; put $over q \\e v -" "mutate t r put f q \\e $over - ; put f q $over v -" "mutate t r put f q \\e $over -" >lines
printf '%s\n' ok 'refused 9 TooLarge family' 'refused 9 TooLarge row' 'refused 9 TooLarge qualifier' 'refused 9 TooLarge label' 'refused 9 TooLarge value' >wanted
prints 'each part at its limit and above it'

# Row, family, qualifier and label that come to 1,048,576 bytes together, and one more.
quarter=$(bytes 262144 x)
printf '%s\n' 'createtable t' "setauths root $(bytes 1024 x)" 'constraints t keysize' "mutate t $quarter put $quarter $quarter $quarter 1 -" \
    "mutate t $quarter put $quarter $quarter $quarter 1 - ; del $quarter x$quarter $quarter -" >lines
printf '%s\n' ok ok ok ok 'refused 6 ConstraintViolation 1:1:1' >wanted
prints 'the longest key, and one byte more'

# A mutation of 1,000 updates under all constraints, one with a violation in its last update, and one update too many.
updates() { # COUNT LAST
    awk -v count="$1" -v last="$2" 'BEGIN {
        for (i = 1; i < count; i++) printf " put f %04d a %d - ;", i, i
        printf " put f %04d a %s -\n", count, last
    }'
}
{
    printf '%s\n' 'createtable t' 'setauths root a' 'constraints t keysize,alphanum,numeric,visibility'
    for it in '1000 1000' '1000 x' '1001 1001'; do
        # shellcheck disable=SC2086
        echo "mutate t r$(updates $it)"
    done
    echo 'scan t a'
} >lines
{
    printf '%s\n' ok ok ok ok 'refused 6 ConstraintViolation 3:1:999' 'refused 9 TooLarge updates'
    awk 'BEGIN { for (i = 1; i <= 1000; i++) printf "r f %04d a 0 %d\n", i, i; print "end" }'
} >wanted
prints 'a constrained mutation of 1,000 updates'

# 20,000 cells, over 2 MiB, in an order of their own, before the first scan; then the same again, half of it newer.
awk -v value="$(bytes 100 v)" 'BEGIN {
    print "createtable t"
    for (i = 0; i < 20000; i++) printf "insert t %05d f q \\e %s%d 5\n", i * 7919 % 20000, value, i
    print "scan t \\0"
    for (i = 0; i < 10000; i++) printf "insert t %05d f q \\e newer 6\n", i * 7919 % 20000
    print "scan t \\0"
}' >lines
awk -v value="$(bytes 100 v)" 'BEGIN {
    for (i = 0; i <= 20000; i++) print "ok"
    for (i = 0; i < 20000; i++) at[i * 7919 % 20000] = i
    for (i = 0; i < 20000; i++) printf "%05d f q \\e 5 %s%d\n", i, value, at[i]
    print "end"
    for (i = 0; i < 10000; i++) print "ok"
    for (i = 0; i < 20000; i++) if (at[i] < 10000) printf "%05d f q \\e 6 newer\n", i; else printf "%05d f q \\e 5 %s%d\n", i, value, at[i]
    print "end"
}' >wanted
prints 'over 2 MiB written before a scan'

# 50,000 cells before the first scan, 20,000 of them in one row.
awk 'BEGIN {
    print "createtable t"
    for (i = 0; i < 30000; i++) {
        printf "insert t %05d f q \\e v%d 5\n", i * 7919 % 30000, i
        if (i < 20000) printf "insert t 15000 g %05d \\e w%d 5\n", i * 6007 % 20000, i
    }
    print "scan t \\0"
}' >lines
awk 'BEGIN {
    for (i = 0; i <= 50000; i++) print "ok"
    for (i = 0; i < 30000; i++) at[i * 7919 % 30000] = i
    for (i = 0; i < 20000; i++) in_row[i * 6007 % 20000] = i
    for (i = 0; i < 30000; i++) {
        printf "%05d f q \\e 5 v%d\n", i, at[i]
        if (i == 15000) for (j = 0; j < 20000; j++) printf "15000 g %05d \\e 5 w%d\n", j, in_row[j]
    }
    print "end"
}' >wanted
prints '50,000 cells written before a scan, many in one row'

# Mutations whose labels come again and again, the short ones among longer ones, with one malformed in one of its last updates.
labels() { # COUNT PLACE LABEL, of one update more than COUNT
    awk -v count="$1" -v place="$2" -v label="$3" 'BEGIN {
        split("a a&b (a|b)&c a|bb \\e longer&label", labels, " ")
        printf "mutate t r"
        for (i = 0; i <= count; i++) printf " put f q%04d %s v 1%s", i, i == place ? label : labels[i % 6 + 1], i < count ? " ;" : "\n"
    }'
}
{
    printf '%s\n' 'createtable t' 'setauths root a'
    for count in 7 8 300; do
        labels "$count" "$count" 'a&'
        labels "$count" "$((count - 1))" 'a|b&c'
        labels "$count" "$count" 'longer&label&'
        labels "$count" "$count" a
    done
    echo 'scan t a'
} >lines
{
    printf '%s\n' ok ok
    for count in 7 8 300; do
        printf '%s\n' "refused 5 MalformedVisibility $count 2" "refused 5 MalformedVisibility $((count - 1)) 3" "refused 5 MalformedVisibility $count 13" ok
    done
    awk 'BEGIN {
        split("a a&b (a|b)&c a|bb \\e longer&label", labels, " ")
        for (i = 0; i <= 300; i++) {
            label = i == 300 ? "a" : labels[i % 6 + 1]
            at[sprintf("%04d", i) SUBSEP label] = 1
        }
        split("7 8", ends, " ")
        for (e = 1; e <= 2; e++) at[sprintf("%04d", ends[e]) SUBSEP "a"] = 1
        for (i = 0; i <= 300; i++) {
            row = sprintf("%04d", i)
            if ((row SUBSEP "\\e") in at) print "r f q" row " \\e 1 v"
            if ((row SUBSEP "a") in at) print "r f q" row " a 1 v"
            if ((row SUBSEP "a|bb") in at) print "r f q" row " a|bb 1 v"
        }
        print "end"
    }'
} >wanted
prints 'labels that come again in one mutation, and one that is malformed'

# Scans that end at, before and behind the end of a batch of 1,000.
for cells in 999 1000 1001 2000; do
    awk -v cells="$cells" 'BEGIN {
        print "createtable t"
        for (i = 0; i < cells; i++) printf "insert t %04d f q \\e v 1\n", i
        print "scan t \\0"
    }' >lines
    awk -v cells="$cells" 'BEGIN {
        for (i = 0; i <= cells; i++) print "ok"
        for (i = 0; i < cells; i++) printf "%04d f q \\e 1 v\n", i
        print "end"
    }' >wanted
    prints "a scan of $cells cells"
done

awk 'BEGIN {
    print "createtable t versions=3"
    for (i = 1; i <= 300; i++) printf "insert t r%d f q \\e v%d %d\nscan t \\0 [r%d [r%d\n", i % 7, i, i, i % 7, i % 7
}' >lines
awk 'BEGIN {
    print "ok"
    for (i = 1; i <= 300; i++) {
        print "ok"
        for (k = i; k > 0 && k > i - 21; k -= 7) printf "r%d f q \\e %d v%d\n", i % 7, k, k
        print "end"
    }
}' >wanted
prints '300 rounds of write and scan'

# Each of 150 users sees what all see and what is theirs.
awk 'BEGIN {
    print "createtable t\ninsert t all f q \\e v 5"
    for (i = 100; i < 250; i++) printf "createuser u%d\nsetauths u%d a%d\ngrant u%d READ t\ninsert t his f q%d a%d v%d 5\n", i, i, i, i, i, i, i
    for (i = 100; i < 250; i++) printf "as u%d\nscan t a%d\nscan t a%d\n", i, i, i + 1
}' >lines
awk 'BEGIN {
    for (i = 0; i < 602; i++) print "ok"
    for (i = 100; i < 250; i++) printf "all f q \\e 5 v\nhis f q%d a%d 5 v%d\nend\nrefused 4 BadAuthorizations a%d\n", i, i, i, i + 1
}' >wanted
prints '150 users who scan'

# 100 sorted tables of ten records each, whose rows lie between one another: a scan, a partial compaction and a full one read all of them.
awk 'BEGIN {
    print "createtable t versions=3"
    for (i = 0; i < 100; i++) {
        for (j = 0; j < 10; j++) printf "insert t r%03d f q%d \\e v%d-%d %d\n", (i * 37 + j * 10) % 100, j, i, j, i
        print "flush t"
    }
    print "status t\nscan t \\0\ncompact t partial\nscan t \\0\nstatus t\ncompact t full\nscan t \\0"
}' >lines
awk 'BEGIN {
    for (i = 0; i < 1101; i++) print "ok"
    for (i = 0; i < 100; i++) for (j = 0; j < 10; j++) held[(i * 37 + j * 10) % 100, j] = i
    print "tablets 1 sources 100 records 1000"
    for (time = 0; time < 3; time++) {
        if (time) print "ok"
        for (row = 0; row < 100; row++) for (j = 0; j < 10; j++) printf "r%03d f q%d \\e %d v%d-%d\n", row, j, held[row, j], held[row, j], j
        print "end"
        if (time == 1) print "tablets 1 sources 1 records 1000"
    }
}' >wanted
prints '100 sorted tables'

# Columns of 40 versions, two of them with a marker in the middle: a scan passes over what is hidden or older, and over columns that
# aren't asked for.
for versions in 1 12; do
    awk -v versions="$versions" 'BEGIN {
        print "createtable t versions=" versions "\nsetauths root A"
        for (time = 0; time < 40; time++) {
            printf "insert t k f p \\e p%d %d\n", time, time
            print (time == 13 ? "delete t k f q \\e 13" : "insert t k f q \\e q" time " " time)
            print (time == 26 ? "delete t k f q A 26" : "insert t k f q A a" time " " time)
        }
        print "scan t A\nscan t A \\0 \\0 f:p\nscan t A \\0 \\0 f:q\nscan t \\0 \\0 \\0 f:q\nscan t A \\0 \\0 f:qq"
    }' >lines
    awk -v versions="$versions" '
        function column(qualifier, label, name) { for (time = 39; time > 39 - versions; time--) printf "k f %s %s %d %s%d\n", qualifier, label, time, name, time }
        BEGIN {
            for (i = 0; i < 122; i++) print "ok"
            column("p", "\\e", "p"); column("q", "\\e", "q"); column("q", "A", "a"); print "end"
            column("p", "\\e", "p"); print "end"
            column("q", "\\e", "q"); column("q", "A", "a"); print "end"
            column("q", "\\e", "q"); print "end"
            print "end"
        }' >wanted
    prints "columns of 40 versions, of which $versions are shown"
done

# Rows that are alike in their first sixteen bytes, many more than between two neighbours of a sparse index, frozen and in a sorted table.
awk 'BEGIN {
    front = "kkkkkkkkkkkkkkkk"
    print "createtable t\ninsert t " front " f q \\e v 1\ninsert t " front "\\x00 f q \\e v 1"
    for (i = 0; i < 1000; i++) printf "insert t %s%03d f q \\e v 1\n", front, i * 7 % 1000
    for (time = 0; time < 2; time++) {
        print "scan t \\0 [" front " (" front "001\nscan t \\0 (" front "497 [" front "500\nscan t \\0 [" front "9985 (l"
        if (!time) print "flush t"
    }
}' >lines
awk 'BEGIN {
    front = "kkkkkkkkkkkkkkkk"
    for (i = 0; i < 1003; i++) print "ok"
    for (time = 0; time < 2; time++) {
        if (time) print "ok"
        print front " f q \\e 1 v\n" front "\\x00 f q \\e 1 v\n" front "000 f q \\e 1 v\nend"
        for (i = 498; i < 501; i++) print front i " f q \\e 1 v"
        print "end\n" front "999 f q \\e 1 v\nend"
    }
}' >wanted
prints 'rows that are alike in their first sixteen bytes'

# Columns of 2 to 99 bytes and of some thousands, which one step of a copy holds or doesn't: of each the newest put, unless a marker hides
# it, from the memtable, and from a sorted table, whose last record lies close to the end of what it holds.
awk 'function q(count, text) { while (length(text) < count) text = text "q"; return text }
BEGIN {
    print "createtable t\nsetauths root a"
    for (time = 0; time < 2; time++) {
        for (i = 0; i <= 100; i++) {
            name = i < 98 ? i : i * 70
            if (!time) for (at = 1; at < 4; at++) printf "insert t r f %s %s v%d %d\n", i ? q(name) : "\\e", i % 2 ? "a" : "\\e", i * at, at
            if (!time && i % 3) printf "delete t r f %s %s %d\n", i ? q(name) : "\\e", i % 2 ? "a" : "\\e", i % 3 + 1
        }
        print "scan t a\nscan t \\0"
        if (!time) print "flush t"
    }
}' >lines
awk 'function q(count, text) { while (length(text) < count) text = text "q"; return text }
BEGIN {
    for (i = 0; i < 2 + 101 * 3 + 67; i++) print "ok"
    for (time = 0; time < 2; time++) {
        if (time) print "ok"
        for (short = 0; short < 2; short++) {
            for (i = 0; i <= 100; i++) {
                name = i < 98 ? i : i * 70
                if (i % 3 != 2 && !(short && i % 2)) printf "r f %s %s 3 v%d\n", i ? q(name) : "\\e", i % 2 ? "a" : "\\e", i * 3
            }
            print "end"
        }
    }
}' >wanted
prints 'columns of each length about that of one step of a copy'

# A session's batches over labels that come again, more of them and longer ones than a session keeps its verdicts on.
for length in 5 90; do
    filled=$(bytes "$length" x)
    awk -v filled="$filled" 'BEGIN {
        print "createtable t"
        print "setauths root A,C"
        for (i = 0; i < 3000; i++) printf "insert t r%04d f q %s%s%d v%d 5\n", i, i % 3 ? "A|" : "A&", filled, i % 1400, i
        print "open t A"
        for (i = 0; i < 300; i++) print "next 0 7"
    }' >lines
    awk -v filled="$filled" 'BEGIN {
        for (i = 0; i < 3002; i++) print "ok"
        print "session 0"
        for (i = 0; i < 3000; i++) {
            if (i % 3 == 0) continue
            printf "r%04d f q A|%s%d 5 v%d\n", i, filled, i % 1400, i
            if (++shown % 7 == 0) print "more"
        }
        print "end"
        for (batch = int(shown / 7) + 1; batch < 300; batch++) print "end"
    }' >wanted
    prints "300 batches over 1,400 labels of some $length bytes"
done

# More jobs than a block of replies tells, and one whose row is longer than a block.
long=$(bytes 150000 r)
{
    printf '%s\n' 'createtable t' 'insert t r f q \e v 5'
    for ((i = 0; i < 8000; i++)); do echo 'begin t r full'; done
    printf '%s\n' 'merge 7999' 'merge 8000' 'merge 0' 'install t 7999' 'install t 0' "begin t $long full" 'merge 8000' 'install t 8000' 'scan t \0'
} >lines
{
    printf '%s\n' ok ok
    for ((i = 0; i < 8000; i++)); do echo "job $i"; done
    printf '%s\n' ok 'refused 15 NoSession 8000' ok ok 'refused 14 Stale 1' 'job 8000' ok ok 'r f q \e 5 v' end
} >wanted
prints '8,000 jobs, and one of a long row'

echo "$passed passed, $failed failed"
[ "$failed" -eq 0 ]
