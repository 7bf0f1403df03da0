#!/usr/bin/env bash
# Lets each request for memory of a script fail in turn, and compares what is printed.
# Where one fails, the program prints what it always prints, or one line is refused for memory and all others are answered
# as if that line were not there (a long scan stands up to the batch that is refused), or it ends with status 1 before the
# first line. Where a freeze is refused in the middle of what it takes one by one, nothing of what was written is lost. Lines that drop,
# revoke, set a number or count are never refused. A save that is refused leaves no part of an image behind. A scan of a table without cells
# makes no request.
# Usage: tests/allocations.sh   (from anywhere; wants a C compiler; TABD names another program)
set -eu
top=$(cd "$(dirname -- "${BASH_SOURCE[0]}")/.." && pwd)
work=$(mktemp -d)
trap 'rm -rf "$work"' EXIT
. "$top/tests/needs" "${CC:-cc}"
program=${TABD:-$("$top/release/program")} || exit 1

cat >"$work/failing.c" <<'C'
#define _GNU_SOURCE
#include <dlfcn.h>
#include <stdio.h>
#include <stdlib.h>
#include <unistd.h>
/* The request with the number FAIL_AT gets no memory; FAIL_LOG is made where there was one of that number. */
static long left = -1;
static int fails(void) {
    if (left < 0) {
        const char *at = getenv("FAIL_AT");
        left = at ? atol(at) : 0;
    }
    if (left > 0 && --left == 0) {
        const char *log = getenv("FAIL_LOG");
        if (log) { FILE *made = fopen(log, "w"); if (made) fclose(made); }
        return 1;
    }
    return 0;
}
static int inside;
#define REAL(name) ((__typeof__(name) *)dlsym(RTLD_NEXT, #name))
void *malloc(size_t size) {
    if (!inside) { inside = 1; int no = fails(); inside = 0; if (no) return NULL; }
    return REAL(malloc)(size);
}
void *realloc(void *old, size_t size) {
    if (!inside) { inside = 1; int no = fails(); inside = 0; if (no) return NULL; }
    return REAL(realloc)(old, size);
}
C
${CC:-cc} -shared -fPIC -O1 -o "$work/failing.so" "$work/failing.c" -ldl

cat >"$work/script" <<'S'
createtable t
createtable s time=server versions=3
constraints s alphanum,numeric
versions s 2
versions s 3
horizon t 0
horizon t -1
horizon s 1
setauths root A,B,a-long-authorization-of-some-bytes
insert t r f q A v 5
at 9
insert s r f q A&(B|"x") 1
mutate s r put f q A 2 ; put f q B 3 ; del f p \e
mutate s r- put f! q A x ; put f q B 3
insert t r f q A&|B v
delete t r f q A 4
scan t A,B [a (z f:q,g
scan s A,B
scan s C
flush t
compact t partial
compact s full
status t
insert t r f q (((A))) a-longer-value-than-before 7
insert t b f q A v 7
scan t A
addsplit t m
addsplit t m
insert t b f q A w 8
insert t s f q A w 8
splits t
splitsize t z 1
scan t A [b \0
splits t
createtable j
insert j r f q \e v 7
begin j r full
insert j r f q \e w 8
merge 0
install j 0
scan j \0
createuser bob
setauths bob A
grant bob READ t
grant bob CREATE_USER
as bob
rights t
scan t A
createuser eve
insert t r f q A v 8
as root
revoke bob READ t
dropuser eve
droptable s
createtable s
scan s A
rights s
S
# An image that is saved, and loaded.
cat >"$work/images" <<'S'
createtable t versions=2
createuser bob
setauths bob A,B
grant bob READ t
insert t a f q A v 1
addsplit t m
flush t
insert t z f q A&B w 2
delete t a f q A 1
save image
droptable t
load image
rights t
splits t
scan t \0
as bob
scan t A,B
load image
as root
save image
status t
S
# A scan of more cells than a batch has.
{
    echo 'createtable t'
    for part in 1 2; do
        printf 'mutate t r%s' "$part"
        for column in $(seq 600); do
            [ "$column" -eq 1 ] || printf ' ;'
            printf ' put f q%s \\e v -' "$column"
        done
        echo
    done
    echo 'scan t \0'
} >"$work/long"

# So many records in over a mebibyte that the last write spreads them over several bodies, which the first scan freezes one by one; the
# second one shows all. A row each, ten a row, and rows that begin with the same bytes, so that all stay in one body, which is frozen in parts.
value=$(head -c 300 /dev/zero | tr '\0' v)
narrow() { # FRONT OF THE ROWS
    echo 'createtable t'
    LC_ALL=C awk -v value="$value" -v front="$1" 'BEGIN { for (i = 0; i < 4096; i++) printf "insert t %s%04d f q \\e %s 5\n", front, i * 2659 % 4096, value }'
    printf '%s\n' 'scan t \0 [~ [~~' 'scan t \0'
}
narrow r >"$work/narrow"
narrow rows-that-begin-alike- >"$work/alike"
{
    echo 'createtable t'
    LC_ALL=C awk -v value="$value" 'BEGIN {
        for (i = 0; i < 410; i++) {
            printf "mutate t r%04d", i * 269 % 410
            for (k = 0; k < 10; k++) printf "%s put f q%d \\e %s 5", k ? " ;" : "", k, value
            print ""
        }
    }'
    printf '%s\n' 'scan t \0 [~ [~~' 'scan t \0'
} >"$work/wide"

# Scans of a table without cells.
scans() { # COUNT
    echo 'createtable t'
    for _ in $(seq "$1"); do echo 'scan t \0'; done
}
scans 1 >"$work/one"
scans 100 >"$work/hundred"

# Runs lines in a folder without an image.
run() { # FOLDER
    rm -rf "$1/image"
    (cd "$1" && exec "$program" script)
}

# What a script may print, by checksum: what it always prints, and for each line what it prints where that line is refused
# for memory. And how many requests of a script come before those that are tried.
declare -A expected behind
expect() { # SCRIPT
    local line before said sum
    run "$work" <"$work/$1" >"$work/always"
    expected[$1.$(cksum <"$work/always")]=always
    for line in $(seq "$(wc -l <"$work/$1")"); do
        # these take no memory, and are never refused for it
        sed -n "${line}p" "$work/$1" | grep -qE '^(droptable|dropuser|revoke|versions|horizon|status) ' && continue
        head -n $((line - 1)) "$work/$1" | run "$work" >"$work/before"
        before=$(wc -c <"$work/before")
        run "$work" < <(sed "${line}d" "$work/$1") | tail -c +$((before + 1)) >"$work/behind"
        # a file's line is refused as an event, or while its image is written or read
        for said in 'refused 17 NoMemory' $(sed -n "${line}s/^\(save\|load\) .*/fault_\1_memory/p" "$work/$1"); do
            sum=$({ cat "$work/before" && echo "${said//_/ }" && cat "$work/behind"; } | cksum)
            expected[$1.$sum]=${expected[$1.$sum]:-refused}
        done
    done
}

# And for a script that ends with a write by which records become many, a scan that freezes them and shows nothing, and one that shows
# all: the write is refused, and the others show the rest; or the first scan is refused and the second one shows all; or the second one
# stands up to the batch that is refused.
expect_scans() { # SCRIPT
    local writes cells sum at
    run "$work" <"$work/$1" >"$work/always"
    writes=$(($(wc -l <"$work/$1") - 2))
    cells=$(($(wc -l <"$work/always") - writes - 2))
    expected[$1.$(cksum <"$work/always")]=always
    sum=$(sed "${writes}d" "$work/$1" | run "$work" | sed "${writes}s/^/refused 17 NoMemory\n/" | cksum)
    expected[$1.$sum]=refused
    sum=$(sed "$((writes + 1))s/.*/refused 17 NoMemory/" "$work/always" | cksum)
    expected[$1.$sum]=refused
    for at in $(seq 0 1000 "$cells"); do
        sum=$({ head -n $((writes + 1 + at)) "$work/always" && echo 'refused 17 NoMemory'; } | cksum)
        expected[$1.$sum]=refused
    done
    # what the writes before the last one ask for is tried in the scripts above
    head -n -3 "$work/$1" >"$work/writes"
    behind[$1]=$(requests "$work/writes")
}

# How many requests a script makes: the last number of which there is one.
requests() { # FILE
    local low=0 high=1048576 middle
    while [ $((high - low)) -gt 1 ]; do
        middle=$(((low + high) / 2))
        rm -f "$work/counted"
        (cd "$work" && LD_PRELOAD=$work/failing.so FAIL_AT=$middle FAIL_LOG=$work/counted exec "$program" script) <"$1" >/dev/null
        if [ -e "$work/counted" ]; then low=$middle; else high=$middle; fi
    done
    echo "$low"
}

# Lets one request fail, and says `passed`, `refused` (it passed, and a line was refused for memory) or why it failed; nothing
# where the script makes fewer requests.
try_one() { # SCRIPT NUMBER FOLDER
    local status=0 found
    rm -rf "$3/failed" "$3/image"
    (cd "$3" && LD_PRELOAD=$work/failing.so FAIL_AT=$2 FAIL_LOG=$3/failed exec "$program" script) <"$work/$1" >"$3/out" 2>"$3/err" || status=$?
    [ -e "$3/failed" ] || return 0
    found=${expected[$1.$(cksum <"$3/out")]:-}
    if [ -n "$(find "$3" -name '*.part')" ]; then
        echo "failed: $1, request $2: a part of an image is left"
        rm -f "$3"/*.part
    elif [ "$status" -ne 0 ] && [ ! -s "$3/out" ] && [ -s "$3/err" ]; then
        echo passed
    elif [ "$status" -eq 0 ] && [ -n "$found" ]; then
        echo "${found/always/passed}"
    else
        echo "failed: $1, request $2: status $status, $(head -c 200 "$3/out" "$3/err" | tr '\n' ' ')"
    fi
}

# Lets the FIRSTth request fail, and each that comes STEP behind, until there are no more.
try_from() { # SCRIPT FIRST STEP
    local at=$2 said folder
    folder=$(mktemp -d "$work/try.XXXXXX")
    while said=$(try_one "$1" "$at" "$folder") && [ -n "$said" ]; do
        echo "$said"
        at=$((at + $3))
    done
}

# On all processors, each with a share of the requests.
workers=$(nproc)
try_all() { # SCRIPT
    local worker
    for worker in $(seq "$workers"); do
        try_from "$1" "$((${behind[$1]:-0} + worker))" "$workers" >"$work/said.$1.$worker" &
    done
    wait
}

expect script
expect images
expect long
# memory may lack for the second batch: then the first one stands
sum=$({
    head -n 1003 "$work/always"
    echo 'refused 17 NoMemory'
} | cksum)
expected[long.$sum]=refused
expect_scans narrow
expect_scans alike
expect_scans wide
try_all script
try_all images
try_all long
try_all narrow
try_all alike
try_all wide
cat "$work"/said.* >"$work/said"
grep '^failed' "$work/said" | head -n 20 || true
failed=$(grep -c '^failed' "$work/said" || true)
refused=$(grep -c '^refused' "$work/said" || true)
passed=$(($(wc -l <"$work/said") - failed))
if [ "$refused" -eq 0 ]; then
    echo 'no line was refused for memory'
    failed=$((failed + 1))
fi
if [ "$(requests "$work/one" 2>/dev/null)" -eq "$(requests "$work/hundred" 2>/dev/null)" ]; then
    passed=$((passed + 1))
else
    echo 'failed: a scan of a table without cells asks for memory'
    failed=$((failed + 1))
fi
echo "in $refused runs a line was refused for memory"
echo "$passed passed, $failed failed"
[ "$failed" -eq 0 ]
