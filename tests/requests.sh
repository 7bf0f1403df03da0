#!/usr/bin/env bash
# How often the program asks for memory: not for each cell that a scan shows, nor for each label that it judges, nor for what a
# session reads next for its labels anew, and for an insert of one cell once. And how much at once: for a batch not much more than its
# cells take.
# Usage: tests/requests.sh   (from anywhere; wants a C compiler; TABD names another program)
set -eu
top=$(cd "$(dirname -- "${BASH_SOURCE[0]}")/.." && pwd)
work=$(mktemp -d)
trap 'rm -rf "$work"' EXIT
. "$top/tests/needs" "${CC:-cc}"
program=${TABD:-$("$top/release/program")} || exit 1

cat >"$work/counting.c" <<'C'
#define _GNU_SOURCE
#include <dlfcn.h>
#include <fcntl.h>
#include <stdlib.h>
#include <sys/mman.h>
#include <unistd.h>
/* Counts the requests for memory in the file COUNTS, which outlives the process: new ones, those for more, and the bytes of the largest. */
static unsigned long *counts, lost[3];
static unsigned long *place(void) {
    if (!counts) {
        const char *name = getenv("COUNTS");
        int file = name ? open(name, O_RDWR | O_CREAT, 0600) : -1;
        counts = lost;
        if (file >= 0 && ftruncate(file, sizeof lost) == 0) {
            void *at = mmap(NULL, sizeof lost, PROT_READ | PROT_WRITE, MAP_SHARED, file, 0);
            if (at != MAP_FAILED) counts = at;
        }
    }
    return counts;
}
static void tell(int kind, size_t size) {
    unsigned long *at = place();
    at[kind]++;
    if (at[2] < size) at[2] = size;
}
#define REAL(name) ((__typeof__(name) *)dlsym(RTLD_NEXT, #name))
void *malloc(size_t size) {
    static __typeof__(malloc) *real;
    if (!real) real = REAL(malloc);
    tell(0, size);
    return real(size);
}
void *realloc(void *old, size_t size) {
    static __typeof__(realloc) *real;
    if (!real) real = REAL(realloc);
    tell(1, size);
    return real(old, size);
}
C
${CC:-cc} -shared -fPIC -O1 -o "$work/counting.so" "$work/counting.c" -ldl

# A table with so many cells under so many labels, which the reader's one authorization admits, and a scan or none.
script() { # CELLS LABELS SCAN
    awk -v cells="$1" -v labels="$2" -v scan="${3//$'\n'/\\n}" 'BEGIN {
        print "createtable t"
        print "setauths root A"
        for (i = 0; i < cells; i++) printf "insert t row%04d f q A|x%d v%d 5\n", i, i % labels, i
        if (scan != "") print scan
    }'
}

# How often memory is asked for: anew, and for more; and for how much at most.
count() { # CELLS LABELS SCAN
    rm -f "$work/counts"
    script "$@" | COUNTS=$work/counts LD_PRELOAD=$work/counting.so "$program" script >/dev/null
    od -A n -t u8 -w24 "$work/counts"
}

passed=0 failed=0
at_most() { # NAME LIMIT NUMBER
    if [ "$3" -le "$2" ]; then
        passed=$((passed + 1))
    else
        failed=$((failed + 1))
        echo "FAILED: $1: $3, where at most $2 were expected"
    fi
}

read -r few_new few_more _ <<<"$(count 1000 1 '')"
read -r many_new many_more _ <<<"$(count 3000 1 '')"
at_most 'requests for memory of 2,000 inserts' 2020 $((many_new - few_new))
at_most 'requests for more memory of 2,000 inserts' 20 $((many_more - few_more))

read -r few_new few_more _ <<<"$(count 3000 300 'scan t A')"
read -r many_new many_more _ <<<"$(count 3000 900 'scan t A')"
at_most 'requests for memory of 600 labels in a scan of three batches' 20 $((many_new + many_more - few_new - few_more))

read -r few_new few_more _ <<<"$(count 3000 1 '')"
read -r many_new many_more _ <<<"$(count 3000 1 'scan t A')"
at_most 'requests for memory of a scan of 3,000 cells' 100 $((many_new + many_more - few_new - few_more))

# Verdicts on labels stay with a session: its batches over eight labels ask about as often as those over one.
batches=$(echo 'open t A' && yes 'next 0 7' | head -n 300)
read -r few_new few_more _ <<<"$(count 3000 1 "$batches")"
read -r many_new many_more _ <<<"$(count 3000 8 "$batches")"
at_most 'requests for memory of 300 batches over eight labels, beside one' 40 $((many_new + many_more - few_new - few_more))

# And with its requests of ranges.
requests=$(echo 'open t A' && yes 'many 0 [row0000 [row0007' | head -n 300)
read -r few_new few_more _ <<<"$(count 3000 1 "$requests")"
read -r many_new many_more _ <<<"$(count 3000 8 "$requests")"
at_most 'requests for memory of 300 requests of a range with eight labels, beside one' 40 $((many_new + many_more - few_new - few_more))

# Batches of cells that take some 100 bytes each, with what tells them apart.
for batches in $'next 0 1000\nnext 0 1000\nnext 0 1000' $'next 0 10\nnext 0 4294967295'; do
    read -r _ _ most <<<"$(count 3000 1 $'open t A\n'"$batches")"
    at_most 'bytes that are asked for at once where 3,000 cells are read in batches' 1048576 "$most"
done

echo "$passed passed, $failed failed"
[ "$failed" -eq 0 ]
