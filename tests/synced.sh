#!/usr/bin/env bash
# What a save and a script with --store ask of the disk, and in which order. Lines that come at once are synced together, however their run
# is watched. Of a save the new file and its checksum are synced whole before they get
# their names, and the folder afterwards. Where
# the disk can't sync it, the save fails, and the old file stands.
# Usage: tests/synced.sh   (from anywhere; wants a C compiler; TABD names another program)
set -eu
top=$(cd "$(dirname -- "${BASH_SOURCE[0]}")/.." && pwd)
work=$(mktemp -d)
trap 'rm -rf "$work"' EXIT
. "$top/tests/needs" "${CC:-cc}"
program=${TABD:-$("$top/release/program")} || exit 1

cat >"$work/noting.c" <<'C'
#define _GNU_SOURCE
#include <dlfcn.h>
#include <errno.h>
#include <stdio.h>
#include <stdlib.h>
#include <string.h>
#include <sys/stat.h>
#include <unistd.h>
/* Writes a line to NOTES for each file or folder that is synced, with the bytes of a file, and for each that gets another name.
   With UNSYNCED no file can be synced. */
static void note(const char *what, const char *which, long size) {
    FILE *notes = fopen(getenv("NOTES"), "a");
    const char *name = strrchr(which, '/');
    fprintf(notes, "%s %s", what, name ? name + 1 : which);
    if (size >= 0) fprintf(notes, " %ld", size);
    fputc('\n', notes);
    fclose(notes);
}
static int synced(int file, const char *call) {
    char link[64], name[4096];
    struct stat is;
    snprintf(link, sizeof link, "/proc/self/fd/%d", file);
    ssize_t length = readlink(link, name, sizeof name - 1);
    if (length < 0 || fstat(file, &is) != 0) return -1;
    name[length] = 0;
    note(S_ISDIR(is.st_mode) ? "sync folder" : "sync", name, S_ISDIR(is.st_mode) ? -1 : (long)is.st_size);
    if (getenv("UNSYNCED") && !S_ISDIR(is.st_mode)) { errno = EIO; return -1; }
    return ((int (*)(int))dlsym(RTLD_NEXT, call))(file);
}
int fsync(int file) { return synced(file, "fsync"); }
int fdatasync(int file) { return synced(file, "fdatasync"); }
int rename(const char *from, const char *to) {
    note("rename", to, -1);
    return ((int (*)(const char *, const char *))dlsym(RTLD_NEXT, "rename"))(from, to);
}
C
${CC:-cc} -shared -fPIC -O1 -o "$work/noting.so" "$work/noting.c" -ldl

passed=0 failed=0
mkdir "$work/images"

# What a script answers in the folder of images, and what it asked of the disk; the old file is left as it says.
saves() { # NAME LINES REPLIES NOTES [VARIABLE]
    rm -f "$work/notes"
    (cd "$work/images" && printf "$2" | env "${5:-SYNCED=1}" NOTES="$work/notes" LD_PRELOAD="$work/noting.so" "$program" script) >"$work/out"
    if [ "$(cat "$work/out")" = "$(printf "$3")" ] && [ "$(cat "$work/notes")" = "$(printf "$4")" ]; then
        passed=$((passed + 1))
    else
        failed=$((failed + 1))
        echo "FAILED: $1:"
        cat "$work/out" "$work/notes"
    fi
}

# what is asked of the disk for an image of this name and length, and for its checksum
asks() { # NAME LENGTH FOLDER
    echo "sync $1.0.part $2\\nsync $1.sha256.0.part 70\\nrename $1\\nrename $1.sha256\\nsync folder $3\\n"
}

saves 'a save' 'save one\n' 'ok\n' "$(asks one 49 images)"
saves 'a save over an image' 'createtable t\nsave one\n' 'ok\nok\n' "$(asks one 93 images)"
saves 'two saves' 'save one\nsave two\n' 'ok\nok\n' "$(asks one 49 images)$(asks two 49 images)"
mkdir "$work/images/more"
saves 'a save in another folder' 'save more/one\n' 'ok\n' "$(asks one 49 more)"
cp "$work/images/one" "$work/before"
saves 'a save that is not synced' 'createtable t\nsave one\nsplits t\n' 'ok\nfault save io\nend\n' 'sync one.0.part 93\n' UNSYNCED=1
if cmp -s "$work/images/one" "$work/before" && [ -z "$(find "$work" -name '*.part')" ]; then passed=$((passed + 1)); else
    failed=$((failed + 1))
    echo 'FAILED: the old file stands, and nothing is left beside it'
fi

# ---- The journal of a script.
set +e
count() { # NAME STATUS
    if [ "$2" -eq 0 ]; then passed=$((passed + 1)); else
        failed=$((failed + 1))
        echo "FAILED: $1"
    fi
}
{ echo 'createtable t' && seq 500 | sed 's/.*/insert t r& f q \\e v/'; } >"$work/lines"
keeps() { # WORD ..: answers the lines on standard input, and keeps them
    rm -rf "$work/store" "$work/notes"
    env NOTES="$work/notes" LD_PRELOAD="$work/noting.so" "$program" script --store "$work/store" "$@" >"$work/out" 2>"$work/err"
}
keeps <"$work/lines"
plain=$(grep -c '^sync journal' "$work/notes")
for words in --explain --quiet --strict '--quiet --strict'; do
    # shellcheck disable=SC2086
    keeps $words <"$work/lines" && [ "$(grep -c '^sync journal' "$work/notes")" -eq "$plain" ]
    count "lines that come at once are synced together: $words" $?
done
# of a quiet run, which says nothing, too, once more lines are awaited
mkfifo "$work/lines.fifo"
keeps --quiet <"$work/lines.fifo" &
running=$!
exec 9>"$work/lines.fifo"
cat "$work/lines" >&9
synced=1
for _ in $(seq 300); do
    last=$(grep '^sync journal.0 ' "$work/notes" 2>/dev/null | tail -n 1)
    [ -n "$last" ] && [ "${last##* }" = "$(stat -c %s "$work/store/journal.0" 2>/dev/null)" ] && [ "${last##* }" -gt 10000 ] && synced=0 && break
    sleep 0.1
done
count 'the lines of a quiet run are on the disk once more are awaited' "$synced"
exec 9>&-
wait "$running"
[ "$(cat "$work/err")" = '501 ok, 0 refused, 0 faults' ]
count 'and are counted at its end' $?

echo "$passed passed, $failed failed"
[ "$failed" -eq 0 ]
