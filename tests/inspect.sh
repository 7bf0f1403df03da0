#!/usr/bin/env bash
# `tabd inspect`: what it shows of an image and of a folder, that nothing there is changed, and what it and `tabd export` say where there is no
# image, one that differs from its checksum, or a folder that a process has.
# Usage: tests/inspect.sh   (from anywhere; TABD names another program)
set -u
top=$(cd "$(dirname -- "${BASH_SOURCE[0]}")/.." && pwd)
work=$(mktemp -d) || exit 1
trap 'rm -rf "$work"' EXIT
program=$(readlink -f -- "${TABD:-$("$top/release/program")}") || exit 1
cd "$work" || exit 1
passed=0 failed=0

# Counts one check.
count() { # NAME, with the status of the test that went before
    if [ "$2" -eq 0 ]; then passed=$((passed + 1)); else
        failed=$((failed + 1))
        echo "FAILED: $1"
        cat out err
    fi
}

# What is shown, with status 0, and nothing on standard error.
shows() { # NAME TEXT WORD ..
    local name=$1 text=$2
    shift 2
    "$program" "$@" >out 2>err
    [ "$?,$(cat out err)" = "0,$text" ]
    count "$name" $?
}

# What is said on standard error, with status 1, and nothing on standard output.
faults() { # NAME TEXT WORD ..
    local name=$1 text=$2
    shift 2
    "$program" "$@" >out 2>err
    [ "$?,$(cat out err)" = "1,$text" ]
    count "$name" $?
}

"$program" script >out 2>err <<'.'
at 7
createuser ann
setauths ann a,b\x2cc,\xff
grant ann CREATE_TABLE
grant ann SYSTEM
createtable t versions=3
createtable s time=server
addsplit t m
addsplit t \x00
insert t a\x20b f q \e 12 1
insert t a\x20b f q a&b 5 2
delete t c f q \e 3
insert s r fam qual \e value
constraints t keysize,numeric
horizon t -5
grant ann READ t
grant ann DROP_TABLE t
revoke root READ s
save x.image
.
size=$(stat -c %s x.image)
facts='clock 7
next 4
users 2
user ann
user ann system CREATE_TABLE
user ann system SYSTEM
user ann authorizations a,b\x2cc,\xff
user root
user root system GRANT
user root system CREATE_TABLE
user root system DROP_TABLE
user root system ALTER_TABLE
user root system CREATE_USER
user root system DROP_USER
user root system ALTER_USER
user root system SYSTEM
user root authorizations \0
tables 2
table s time=server versions=1
table s constraints \0
table s right root WRITE
table s right root ALTER_TABLE
table s right root GRANT
table s right root DROP_TABLE
table s records 1 puts 1 deletes 0 key-bytes 8 value-bytes 5
table t time=any versions=3
table t constraints keysize,numeric
table t horizon -5
table t right ann READ
table t right ann DROP_TABLE
table t right root READ
table t right root WRITE
table t right root ALTER_TABLE
table t right root GRANT
table t right root DROP_TABLE
table t split \x00
table t split m
table t records 3 puts 2 deletes 1 key-bytes 16 value-bytes 3'
shows "an image" "file x.image
version 2
bytes $size
$facts" inspect x.image

# a folder: the newest image, and what its journal holds beyond
"$program" script --store kept --image x.image >out 2>err </dev/null
before=$(cd kept && sha256sum -- * && stat -c '%n %a %Y' -- *)
image=$(cd kept && echo image.[0-9])
shows "a folder" "file kept/$image
version 2
bytes $size
journal lines 0 bytes 0 cut 0
$facts" inspect kept
"$program" export kept >lines 2>err
[ "$?" -eq 0 ] && [ ! -s err ] && "$program" export x.image | cmp -s - lines
count "a folder, exported" $?
[ "$before" = "$(cd kept && sha256sum -- * && stat -c '%n %a %Y' -- *)" ]
count "nothing in a folder is changed" $?

# one that a process has
mkfifo pipe
"$program" script --store kept <pipe >answers 2>err &
script=$!
exec 3>pipe
echo 'insert t z f q \e 9 9' >&3
for _ in $(seq 100); do
    [ -s answers ] && break
    sleep 0.05
done
faults "a folder that a process has" 'fault: kept: another process has it' inspect kept
faults "a folder that a process has, exported" 'fault: kept: another process has it' export kept
kill -9 "$script"
exec 3>&-
wait "$script" 2>/dev/null
"$program" inspect kept >out 2>err
[ "$?" -eq 0 ] && grep -qx 'journal lines 1 bytes 22 cut 0' out && grep -q '^file kept/image\.' out
count "what a journal holds beyond" $?
# what it holds is replayed: facts and lines are those of a folder in which a script has made one image of both
before=$(cd kept && sha256sum -- * && stat -c '%n %a %Y' -- *)
cp -r kept both && "$program" script --store both </dev/null 2>err
told() { # FOLDER   the facts, without those of the file and of journals
    "$program" inspect "$1" | grep -vE '^(file|bytes|journal) '
}
told kept >out && told both | cmp -s - out
count "what an image and its journal make is shown" $?
for flag in '' --accumulo; do
    "$program" export $flag kept >lines 2>err
    status=$?
    # (some authorizations can't go over to a cluster)
    due=$([ -z "$flag" ] && echo 0 || echo 3)
    "$program" export $flag both 2>err | cmp -s - lines && [ "$status" -eq "$due" ] && grep -qE '(mutate|insert) .*z.*9' lines
    count "and exported $flag" $?
done
# of a server: entries, in several journals
"$program" serve --socket sock --store kept >listening 2>err &
server=$!
for _ in $(seq 200); do
    [ -s listening ] && break
    sleep 0.05
done
printf 'insert t y f q \\e 8 8\ncreateuser zoe\n' | "$program" shell --socket sock --user root >answers 2>>err
kill -9 "$server"
wait "$server" 2>/dev/null
"$program" inspect kept >out 2>err
[ "$?" -eq 0 ] && grep -q '^user zoe' out && grep -q '^journal events ' out && "$program" export kept | grep -q '^mutate t y put f q '
count "what a server's journal holds is shown and exported" $?
rm -r both && cp -r kept both && "$program" script --store both </dev/null 2>err
told kept >out && told both | cmp -s - out
count "as what a start makes of it" $?
# a copy
rm kept/lock
"$program" inspect kept >out 2>err && [ ! -e kept/lock ]
count "a copy without a lock gets none" $?

# what is no image
faults "no file" "fault: gone: the image can't be read: No such file or directory (os error 2)" inspect gone
mkdir y.image.sha256 && : >y.image
faults "no file for a checksum" "fault: y.image: the image can't be read: its checksum: Is a directory (os error 21)" inspect y.image
rmdir y.image.sha256
printf 'TABIMG' >bad
faults "a beginning" 'fault: bad: the image is cut short or damaged' inspect bad
faults "a beginning, exported" 'fault: bad: the image is cut short or damaged' export --accumulo bad
head -c -1 x.image >bad
faults "all but the last byte" 'fault: bad: the image is cut short or damaged' inspect bad
printf 'TABIM' >bad
faults "less than a beginning" 'fault: bad: this is no image' inspect bad
printf 'TABIMG\0\7' >new
faults "an unknown version" 'fault: new: the image has the unknown version 7' export new
mkdir none
faults "a folder without an image" 'fault: none: there is no image in it' inspect none
[ -z "$(ls none)" ]
count "nothing is made in a folder" $?
cp x.image y.image
printf x | dd of=x.image bs=1 seek=40 conv=notrunc 2>err
faults "another checksum" 'fault: x.image: differs from its checksum' inspect x.image
faults "another checksum, exported" 'fault: x.image: differs from its checksum' export x.image

# where output can't be written, and words that aren't understood
if [ -e /dev/full ]; then
    "$program" inspect y.image >/dev/full 2>err
    [ "$?,$(cat err)" = "1,fault: the output can't be written: No space left on device (os error 28)" ]
    count "a full device" $?
fi
"$program" inspect --progress y.image >out 2>err && [ ! -s err ] && [ -s out ]
count "work of less than a second tells no progress" $?
mkfifo slow
for flag in --progress ''; do
    { head -c 100 y.image && sleep 1.3 && tail -c +101 y.image; } >slow &
    "$program" inspect $flag slow >out 2>err
    status=$?
    grep -q 'reading 0 MB' err
    [ "$?,$status" = "$([ -n "$flag" ] && echo 0 || echo 1),0" ] && grep -qx 'clock 7' out
    count "a second of reading ${flag:-without a flag}" $?
    wait
done
for words in inspect export 'inspect a b' 'export --accumulo'; do
    "$program" $words >out 2>err
    [ "$?" -eq 2 ] && [ ! -s out ]
    count "refused: $words" $?
done
echo "$passed passed, $failed failed"
[ "$failed" -eq 0 ]
