#!/usr/bin/env bash
# Images in files: what `save`, `load` and `--image` do, what they tell, what is left of the old file where a save fails, and checksums.
# Usage: tests/images.sh   (from anywhere; wants python3; TABD names another program)
set -u
top=$(cd "$(dirname -- "${BASH_SOURCE[0]}")/.." && pwd)
work=$(mktemp -d) || exit 1
trap 'rm -rf "$work"' EXIT
. "$top/tests/needs" python3
program=${TABD:-$("$top/release/program")} || exit 1
cd "$work" || exit 1
passed=0 failed=0

# Counts one check.
count() { # NAME, with the status of the test that went before
    if [ "$2" -eq 0 ]; then passed=$((passed + 1)); else
        failed=$((failed + 1))
        echo "FAILED: $1"
    fi
}

# What a script answers, and that it ends with 0 and says nothing on standard error.
answers() { # NAME LINES REPLIES [WORD ..]
    local name=$1 lines=$2 replies=$3
    shift 3
    printf "$lines" | "$program" script "$@" >out 2>err
    [ "${PIPESTATUS[1]},$(cat out err)" = "0,$(printf "$replies")" ]
    count "$name" $?
}

# Sees a run as above whose standard error has this line.
tells() { # NAME LINES REPLIES LINE [WORD ..]
    local name=$1 lines=$2 replies=$3 line=$4
    shift 4
    printf "$lines" | "$program" script "$@" >out 2>err
    [ "${PIPESTATUS[1]},$(cat out)" = "0,$(printf "$replies")" ] && [ "$(cat err)" = "$line" ]
    count "$name" $?
}

# Whether the file's bytes are these, in hexadecimal.
holds() { # NAME FILE HEX
    [ "$(od -An -v -tx1 "$2" | tr -d ' \n')" = "$(tr -d ' ' <<<"$3")" ]
    count "$1" $?
}

# Images of version 2, and the same ones in version 1, which has no horizons.
empty='544142494d47 0002 0000000000000000 0000000000000000 00000001 00000004 726f6f74 ff 00000000 00000000 454e4421'
one='544142494d47 0002 0000000000000000 0000000000000001 00000001 00000004 726f6f74 ff 00000000 00000001 00000001 74 00 00000001 00 8000000000000000 00000001 00000004 726f6f74 1f 00000000 0000000000000001 00000001 72 00000001 66 00000001 71 00000000 0000000000000005 01 0000000000000000 00000000 00000001 76 454e4421'
first_empty=${empty/ 0002 / 0001 }
first_one=${one/ 0002 / 0001 } first_one=${first_one/ 8000000000000000 / }

# Writes bytes, given in hexadecimal, to a file.
bytes() { # FILE HEX
    python3 -c 'import sys; open(sys.argv[1], "wb").write(bytes.fromhex(sys.argv[2]))' "$1" "$2"
}

# ---- What is saved.
answers 'a new core is saved' 'save new\n' 'ok\n'
holds 'its image is the smallest' new "$empty"
answers 'a record is saved' 'createtable t time=any\ninsert t r f q \\e v 5\nsave one\n' 'ok\nok\nok\n'
holds 'its image is spelled so' one "$one"
answers 'a record in a sorted table is saved' 'createtable t time=any\ninsert t r f q \\e v 5\nflush t\ncompact t full\nsave again\n' 'ok\nok\nok\nok\nok\n'
cmp -s one again
count 'where records lie is not in an image' $?
[ "$(ls)" = "$(printf 'again\nagain.sha256\nerr\nnew\nnew.sha256\none\none.sha256\nout')" ]
count 'no other file is left' $?
[ "$(stat -c %a new new.sha256 one | sort -u)" = 600 ]
count 'an image is its owner'"'"'s alone, and its checksum' $?
[ "$(cat one.sha256)" = "$(sha256sum one)" ] && sha256sum --quiet -c new.sha256 one.sha256
count 'the checksum is the one of sha256sum' $?

# ---- What is loaded.
bytes first.empty "$first_empty"
bytes first.one "$first_one"
[ "$(wc -c <first.one)" -eq 130 ]
count 'an image of version 1 is shorter by its horizons' $?
answers 'images of version 1' 'load first.one\nscan t \\0\nsave second.one\nload first.empty\nsave second.empty\nscan t \\0\n' 'ok\nr f q \\e 5 v\nend\nok\nok\nok\nrefused 2 NoTable t\n'
holds 'the smallest one is saved in version 2' second.empty "$empty"
cmp -s one second.one
count 'one with a table is saved in version 2' $?
answers 'a table of version 1 has no horizon' 'insert t r f q \\e w -9223372036854775808\nscan t \\0\n' 'ok\nr f q \\e 5 v\nend\n' --image first.one
answers 'a horizon is kept, which a marker went by' 'delete t r f q \\e 5\nhorizon t 6\ncompact t full\nsave x\nload x\ninsert t r f q \\e v 5\ninsert t r f q \\e v 6\nscan t \\0\n' 'ok\nok\nok\nok\nok\nrefused 22 BelowHorizon 0\nok\nr f q \\e 6 v\nend\n' --image first.one
rm first.empty second.one second.empty x
answers 'a loaded core shows what was saved' 'load one\nscan t \\0\nload new\nscan t \\0\n' 'ok\nr f q \\e 5 v\nend\nok\nrefused 2 NoTable t\n'
answers 'the image of the command line' 'scan t \\0\n' 'r f q \\e 5 v\nend\n' --image one
cp one ./-odd
answers 'an image whose name begins with -' 'scan t \\0\n' 'r f q \\e 5 v\nend\n' --image -odd
rm ./-odd
longest=$(printf 'n%.0s' $(seq 255))
cp one "$longest"
answers 'an image of the longest name' 'scan t \\0\n' 'r f q \\e 5 v\nend\n' --image "$longest"
rm "$longest"
answers 'the image of the command line, explained' 'scan t \\0\n' 'r f q \\e 5 v\nend\n' --explain --image one
answers 'sessions begin anew' 'open t \\0\nopen t \\0\nload one\nnext 0 1\nopen t \\0\nnext 0 9\n' 'session 0\nsession 1\nok\nrefused 15 NoSession 0\nsession 0\nr f q \\e 5 v\nend\n' --image one
answers 'jobs begin anew' 'begin t r full\nbegin t r full\nmerge 1\nload one\nmerge 0\ninstall t 1\nbegin t r full\ninstall t 1\nmerge 0\ninstall t 0\n' 'job 0\njob 1\nok\nok\nrefused 15 NoSession 0\nrefused 15 NoSession 1\njob 0\nrefused 15 NoSession 1\nok\nok\n' --image one
answers 'a file that is replaced' 'save here\ncreatetable u\nsave here\nload here\nstatus u\n' 'ok\nok\nok\nok\ntablets 1 sources 0 records 0\n'
answers 'a path' 'save ./here\nload ./here\n' 'ok\nok\n'
mkdir folder
answers 'a file in another folder' "save $work/folder/one\nload folder/one\nscan t \\\\0\n" 'ok\nok\nr f q \\e 5 v\nend\n' --image one
[ "$(ls folder)" = "$(printf 'one\none.sha256')" ] && (cd folder && sha256sum --quiet -c one.sha256)
count 'no other file is left there' $?
answers 'a name with a space' 'save a\\x20b\nload a\\x20b\n' 'ok\nok\n'
[ -f 'a b' ]
count 'the name with a space is one file' $?
answers 'a name of two lines' 'save a\\x0a\\x5cb\nload a\\x0a\\x5cb\n' 'ok\nok\n'
sha256sum --quiet -c -- *b.sha256
count 'their checksums are as sha256sum spells them' $?
rm -- *b *b.sha256

# All that a core holds comes back: users with their permissions and authorizations, rights, settings, end rows, records in all places.
cat >whole <<'.'
setauths root A,B
createuser ann
createuser bob
setauths ann A
grant ann SYSTEM
createtable t time=any versions=3
createtable u time=server
constraints u numeric
grant ann READ t
grant bob WRITE t
grant bob READ u
grant bob WRITE u
revoke root WRITE u
insert t b f q A 1 5
flush t
insert t d f q A&B 2 6
delete t b f q A 4
compact t partial
insert t m f q \e 3 7
addsplit t c
addsplit t k
insert t a f q B 4 8
versions t 2
horizon t 4
save whole.image
.
cat >asked <<'.'
scan t A,B
splits t
rights t
rights u
as ann
rights t
scan t A
as bob
rights t
rights u
insert u r f q \e 12
insert u r f q \e x
insert t r f q \e x 3
insert t r f q \e x 4
as root
versions t 3
horizon t 3
scan u \0
.
"$program" script <whole >out 2>err
[ $? -eq 0 ] && [ ! -s err ] && ! grep -qv '^ok$' out
count 'the whole store is saved' $?
cat whole asked | "$program" script | tail -n "+$(($(wc -l <whole) + 1))" >before
"$program" script --image whole.image <asked >after 2>err
[ $? -eq 0 ] && [ ! -s err ] && [ "$(wc -l <before)" -gt 20 ] && cmp -s before after
count 'a loaded store answers as the one that was saved' $?
printf 'save again.image\n' | "$program" script --image whole.image >out
cmp -s whole.image again.image
count 'what is loaded is saved as it was' $?

# An image of many blocks: more short labels than a load remembers, long ones, and a value longer than a block.
python3 - >many <<'.'
print("setauths root L1,L2,a_long_label\ncreatetable many")
for number in range(3000):
    label = f"L{number % 1000}" if number % 3 else "a_long_label&L1"
    print(f"insert many row{number:04} f q {label} {'v' * (1 + number % 90)}")
print(f"insert many z f q L1 {'w' * 200_000}\nsave many.image")
.
cat many <(printf 'scan many L1,L2,a_long_label\n') | "$program" script | tail -n +3005 >before
printf 'load many.image\nsave again.image\nscan many L1,L2,a_long_label\n' | "$program" script | tail -n +3 >after
[ "$(wc -l <before)" -gt 1000 ] && cmp -s before after && cmp -s many.image again.image
count 'an image of many blocks and labels comes back' $?
python3 -c 'i = open("many.image", "rb").read(); at = i.rindex(b"\0\0\0\2L1"); open("unlabelled", "wb").write(i[:at + 5] + b"&" + i[at + 6:])'
answers 'a record without a label far behind others' 'load unlabelled\nscan t \\0\n' 'fault load bad\nr f q \\e 5 v\nend\n' --image one

# ---- Random scripts in which a store is saved and loaded anywhere: nothing is answered otherwise than by the store that was only saved.
# A loaded store has its records in other tables: so a tablet is split in its middle whatever its size, and where no record was dropped.
lines() { # NUMBER
    LC_ALL=C awk -v seed="$1" '
        function below(n) { seed = (seed * 69069 + 12345) % 2147483648; return int(seed / 4096) % n }
        function of(list,   words) { return words[1 + below(split(list, words, " "))] }
        function table() { return of("t t s") }
        function user() { return of("root ann bob") }
        function auths() { return of("\\e A A,B B,C") }
        function right() { return below(3) ? of("READ WRITE GRANT ALTER_TABLE DROP_TABLE") " " table() : of("SYSTEM CREATE_USER ALTER_USER DROP_USER CREATE_TABLE") }
        function column() { return of("a b b\\x00 c m zz") " f q" below(2) " " of("\\e \\e A B A&B A|C") }
        function line(kind) {
            if (kind < 6) return "insert " table() " " column() " v" below(100) (below(2) ? " " below(9) : "")
            if (kind < 8) return "delete " table() " " column()
            if (kind < 9) return "as " user()
            if (kind < 10) return "at " below(30)
            if (kind < 11) return of("createuser dropuser") " " of("ann bob")
            if (kind < 12) return "setauths " user() " " auths()
            if (kind < 14) return of("grant grant revoke") " " user() " " right()
            if (kind < 15 && below(3) == 0) return below(2) ? "horizon " table() " " below(9) : "versions " table() " " 1 + below(3)
            if (kind < 15) return below(4) ? "constraints " table() " " of("\\0 alphanum numeric,keysize") : of("droptable createtable") " " table()
            if (kind < 16) return "addsplit " table() " " of("a b\\x00 m")
            if (kind < 17) return number % 2 ? "splitsize " table() " " of("b m") " 0" : of("flush compact") " " table()
            if (kind < 18) return of("rights splits") " " table()
            return "scan " table() " " of("\\0 A A,B A,B,C") (below(2) ? " " of("[ (") of("a b m") " " of("\\0 [zz (m") : "")
        }
        BEGIN {
            number = seed
            for (i = 0; i < 5; i++) below(2)
            print "createtable t versions=" 1 + below(3) "\ncreatetable s time=server\ncreateuser ann\ncreateuser bob"
            print "setauths root A,B,C\ngrant ann SYSTEM\ngrant ann READ t\ngrant bob WRITE s"
            for (i = 0; i < 100; i++) {
                print line(below(20))
                if (below(12) == 0) print "save random\nload random"
            }
            print "save random\nload random\nas root\nscan t A,B,C\nscan s A,B,C\nrights t\nsplits t"
        }' | sed 's/^compact .$/& full/'
}
wrong=0
for number in $(seq 100); do
    lines "$number" >with
    sed 's/^load /save /' with >without
    "$program" script <with >with.out 2>&1 && "$program" script <without >without.out 2>&1 && cmp -s with.out without.out && ! grep -q fault with.out ||
        { wrong=$((wrong + 1)) && echo "script $number" && diff with.out without.out | head -n 3; }
done
[ "$wrong" -eq 0 ]
count 'random scripts, saved and loaded anywhere' $?

# ---- Who may.
answers 'only who has SYSTEM' 'createuser ann\nas ann\nsave mine\nload one\nas root\ngrant ann SYSTEM\nas ann\nsave mine\nload one\nas root\nscan t \\0\n' 'ok\nrefused 3 PermissionDenied System.SYSTEM\nrefused 3 PermissionDenied System.SYSTEM\nok\nok\nok\nr f q \\e 5 v\nend\n'

# ---- What fails, and what stands then.
head -c 100 one >cut
printf 'TABIMG\000\011' >ninth
bytes third "${one/ 0002 / 0003 }"
bytes mixed "${one/ 0002 / 0001 }"
bytes turned "${first_one/ 0001 / 0002 }"
bytes server "${one/ 74 00 / 74 01 }"
bytes served "$(sed 's/ 74 00 / 74 01 /; s/ 8000000000000000 / 8000000000000001 /' <<<"$one")"
answers 'a table that gives the timestamps has no horizon' 'load server\nhorizon t 6\n' 'ok\nrefused 22 ServerTime\n'
printf 'TABIMG\000\000' >zeroth
{ cat one; printf '!'; } >longer
: >none
for pair in missing:io folder:io none:bad cut:bad longer:bad mixed:bad turned:bad served:bad 'third:version 3' 'ninth:version 9' 'zeroth:version 0' whole:bad; do
    case $pair in
    missing:*) why="fault: missing: the image can't be read: No such file or directory (os error 2)" ;;
    folder:*) why="fault: folder: the image can't be read: Is a directory (os error 21)" ;;
    *) why= ;;
    esac
    tells "load ${pair%%:*}" "load ${pair%%:*}\nscan t \\\\0\n" "fault load ${pair#*:}\nr f q \\\\e 5 v\nend\n" "$why" --image one
    printf 'scan t \\0\n' | "$program" script --image "${pair%%:*}" >out 2>err
    [ "${PIPESTATUS[1]},$(cat out),$(cat err)" = "1,,fault: load ${pair#*:}" ] || { [ "${PIPESTATUS[1]:-1}" = 1 ] && [ ! -s out ] && [ "$(wc -l <err)" = 1 ] && [ "$(cut -d ' ' -f 1 err)" = 'fault:' ]; }
    count "--image ${pair%%:*} ends with 1 and a line that says why" $?
done
for pair in 'missing:No such file or directory (os error 2)' 'folder:Is a directory (os error 21)' 'one/more:Not a directory (os error 20)'; do
    "$program" script --image "${pair%%:*}" >out 2>err </dev/null
    [ "$?,$(cat out),$(cat err)" = "1,,fault: ${pair%%:*}: the image can't be read: ${pair#*:}" ]
    count "--image ${pair%%:*} says the system's reason" $?
done
tells 'save where there is no folder' 'save missing/one\nscan t \\0\n' 'fault save io\nr f q \\e 5 v\nend\n' \
    "fault: missing/one: the image can't be written: No such file or directory (os error 2)" --image one
tells 'save over a folder' 'save folder\nscan t \\0\n' 'fault save io\nr f q \\e 5 v\nend\n' \
    "fault: folder: the image can't be written: what has this name is no file" --image one
[ "$(ls folder)" = "$(printf 'one\none.sha256')" ]
count 'the folder stands' $?
# A pipe or a device is never replaced, nor a link to one; a link stands in for the machine's own devices.
mkfifo pipe
ln -s /dev/null null
ln -s /dev/full device
ln -s pipe piped
for name in pipe null device piped; do
    tells "save over $name" "save $name\nscan t \\\\0\n" 'fault save io\nr f q \\e 5 v\nend\n' \
        "fault: $name: the image can't be written: what has this name is no file" --image one
done
[ -p pipe ] && [ -L null ] && [ -c null ] && [ -L device ] && [ -c device ] && [ -L piped ] && [ -p piped ] && [ -z "$(find . -name '*.part')" ]
count 'a pipe and a device stand as they were' $?
rm pipe null device piped
# a file may take no more than half a block: the save fails, the last image stands, and nothing is left beside it
cp new full
before=$(ls -a)
printf 'save full\nstatus big\n' >short
{ printf 'createtable big\n'; seq 20000 | sed 's/.*/insert big row& f q \\e value/'; } >big
cat big short | (trap '' XFSZ; ulimit -f 8; exec "$program" script) 2>err | tail -n 2 >out
[ "$(cat out)" = "$(printf 'fault save io\ntablets 1 sources 0 records 20000')" ]
count 'a disk that is full' $?
[ "$(cat err)" = "fault: full: the image can't be written: File too large (os error 27)" ]
count 'standard error says why' $?
cmp -s new full
count 'the last image stands' $?
[ "$(ls -a | grep -vx -e big -e short)" = "$(grep -vx -e big -e short <<<"$before")" ]
count 'nothing is left beside it' $?

# ---- Checksums: an image that differs from the one beside it isn't loaded; one without is.
answers 'an image to be changed' 'setauths root A\ncreatetable t time=any\ninsert t r f q A v 5\nsave kept\n' 'ok\nok\nok\nok\n'
python3 -c 'i = bytearray(open("kept", "rb").read()); i[i.rindex(b"A")] ^= 3; open("kept", "wb").write(i)'
tells 'a label with another bit' 'load kept\nscan t \\0\n' 'fault load io\nr f q \\e 5 v\nend\n' 'fault: kept: differs from its checksum' --image one
printf 'scan t \\0\n' | "$program" script --image kept >out 2>err
[ "${PIPESTATUS[1]},$(cat out),$(cat err)" = '1,,fault: kept: differs from its checksum' ]
count '--image of an image that differs' $?
: >kept.sha256
tells 'a checksum that is empty' 'load kept\n' 'fault load io\n' 'fault: kept: differs from its checksum'
sha256sum kept one >kept.sha256
answers 'a checksum that was made by hand' 'load kept\nscan t \\0\n' 'ok\nend\n'
# the forms in which programs write one: the digits in capitals, a file read as bytes, and the name in front
digits=$(sha256sum kept | cut -c 1-64)
for line in "$digits  kept" "$digits *kept" "${digits^^}  kept" "\\$digits  a\\nb" "SHA256 (kept) = $digits" "SHA256 (kept) = ${digits^^}" "\\SHA256 (a) = b\\n) = $digits"; do
    printf '%s\n' "$line" >kept.sha256
    answers "a checksum as $line" 'load kept\nscan t \\0\n' 'ok\nend\n'
    printf '%s\nmore' "$line" >kept.sha256
    answers "and lines behind it" 'load kept\nscan t \\0\n' 'ok\nend\n'
done
sha256sum --tag kept >kept.sha256
answers 'a checksum of sha256sum --tag' 'load kept\nscan t \\0\n' 'ok\nend\n'
other=$(sha256sum one | cut -c 1-64)
for line in "$other  kept" "SHA256 (kept) = $other" "SHA256 (kept) = ${digits%?}" "SHA256 (kept) $digits" "SHA512 (kept) = $digits" "${digits%?}  kept" "$digits" "${digits}0  kept"; do
    printf '%s\n' "$line" >kept.sha256
    tells "no checksum of it: $line" 'load kept\n' 'fault load io\n' 'fault: kept: differs from its checksum'
done
rm kept.sha256
answers 'an image without a checksum' 'load kept\nscan t \\0\nsave kept\nload kept\n' 'ok\nend\nok\nok\n'
sha256sum --quiet -c kept.sha256
count 'a save puts the right one beside it' $?

# ---- What dead runs have left goes with the next save; what a live one writes, and what is something else, stays.
mkdir left
for number in 0 1 3; do printf 'TABIMG\000\002and more' >left/one.$number.part; done
: >left/one.4.part
echo 'something else' >left/one.2.part
echo '0123456789abcdef' >left/one.sha256.0.part
python3 - "$program" <<'.'
import fcntl, subprocess, sys
with open("left/one.1.part") as held:
    fcntl.flock(held, fcntl.LOCK_EX)
    subprocess.run([sys.argv[1], "script"], input=b"save left/one\n", stdout=subprocess.DEVNULL)
.
[ "$(ls left)" = "$(printf 'one\none.1.part\none.2.part\none.sha256')" ]
count 'left-over parts are taken away, and no others' $?
"$program" script <<<'save left/one' >out
[ "$(ls left)" = "$(printf 'one\none.2.part\none.sha256')" ]
count 'that of a run that has ended is, too' $?

# ---- A clock that is years ahead is named where a server begins on it; a server of no connections would not end, so one is made.
answers 'an image of another time' 'at 4102444800000\ncreatetable t\nsave ahead\n' 'ok\nok\n'
python3 - "$program" <<'.' >clock
import socket, subprocess, sys
with socket.socket() as probe:
    probe.bind(("127.0.0.1", 0))
    port = probe.getsockname()[1]
for image in "ahead", "one":
    server = subprocess.Popen([sys.argv[1], "serve", "--port", str(port), "--accept", "1", "--image", image], stdout=subprocess.PIPE, stderr=subprocess.PIPE)
    server.stdout.readline()
    socket.create_connection(("127.0.0.1", port)).close()
    print(server.communicate()[1].decode().split(" years")[0].rstrip("0123456789"))
.
[ "$(cat clock)" = 'note: ahead: its clock is ' ]
count 'a clock that is years ahead' $?

# ---- Each image cut at each of its lengths is none, and one byte changed is none or is saved as itself; one of version 1 in version 2.
python3 - "$program" one whole.image first.one <<'.' >changed
import subprocess
import sys

program, *names = sys.argv[1:]
# what is saved of an image; that of version 1 has its one table's settings before this place
def saved(image):
    place = 56
    return image if image[7] == 2 else image[:7] + b"\2" + image[8:place] + b"\x80\0\0\0\0\0\0\0" + image[place:]

for name in names:
    with open(name, "rb") as file:
        image = file.read()
    variants = [image[:length] for length in range(len(image))]
    variants += [image[:place] + bytes([image[place] ^ bit]) + image[place + 1:] for place in range(len(image)) for bit in (1, 64)]
    for number, variant in enumerate(variants):
        with open(f"v{number}", "wb") as file:
            file.write(variant)
    lines = "".join(f"load v{number}\nsave w{number}\n" for number in range(len(variants)))
    done = subprocess.run([program, "script"], input=lines, stdout=subprocess.PIPE, text=True, check=True)
    replies = done.stdout.splitlines()
    right = len(replies) == 2 * len(variants)
    loaded = 0
    for number, variant in enumerate(variants):
        reply = replies[2 * number]
        if reply == "ok":
            loaded += 1
            with open(f"w{number}", "rb") as file:
                right = right and file.read() == saved(variant) and number >= len(image)
        else:
            right = right and (reply == "fault load bad" or (reply.startswith("fault load version ") and variant[:6] == b"TABIMG" and variant[6:8] != image[6:8]))
    print("right" if right and loaded > 0 else f"wrong: {name}")
.
[ "$(cat changed)" = "$(printf 'right\nright\nright')" ]
count 'each image, cut and changed at each place' $?

# ---- Past blocks and limits: values of a mebibyte, and many tables and users.
python3 - >large <<'.'
print("createtable t")
for row in range(3):
    print(f"insert t r{row} f q \\e " + "v" * 1048576)
for number in range(300):
    print(f"createtable t{number}\ncreateuser u{number}\ngrant u{number} READ t{number}")
for number in range(100):
    print(f"createuser gone\ngrant gone WRITE t{number}\ndropuser gone")
print("droptable t7\ncreatetable t7\ndropuser u8\ncreateuser u8")
print("save large.image")
.
"$program" script <large >out && ! grep -qv '^ok$' out && printf 'scan t \\0\nas u299\nscan t299 \\0\nas root\nsave larger.image\n' | "$program" script --image large.image >out &&
    [ "$(wc -c <out)" -gt 3145728 ] && cmp -s large.image larger.image
count 'an image past blocks' $?

echo "$passed passed, $failed failed"
[ "$failed" -eq 0 ]
