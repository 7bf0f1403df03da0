#!/usr/bin/env bash
# What the program's `main` adds to the script: its command line, help and version, its exit statuses, the lines on standard
# error, why a line is a fault, and that each reply comes before more input is awaited, piped and typed.
# Usage: tests/program.sh   (from anywhere; wants a C compiler and python3; TABD names another program)
set -u
top=$(cd "$(dirname -- "${BASH_SOURCE[0]}")/.." && pwd)
work=$(mktemp -d) || exit 1
trap 'rm -rf "$work"' EXIT
program=${TABD:-$("$top/release/program")} || exit 1
cd "$work" || exit 1
passed=0 failed=0 skipped=0

# Names what can't be checked here.
skip() { # WHY
    echo "skipped: $1"
    skipped=$((skipped + 1))
}

# Counts one check.
count() { # NAME, with the status of the test that went before
    if [ "$2" -eq 0 ]; then passed=$((passed + 1)); else
        failed=$((failed + 1))
        echo "FAILED: $1"
    fi
}

run() { # WORD ..
    "$program" "$@" >out 2>err </dev/null
}

# ---- The command line.
run --version
[ "$?,$(cat out err)" = "0,tabd $(sed -n 's/^version: //p' "$top/release/release.txt")" ]
count 'the version is its name and number' $?
for words in --help -h help 'script --help' 'help script'; do
    # shellcheck disable=SC2086
    run $words
    [ $? -eq 0 ] && [ ! -s err ] && grep -qF 'docs/SCRIPT.md' out &&
        grep -qxF '  scan T AUTHS [LOW HIGH [COLS]]' out && grep -qF -- '--explain' <("$program" script --help)
    count "$words shows the forms of lines" $?
done
# The table of help has the lines and updates that docs/SCRIPT.md lists, and no other.
run --help
diff <(sed -n '/^The lines of a script/,/^The words/p' out | awk '/^  / {print $1}' | sort -u) \
    <(sed -n '/^| Line | Does |/,/^$/p' "$top/docs/SCRIPT.md" | grep -oE '`[a-z]+ [A-Z]|^\| `[a-z]+` \|' | tr -d '`|' | awk '{print $1}' | sort -u) >/dev/null
count 'help and docs/SCRIPT.md list the same commands' $?
for words in '' nonsense 'script extra' --nonsense 'script --nonsense' $'\xff' $'script \xff'; do
    # shellcheck disable=SC2086
    run $words
    [ $? -eq 2 ] && [ ! -s out ] && [ -s err ]
    count "refused command line '$words'" $?
    # shellcheck disable=SC2086
    "$program" $words >out 2>&- </dev/null
    [ $? -eq 2 ] && [ ! -s out ]
    count "refused command line '$words', closed standard error" $?
    # shellcheck disable=SC2086
    "$program" $words >out 2>/dev/full </dev/null
    [ $? -eq 2 ] && [ ! -s out ]
    count "refused command line '$words', full standard error" $?
done

# A shell's help has the lines that it takes.
run shell --help
[ "$(sed -n '/^The lines of a shell/,/^The updates/p' out | awk '/^  / {print $1}')" = "$("$program" script --help | sed -n '/^The lines of a script/,/^The updates/p' | awk '/^  / {print $1}' | grep -vxE 'as|at|begin|merge|install|splitsize|save|load')" ]
count "a shell's help lists what it takes" $?

# ---- The ends of the input: status 0, these replies, and nothing on standard error.
answers() { # NAME INPUT REPLIES
    printf "$2" | "$program" script >out 2>err
    [ "${PIPESTATUS[1]},$(cat out err)" = "0,$(printf "$3")" ]
    count "$1" $?
}
answers 'empty input' '' ''
answers 'a last line without a line feed' 'createtable t\nscan t \\0' 'ok\nend\n'
answers 'a line fault is a reply' 'bogus\n' 'line fault\n'

# ---- Streams that fail: status 1, and one line with the system's reason.
fails() { # NAME STATUS TEXT
    [ "$2" -eq 1 ] && [ "$(cat err)" = "fault: $3" ]
    count "$1" $?
}
full="the output can't be written: No space left on device (os error 28)"
bad="Bad file descriptor (os error 9)"
"$program" script <"$work" >out 2>err
fails 'a directory for the input' $? "the input can't be read: Is a directory (os error 21)"
"$program" script <&- >out 2>err
fails 'a closed input' $? "the input can't be read: $bad"
printf 'bogus\n' | "$program" script 2>err >&-
fails 'a closed output' $? "the output can't be written: $bad"
printf 'bogus\n' | "$program" script 2>err >/dev/full
fails 'a full output' $? "$full"
printf 'bogus\n' | "$program" script 2>/dev/full >/dev/full
[ $? -eq 1 ]
count 'a full output, full standard error' $?
for words in --help --version 'script --help'; do
    # shellcheck disable=SC2086
    "$program" $words 2>err >/dev/full
    fails "$words to a full device" $? "$full"
    # shellcheck disable=SC2086
    "$program" $words 2>err >&-
    fails "$words to a closed output" $? "the output can't be written: $bad"
done
{ yes | head -n 100000; } 2>/dev/null | "$program" script 2>err | head -n 1 >/dev/null
[ "${PIPESTATUS[1]}" -eq 1 ] && [ "$(cat err)" = "fault: the output can't be written: Broken pipe (os error 32)" ]
count 'an output that nobody reads' $?

# ---- Names of files with control characters are told on one line, escaped; all others as they are.
told() { # NAME TEXT WORD ..
    local name=$1 text=$2
    shift 2
    printf 'save no\\x0asuch/\\x1b[1m\\x5c\\x7f\\xc2\\x9b\\xc3\\xa9\n' >lines
    "$program" "$@" >out 2>err <lines
    [ "$(cat err)" = "$text" ]
    count "$name" $?
}
odd=$'no\nsuch/\e[1m\\\x7f\xc2\x9bé \t"' shown='no\nsuch/\u{1b}[1m\\u{7f}\u{9b}é \t"'
none='No such file or directory (os error 2)'
told 'an image with an odd name' "fault: $shown: the image can't be read: $none" script --image "$odd"
told 'a store with an odd name' "fault: $shown: the folder can't be used: $none" script --store "$odd"
told 'what is looked at, with an odd name' "fault: $shown: the image can't be read: $none" inspect "$odd"
told 'a history with an odd name' "fault: $shown: $none" serve --port 1 --history "$odd"
told 'an image with a plain name' "fault: é \\u{7f} \"x\": the image can't be read: $none" script --image 'é \u{7f} "x"'
told 'a save to an odd name' "fault: no\\nsuch/\\u{1b}[1m\\\\u{7f}\\u{9b}é: the image can't be written: $none" script

# ---- Closed streams: what is meant for them goes into no file and no socket that is opened later.
printf 'createtable t\n' | "$program" script --store shut 2>err >&-
fails 'a closed output beside a store' $? "the output can't be written: $bad"
printf 'createtable t\n' | "$program" script --store shut --quiet >out 2>&-
[ $? -eq 0 ] && [ ! -s shut/lock ]
count 'nothing that was meant for closed streams is in a store' $?
timeout 10 "$program" serve --socket s --store shut --history heard --accept 1 </dev/null >&- 2>err
[ $? -eq 1 ] && [ ! -s heard ]
count "a server that can't say that it listens, and its history" $?
rm -f s
"$program" serve --socket s --store shut --log <&- >/dev/null 2>&- &
server=$!
for _ in $(seq 100); do [ -S s ] && break || sleep 0.1; done
printf 'insert t a f q \\e v 1\n' | "$program" shell --socket s --user root >out 2>err &&
    "$program" shell --socket s --user root </dev/null >out 2>err
printf 'bogus\n' | "$program" shell --socket s --user root --explain >out 2>&-
[ $? -eq 0 ] && [ "$(cat out)" = 'line fault' ]
count 'a shell with a closed standard error' $?
# a shell names none of the lines that only a script has: not as what is meant, nor in its lists
printf 'lod f\nsplitsiz t r 5\ninstal t 0\nsplit t\nbogus\n' | "$program" shell --socket s --user root --explain >out 2>err
[ "$(sed -nE 's/^line ([0-9]).*did you mean (.*)$/\1 \2/p' err)" = $'2 splits?\n4 splits?' ] && [ "$(grep -c 'expected a command, one of createtable ' err)" -eq 3 ] &&
    ! grep -qE '[ ?](as|at|begin|merge|install|splitsize|save|load)( |$)' <(sed 's/.*expected//' err)
count 'a shell suggests lines of a shell alone' $?
"$program" shell --help >out 2>err
grep -q '^  N  ' out && ! grep -qE '^  (MOMENT|KIND|JOB|LIMIT|FILE) ' out && "$program" script --help | grep -q '^  MOMENT '
count "and its help has no words of a script's own lines" $?
printf 'help\nhelp save\n' | "$program" shell --socket s --user root --prompt >out 2>err
[ "$(head -n 1 out)" = 'tabd: lines for a server. What they write is gone when it ends, unless it keeps it in a folder.' ] && [ "$(tail -n 2 out | head -n 1)" = "root>   this line is a script's alone: help lists a shell's" ]
count "and its prompt doesn't say what it can't know" $?
printf 'status t\nhelp\n' | "$program" shell --socket s --user root --prompt 2>err >/dev/full
fails "a shell's prompt to a full device" $? "$full"
printf 'bogus\n' | "$program" shell --socket s --user root 2>err >&-
fails 'a shell with a closed output' $? "the output can't be written: $bad"
kill -9 "$server" && wait "$server" 2>/dev/null
[ "$(printf 'scan t \\0\n' | "$program" script --store shut 2>err)" = "$(printf 'a f q \\e 1 v\nend\n')" ]
count 'what a server with closed streams answered is kept' $?
rm -rf shut s heard

# ---- Want of memory before the first line: status 1, and one line.
cat >failing.c <<'C'
#define _GNU_SOURCE
#include <dlfcn.h>
#include <stdlib.h>
/* The request with the number FAIL_AT gets no memory, and none behind it does. */
static long made;
static int fails(void) {
    const char *at = getenv("FAIL_AT");
    return at && ++made >= atol(at);
}
#define REAL(name) ((__typeof__(name) *)dlsym(RTLD_NEXT, #name))
void *malloc(size_t size) { return fails() ? NULL : REAL(malloc)(size); }
void *realloc(void *old, size_t size) { return fails() ? NULL : REAL(realloc)(old, size); }
C
if ! command -v "${CC:-cc}" >/dev/null; then
    skip 'there is no C compiler, so no request for memory fails'
elif ${CC:-cc} -shared -fPIC -O1 -o failing.so failing.c -ldl 2>err; then
    lacks() { # STATUS-WITH-MEMORY WORD ..
        local at told=0 wanted=$1
        shift
        for at in $(seq 1 400); do
            LD_PRELOAD=$work/failing.so FAIL_AT=$at "$program" "$@" >out 2>err </dev/null
            case $?,$(cat err) in
            "1,fault: there is no memory") [ ! -s out ] && told=$((told + 1)) ;;
            "$wanted,"*) break ;;
            *) break ;;
            esac
        done
        [ "$told" -eq $((at - 1)) ] && [ "$told" -gt 0 ]
        count "want of memory at the start of tabd $*" $?
    }
    lacks 0 script
    lacks 0 script --explain
    lacks 0 --version
    lacks 2 nonsense
else
    count 'the library that lets requests for memory fail' 1
fi

# ---- Prompts: who asks, help, and behind each line fault why.
begins='tabd: a sorted store in memory. What it holds is gone at the end, unless you save it.
help lists the lines, help LINE tells what one does, quit ends.
'
prompted() { # NAME INPUT OUTPUT ERRORS
    printf "$2" | "$program" script --prompt >out 2>err
    [ "${PIPESTATUS[1]}" -eq 0 ] && [ "$(cat out)" = "$begins$(printf "$3")" ] && [ "$(cat err)" = "$4" ]
    count "prompts: $1" $?
}
prompted 'no line' '' 'root> \n' ''
prompted 'a reply behind each prompt' 'createtable t\nscan t \\0\n' 'root> ok\nroot> end\nroot> \n' ''
prompted 'who asks' 'as bob\n\n# nothing\nscan t \\0' 'root> bob> bob> bob> refused 1 UnknownUser bob\nbob> \n' ''
prompted 'help for a line' 'help next\n help  close \n' \
    'root> Shows the next cells of a session.\n  next SESSION COUNT\n  SESSION            the number that an open gave: a whole number of 32 bits without a sign, as 0\n  COUNT              how many cells: a whole number of 32 bits without a sign, as 100\nroot> Closes a session.\n  close SESSION\n  SESSION            the number that an open gave: a whole number of 32 bits without a sign, as 0\nroot> \n' ''
prompted 'help for a line of one word' 'help rotate\n' 'root> Hands out the history so far, and begins a new one.\n  rotate\nroot> \n' ''
prompted 'help for lines of the prompt itself' 'help quit\nhelp exit\nhelp help\n? ?\n' \
    'root> Ends. So does exit.\n  quit\nroot> Ends. So does exit.\n  quit\nroot> Lists the lines, or tells what one does. So does ?.\n  help [LINE]\nroot> Lists the lines, or tells what one does. So does ?.\n  help [LINE]\nroot> \n' ''
prompted 'a byte 3 drops what was typed' 'createtable t\ninsert t r\003scan t \\0\n\003\003status "u\003\n' 'root> ok\nroot> \nroot> end\nroot> \nroot> \nroot> \nroot> root> \n' ''
prompted 'exit' 'createtable t\nexit\nbogus\n' 'root> ok\nroot> ' ''
prompted 'quit' 'createtable t\nquit\nbogus\n' 'root> ok\nroot> ' ''
prompted 'a question mark' '? rotate\n' 'root> Hands out the history so far, and begins a new one.\n  rotate\nroot> \n' ''
prompted 'a near word' 'creattable t\n' 'root> line fault\nroot> \n' 'line 1: word 1, "creattable": expected a command: did you mean createtable?'
prompted 'help for what is no line' 'help bogus\n' 'root>   there is no such line: help lists them\nroot> \n' ''
prompted 'a line fault' 'next 0\n' 'root> line fault\nroot> \n' \
    'line 1: word 3 is missing: expected COUNT (how many cells: a whole number of 32 bits without a sign, as 100)'
# words in quotes and in UTF-8: a script without prompts tells which lines were sent
prompted 'words in quotes and in UTF-8' 'createtable patients\ninsert patients "Ann Müller" record room "" "Zimmer 12"\nscan "patients" "\\0" "[Ann Müller" \\0\n' \
    'root> ok\nroot> ok\nroot> Ann\\x20M\\xc3\\xbcller record room \\e 0 Zimmer\\x2012\nend\nroot> \n' ''
prompted 'quotes inside of words' 'createtable t\nsetauths root "\\xc3\\x84 x,A"\ninsert t r "" 5" A|"x" say:"hi"\ninsert t r "" s "\\"\xc3\x84 x\\"|A" "\\\\ \\x5c \\"\x01\\""\nscan t "A,\xc3\x84 x"\n' \
    'root> ok\nroot> ok\nroot> ok\nroot> ok\nroot> r \\e 5" A|"x" 0 say:"hi"\nr \\e s "\\xc3\\x84\\x20x"|A 0 \\\\\\x20\\\\\\x20"\\x01"\nend\nroot> \n' ''
prompted 'an open quote' 'createtable t\ninsert t r f q "" "x\nscan t \\0\n' 'root> ok\nroot> root> end\nroot> \n' "line 2: a quote isn't closed; nothing was sent"
prompted 'bytes behind a closing quote' 'createtable t\ninsert t r f q "a\\x20b"|c x\nscan t \\0\n' 'root> ok\nroot> root> end\nroot> \n' \
    'line 2: behind the quote that closes a word stands a space; a quote inside of quotes is written \"; nothing was sent'
prompted 'an escape that is none' 'createtable t\ninsert t r f q "" "a\\ b"\nscan t \\0\n' 'root> ok\nroot> root> end\nroot> \n' \
    'line 2: in quotes a backslash stands before a quote, another backslash, or an escape as \x2c; nothing was sent'
prompted 'quotes of a comment' '# "open\nas "root"\nhelp "rotate"\n"quit"\nbogus\n' 'root> root> root> Hands out the history so far, and begins a new one.\n  rotate\nroot> ' ''
# what is kept is told so; and what can't be said, or isn't sent, has its status
printf 'createtable t\n' | "$program" script --store said --prompt >out 2>err
[ "$(head -n 1 out)" = 'tabd: a sorted store, kept in a folder. What was answered is there at the next start.' ] && [ "$(tail -n 2 out)" = $'root> ok\nroot> ' ]
count 'prompts: over a folder' $?
for input in '' 'help\n' 'help quit\nquit\n' 'createtable t\n' 'insert "t\n'; do
    printf "$input" | "$program" script --prompt 2>err >/dev/full
    fails "prompts to a full device, '$input'" $? "$full"
    printf "$input" | "$program" script --prompt 2>err >&-
    fails "prompts to a closed output, '$input'" $? "the output can't be written: $bad"
done
printf 'createtable t\n' | "$program" script --store said --prompt 2>err >/dev/full
fails 'prompts over a folder, to a full device' $? "$full"
strict() { # NAME INPUT OUTPUT ERRORS
    printf "$2" | "$program" script --prompt --strict >out 2>err
    [ "${PIPESTATUS[1]}" -eq 3 ] && [ "$(cat out)" = "$begins$(printf "$3")" ] && [ "$(cat err)" = "$4" ]
    count "prompts: $1" $?
}
strict 'a strict run stops at a line that is not sent' 'createtable t\nhelp rotate\ninsert t r f q "" "x\ndroptable t\n' \
    'root> ok\nroot> Hands out the history so far, and begins a new one.\n  rotate\nroot> ' "line 3: a quote isn't closed; nothing was sent"
strict 'a strict run counts the lines as they are typed' 'help rotate\nscan u \\0\ndroptable t\n' \
    'root> Hands out the history so far, and begins a new one.\n  rotate\nroot> refused 2 NoTable u\n' 'line 2: refused 2 NoTable u'
strict 'a strict run says why a line is a fault' '\nas\ndroptable t\n' 'root> root> line fault\n' $'line 2: word 2 is missing: expected U (a user\'s name: 1 to 128 of a-z A-Z 0-9 _ - .)\nline 2: line fault'
# without prompts quotes are bytes, and bytes that aren't ASCII a line fault
printf 'createtable t\ninsert t "r f q \\e "v"\ninsert t "r f" "q q" \\e v\ninsert t M\xc3\xbc f q \\e v\nscan t \\0\n' | "$program" script >out 2>err
[ "$(cat out)" = $'ok\nok\nline fault\nline fault\n"r f q \\e 0 "v"\nend' ] && [ ! -s err ]
count 'without prompts a quote is a byte' $?
printf 'help\n' | "$program" script --prompt >out 2>err
[ "$(sed 's/^root> //' out | awk '/^  / {print $1}' | sort -u)" = "$({ echo quit; sed -n '/^| Line | Does |/,/^$/p' "$top/docs/SCRIPT.md" | grep -oE '`[a-z]+ [A-Z]|^\| `[a-z]+` \|' | tr -d '`|' | awk '{print $1}' | grep -vx 'put\|del'; echo help; } | sort -u)" ]
count 'prompts: help lists all lines' $?

# ---- Why a line is a fault: a line of a script, and behind the tab what is said of it.
name="name: 1 to 128 of a-z A-Z 0-9 _ - ."
byte_word='a byte word: ! to ~ as they are but \\ for \, \xHH (H of 0-9 a-f) for any byte, \e for none'
number='a whole number of 64 bits with its sign, as 7 or -7'
versions='VERSIONS (versions=N with N from 1 to 1000)'
many='how many versions of a column are shown: a whole number from 1 to 1000'
commands='a command, one of as at createtable droptable createuser dropuser setauths grant revoke rights constraints versions horizon insert delete mutate scan open next many close flush compact begin merge install status addsplit splitsize splits save load rotate'
system='SYSTEM_PERMISSION (GRANT, CREATE_TABLE, DROP_TABLE, ALTER_TABLE, CREATE_USER, DROP_USER, ALTER_USER or SYSTEM)'
high='[ and a byte word (up to this row), ( and a byte word (before it), or \0 for no bound'
session='SESSION (the number that an open gave: a whole number of 32 bits without a sign, as 0)'
job='JOB (the number that a begin gave: a whole number of 64 bits without a sign, as 0)'
bound='[ and a byte word (from this row on), ( and a byte word (behind it), or \0 for no bound'
sixty=$(printf 'x%.0s' $(seq 60))
cat >table <<E
# a comment, and an empty line
	
bogus	word 1, "bogus": expected $commands
 # spaces before it	word 1, "#": expected $commands
As u	word 1, "As": expected a command: did you mean as?
creattable t	word 1, "creattable": expected a command: did you mean createtable?
grnat u READ t	word 1, "grnat": expected a command: did you mean grant?
${sixty}yz	word 1, "$sixty..": expected $commands
as	word 2 is missing: expected U (a user's $name)
as u v	word 3, "v": expected the end of the line
as  u!  	word 2, "u!": expected U (a user's $name)
at +7	word 2, "+7": expected MOMENT ($number)
createtable t x	word 3, "x": expected TIME (time=any or time=server) or $versions or the end of the line
createtable t time=any x	word 4, "x": expected $versions or the end of the line
createtable t versions=1 x	word 4, "x": expected the end of the line
droptable	word 2 is missing: expected T (a table's $name)
setauths u a,,b	word 3, "a,,b": expected AUTHS (byte words with commas between them, or \\0 for none)
grant u READ	word 4 is missing: expected T (a table's $name)
grant u FOO	word 3, "FOO": expected $system or TABLE_PERMISSION (READ, WRITE, ALTER_TABLE, GRANT or DROP_TABLE)
revoke u SYSTEM t	word 4, "t": expected the end of the line
rights t	
constraints t foo	word 3, "foo": expected RULES (keysize, alphanum, numeric, visibility: some with commas between them, or \\0 for none)
versions t	word 3 is missing: expected N ($many)
versions t 0	word 3, "0": expected N ($many)
versions t 1001	word 3, "1001": expected N ($many)
versions t versions=1	word 3, "versions=1": expected N ($many)
versions t 1 2	word 4, "2": expected the end of the line
versions t 1	
horizon	word 2 is missing: expected T (a table's $name)
horizon t	word 3 is missing: expected TS (a timestamp: $number)
horizon t -0	word 3, "-0": expected TS (a timestamp: $number)
horizon t 1 2	word 4, "2": expected the end of the line
horizon t -1	
insert t r f q secret	word 7 is missing: expected VALUE ($byte_word)
insert t r f q \\e v x	word 8, "x": expected TS (a timestamp: $number) or the end of the line
insert t é f q \\e v	word 3, "\\xc3\\xa9": expected ROW ($byte_word)
delete t r f q	word 6 is missing: expected LABEL ($byte_word)
mutate t r add	word 4, "add": expected UPDATE (put or del, and the words behind it)
mutate t r put f q \\e v - del	word 10, "del": expected ; (between two updates) or the end of the line
mutate t r put f q \\e ; 1 ; del f q x	word 15 is missing: expected STAMP (a timestamp, or - for none)
scan t \\0 r	word 4, "r": expected LOW ($bound) or the end of the line
open t	word 3 is missing: expected AUTHS (byte words with commas between them, or \\0 for none)
next 0	word 3 is missing: expected COUNT (how many cells: a whole number of 32 bits without a sign, as 100)
next -1 1	word 2, "-1": expected $session
many 0	
many 0 [a	word 4 is missing: expected HIGH ($high)
many 0 [a [b x	word 5, "x": expected LOW ($bound) or the end of the line
close 4294967296	word 2, "4294967296": expected $session
close 4294967295	
flush t	
compact t	word 3 is missing: expected EXTENT (partial or full)
compact t all	word 3, "all": expected EXTENT (partial or full)
compact t full x	word 4, "x": expected the end of the line
begin t r	word 4 is missing: expected KIND (minor, partial or full)
begin t r all	word 4, "all": expected KIND (minor, partial or full)
begin t r full x	word 5, "x": expected the end of the line
begin t r minor	
merge	word 2 is missing: expected $job
merge -1	word 2, "-1": expected $job
merge 18446744073709551616	word 2, "18446744073709551616": expected $job
merge 18446744073709551615	
install t	word 3 is missing: expected $job
install t r 0	word 3, "r": expected $job
install t 0 x	word 4, "x": expected the end of the line
install t 0	
status t x	word 3, "x": expected the end of the line
rotate x	word 2, "x": expected the end of the line
rotate	
scan t \\0 \\0 \\0 f:	word 6, "f:": expected COLS (FAM or FAM:QUAL, with commas between them, or \\0 for all) or the end of the line
E
cut -f1 table >script
grep -n '	.' table | sed -E 's/^([0-9]+):[^	]*	/line \1: /' >wanted
"$program" script --explain <script >out 2>err
[ $? -eq 0 ] && diff wanted err
count 'each line fault is explained, and nothing else' $?
"$program" script <script >plain 2>err
[ $? -eq 0 ] && [ ! -s err ] && cmp plain out
count 'the replies are the same without explanations' $?
"$program" script --explain <script 2>/dev/full | cmp plain
count 'the replies are the same where explanations can not be written' $?
printf '\xef\xbb\xbfas u\nas u\r\n\r\n#\r\nas \\' | "$program" script --explain >out 2>err
printf '%s\n' 'line 1: word 1, "\xef\xbb\xbfas": expected no byte order mark (\xef\xbb\xbf) at the beginning' \
    'line 2: word 2, "u\x0d": expected no carriage return (\x0d) at the end of the line' \
    'line 3: word 1, "\x0d": expected no carriage return (\x0d) at the end of the line' \
    "line 5: word 2, \"\\\": expected U (a user's $name)" | diff - err
count 'a byte order mark, carriage returns, and a last line without a line feed' $?
{ head -c 200000 /dev/zero | tr '\0' x && printf '\nas\n'; } | "$program" script --explain >out 2>err
printf '%s\n' "line 1: word 1, \"$sixty..\": expected $commands" "line 2: word 2 is missing: expected U (a user's $name)" | diff - err
count 'a line of several blocks is explained once' $?

# ---- Strict and quiet runs.
watched() { # NAME INPUT STATUS OUTPUT ERRORS WORD ..
    local name=$1 input=$2 status=$3 output=$4 errors=$5
    shift 5
    printf "$input" | "$program" script "$@" >out 2>err
    [ "${PIPESTATUS[1]},$(cat out)" = "$status,$(printf "$output")" ] && [ "$(cat err)" = "$(printf "$errors")" ]
    count "$name" $?
}
lines='# made\ncreatetable t time=any\ninsert t refused 6 Cell \\e v 5\nsplits u\n\nbogus\nload no-such-file\naddsplit t ok\nsplits t\nscan t \\0'
cell='refused 6 Cell \\e 5 v'
watched 'a strict run stops at the first refusal' "$lines" 3 'ok\nok\nrefused 2 NoTable u\n' 'line 4: refused 2 NoTable u\n' --strict
watched 'a strict run stops at a line fault, and says why it is one' 'createtable t\ncreattable t\ndroptable t\n' 3 'ok\nline fault\n' \
    'line 2: word 1, "creattable": expected a command: did you mean createtable?\nline 2: line fault\n' --strict
unread="fault: no-such-file: the image can't be read: $none\n"
watched 'a strict run stops at the fault of a file' 'createtable t\nload no-such-file\ndroptable t\n' 3 'ok\nfault load io\n' "${unread}line 2: fault load io\n" --strict
watched 'a load that is not read says why' 'load no-such-file\nload .\n' 0 'fault load io\nfault load io\n' \
    "${unread}fault: .: the image can't be read: Is a directory (os error 21)\n"
watched 'a strict run in which nothing is refused' "createtable t time=any\ninsert t refused 6 Cell \\\\e v 5\nscan t \\\\0" 0 "ok\nok\n$cell\nend\n" '' --strict
watched 'a strict run says why a line is a fault' 'as\n' 3 'line fault\n' "line 1: word 2 is missing: expected U (a user's $name)\nline 1: line fault\n" --strict --explain
watched 'a quiet run' "$lines" 0 "refused 2 NoTable u\nline fault\nfault load io\nok\nend\n$cell\nend\n" "${unread}3 ok, 1 refused, 2 faults\n" --quiet
watched 'a quiet and strict run' "$lines" 3 'refused 2 NoTable u\n' '2 ok, 1 refused, 0 faults\nline 4: refused 2 NoTable u\n' --quiet --strict
watched 'a quiet run of one of each' 'createtable t\nscan u \\0\nbogus\n' 0 'refused 2 NoTable u\nline fault\n' '1 ok, 1 refused, 1 fault\n' --quiet
watched 'a quiet run of no line' '' 0 '' '0 ok, 0 refused, 0 faults\n' --quiet
{ echo 'createtable t' && seq 40000 | sed 's/.*/insert t row& f q \\e value/' && printf 'scan t \\0\nscan u \\0\ndroptable t\n'; } >long
"$program" script --strict --quiet <long >out 2>err
[ $? -eq 3 ] && [ "$(wc -l <out)" -eq 40002 ] && [ "$(tail -n 1 out)" = 'refused 2 NoTable u' ] && [ "$(cat err)" = "$(printf '40001 ok, 1 refused, 0 faults\nline 40003: refused 2 NoTable u')" ]
count 'a strict run past blocks' $?
head -n 40002 long | "$program" script --strict | cmp - <(head -n 40002 long | "$program" script)
count 'a strict run prints what a script prints' $?

# ---- Each reply comes before more input is awaited, and an explanation with it.
pairs=('createtable t=ok' 'insert t r f q \e v 5=ok' 'bogus=line fault' 'scan u \0=refused 2 NoTable u' 'scan t \0=r f q \e 5 v')
coproc TABD { exec "$program" script --explain 2>err; }
told=0
for pair in "${pairs[@]}"; do
    printf '%s\n' "${pair%=*}" >&"${TABD[1]}"
    read -r -t 10 reply <&"${TABD[0]}" && [ "$reply" = "${pair##*=}" ] && told=$((told + 1))
    [ "$reply" != 'line fault' ] || grep -q '^line 3: word 1, "bogus"' err || told=0
done
[ "$told" -eq "${#pairs[@]}" ]
count 'piped replies come before more input' $?
id=$TABD_PID
eval "exec ${TABD[1]}>&-"
wait "$id"
count 'the end of the input ends it' $?
if ! command -v python3 >/dev/null; then skip 'there is no python3, so nothing is typed'; else
    timeout 60 python3 - "$program" "${pairs[@]}" <<'P'
import os, pty, select, sys
child, terminal = pty.fork()
if child == 0:
    os.execv(sys.argv[1], ["tabd", "script"])
seen = b""
def waits_for(text):
    global seen
    while text not in seen:
        if not select.select([terminal], [], [], 10)[0]:
            sys.exit(f"nothing came behind {seen!r}")
        seen += os.read(terminal, 4096)
    seen = seen.split(text, 1)[1]
for pair in sys.argv[2:]:
    line, reply = pair.rsplit("=", 1)
    os.write(terminal, line.encode() + b"\n")
    waits_for(line.encode() + b"\r\n")
    waits_for(reply.encode() + b"\r\n")
os.write(terminal, b"\x04")
sys.exit(os.waitstatus_to_exitcode(os.waitpid(child, 0)[1]))
P
    count 'typed replies come before more input, and the end of typing ends it' $?
    # at a terminal the cells of a scan stand in columns
    timeout 60 python3 - "$program" <<'P' >out
import os, pty, sys
child, terminal = pty.fork()
if child == 0:
    os.execv(sys.argv[1], ["tabd", "script", "--prompt"])
os.write(terminal, b"createtable t time=any\ninsert t row-of-some-length f q \\e v 5\ninsert t r f q \\e v 1234\nscan t \\0\nquit\n")
seen = b""
try:
    while piece := os.read(terminal, 4096):
        seen += piece
except OSError:
    pass
print(seen.decode().replace("\r", ""))
P
    grep -qx '\(root> \)\?r                   f  q  \\e  1234  v' out && grep -qx 'row-of-some-length  f  q  \\e  5     v' out
    count 'at a terminal cells stand in columns' $?
    # and words as they would be typed, in columns as wide as they are drawn; what controls a terminal isn't shown
    timeout 60 python3 - "$program" <<'P' >out
import os, pty, sys
child, terminal = pty.fork()
if child == 0:
    os.execv(sys.argv[1], ["tabd", "script", "--prompt"])
values = ['"Zimmer 12"', 'd\\xc3\\xa9j\\xc3\\xa0', '\\xe6\\xb0\\xb4\\x20x', '\\x1b[31mred', 'a\\xffb', 'ab\\xe2\\x80\\xae', '"\\"5"', 'x\\xc2\\x9b\\xc2\\xa0', '\\x00']
lines = ["createtable t time=any", *(f'insert t "Ann Müller {at}" f "水" "" {value} 5' for at, value in enumerate(values)), 'insert t r f q "" v 5', 'scan t \\0', "quit"]
os.write(terminal, "".join(line + "\n" for line in lines).encode())
seen = b""
try:
    while piece := os.read(terminal, 4096):
        seen += piece
except OSError:
    pass
print(seen.decode().replace("\r", "").split("> \"Ann", 1)[-1])
shown = ['"Zimmer 12"', "déjà", '"水 x"', '\\x1b[31mred', 'a\\xffb', 'ab\\xe2\\x80\\xae', '"\\"5"', 'x\\xc2\\x9b\\xc2\\xa0', '\\x00']
rows = [f'"Ann Müller {at}"  f  水  \\e  5  {value}' for at, value in enumerate(shown)] + ["r               f  q   \\e  5  v"]
told = seen.decode().replace("\r", "")
sys.exit(not all(f"{row}\n" in told for row in rows) or "\x1b" in told.split("insert t r f q", 1)[1])
P
    count 'at a terminal words are shown as they would be typed' $?
    # a scan of many blocks: of small cells, and of cells of which a block holds few
    for shape in '5000 1' '40 30000'; do
        timeout 60 python3 - "$program" $shape <<'P'
import os, pty, re, sys, tempfile
cells, spaces = int(sys.argv[2]), int(sys.argv[3])
value = "a" + spaces * "\\x20" + "b"
lines = ["createtable t time=any", *(f"insert t r{at:06} f q \\e {value} 5" for at in range(cells)), "scan t \\0"]
with tempfile.TemporaryDirectory() as room:
    os.chdir(room)
    with open("lines", "w") as file:
        file.write("".join(line + "\n" for line in lines))
    child, terminal = pty.fork()
    if child == 0:
        os.dup2(os.open("lines", os.O_RDONLY), 0)
        os.execv(sys.argv[1], ["tabd", "script", "--prompt"])
    seen = b""
    try:
        while piece := os.read(terminal, 65536):
            seen += piece
    except OSError:
        pass
found = re.findall(r'^(?:root> )?(r[0-9]{6})  f  q  \\e  5  (.*)$', seen.decode().replace("\r", ""), re.M)
sys.exit(found != [(f"r{at:06}", '"a' + spaces * " " + 'b"') for at in range(cells)])
P
        count "at a terminal a long scan is shown alike throughout ($shape)" $?
    done
fi

echo "$passed passed, $failed failed$([ "$skipped" -eq 0 ] || echo ", $skipped skipped")"
[ "$failed" -eq 0 ]
