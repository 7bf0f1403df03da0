#!/usr/bin/env bash
# Which program the launcher `tabd` takes, when it builds, what it says and what it leaves alone. It runs over a small checkout with a
# stand-in for build.sh and for `rt`, so that nothing is proved here.
# Usage: tests/launcher.sh   (from anywhere; TABD names the program whose lines are typed)
set -u
top=$(cd "$(dirname -- "${BASH_SOURCE[0]}")/.." && pwd)
work=$(mktemp -d) || exit 1
trap 'rm -rf "$work"' EXIT
here=$work/checkout caller=$work/caller bin=$work/bin
mkdir -p "$here/release" "$caller" "$bin"
cp "$top/tabd" "$here/"
cp "$top/release/program" "$top/release/sources" "$here/release/"
printf 'low:\nother:\ntabd: low std\n' >"$here/crates.txt"
for crate in low other tabd; do
    mkdir -p "$here/crates/$crate/src" "$here/crates/$crate/specs"
    echo "// $crate" >"$here/crates/$crate/src/lib.rt"
done
export CALLS=$work/calls SOURCE=$here/crates/low/src/lib.rt HOME=$work/home
unset XDG_CACHE_HOME
# A program that says what it is, and as clap does refuses a word that it doesn't know, and answers --help.
program_of() { # NAME
    cat <<STAND_IN
#!/bin/sh
case " \$* " in *' nonsense '*) exit 2 ;; *' --help '*|*' --version '*) echo "$1 helps"; exit 0 ;; esac
echo "$1 in \$PWD with \$*"
exit 7
STAND_IN
}
# Each build is counted, and makes a program that tells of which source it is.
cat >"$here/build.sh" <<STAND_IN
#!/usr/bin/env bash
echo build >>"\$CALLS"
echo 'not proved' >"\$1"
[ "\${STAND_IN:-}" != fails ] || exit 1
[ "\${STAND_IN:-}" != slow ] || until [ -e "$work/go" ]; do sleep 0.05; done
cd "$here/crates/tabd/out" && cat >tabd <"$work/built" && chmod +x tabd
[ "\${STAND_IN:-}" != edits ] || echo '// saved meanwhile' >>"\$SOURCE"
STAND_IN
program_of built >"$work/built"
program_of released >"$work/released"
printf '#!/bin/sh\nexit 1\n' >"$bin/rt"
chmod +x "$here/build.sh" "$bin/rt"
passed=0 failed=0

count() { # NAME, with the status of the test that went before
    if [ "$2" -eq 0 ]; then passed=$((passed + 1)); else
        failed=$((failed + 1))
        echo "FAILED: $1"
        cat "$work/out" "$work/err"
    fi
}

# Starts the launcher in the caller's folder; its status goes to $status, and how often it built to $builds.
start() { # WORD ..
    : >"$CALLS"
    (cd "$caller" && PATH=$bin:$PATH "$here/tabd" "$@") >"$work/out" 2>"$work/err" </dev/null
    status=$?
    builds=$(grep -c build "$CALLS")
}

first="proved and built first, some 101 minutes from nothing"
# Whether nothing was said, but where it was built that it is.
is_quiet() {
    if [ "${builds:-0}" -eq 0 ]; then [ ! -s "$work/err" ]; else [ "$(wc -l <"$work/err")" -eq 1 ] && grep -q "^note: .*$first" "$work/err"; fi
}

ran() { # PROGRAM   whether it ran, with its words and its status passed through
    [ "$status" -eq 7 ] && [ "$(cat "$work/out")" = "$1 in $caller with one two words" ] && is_quiet
}

edit() {
    echo '// changed' >>"$SOURCE"
}

# ---- Without a release.
start one 'two words'
ran built && [ "$builds" -eq 1 ]
count 'the first start builds' $?
[ "$(cat "$work/err")" = "note: these sources aren't the release's, so they are $first" ]
count 'and says at once what that takes' $?
[ -z "$(ls -A "$caller")" ]
count "nothing is left in the caller's folder" $?
start one 'two words'
ran built && [ "$builds" -eq 0 ]
count 'where nothing changed, nothing is built' $?
edit
start one 'two words'
ran built && [ "$builds" -eq 1 ]
count 'a source that changed leads to a build' $?
echo '// changed' >>"$here/crates/other/src/lib.rt"
start one 'two words'
ran built && [ "$builds" -eq 0 ]
count 'a source on which the program does not stand leads to none' $?
touch "$SOURCE" && ln "$SOURCE" "$work/link" && start one 'two words' && ran built && [ "$builds" -eq 0 ]
ran built && [ "$builds" -eq 0 ]
count 'a source that was touched and linked leads to none' $?
cp -R "$here" "$work/copy" && (cd "$caller" && : >"$CALLS" && PATH=$bin:$PATH "$work/copy/tabd" one 'two words') >"$work/out" 2>"$work/err" </dev/null
status=$? && ran built && [ ! -s "$CALLS" ]
count 'a copy of a checkout is as good' $?
cp "$SOURCE" "$work/kept" && rm "$SOURCE"
start one 'two words'
ran built && [ "$builds" -eq 1 ]
count 'a source that was deleted leads to a build' $?
touch -d '2001-01-01' "$work/kept" && cp -p "$work/kept" "$SOURCE"
start one 'two words'
ran built && [ "$builds" -eq 1 ]
count 'a source put back with an old date leads to a build' $?
edit
STAND_IN=edits start one 'two words'
start one 'two words'
ran built && [ "$builds" -eq 1 ]
count 'an edit saved while a build runs leads to another build' $?
echo '# more' >>"$here/crates/tabd/out/tabd"
start one 'two words'
ran built && [ "$builds" -eq 1 ]
count 'a program that was changed by hand is built anew' $?
edit
STAND_IN=fails start one
[ "$status" -eq 1 ] && grep -q '^not proved$' "$work/err" && grep -q '^fault: the program could not be built; the whole log is /' "$work/err"
count 'a failed build shows the end of its log' $?
for words in --help --version 'script --help' nonsense 'script nonsense' serve 'shell --port 1'; do
    # shellcheck disable=SC2086
    STAND_IN=fails start $words
    [ "$builds" -eq 0 ] && [ "$status" -ne 1 ]
    count "\`$words\` is answered without a build" $?
done
for words in 'serve --socket s' 'shell --socket s --user u' 'shell --user u --port 1'; do
    # shellcheck disable=SC2086
    STAND_IN=fails start $words
    [ "$builds" -eq 1 ] && [ "$status" -eq 1 ]
    count "\`$words\` is answered by no program of other sources" $?
done
start one 'two words'
ran built && [ "$builds" -eq 1 ]
count 'what failed is built at the next start' $?
edit
: >"$CALLS"
(cd "$caller" && STAND_IN=slow PATH=$bin:$PATH "$here/tabd" first >"$work/first" 2>&1 </dev/null) &
for _ in $(seq 400); do [ ! -s "$CALLS" ] || break; sleep 0.05; done
(for _ in $(seq 400); do ! grep -q waiting "$work/err" || break; sleep 0.05; done; : >"$work/go") 2>/dev/null &
start one 'two words'
wait
[ "$status" -eq 7 ] && [ "$builds" -eq 0 ] && [ "$(tail -n +2 "$work/err")" = 'tabd: waiting for another build of this checkout' ] && grep -q 'with first$' "$work/first"
count 'a second start says that it waits, and finds all built' $?

# ---- With a release.
release() { # DIGEST
    gzip -9nc "$work/released" >"$here/release/tabd.gz"
    printf 'version: 1\nsources: %s\nprogram: %s\n' "$1" "$(sha256sum <"$work/released" | cut -d ' ' -f 1)" >"$here/release/release.txt"
}
release "$("$here/release/sources")"
start one 'two words'
ran built && [ "$builds" -eq 0 ]
count 'what was built here of these sources goes before the release' $?
rm -rf "$here/crates/tabd/out"
start one 'two words'
ran released && [ "$builds" -eq 0 ]
count 'a release of these sources is taken without a build' $?
start one 'two words'
ran released && [ "$builds" -eq 0 ]
count 'and again' $?
(cd "$caller" && PATH=/usr/bin:/bin "$here/tabd" one 'two words') >"$work/out" 2>"$work/err" </dev/null
status=$? && ran released
count 'it needs no kit' $?
rm -rf "$here/crates/tabd/out" && : >"$here/crates/tabd/out"
start one 'two words'
ran released && [ "$builds" -eq 0 ] && [ -x "$HOME"/.cache/tabd/*/tabd ]
count "a checkout that can't be written has it in the user's cache" $?
rm "$here/crates/tabd/out"

# ---- A checkout of root's, which others run and can't write.
skipped=0
skip() { # WHAT WHY
    skipped=$((skipped + 1))
    echo "skipped: $1 ($2)"
}
if [ "$(id -u)" -ne 0 ] || ! command -v setpriv >/dev/null; then
    skip 'a checkout that others run' 'only root can have them run it'
else
    temporary=$work/temporary home=$work/home-of-one sum=$(sed -n 's/^program: //p' "$here/release/release.txt")
    chmod 755 "$work" && chmod -R go+rX "$here" "$caller" "$bin" && mkdir -m 1777 "$temporary" && mkdir -m 700 "$home" && chown 65533 "$home"
    builds=0
    run_as() { # USER VARIABLE=VALUE ..   the launcher as this user, without a kit
        (cd "$caller" && exec setpriv --reuid="$1" --regid="$1" --clear-groups env -u HOME PATH=/usr/bin:/bin TMPDIR="$temporary" "${@:2}" "$here/tabd" one 'two words') \
            >"$work/out" 2>"$work/err" </dev/null
        status=$?
    }
    is_kept() { # USER FOLDER   whether it is unpacked there, where nobody but the user may look
        [ "$(stat -c '%u %a' "$2/tabd" "$2/tabd/$sum")" = "$1 700"$'\n'"$1 700" ] && [ -x "$2/tabd/$sum/tabd" ] && [ ! -e "$here/crates/tabd/out" ]
    }
    run_as 65533 HOME="$home"
    ran released && is_kept 65533 "$home/.cache"
    count "who can't write the checkout has the release in a folder of their own" $?
    echo '# more' >>"$home/.cache/tabd/$sum/tabd"
    run_as 65533 HOME="$home"
    ran released && [ "$(sha256sum <"$home/.cache/tabd/$sum/tabd")" = "$sum  -" ]
    count 'where it is compared each time' $?
    run_as 65533 XDG_CACHE_HOME="$home/other caches"
    ran released && is_kept 65533 "$home/other caches"
    count 'or where XDG_CACHE_HOME says' $?
    run_as 65533
    ran released && is_kept 65533 "$temporary/tabd-65533"
    count 'without a HOME it is in one beside the temporary files' $?
    run_as 65534 HOME="$home"
    ran released && is_kept 65534 "$temporary/tabd-65534"
    count "and with a HOME of another user's" $?
    # what another user made first could be changed by them
    for made in 'mkdir -m 777' 'ln -s .'; do
        rm -rf "$temporary"/tabd-65534
        # shellcheck disable=SC2086
        setpriv --reuid=65533 --regid=65533 --clear-groups $made "$temporary/tabd-65534"
        run_as 65534
        [ "$status" -eq 1 ] && [ "$(wc -l <"$work/err")" -eq 1 ] && [ ! -s "$work/out" ] &&
            grep -q "^fault: the release can't be unpacked: $here/crates/tabd/out can't be written; $temporary/tabd-65534/tabd/$sum isn't this user's alone$" "$work/err"
        count "nothing is taken from a folder that another user made ($made)" $?
    done
    run_as 65534 HOME="$home" TMPDIR=/proc/1
    [ "$status" -eq 1 ] && [ "$(wc -l <"$work/err")" -eq 1 ] &&
        grep -q "^fault: the release can't be unpacked: $here/crates/tabd/out can't be written; .*$home.*: Permission denied; .*/proc/1/tabd-65534.*: " "$work/err"
    count 'where there is no folder for it, each is named, and why' $?
    run_as 65534 HOME="$home" TMPDIR=/proc/1 PATH="$bin:/usr/bin:/bin"
    [ "$status" -eq 1 ] && [ "$(wc -l <"$work/err")" -eq 1 ] && grep -q "^fault: the release can't be unpacked: " "$work/err"
    count 'also where there is a kit' $?
    if unshare -m true 2>/dev/null; then
        HOME=$home TMPDIR=$temporary PATH=/usr/bin:/bin unshare -m bash -c 'mount --bind -- "$1" "$1" && mount -o remount,bind,ro -- "$1" && cd "$2" && "$1/tabd" one "two words"' - "$here" "$caller" >"$work/out" 2>"$work/err" </dev/null
        status=$?
        ran released && is_kept 0 "$temporary/tabd-0"
        count 'nor does root put anything into a checkout that is mounted to be read' $?
    else
        skip 'a checkout that is mounted to be read' "it can't be mounted"
    fi
fi

gzip -9nc "$work/built" >"$here/release/tabd.gz"
rm -rf "$HOME"
start one
[ "$status" -eq 1 ] && grep -q "^fault: release/tabd.gz isn't what release/release.txt says$" "$work/err"
count "a release that isn't what its digest says is refused" $?
release other
start one 'two words'
ran built && [ "$builds" -eq 1 ]
count 'a release of other sources leads to a build' $?
[ "$(cat "$work/err")" = "note: these sources aren't the release's, so they are $first; \"\$($here/release/program --any)\" in place of ./tabd runs the release" ] &&
    rm -rf "$here/crates/tabd/out" && runs=$(sed 's/.*; \(.*\) in place of .*/\1/' "$work/err") && [ "$(eval "$runs" one)" = "released in $PWD with one" ]
count 'and it says how the release is run all the same' $?
rm -rf "$here/crates/tabd/out"
for words in --help --version nonsense serve; do
    start $words
    [ "$builds" -eq 0 ] && [ "$status" -ne 1 ]
    count "\`$words\` is answered by a release of other sources" $?
done

# ---- What the release's program needs of the machine is told of one that lacks it.
lacking=$work/lacking
mkdir "$lacking"
say() { # COMMAND TEXT   has the command say this
    printf '#!/bin/sh\n[ -n "%s" ] || exit 1\necho "%s"\n' "$2" "$2" >"$lacking/$1"
    chmod +x "$lacking/$1"
}
on_machine() { # WITH   `rt` in front of the path, or no kit
    rm -rf "$HOME" "$here/crates/tabd/out"
    : >"$CALLS"
    (cd "$caller" && PATH=$lacking:$1:/usr/bin:/bin "$here/tabd" one 'two words') >"$work/out" 2>"$work/err" </dev/null
    status=$?
    builds=$(grep -c build "$CALLS")
}
needs() { # TEXT   whether that is told where it lacks, and a program is built where there is the kit
    on_machine /nowhere
    [ "$status" -eq 1 ] && [ "$(cat "$work/err")" = "fault: the release's program needs $1; with the Rattle kit \`./tabd\` builds one for it" ] || return 1
    on_machine "$bin"
    ran built && [ "$builds" -eq 1 ]
}
release "$("$here/release/sources")"
glibc='glibc 2.34 or later (Debian 12, Ubuntu 22.04, RHEL 9), and this machine has'
say getconf 'glibc 2.31' && needs "$glibc glibc 2.31"
count 'an older glibc' $?
say getconf '' && say ldd 'ldd (GNU libc) 2.28' && needs "$glibc ldd (GNU libc) 2.28"
count 'an older glibc, without getconf' $?
say ldd 'musl libc (x86_64)' && needs "$glibc musl libc (x86_64)"
count 'another libc' $?
for libc in 'glibc 2.34' 'glibc 2.100.1' 'glibc 3.0' 'something else'; do
    say getconf "$libc"
    on_machine /nowhere
    ran released
    count "the release is taken on $libc" $?
done
rm "$lacking"/*
printf '#!/bin/sh\ncase "$*" in *cpuinfo*) echo "flags : fpu cx16 lahf_lm popcnt pni ssse3" ;; *) exec %s "$@" ;; esac\n' "$(command -v grep)" >"$lacking/grep"
chmod +x "$lacking/grep" && needs "a processor of x86-64-v2, and this machine's lacks: sse4_1 sse4_2"
count 'an older processor' $?
rm -rf "$lacking" "$here/crates/tabd/out"

# ---- At a terminal lines are asked for, with rlwrap where there is one, and Ctrl-C drops the line that is typed.
if ! command -v python3 >/dev/null; then
    skip 'lines that are typed' 'there is no python3'
else
    printf '#!/bin/sh\necho "built with $*"\ngrep SigIgn /proc/self/status\n' >"$work/built"
    edit
    wrap=$work/wrap && mkdir "$wrap" && printf '#!/bin/sh\necho "edited: $1 $2"\nshift 2\nexec "$@"\n' >"$wrap/rlwrap"
    # all commands but rlwrap
    bare=$work/bare && mkdir "$bare" && ln -s /usr/local/bin/* /usr/bin/* /bin/* "$bare" 2>/dev/null
    rm -f "$bare/rlwrap" "$bare/*" && chmod +x "$wrap/rlwrap"
    # What a terminal shows of the launcher, to $work/out.
    shows() { # PATH COLUMNS [SHOWN TYPED].. -- WORD ..
        local path=$1 at=()
        shift
        while [ "$1" != -- ]; do at+=("$1") && shift; done
        shift
        (cd "$caller" && PATH=$path python3 -B "$top/tests/terminal.py" "${at[@]}" -- "$here/tabd" "$@") >"$work/out" 2>"$work/err" </dev/null
    }
    ignores() { # whether the program has prompts, and no signal of Ctrl-C
        ignored=$(sed -n 's/^SigIgn:[[:space:]]*//p' "$work/out")
        grep -q '^built with script --prompt' "$work/out" && [ $((0x${ignored:-0} & 2)) -ne 0 ]
    }
    edits='note: install rlwrap to edit and recall lines'
    shows "$bin:$bare" 80 -- script && ignores
    count 'at a terminal there are prompts, and Ctrl-C is ignored' $?
    shows "$bin:$bare" 80 -- script && [ "$(grep -cxF "$edits" "$work/out")" -eq 1 ]
    count 'where there is no rlwrap, it is said once what that would do' $?
    shows "$bin:$bare" 80 -- script --help && ! grep -qF "$edits" "$work/out"
    count 'but not to who asks for help' $?
    shows "$wrap:$bin:$bare" 80 -- script && ignores && grep -q '^edited: -C tabd' "$work/out" && ! grep -qF "$edits" "$work/out"
    count 'rlwrap stands between them' $?
    shows "$wrap:$bin:$bare" 0 -- script && ignores && ! grep -q -e '^edited:' -e "$edits" "$work/out"
    count "but at a terminal without a width, which it doesn't take" $?
    shows "$bin:$bare" 80 -- inspect -- -odd
    grep -q '^built with inspect --progress -- -odd' "$work/out"
    count 'behind -- stands what stood there' $?
    # with the program itself
    cat "${TABD:-$("$top/release/program")}" >"$work/built" && edit
    typed=('root>' 'createtable t\n' 'ok\nroot>' 'insert t r' 'insert t r' '\x03' '\nroot>' 'scan t \\0\n' 'end\nroot>' 'quit\n')
    for columns in 80 0; do
        shows "$bin:$bare" "$columns" "${typed[@]}" -- script && grep -qxF 'root> insert t r^C' "$work/out"
        count "Ctrl-C drops the line, and a prompt comes (width $columns)" $?
    done
    (ulimit -c 0 && shows "$bin:$bare" 80 'root>' 'createtable t\n' 'ok\nroot>' '\x1c' -- script)
    [ $? -eq 131 ] && [ "$(tail -n 1 "$work/out")" = 'root> ^\' ]
    count "Ctrl-\ ends the program, and nothing is said of the launcher's lines" $?
    printf 'before=$(stty -g)\n"$@"\necho "status $?"\n[ "$before" = "$(stty -g)" ] && echo same\n' >"$work/around"
    (cd "$caller" && PATH=$bin:$bare python3 -B "$top/tests/terminal.py" 80 'root>' 'bogus\n' 'root>' 'quit\n' -- bash "$work/around" "$here/tabd" script --strict) >"$work/out" 2>&1 </dev/null
    [ "$(tail -n 2 "$work/out")" = $'status 3\nsame' ]
    count 'the terminal is put back at the end, and the status passed through' $?
    if ! command -v rlwrap >/dev/null; then
        skip 'a line that is dropped under rlwrap' 'there is no rlwrap'
    else
        # in the midst of the line, too; and what the keys of whoever types mean stays
        printf '"\\C-t": "status t"\n' >"$work/keys"
        export INPUTRC=$work/keys
        export TMPDIR=$work/temporary && mkdir "$TMPDIR"
        typed[3]='\x14\x02\x02' typed[4]='status t'
        shows "$bin:$PATH" 80 "${typed[@]}" -- script && [ -z "$(ls -A "$TMPDIR")" ]
        count 'under rlwrap Ctrl-C drops the whole line' $?
        unset INPUTRC TMPDIR
    fi
    rm -rf "$here/crates/tabd/out"
fi

# ---- What can't be built.
(cd "$caller" && PATH=/usr/bin:/bin "$here/tabd" one) >"$work/out" 2>"$work/err" </dev/null
status=$?
[ "$status" -eq 1 ] && [ "$(wc -l <"$work/err")" -eq 1 ] && grep -q '^fault: no program fits these sources, and there is no `rt` to build one: install' "$work/err"
count 'a missing kit is one line that says what to do' $?
rm -rf "$here/crates/tabd/out" && : >"$here/crates/tabd/out"
start one
[ "$status" -eq 1 ] && [ "$(wc -l <"$work/err")" -eq 1 ] && grep -q "^fault: the program isn't built, and .* can't be written: run this in" "$work/err"
count "a checkout that can't be written is one line that says what to do" $?

if [ "$skipped" -gt 0 ]; then echo "$passed passed, $failed failed, $skipped skipped"; else echo "$passed passed, $failed failed"; fi
[ "$failed" -eq 0 ]
