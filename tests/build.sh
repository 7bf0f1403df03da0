#!/usr/bin/env bash
# What build.sh does: the order of crates, what it says, what it keeps, and what it leaves where it fails or is interrupted; and what ./prove
# says of the release. They run over a small checkout with a stand-in for `rt`, so that nothing is proved here.
# Usage: tests/build.sh   (from anywhere; wants python3)
set -u
top=$(cd "$(dirname -- "${BASH_SOURCE[0]}")/.." && pwd)
. "$top/tests/needs" python3
work=$(mktemp -d) || exit 1
trap 'rm -rf "$work"' EXIT
here=$work/checkout bin=$work/bin
mkdir -p "$here" "$bin"
cp -R "$top/build.sh" "$top/dev" "$top/prove" "$here/"
mkdir "$here/release"
cp "$top/release/program" "$top/release/sources" "$here/release/"
printf '#!/bin/sh\ncat "$1"\n' >"$here/release/stripped"
chmod +x "$here/release/stripped"
printf 'low:\nother:\nhigh: low other std\ntabd may_wait=1: high low\nabove: low\n' >"$here/crates.txt"
cp "$top/HANDLES" "$here/"
for crate in low other high tabd; do
    mkdir -p "$here/crates/$crate/src" "$here/crates/$crate/specs"
    echo "// $crate" >"$here/crates/$crate/src/lib.rt"
done
echo script >"$here/crates/tabd/args" && echo asked >"$here/crates/tabd/stdin" && echo told >"$here/crates/tabd/stdout"
# `rt lib` makes a library of the crate in whose folder it runs, `rt run` the program, and `rt ci` all; calls are counted in $work/calls.
cat >"$bin/rt" <<'STAND_IN'
#!/usr/bin/env bash
set -u
[ "${STAND_IN:-}" != fails ] || { echo 'not proved'; exit 1; }
[ "${STAND_IN:-}" != slow ] || sleep 1
echo "$1 $(basename "$PWD")" >>"$CALLS"
mkdir -p out
case $1 in
version) echo "a kit" ;;
lib) mkdir -p out/rlib && echo it >out/rlib/stamp ;;
run) printf '#!/bin/sh\n%s\n' "${PROGRAM:-}" >out/tabd && chmod +x out/tabd ;;
ci)
    rmdir out
    [ "$(cat crates/tabd/args crates/tabd/stdin crates/tabd/stdout)" = "$(printf 'script\nasked\ntold')" ] || exit 1
    echo "ci ${2-}, of $(sed 's/[ :].*//' crates.txt | sort | tr '\n' ' ')$(cat crates/*/src/lib.rt | wc -l)" >>"$CALLS"
    mkdir crates/tabd/out && printf '#!/bin/sh\n%s\n' "${PROGRAM:-}" >crates/tabd/out/tabd && chmod +x crates/tabd/out/tabd
    ;;
esac
STAND_IN
chmod +x "$bin/rt"
export CALLS=$work/calls PATH=$bin:$PATH
passed=0 failed=0

count() { # NAME, with the status of the test that went before
    if [ "$2" -eq 0 ]; then passed=$((passed + 1)); else
        failed=$((failed + 1))
        echo "FAILED: $1"
        cat "$work/err"
    fi
}

# Builds from nothing; its status goes to $status, and what was called of `rt` to $calls.
build() { # [--keep]
    rm -rf "$here"/crates/*/out
    : >"$CALLS"
    "$here/build.sh" "$work/log" "$@" 2>"$work/err"
    status=$?
    calls=$(tr '\n' ' ' <"$CALLS")
}

build
[ "$status" -eq 0 ] && [ -x "$here/crates/tabd/out/tabd" ] && [[ $calls =~ ^lib\ (low\ lib\ other|other\ lib\ low)\ lib\ high\ run\ tabd\ $ ]]
count 'it builds each crate behind those that it stands on' $?
grep -q '^tabd: 4 of 4 crates are to be proved and built: about [0-9]* minutes* on ' "$work/err" &&
    [ "$(grep -c '^tabd: proving [a-z]*, [1-4] of 4; [0-9]*% done, about [0-9]* minutes* left$' "$work/err")" -eq 4 ]
count 'it says what it takes and how far it is' $?
[ ! -e "$here/crates/tabd/out/build" ] && [ -z "$(find "$here/crates" -name rlib)" ]
count 'of the build only the program is left' $?
build --keep
[ "$status" -eq 0 ] && [ "$(find "$here/crates" -name rlib | wc -l)" -eq 3 ]
count 'with --keep the libraries stay' $?
STAND_IN=fails build
[ "$status" -eq 1 ] && grep -q '^not proved$' "$work/log" && [ ! -e "$here/crates/tabd/out/build" ]
count 'where a crate fails, the log says why' $?
rm -rf "$here"/crates/*/out
# empty before it starts: a word of the build before would have it interrupted while it is still a part of this script, with its trap
: >"$CALLS" && : >"$work/err"
STAND_IN=slow "$here/build.sh" "$work/log" 2>"$work/err" &
for _ in $(seq 100); do ! grep -q proving "$work/err" || break; sleep 0.05; done
kill -INT $!
wait $!
[ $? -eq 130 ] && sleep 1.5 && [ ! -s "$CALLS" ] && [ ! -e "$here/crates/tabd/out/build" ]
count 'where it is interrupted, nothing goes on' $?

# ---- ./prove, beside a release.
release() { # KIT DIGEST
    printf 'kit: %s\nsources: %s\nprogram: %s\n' "$1" "$2" "$(printf '#!/bin/sh\n\n' | sha256sum | cut -d ' ' -f 1)" >"$here/release/release.txt"
}
proves() { # STATUS LAST-LINE [WORD]
    rm -rf "$here"/crates/*/out
    "$here/prove" ${3-} >"$work/out" 2>"$work/err"
    [ $? -eq "$1" ] && tail -n 1 "$work/out" "$work/err" | grep -qxF "$2" && [ -x "$here/crates/tabd/out/tabd" ] && [ ! -e "$here/crates/tabd/out/prove" ]
}
digest=$("$here/release/sources")
release 'a kit' "$digest"
proves 0 "it is the release's program, byte for byte" && grep -qx 'ci , of high low other tabd 4' "$CALLS"
count './prove ends with the release' $?
[ "$("$here/release/program" --current)" = "$here/crates/tabd/out/tabd" ]
count 'what ./prove built is what runs from then on' $?
proves 0 "it is the release's program, byte for byte" --anew && grep -qx 'ci --anew, of high low other tabd 4' "$CALLS"
count './prove --anew proves again what was proved before' $?
STAND_IN=fails "$here/prove" >"$work/out" 2>"$work/err"
[ $? -eq 1 ] && grep -q '^fault: not proved: the whole log is ' "$work/err" && grep -q '^not proved$' "$here/crates/tabd/out/launcher.log"
count 'what is not proved is a fault, and the log says why' $?
PROGRAM='# other bytes' proves 1 "fault: the program isn't the release's: its bytes differ"
count 'other bytes than the release has are a fault' $?
release 'another kit' "$digest"
PROGRAM='# other bytes' proves 0 'not compared with the release: that was made by another kit, and this is a kit'
count 'the release of another kit is not compared' $?
release 'a kit' other
proves 0 'not compared with the release: that was made of other sources'
count 'a release of other sources is not compared' $?

echo "$passed passed, $failed failed"
[ "$failed" -eq 0 ]
