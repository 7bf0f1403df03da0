#!/usr/bin/env bash
# The release: it is made of this checkout's sources, it unpacks to the program of its digest, and that is the program which was built here,
# byte for byte; the page is of its digest and its sources; and a fresh checkout without the kit does what README shows, its first replies
# within two seconds.
# Usage: tests/release.sh   (from anywhere; compares with the built program where there is one, and the kit that made the release)
set -u
top=$(cd "$(dirname -- "${BASH_SOURCE[0]}")/.." && pwd)
work=$(mktemp -d) || exit 1
trap 'rm -rf "$work"' EXIT
cd "$top" || exit 1
passed=0 failed=0 skipped=0

count() { # NAME, with the status of the test that went before
    if [ "$2" -eq 0 ]; then passed=$((passed + 1)); else
        failed=$((failed + 1))
        echo "FAILED: $1"
    fi
}

value() { # NAME
    sed -n "s/^$1: //p" release/release.txt
}

[ "$(release/sources)" = "$(value sources)" ]
count 'the release is of these sources (release/make renews it)' $?
gzip -dc release/tabd.gz >"$work/tabd" && chmod +x "$work/tabd" && [ "$(sha256sum <"$work/tabd")" = "$(value program)  -" ]
count 'it unpacks to the program of its digest' $?
[ "$("$work/tabd" --version)" = "tabd $(value version)" ] && grep -qF "## $(value version)" CHANGELOG.md
count 'its version is told by the program, and by CHANGELOG.md' $?
diff <(release/sources --crates) <(sed -n 's/^\([a-z_]*\): logic=proved .*/\1/p' release/release.txt) >/dev/null
count 'it tells the proof of each crate below the program' $?
[ "$(sha256sum <web/index.html)" = "$(value page)  -" ]
count "the page is the release's (web/make renews it)" $?
[ "$(release/sources page)" = "$(value 'page sources')" ]
count 'the page is of these sources (web/make renews it)' $?
[[ "$(value 'page proof')" == 'logic=proved '* ]] && [ "$(wc -c <web/index.html)" -le 700000 ]
count "the page's library is proved, and the page is small" $?
if ! command -v rt >/dev/null || [ "$(rt version)" != "$(value kit)" ] || [ "$(release/program --current)" != "$top/crates/tabd/out/tabd" ]; then
    echo 'skipped: the program was not built here by the kit of the release, so their bytes are not compared'
    skipped=1
else
    release/stripped crates/tabd/out/tabd | cmp - "$work/tabd"
    count 'it is the program that was built here, byte for byte' $?
fi

# ---- A fresh checkout, without the kit: the PATH has the system's folders alone.
mkdir "$work/fresh" && tar -c --exclude=out --exclude=.git --exclude=underway . | tar -x -C "$work/fresh" || exit 1
export PATH=/usr/bin:/bin HOME=$work
if command -v rt >/dev/null; then
    echo 'skipped: rt stands in /usr/bin or /bin, so it can not be hidden'
    skipped=$((skipped + 1))
else
    cd "$work/fresh" || exit 1
    # the first example of README, and the first thing that it says is printed
    awk '/^```/ { if (inside) exit; inside = 1; next } inside' README.md >"$work/first.sh"
    # (once more where the machine has other work)
    for _ in 1 2 3 4 5; do
        rm -rf crates/tabd/out
        began=$(date +%s%N)
        bash "$work/first.sh" >"$work/printed" 2>&1
        took=$((($(date +%s%N) - began) / 1000000))
        [ "$took" -ge 2000 ] || break
    done
    sed -n '/^prints/,$p' README.md | awk '/^```/ { if (inside) exit; inside = 1; next } inside' >"$work/wanted"
    diff "$work/wanted" "$work/printed"
    count "README's first example prints what it says" $?
    [ "$took" -lt 2000 ]
    count "its replies come within two seconds ($took ms)" $?
    tests/run cases examples >"$work/tests" 2>&1
    count "README's test command runs there" $?
fi
echo "$passed passed, $failed failed$([ "$skipped" -eq 0 ] || echo ", $skipped skipped")"
[ "$failed" -eq 0 ]
