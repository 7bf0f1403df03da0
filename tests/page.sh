#!/usr/bin/env bash
# The page (web/index.html): its core gives the program's bytes on all scripts of tests/cases and 500 random ones, as Node runs it, and in a
# browser it does what it shows: typing, readers, examples, memory that runs out, the keyboard alone, a phone's width.
# Usage: tests/page.sh [--picture FILE]   (from anywhere; wants python3, and node or chromium or both; TABD names another program;
#        --picture: makes the picture of README, too)
set -u
top=$(cd "$(dirname -- "${BASH_SOURCE[0]}")/.." && pwd)
. "$top/tests/needs" python3
program=${TABD:-$("$top/release/program")} || exit 1
work=$(mktemp -d) || exit 1
trap 'rm -rf "$work"' EXIT
passed=0 failed=0 skipped=0

skip() { # WHY
    echo "skipped: $1"
    skipped=$((skipped + 1))
}

# Runs one part and adds what its last line counts.
part() { # COMMAND ..
    timeout 300 "$@" >"$work/said" 2>&1
    if ! tail -n 1 "$work/said" | grep -qE '^[0-9]+ passed, [0-9]+ failed$'; then
        cat "$work/said"
        echo "FAILED: $1 ended without a count"
        failed=$((failed + 1))
        return
    fi
    grep -v ' passed, ' "$work/said"
    read -r good _ bad _ < <(tail -n 1 "$work/said")
    passed=$((passed + good)) failed=$((failed + bad))
}

# Node has 64-bit memories since 24, and before by a flag.
flags=()
[ "$(node -p 'try { new WebAssembly.Memory({ initial: 1n, address: "i64" }).buffer.byteLength } catch { 0 }' 2>/dev/null)" = 65536 ] ||
    flags=(--experimental-wasm-memory64)
if ! command -v node >/dev/null; then
    skip 'there is no node'
elif ! node "${flags[@]}" -e '' 2>/dev/null; then
    skip 'this node has no 64-bit memories'
else
    mkdir "$work/scripts"
    python3 "$top/tests/page.py" "$program" --scripts "$work/scripts" && part node "${flags[@]}" "$top/tests/page.mjs" "$top/web/index.html" "$work/scripts"
fi
if ! command -v chromium chromium-browser google-chrome >/dev/null; then
    skip 'there is no chromium'
else
    part python3 "$top/tests/page.py" "$program" "$@"
fi
if [ "$skipped" -gt 0 ]; then echo "$passed passed, $failed failed, $skipped skipped"; else echo "$passed passed, $failed failed"; fi
[ "$failed" -eq 0 ]
