#!/usr/bin/env bash
# The scripts of tests/cases: a line that begins with `> ` is a line of the script, the others are what is printed, and a title
# that begins with `# ` begins the next script.
# Usage: tests/cases.sh   (from anywhere; TABD names another program)
set -u
top=$(cd "$(dirname -- "${BASH_SOURCE[0]}")/.." && pwd)
work=$(mktemp -d) || exit 1
trap 'rm -rf "$work"' EXIT
program=${TABD:-$("$top/release/program")} || exit 1
passed=0 failed=0
for file in "$top"/tests/cases/*.txt; do
    mkdir "$work/now"
    LC_ALL=C awk -v to="$work/now/" '
        /^# / { number++; name = sprintf("%s%03d", to, number); print >(name ".title"); printf "" >(name ".lines"); printf "" >(name ".wanted") }
        /^>/ { print substr($0, 3) >(name ".lines") }
        !/^(# |>|$)/ { print >(name ".wanted") }' "$file"
    for title in "$work"/now/*.title; do
        name=${title%.title}
        if "$program" script <"$name.lines" >"$name.printed" 2>&1 && cmp -s "$name.printed" "$name.wanted"; then
            passed=$((passed + 1))
        else
            failed=$((failed + 1))
            echo "FAILED: $(basename "$file"): $(cut -c 3- "$title")"
            diff "$name.wanted" "$name.printed" | head -n 10
        fi
    done
    rm -rf "$work/now"
done
echo "$passed passed, $failed failed"
[ "$failed" -eq 0 ]
