#!/usr/bin/env bash
# Sees that crates.txt lists for each crate what its files name, and nothing else; that each file says in its first line
# what it is, those of specs/ whether they are to be believed or only serve proofs, and that what is to be believed leads to nothing that only
# serves proofs; that docs/DEFINITIONS.md says how much the promise and each other aim ask to believe (layers.py); that the table of files in
# each crate's root names each of its modules; that each wrong body can be applied; and that all documents together stay below a limit (layers.py).
# A module `tests` aside.
# Usage: tests/layers.sh   (from anywhere; builds nothing)
set -u
top=$(cd "$(dirname -- "${BASH_SOURCE[0]}")/.." && pwd)
cd "$top" || exit 1
passed=0 failed=0

fail() { # TEXT
    echo "$1"
    failed=$((failed + 1))
}

# The files of a crate that a check reads.
files_of() { # CRATE
    find "crates/$1/src" "crates/$1/specs" "crates/$1/proofs" \( -name '*.rt' -o -name '*.antt' \) 2>/dev/null
}

# The libraries that a crate's files name: by a path, by an import, or by a derive.
named_by() { # CRATE
    files_of "$1" | xargs cat | sed -E 's@(^|[[:space:]])(//|--).*@@' |
        grep -oE '\b(Rattle\.)?[a-z][a-z0-9_]*(::|\.(specs|proofs)\.)' |
        sed -E 's/^Rattle\.//; s/(::|\.(specs|proofs)\.)$//' | sort -u
}

while IFS=: read -r crate listed; do
    [ -n "$crate" ] || continue
    # behind the name stand its counts
    crate=${crate%% *}
    known=$(sed 's/[ :].*//' crates.txt; cut -d: -f2 crates.txt | tr ' ' '\n')
    named=$(named_by "$crate" | grep -Fx -f <(printf '%s\n' "$known" | grep . | sort -u) | grep -vx "$crate")
    asked=$(printf '%s\n' $listed | sort -u)
    if [ "$named" = "$asked" ]; then passed=$((passed + 1)); else
        fail "crates.txt, $crate: listed and named differ: $(diff <(echo "$asked") <(echo "$named") | grep '^[<>]' | tr '\n' ' ')"
    fi
    while read -r file; do
        case $file in */proofs/*/*) continue ;; esac
        head -n 1 "$file" | grep -qE '^(//!|--) ' || [ "${file##*/}" = Lib.antt ] || fail "$file: its first line doesn't say what it is"
    done < <(files_of "$crate")
    root=$(ls "crates/$crate/src/lib.rt" "crates/$crate/src/main.rt" 2>/dev/null)
    for module in $(grep -oE '^(pub )?mod [a-z_]+' "$root" | sed 's/.* //' | grep -vx tests); do
        grep -qE "^//!.*\`$module\`" "$root" || fail "$root: its table of files lacks $module"
    done
done <crates.txt

# How much the promise asks to believe: comments, imports and empty lines aside.
believed=$(grep -lE '^-- To be believed\. ' crates/*/specs/*.antt)
lines=$(cat $believed | grep -vcE '^[[:space:]]*(--([[:space:]]|$)|$)|^(pub |unfoldable )*use ')
grep -qF "$(printf '%s' "$believed" | grep -c .) files of \`specs/\` with $(printf '%s' "$lines" | sed -E 's/([0-9])([0-9]{3})$/\1,\2/') lines" docs/DEFINITIONS.md ||
    fail "docs/DEFINITIONS.md: it doesn't say that $(printf '%s\n' $believed | grep -c .) files with $lines lines are to be believed"

# Which files are to be believed, and what each aim asks to believe.
believing=$(command -v python3 >/dev/null || exit 0; python3 tests/layers.py) || fail "$believing"

# A wrong body whose text is gone would be found only once its crate is proved.
strays=$(command -v python3 >/dev/null || exit 0; python3 tests/mutants.py --fit) || fail "$strays"

echo "$((passed)) passed, $failed failed"
[ "$failed" -eq 0 ]
