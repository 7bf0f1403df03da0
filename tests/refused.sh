#!/usr/bin/env bash
# Sees what the compiler refuses, beside what is like it and is accepted: a stack of layers that outlives the version which it reads, a
# cursor that outlives its table, and a receipt that is made elsewhere than by a book. No must-fail edit can say so, since those reach the prover.
# Usage: tests/refused.sh   (from anywhere; wants the kit, and the libraries that rt ci or build.sh LOG --keep built)
set -eu
top=$(cd "$(dirname -- "${BASH_SOURCE[0]}")/.." && pwd)
work=$(mktemp -d)
trap 'rm -rf "$work"' EXIT
. "$top/tests/needs" rt
kit=$(dirname -- "$(rt doc)")
libraries='tab_key tab_label tab_iter tab_table tab_version tab_book'
for library in $libraries; do
    [ -d "$top/crates/$library/out/rlib" ] && continue
    printf '%s\n' 'skipped: the libraries are not built (build.sh LOG --keep builds them)' '0 passed, 0 failed, 1 skipped'
    exit 0
done

# What the compiler is given: the libraries that are named, and where those below them lie.
words=(--extern "std=$kit/rlibs/std.rlib" -L "dependency=$kit/rlibs")
words+=(--antt-project "$kit/rattle/logic/antt-project.json" --logic-built "$kit/logic_built")
for library in $libraries; do
    words+=(--extern "$library=$top/crates/$library/out/rlib/$library.rlib")
done
for built in "$top"/crates/*/out/rlib; do
    words+=(-L "dependency=$built")
done

# Compiles a crate of this function, and proves nothing.
compiles() { # IMPORTS FUNCTION
    mkdir -p "$work/src"
    printf '#![tactic(auto)]\n%s\n%s\n' "$1" "$2" >"$work/src/lib.rt"
    (cd "$work" && "$kit/bin/rattle" check --crate-name refused src/lib.rt "${words[@]}" --jobs 1 --only '') >"$work/out" 2>&1
}

passed=0 failed=0
fail() { # WHY
    failed=$((failed + 1))
    echo "$1"
    tail -n 20 "$work/out"
}

# One function is accepted, and the other one refused for this reason.
tells_apart() { # NAME IMPORTS ACCEPTED REFUSED REASON
    if compiles "$2" "$3"; then passed=$((passed + 1)); else fail "$1: what is like it isn't accepted"; fi
    if compiles "$2" "$4"; then
        fail "$1: it is accepted"
    elif grep -q "$5" "$work/out"; then
        passed=$((passed + 1))
        grep "$5" "$work/out"
    else
        fail "$1: it is refused, but not for the reason"
    fi
}

takes='alloc: Global, columns: &'\''a [Column], auths: &'\''a AuthSet'
gives='Result<Stack<'\''a>, NoMemory>'
tells_apart 'a stack that outlives its version' \
    'use std::alloc::Global; use tab_iter::{NoMemory, Verdicts}; use tab_key::Column; use tab_label::AuthSet; use tab_version::{Caches, Stack, Version};' \
    "pub fn lent<'a>(version: &'a Version, $takes) -> $gives { version.stack(alloc, columns, auths, Verdicts::none(alloc), Caches::of(alloc, 8), 1) }" \
    "pub fn kept<'a>(version: Version, $takes) -> $gives { version.stack(alloc, columns, auths, Verdicts::none(alloc), Caches::of(alloc, 8), 1) }" \
    'error\[borrow'

tells_apart 'a cursor that outlives its table' \
    'use std::alloc::Global; use tab_iter::NoMemory; use tab_table::{Cursor, SortedTable};' \
    "pub fn lent<'a>(alloc: Global, table: &'a SortedTable) -> Result<Cursor<'a>, NoMemory> { Cursor::new(alloc, table) }" \
    "pub fn kept<'a>(alloc: Global, table: SortedTable) -> Result<Cursor<'a>, NoMemory> { Cursor::new(alloc, &table) }" \
    'error\[borrow'

tells_apart 'a receipt with another number' \
    'use std::sync::ledger::Ledger; use tab_book::Receipt;' \
    'pub fn read<L: Ledger>(receipt: &Receipt<L>) -> u64 { receipt.number() }' \
    'pub fn turned<L: Ledger>(receipt: Receipt<L>) -> Receipt<L> { let mut turned = receipt; turned.number = 7; turned }' \
    'private'
tells_apart 'a receipt that is made elsewhere' \
    'use std::marker::PhantomData; use std::sync::ledger::Ledger; use tab_book::{Entry, Receipt};' \
    'pub fn first<L: Ledger>(receipt: Receipt<L>) -> Option<Receipt<L>> { Some(receipt) }' \
    'pub fn made<L: Ledger>(entry: Entry) -> Receipt<L> { Receipt { number: 7, entry, held: None, of: PhantomData } }' \
    'private'
tells_apart 'a receipt of one book in another' \
    'use std::sync::ledger::Ledger; use tab_book::{Book, Receipt, settle};' \
    'pub fn one<L: Ledger>(book: &Book<L>, receipts: &[Receipt<L>]) -> bool { settle(book, receipts) }' \
    'pub fn other<L: Ledger, M: Ledger>(book: &Book<L>, receipts: &[Receipt<M>]) -> bool { settle(book, receipts) }' \
    'mismatched\|expected'
echo "$passed passed, $failed failed"
[ "$failed" -eq 0 ]
