#!/usr/bin/env bash
# Each request for memory refused in turn, over the calls of a book, of a shared one and of `serve_shared`, by the program `book_frames` that the
# gate built. More is said in tests/books.py.
# Usage: tests/books.sh   (from anywhere; wants python3 and a C compiler; BOOK_FRAMES in the environment: another program)
top=$(cd "$(dirname -- "${BASH_SOURCE[0]}")/.." && pwd)
program=${BOOK_FRAMES:-$top/crates/book_frames/out/book_frames}
. "$top/tests/needs" python3 "${CC:-cc}" "$program"
exec python3 -B "$top/tests/books.py" "$program"
