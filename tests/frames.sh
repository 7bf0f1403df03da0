#!/usr/bin/env bash
# What a connection is told, frame by frame: the examples of docs/PROTOCOL.md and of tests/frames, sizes at limits, and failures, over the
# program `frames` that the gate built. More is said in tests/frames.py.
# Usage: tests/frames.sh   (from anywhere; wants python3 and a C compiler)
top=$(cd "$(dirname -- "${BASH_SOURCE[0]}")/.." && pwd)
. "$top/tests/needs" python3 "${CC:-cc}" "$top/crates/frames/out/frames"
exec python3 "$top/tests/frames.py"
