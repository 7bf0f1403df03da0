#!/usr/bin/env bash
# Sees that each planted fault of tests/plants fits the file that it is for, and says what is lost and who sees it. Whether they are seen,
# tests/plants/run says, which takes long.
# Usage: tests/plants.sh   (from anywhere; wants python3, and no kit)
top=$(cd "$(dirname -- "${BASH_SOURCE[0]}")/.." && pwd)
. "$top/tests/needs" python3
exec python3 -B "$top/tests/plants/run" --fit
