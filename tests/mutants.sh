#!/usr/bin/env bash
# Sees that the wrong bodies of crates/*/must-fail/mutants.md are refused, many in one check (mutants.py says how).
# Usage: tests/mutants.sh [--all] [CRATE ..]   (from anywhere; reads the libraries that rt ci or build.sh LOG --keep built, and builds none)
#        tests/mutants.sh --behind LOG         tries a crate's once the output of rt ci, which grows there, says that it is proved
#        tests/mutants.sh --fit               sees only that each can be applied: its file has each text that it replaces once (wants no kit)
# What was refused before is not tried again as long as all that it stands on is as it was (tests/mutants.seen); --all tries it too.
set -eu
exec python3 "$(dirname -- "${BASH_SOURCE[0]}")/mutants.py" "$@"
