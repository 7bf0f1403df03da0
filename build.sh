#!/usr/bin/env bash
# Proves and builds the program from a checkout in which little is built: dev/build.py says how.
# Usage: build.sh LOG [--keep] [--renew]   (tabd calls it; what the prover says goes to LOG, how far it is to standard error)
exec python3 "$(dirname -- "$(readlink -f -- "${BASH_SOURCE[0]}")")/dev/build.py" "$@"
