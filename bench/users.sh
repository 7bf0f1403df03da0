#!/usr/bin/env bash
# What users and tables cost each other: microseconds of the processor for creating and dropping a user and for dropping a
# table, and bytes of resident memory for an empty table, each beside 1,000, 10,000 and 100,000 tables.
# Usage: bench/users.sh [USERS] [ROUNDS]   (from anywhere; builds the program if it isn't built)
#   USERS   users that are made and dropped, and then tables that are dropped, at most 1000; 1000 by default
#   ROUNDS  runs at each size, of which the least counts; 3 by default
#   TABD    in the environment: another built program, measured in place of this folder's
set -eu
top=$(cd "$(dirname -- "${BASH_SOURCE[0]}")/.." && pwd)
TABD=${TABD:-$("$top/release/program")}
python3 "$top/bench/users/phases.py" "$TABD" "${1:-1000}" "${2:-3}"
