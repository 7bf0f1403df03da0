#!/usr/bin/env bash
# How long `./prove --anew` takes in a clean clone, and what it leaves on the disk. It wants a machine with nothing else at work.
# Usage: bench/first_build.sh [FOLDER]   (from anywhere; FOLDER is where the clone goes, a new one in /tmp by default)
set -u
top=$(dirname -- "$(dirname -- "$(readlink -f -- "${BASH_SOURCE[0]}")")")
clone=${1:-$(mktemp -d)}/clone
TIMEFORMAT='%R seconds, of the processors %U and %S'
git clone -q "$top" "$clone" || exit 1
echo "$(nproc) processors, $(git -C "$clone" log -1 --format=%h)"
time "$clone/prove" --anew || exit 1
du -sh "$clone/crates"
