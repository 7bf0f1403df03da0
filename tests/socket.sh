#!/usr/bin/env bash
# A server at a socket file: who may connect, one server a file, what a dead one leaves, how it ends, and a shell and the client in Python over
# it. More is said in tests/sockets.py.
# Usage: tests/socket.sh   (from anywhere; wants python3; TABD names another program)
top=$(cd "$(dirname -- "${BASH_SOURCE[0]}")/.." && pwd)
. "$top/tests/needs" python3
program=${TABD:-$("$top/release/program")} || exit 1
exec timeout 300 python3 -B "$top/tests/sockets.py" "$program"
