#!/usr/bin/env bash
# The client in Python over streams of its own, without a server: the bytes that it sends for odd arguments, what it takes for an answer, whom it
# connects to, and what is left of an exception or of a second thread. More is said in tests/client.py; with a server tests/python.sh tests it.
# Usage: tests/client.sh   (from anywhere; wants python3)
set -u
top=$(cd "$(dirname -- "${BASH_SOURCE[0]}")/.." && pwd)
. "$top/tests/needs" python3
exec timeout 300 python3 -B "$top/tests/client.py" none
