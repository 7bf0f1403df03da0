#!/usr/bin/env bash
# The examples print what stands beside them: examples/*.txt as scripts, and examples/clinic.py over a server on a free port. And
# docs/promise.svg is what docs/promise.py draws, and docs/growth.svg what docs/growth.py draws of bench/growth.txt.
# Usage: tests/examples.sh   (from anywhere; wants python3; TABD names another program)
set -u
top=$(cd "$(dirname -- "${BASH_SOURCE[0]}")/.." && pwd)
work=$(mktemp -d) || exit 1
server=
trap '[ -z "$server" ] || kill "$server" 2>/dev/null; rm -rf "$work"' EXIT
. "$top/tests/needs" python3
program=${TABD:-$("$top/release/program")} || exit 1
passed=0 failed=0

# Counts one example.
compare() { # NAME WANTED PRINTED STATUS
    if [ "$4" -eq 0 ] && diff "$2" "$3" >"$work/diff"; then passed=$((passed + 1)); else
        failed=$((failed + 1))
        echo "FAILED: $1"
        head -n 10 "$work/diff" "$work/errors"
    fi
}

for script in "$top"/examples/*.txt; do
    "$program" script <"$script" >"$work/printed" 2>"$work/errors"
    compare "examples/$(basename "$script")" "${script%.txt}.out" "$work/printed" $?
done

TABD=$program python3 "$top/docs/promise.py" >"$work/printed" 2>"$work/errors"
compare docs/promise.svg "$top/docs/promise.svg" "$work/printed" $?

python3 -B "$top/docs/growth.py" >"$work/printed" 2>"$work/errors"
compare docs/growth.svg "$top/docs/growth.svg" "$work/printed" $?

# The program ends once the example's seven connections have ended.
port=$(python3 -c 'import socket; print(socket.create_server(("127.0.0.1", 0)).getsockname()[1])') || exit 1
mkfifo "$work/said"
"$program" serve --port "$port" --accept 7 >"$work/said" 2>/dev/null </dev/null &
server=$!
if read -r said <"$work/said" && [ "$said" = "listening $port" ]; then
    timeout 30 python3 "$top/examples/clinic.py" "$port" >"$work/printed" 2>"$work/errors"
    compare examples/clinic.py "$top/examples/clinic.py.out" "$work/printed" $?
else
    echo "the program has no server, so examples/clinic.py isn't run"
fi
echo "$passed passed, $failed failed"
[ "$failed" -eq 0 ]
