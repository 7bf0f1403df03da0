#!/usr/bin/env bash
# How many cells a second the client in Java writes and scans over a port (bench/clients/Speed.java), one cell a row and ten.
# Usage: bench/clients.sh [CELLS]   (from anywhere; wants a JDK; a million cells by default; TABD names another program)
set -eu
top=$(cd "$(dirname -- "${BASH_SOURCE[0]}")/.." && pwd)
program=${TABD:-$("$top/release/program")}
cells=${1:-1000000}
work=$(mktemp -d)
trap 'kill "$server" 2>/dev/null; rm -rf "$work"' EXIT
server=
"$top/clients/java/build.sh" "$work/client.jar"
javac -Xlint:all -cp "$work/client.jar" -d "$work" "$top/bench/clients/Speed.java"
coproc SERVER { exec "$program" serve --port "${PORT:-9987}" --workers 8; }
server=$SERVER_PID
read -r _ port <&"${SERVER[0]}"
for each in 1 10; do
    java -cp "$work/client.jar:$work" Speed "$port" $((cells / each)) "$each" "$server"
done
