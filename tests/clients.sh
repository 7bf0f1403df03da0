#!/usr/bin/env bash
# All clients by one suite (tests/clients/suite.py): the one in Python, and the one in Java, which is built here. Then Accumulo's behaviour by
# both (accumulo_cases.py, AccumuloCases.java), programs for Accumulo moved over (programs.py), what of the client in Java needs no server
# (Pieces.java), and what breaks into it while others use it (Breaks.java).
# Usage: tests/clients.sh [--scripts N] [--seed S]   (from anywhere; wants python3, and a JDK for the client in Java; TABD names another program)
set -u
top=$(cd "$(dirname -- "${BASH_SOURCE[0]}")/.." && pwd)
. "$top/tests/needs" python3
TABD=${TABD:-$("$top/release/program")} || exit 1
export TABD
here=$top/tests/clients
work=$(mktemp -d) || exit 1
trap 'rm -rf "$work"' EXIT
drivers=(-- python python3 -B "$here/driver.py")
java=(java -Xshare:auto -XX:+UseSerialGC -XX:TieredStopAtLevel=1 -cp "$work/client.jar:$work/classes")
passed=0 failed=0 skipped=0

# Runs a part side by side with others, and keeps what it says.
part() { # NAME COMMAND..
    "${@:2}" >"$work/$1.said" 2>&1 </dev/null
}

if command -v java >/dev/null && command -v javac >/dev/null && command -v jar >/dev/null; then
    if "$top/clients/java/build.sh" "$work/client.jar" && javac -J-XX:TieredStopAtLevel=1 -Xlint:all -Werror -cp "$work/client.jar" -d "$work/classes" "$here"/*.java; then
        drivers+=(-- java "${java[@]}" Driver -- accumulo+ "${java[@]}" AccumuloDriver)
        part programs python3 -B "$here/programs.py" "$TABD" "$work/client.jar" &
        part java python3 -B "$here/accumulo_cases.py" "$TABD" "${java[@]}" AccumuloCases &
        part pieces "${java[@]}" Pieces &
        part breaks "${java[@]}" Breaks &
    else
        echo 'FAILED: the client in Java is built'
        failed=1
    fi
else
    echo 'skipped: the client in Java (there is no JDK)'
    skipped=1
fi
part python python3 -B "$here/accumulo_cases.py" "$TABD" &
part suite python3 -B "$here/suite.py" "$TABD" "$@" "${drivers[@]}" &
wait
for said in "$work"/*.said; do
    grep -q FAILED "$said" && sed '$d' "$said"
    if [[ $(tail -n 1 "$said") =~ ^([0-9]+)\ passed,\ ([0-9]+)\ failed$ ]]; then
        passed=$((passed + BASH_REMATCH[1])) failed=$((failed + BASH_REMATCH[2]))
    else
        echo "FAILED: $(basename "$said" .said): $(tail -n 1 "$said")"
        failed=$((failed + 1))
    fi
done
if [ "$skipped" -gt 0 ]; then echo "$passed passed, $failed failed, $skipped skipped"; else echo "$passed passed, $failed failed"; fi
[ "$failed" -eq 0 ]
