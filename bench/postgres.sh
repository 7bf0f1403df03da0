#!/usr/bin/env bash
# `tabd serve` over loopback, beside a PostgreSQL of its own in memory, whose row-level security shows a reader the cells that it may see
# (postgres/schema.sql); with one client for both (server/client.rs). It is skipped where Debian's package isn't installed.
# Usage: bench/postgres.sh [CELLS [ROUNDS [OPERATIONS]]]   (from anywhere; builds the program if it isn't built)
#   CELLS       of each of two tables, a multiple of 100; 1000000 by default
#   ROUNDS      of which the median counts; 5 by default
#   OPERATIONS  ranges by one connection, and writes and ranges of 1, 4 and 16 at once; 100000 by default
#   TABD        in the environment: another built program, measured in place of this folder's
set -eu -o pipefail
top=$(cd "$(dirname -- "${BASH_SOURCE[0]}")/.." && pwd)
cells=${1:-1000000} rounds=${2:-5} operations=${3:-100000}
bin=$(printf '%s\n' /usr/lib/postgresql/*/bin | sort -V | tail -n 1)
[ -x "$bin/initdb" ] || { echo 'skipped: the package postgresql is not installed' >&2; exit 0; }
TABD=$(realpath -- "${TABD:-$("$top/release/program")}")
place=/dev/shm
[ -w "$place" ] || place=${TMPDIR:-/tmp}
work=$(mktemp -d -p "$place")
server=

# PostgreSQL refuses to be run by root.
unprivileged() { if [ "$(id -u)" = 0 ]; then runuser -u postgres -- "$@"; else "$@"; fi; }

end_server() {
    [ -z "$server" ] || { kill "$server" && wait "$server"; } 2>/dev/null || true
    server=
}

clean() {
    end_server
    unprivileged "$bin/pg_ctl" -D "$work/data" -m immediate stop >/dev/null 2>&1 || true
    rm -rf "$work"
}
trap clean EXIT
trap 'exit 1' INT TERM HUP

free_port() { python3 -c 'import socket; print(socket.create_server(("127.0.0.1", 0)).getsockname()[1])'; }

sql() { "$bin/psql" -X -q -h 127.0.0.1 -p "$port" -U postgres -v ON_ERROR_STOP=1 "$@" postgres; }

start_postgres() {
    local settings='listen_addresses=127.0.0.1 unix_socket_directories= fsync=off synchronous_commit=off full_page_writes=off
        wal_level=minimal max_wal_senders=0 max_wal_size=8GB shared_buffers=1GB work_mem=256MB random_page_cost=1.1 jit=off
        autovacuum_naptime=1s'
    port=$(free_port)
    chmod 755 "$work"
    mkdir "$work/data"
    [ "$(id -u)" != 0 ] || chown postgres "$work/data"
    unprivileged "$bin/initdb" -D "$work/data" -U postgres -A trust -E SQL_ASCII --locale=C -N >/dev/null
    unprivileged "$bin/pg_ctl" -D "$work/data" -l "$work/data/log" -w -o "-p $port $(printf ' -c %s' $settings)" start >/dev/null ||
        { cat "$work/data/log" >&2; exit 1; }
}

ask_tabd() { # WORDS   of the client
    local at
    at=$(free_port)
    : >"$work/listens"
    "$TABD" serve --port "$at" --workers 16 </dev/null >"$work/listens" &
    server=$!
    until [ -s "$work/listens" ]; do kill -0 "$server"; sleep 0.05; done
    "$work/tabd" "$at" "$@"
    end_server
}

ask_postgres() { # WORDS   of the client
    PGOPTIONS='-c client_min_messages=warning' sql -f "$top/bench/postgres/schema.sql"
    "$work/postgres" "$port" "$@"
    copy wide 'writes of 100'
    copy tall 'writes of one'
}

# The seconds of one COPY of a table's cells, in the order in which they were written.
copy() { # TABLE PART
    sql <<END | awk -v cells="$cells" -v part="$2, beside one COPY" '/^Time/ { printf "%s\t%s\t%s\n", part, $2 / 1000, cells }'
copy (select * from $1 limit $cells) to '$work/data/cells' (format binary);
truncate $1;
\timing on
copy $1 from '$work/data/cells' (format binary);
END
}

ask() { # WHO WORDS   notes what the client tells
    "ask_$1" "${@:2}" >"$work/told"
    sed "s/^/$1\t/" "$work/told" >>"$work/seen"
}

cd /
rustc --edition=2021 -O --cfg beside_postgres -o "$work/tabd" "$top/bench/server/client.rs"
rustc --edition=2021 -O --cfg postgres -o "$work/postgres" "$top/bench/server/client.rs"
start_postgres
few=$((cells < 10000 ? cells : 10000))
for who in tabd postgres; do ask "$who" "$few" 1 1000 "$work/cells.$who"; done
cmp "$work/cells.tabd" "$work/cells.postgres"
echo "Both show a reader the same of $few cells: $(stat -c %s "$work/cells.tabd") bytes. $cells cells a table, medians of $rounds:"
rm "$work"/cells.* "$work/seen"
for _ in $(seq "$rounds"); do
    for who in tabd postgres; do ask "$who" "$cells" 1,4,16 "$operations"; done
done
"$top/bench/postgres/table.py" "$work/seen"
