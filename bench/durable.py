#!/usr/bin/env python3
"""What it costs to keep each answer on the disk: `tabd serve` with `--store` and `--sync always`, with `--sync interval`, and without a store, and
beside them PostgreSQL (fsync and synchronous_commit on, behind a reader's policy, as in postgres.sh), SQLite (WAL, synchronous FULL, in one
process) and RocksDB (WriteOptions.sync, in one process), where they are there. All files lie in one folder of one disk. F, the median of
what the disk takes to hold 100 bytes behind a file (fdatasync), is told before and behind.

tabd and PostgreSQL are asked over loopback by one client (server/client.rs, durable/parts.rs). A write is one cell, or one hundred in a row;
each is awaited but where it says pipelined. A range has ten rows of an old session, a scan the first thousand cells of a new one. Each part
goes on for some seconds; medians of the rounds. Then, once: a start that does a million writes of one cell again, and an image of a million
cells, made beside sixteen who write.

Usage: bench/durable.py [--seconds S] [--rounds N] [--cells N] [--folder FOLDER]   (from anywhere; builds the program if it isn't built; some
       four minutes; for a trial: --seconds 0.3 --rounds 1 --cells 20000)
  --folder  where the files go, on the disk that is measured; TMPDIR by default
  TABD in the environment: another built program, measured in place of this folder's
"""
import argparse
import glob
import os
import re
import shutil
import signal
import socket
import sqlite3
import subprocess
import sys
import tempfile
import threading
import time
from pathlib import Path
from statistics import median

TOP = Path(__file__).resolve().parent.parent
ROWS = 100_000
WORKERS = 16
NEVER = str(1 << 40)
MODES = {"always": ["--sync", "always"], "interval": ["--sync", "interval"], "no store": None}
# what a part is asked for: the client's words behind the seconds, and what is told of it
PARTS = {
    "one at a time, writes": ("writes", "1"),
    "16 at once, writes": ("writes", "16"),
    "pipelined, writes of one": ("pipelined", "1 20000"),
    "pipelined, writes of 100": ("pipelined", "100 1000"),
    "ranges, one at a time": ("ranges", "0"),
    "ranges, beside 8 writers": ("ranges", "8"),
    "scans, beside 8 writers": ("scans", "8"),
}


def arguments():
    parser = argparse.ArgumentParser(description=__doc__, formatter_class=argparse.RawDescriptionHelpFormatter)
    parser.add_argument("--seconds", type=float, default=1.5)
    parser.add_argument("--rounds", type=int, default=3)
    parser.add_argument("--cells", type=int, default=1_000_000, help="of the start and of the image")
    parser.add_argument("--folder", default=tempfile.gettempdir())
    return parser.parse_args()


def free_port():
    with socket.create_server(("127.0.0.1", 0)) as listener:
        return listener.getsockname()[1]


def sync_time(folder):
    """The median, in microseconds, of an append of 100 bytes and its fdatasync."""
    file = os.open(f"{folder}/probe", os.O_WRONLY | os.O_CREAT | os.O_APPEND, 0o600)
    waits = []
    ends = time.monotonic() + 2
    while len(waits) < 500 and time.monotonic() < ends:
        begun = time.perf_counter()
        os.write(file, bytes(100))
        os.fdatasync(file)
        waits.append((time.perf_counter() - begun) * 1e6)
    os.close(file)
    os.remove(f"{folder}/probe")
    return median(waits)


class Tabd:
    """A server that begins over a folder, or without one."""

    def __init__(self, program, client, folder, mode, checkpoint=NEVER):
        self.program, self.client, self.store = program, client, f"{folder}/store"
        self.words = [] if MODES[mode] is None else ["--store", self.store, "--checkpoint", checkpoint, *MODES[mode]]
        shutil.rmtree(self.store, ignore_errors=True)
        self.start()

    def start(self):
        """Gives how long it took."""
        self.port, begun = free_port(), time.perf_counter()
        self.process = subprocess.Popen([self.program, "serve", "--port", str(self.port), "--workers", str(WORKERS), *self.words], stdin=subprocess.DEVNULL, stdout=subprocess.PIPE, stderr=subprocess.DEVNULL)
        if not self.process.stdout.readline():
            sys.exit(f"{self.program} doesn't listen")
        return time.perf_counter() - begun

    def ask(self, *words):
        return told(subprocess.run([self.client, str(self.port), *words], capture_output=True, text=True))

    def files(self):
        """The bytes of its folder, and the greatest number of an image."""
        sizes, newest = 0, -1
        for name in os.listdir(self.store):
            try:
                sizes += os.stat(f"{self.store}/{name}").st_size
            except FileNotFoundError:
                continue
            image = re.fullmatch(r"image\.(\d+)", name)
            newest = max(newest, int(image[1])) if image else newest
        return sizes, newest

    def kill(self):
        self.process.kill()
        self.process.communicate()

    def close(self):
        self.kill()
        shutil.rmtree(self.store, ignore_errors=True)


class Postgres:
    """A PostgreSQL of its own, in the folder."""

    BIN = max(glob.glob("/usr/lib/postgresql/*/bin"), default=None, key=lambda path: int(path.split("/")[4]))

    def __init__(self, client, folder):
        self.client, self.data = client, f"{folder}/postgres"
        os.mkdir(self.data)
        os.chmod(folder, 0o755)
        if os.getuid() == 0:
            shutil.chown(self.data, "postgres")
        self.run("initdb", "-D", self.data, "-U", "postgres", "-A", "trust", "-E", "SQL_ASCII", "--locale=C")
        self.port = free_port()
        settings = "listen_addresses=127.0.0.1 unix_socket_directories= fsync=on synchronous_commit=on max_wal_size=8GB shared_buffers=1GB random_page_cost=1.1 jit=off"
        words = "".join(f" -c {word}" for word in settings.split())
        self.run("pg_ctl", "-D", self.data, "-l", self.data + "/log", "-w", "-o", f"-p {self.port}{words}", "start")
        schema = (TOP / "bench/postgres/schema.sql").read_text(encoding="utf-8").replace("create unlogged table", "create table")
        self.sql(schema + "alter system set synchronous_commit = off; select pg_reload_conf();")
        time.sleep(0.5)
        self.ask("begin", str(ROWS))
        self.sql("alter system reset synchronous_commit; select pg_reload_conf(); checkpoint;")
        time.sleep(0.5)

    def run(self, name, *words):
        front = ["runuser", "-u", "postgres", "--"] if os.getuid() == 0 else []
        done = subprocess.run([*front, f"{self.BIN}/{name}", *words], cwd="/", stdin=subprocess.DEVNULL, stdout=subprocess.DEVNULL, stderr=subprocess.PIPE)
        if done.returncode:
            sys.exit(done.stderr.decode())

    def sql(self, text):
        # each statement by itself: some can't be in a transaction
        subprocess.run([f"{self.BIN}/psql", "-X", "-q", "-h", "127.0.0.1", "-p", str(self.port), "-U", "postgres", "-v", "ON_ERROR_STOP=1", "postgres"], input=text.replace("; ", ";\n"), text=True, check=True, stdout=subprocess.DEVNULL, stderr=subprocess.DEVNULL)

    def ask(self, *words):
        # a commit each all the same, so a window needs no more
        short = [word if place != 3 or words[0] != "pipelined" else "64" for place, word in enumerate(words)]
        return told(subprocess.run([self.client, str(self.port), *short], capture_output=True, text=True))

    def close(self):
        self.run("pg_ctl", "-D", self.data, "-m", "immediate", "stop")
        shutil.rmtree(self.data, ignore_errors=True)


def told(done):
    """What the client told: of each line the count, the seconds and the microseconds of a reply."""
    if done.returncode:
        sys.exit(f"the client failed: {done.stderr}")
    return [tuple(map(float, line.split("\t")[1:])) for line in done.stdout.splitlines()]


def sqlite(folder, seconds, threads, puts):
    """Threads that commit so many rows at once, each with a connection of its own."""
    name, waits, begun = f"{folder}/sqlite", [], time.monotonic()

    def connect():
        link = sqlite3.connect(name, isolation_level=None, timeout=60)
        link.execute("pragma journal_mode = wal")
        link.execute("pragma synchronous = full")
        return link

    link = connect()
    link.execute("create table if not exists cells (row blob, family blob, qualifier blob, label blob, time integer, value blob, primary key (row, family, qualifier, label)) without rowid")

    def writer(seed):
        mine, at = connect(), seed << 32
        while time.monotonic() - begun < seconds:
            at += 1
            rows = [(b"%010d" % (at * 7919 % ROWS), b"f001", b"q%09d" % (at * puts + put), b"A&(B|C)", 1, b"v" * 20) for put in range(puts)]
            asked = time.perf_counter()
            mine.execute("begin immediate")
            mine.executemany("insert or replace into cells values (?, ?, ?, ?, ?, ?)", rows)
            mine.execute("commit")
            waits.append((time.perf_counter() - asked) * 1e6)
        mine.close()

    all_of_them = [threading.Thread(target=writer, args=(seed,)) for seed in range(threads)]
    for thread in all_of_them:
        thread.start()
    for thread in all_of_them:
        thread.join()
    took = time.monotonic() - begun
    link.close()
    for path in glob.glob(name + "*"):
        os.remove(path)
    waits.sort()
    return [(len(waits) * puts, took, median(waits), waits[int(len(waits) * 0.99)], waits[-1])]


def in_process(write, seconds):
    """The parts that a library in the process can have."""
    return {"one at a time, writes": write(seconds, 1, 1), "16 at once, writes": write(seconds, 16, 1), "pipelined, writes of 100": write(seconds, 1, 100)}


def one_round(who, make, seconds):
    """The parts of one server: for each what the client told."""
    server = make()
    try:
        if not who.startswith("PostgreSQL"):
            server.ask("begin", str(ROWS))
        return {name: server.ask(part, str(seconds), *words.split(), str(ROWS)) for name, (part, words) in PARTS.items()}
    finally:
        server.close()


def recovery(program, client, folder, cells):
    """How long a server takes to do so many writes of one cell, and how long one that begins over what a killed one left; one with little, too."""
    server = Tabd(program, client, folder, "always")
    server.ask("begin", "1000")
    count, wrote, *_ = server.ask("load", "1", str(cells), str(cells))[0]
    length, _ = server.files()
    server.kill()
    again = server.start()
    server.kill()
    loaded = server.start()
    server.close()
    print(f"recovery of {count:.0f} writes of one cell, pipelined in {wrote:.2f} s, {length / 1e6:.0f} MB of journal: {again:.2f} s, with the image that comes of it; the next start, which loads that, {loaded:.2f} s", flush=True)


def checkpoint(program, client, folder, cells, mode, seconds):
    """How long replies take while an image of so many cells is made, beside sixteen who write."""
    probe = Tabd(program, client, folder, mode)
    probe.ask("begin", "1000")
    probe.ask("load", "100", str(cells // 100), str(ROWS))
    length, _ = probe.files()
    probe.close()
    server = Tabd(program, client, folder, mode, checkpoint=str(length + 100_000))
    server.ask("begin", "1000")
    server.ask("load", "100", str(cells // 100), str(ROWS))
    seen, over = {}, threading.Event()

    def watch():
        begun, held = time.monotonic(), 0
        while not over.is_set():
            size, newest = server.files()
            held = max(held, size)
            if "began" not in seen and any(name == "journal.1" for name in os.listdir(server.store)):
                seen["began"] = time.monotonic() - begun
            if "ended" not in seen and newest == 1:
                seen["ended"] = time.monotonic() - begun
            seen["most"] = held
            time.sleep(0.002)

    watching = threading.Thread(target=watch)
    watching.start()
    count, took, middle, late, most = server.ask("writes", str(seconds), "16", str(ROWS))[0]
    over.set()
    watching.join()
    server.close()
    lasted = f"{seen['ended'] - seen['began']:.2f} s" if "ended" in seen else "not made"
    print(f"an image of {cells} cells beside 16 writers, {mode}: {lasted}; {count / took:.0f} writes a second, a reply in {middle / 1000:.2f} ms, 99 of 100 in {late / 1000:.2f}, all in {most / 1000:.2f}; at most {seen['most'] / 1e6:.0f} MB of files ({length / 1e6:.0f} MB of journal)", flush=True)


def shown(rounds, name):
    """A part of these rounds: the median rate, and of what is awaited the medians of a reply's microseconds."""
    parts = [one[name] for one in rounds if name in one]
    if not parts:
        return ""
    rate = median(part[0][0] / part[0][1] for part in parts)
    text = f"{rate:.0f}"
    if parts[0][0][2]:
        text += f" ({median(part[0][2] for part in parts):.0f}, {median(part[0][3] for part in parts):.0f})"
    return text


def main():
    asked = arguments()
    signal.signal(signal.SIGTERM, lambda *_: sys.exit(1))
    program = os.path.realpath(os.environ.get("TABD") or subprocess.check_output([TOP / "release/program"], text=True).strip())
    with tempfile.TemporaryDirectory(dir=asked.folder) as folder:
        for name, words in (("tabd", []), ("postgres", ["--cfg", "postgres"])):
            subprocess.run(["rustc", "--edition=2021", "-O", *words, "-o", f"{folder}/{name}-client", TOP / "bench/server/client.rs"], check=True)
        peers = {}
        for mode in MODES:
            peers[f"tabd, {mode}"] = lambda mode=mode: one_round("tabd", lambda: Tabd(program, f"{folder}/tabd-client", folder, mode), asked.seconds)
        if Postgres.BIN:
            peers["PostgreSQL"] = lambda: one_round("PostgreSQL", lambda: Postgres(f"{folder}/postgres-client", folder), asked.seconds)
        peers["SQLite"] = lambda: in_process(lambda *how: sqlite(folder, *how), asked.seconds)
        built = subprocess.run(["g++", "-std=c++17", "-O2", "-o", f"{folder}/rocksdb", TOP / "bench/durable/rocksdb.cc", "-lrocksdb"], stderr=subprocess.DEVNULL).returncode == 0

        def rocksdb(seconds, threads, puts):
            some = told(subprocess.run([f"{folder}/rocksdb", f"{folder}/rocks", str(seconds), str(threads), str(puts)], capture_output=True, text=True))
            shutil.rmtree(f"{folder}/rocks")
            return some

        if built:
            peers["RocksDB"] = lambda: in_process(rocksdb, asked.seconds)
        else:
            print("RocksDB is left out: the package librocksdb-dev isn't installed", file=sys.stderr)
        before = sync_time(folder)
        seen = {who: [] for who in peers}
        for _ in range(asked.rounds):
            for who, ask in peers.items():
                seen[who].append(ask())
        print(f"F, the disk's sync of 100 bytes: {before:.0f} µs before, {sync_time(folder):.0f} µs behind")
        print("cells, ranges or scans a second (µs of a reply: the median, and 99 of 100 at most)")
        print(f"{'':26}" + "".join(f"{who:>26}" for who in peers))
        for name in PARTS:
            print(f"{name:26}" + "".join(f"{shown(seen[who], name):>26}" for who in peers))
        print(flush=True)
        recovery(program, f"{folder}/tabd-client", folder, asked.cells)
        for mode in ("always", "interval"):
            checkpoint(program, f"{folder}/tabd-client", folder, asked.cells, mode, max(2.0, 3 * asked.seconds))


main()
