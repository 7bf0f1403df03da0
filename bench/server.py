#!/usr/bin/env python3
"""`tabd serve` over loopback, beside a plain Rust server that answers the same frames (server/plain.rs: std's BTreeMap under a lock, a
thread for each connection), with the same client program for both (server/client.rs). Both programs are compiled by rustc -O over std.

In each round each server begins empty and is asked the same in turn: first by one connection, then by several at once, each of which
writes one cell and reads a range of ten rows in turn and awaits each reply. Ranges beside writes are those of a session opened while
another connection writes up to a hundred cells a millisecond, those once idle of one opened four seconds behind. Seconds are those of the clock, and behind them the
processor's that the server used; each the median of the rounds. More is said in README.md.

Usage: bench/server.py [--cells N] [--rounds N] [--connections N,N,..] [--operations N] [--compactors N] [--figures FILE]
       (from anywhere; builds the program if it isn't built; for a trial: --cells 10000 --rounds 1 --operations 2000)
  TABD in the environment: another built program, measured in place of this folder's
"""
import argparse
import json
import os
import socket
import subprocess
import sys
import tempfile
from pathlib import Path
from statistics import median

TOP = Path(__file__).resolve().parent.parent
sys.dont_write_bytecode = True
sys.path.insert(0, str(TOP / "bench" / "store"))
from phases import memory, processor_seconds  # noqa: E402

# what a part may take of the plain server's time; and of several at once, of its throughput at least
AIMS = {"writes of 100": 0.5, "writes of one": 0.7, "ten whole scans": 0.35, "ranges": 0.8, "one at a time, writes": 1.0, "one at a time, ranges": 1.0, "ranges beside writes": 0.9, "ranges once idle": 0.5}
THROUGHPUT = {"16 at once": 1.8}


def arguments():
    parser = argparse.ArgumentParser(description=__doc__, formatter_class=argparse.RawDescriptionHelpFormatter)
    parser.add_argument("--cells", type=int, default=1_000_000, help="of each of two tables, a multiple of 100")
    parser.add_argument("--rounds", type=int, default=5)
    parser.add_argument("--connections", default="1,4,16", help="how many at once, part by part")
    parser.add_argument("--operations", type=int, default=100_000, help="of each of these parts, and ranges by one")
    parser.add_argument("--compactors", type=int, help="of tabd's threads; the program's own number by default")
    parser.add_argument("--figures", help="a file for the medians, from which server_picture.py draws")
    return parser.parse_args()


def free_port():
    with socket.create_server(("127.0.0.1", 0)) as listener:
        return listener.getsockname()[1]


def one_round(program, client, asked):
    """A list of the parts: name, seconds, the server's seconds of the processor, what was counted; and the server's most memory in KiB."""
    port = free_port()
    workers = max(map(int, asked.connections.split(",")))
    words = ["--workers", str(workers), *(["--compactors", str(asked.compactors)] if asked.compactors is not None else [])]
    server = subprocess.Popen([program, "serve", "--port", str(port), *words], stdin=subprocess.DEVNULL, stdout=subprocess.PIPE)
    try:
        if server.stdout.readline() != b"listening %d\n" % port:
            sys.exit(f"{program} doesn't listen")
        parts, before = [], processor_seconds(server)
        asking = subprocess.Popen([client, str(port), str(asked.cells), asked.connections, str(asked.operations)], stdout=subprocess.PIPE, text=True)
        for line in asking.stdout:
            name, seconds, *counted = line.rstrip("\n").split("\t")
            now = processor_seconds(server)
            parts.append((name, float(seconds), now - before, counted))
            before = now
        if asking.wait() != 0:
            sys.exit(f"{program}: the client failed")
        return parts, memory(server)[1]
    finally:
        server.kill()
        server.wait()


def measured(programs, client, asked):
    """For each program the medians of its parts by name, (seconds, processor's seconds), and of its most memory; they run in turn."""
    rounds = [[one_round(program, client, asked) for program in programs] for _ in range(asked.rounds)]
    counts = [[(name, counted) for name, _, _, counted in parts] for programs_of_it in rounds for parts, _ in programs_of_it]
    if any(count != counts[0] for count in counts):
        sys.exit("the two were told different numbers of cells")
    for who in range(len(programs)):
        runs = [of_it[who] for of_it in rounds]
        parts = {part[0][0]: (median(one[1] for one in part), median(one[2] for one in part)) for part in zip(*(parts for parts, _ in runs))}
        yield parts, median(most for _, most in runs)


def show(asked, ours, theirs):
    (ours, our_memory), (theirs, their_memory) = ours, theirs
    print(f"{f'{asked.cells} cells a table':24} {'tabd':>9} {'rust':>9} {'ratio':>6} {'aim':>8}   {'processor: tabd':>15} {'rust':>9} {'ratio':>6}")
    for name, (seconds, used) in ours.items():
        if not name.endswith("at once"):
            aim = f"<= {AIMS[name]}" if name in AIMS else ""
            print(f"{name:24} {seconds:7.3f} s {theirs[name][0]:7.3f} s {seconds / theirs[name][0]:6.2f} {aim:>8}   {used:13.3f} s {theirs[name][1]:7.3f} s {used / max(theirs[name][1], 1e-9):6.2f}")
    print(f"{'most memory':24} {our_memory / 1024:5.0f} MiB {their_memory / 1024:5.0f} MiB {our_memory / their_memory:6.2f}")
    print(f"\n{asked.operations} operations{'':9} {'tabd':>9} {'rust':>9} {'ratio':>6} {'aim':>8}")
    for name in ours:
        if name.endswith("at once"):
            rates = [asked.operations / of_it[name][0] for of_it in (ours, theirs)]
            print(f"{name:24} {rates[0]:7.0f}/s {rates[1]:7.0f}/s {rates[0] / rates[1]:6.2f} {f'>= {THROUGHPUT.get(name, 1.0)}':>8}")


def main():
    asked = arguments()
    program = os.environ.get("TABD") or subprocess.check_output([TOP / "release/program"], text=True).strip()
    with tempfile.TemporaryDirectory() as work:
        for name in ("plain", "client"):
            subprocess.run(["rustc", "--edition=2021", "-O", "-o", f"{work}/{name}", TOP / f"bench/server/{name}.rs"], check=True)
        ours, theirs = measured([program, f"{work}/plain"], f"{work}/client", asked)
    show(asked, ours, theirs)
    if asked.figures:
        with open(asked.figures, "w", encoding="utf-8") as file:
            json.dump({"cells": asked.cells, "rounds": asked.rounds, "operations": asked.operations, "tabd": ours[0], "rust": theirs[0]}, file, indent=1)


main()
