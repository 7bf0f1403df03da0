#!/usr/bin/env python3
"""How well the time of a reply tells a reader whether a row holds cells that are hidden (docs/SECURITY.md). In each trial root writes some
cells under the label B into one of two rows, which a coin chooses; each row has one cell under A besides. Bob, who holds A alone, scans both
rows in turn many times, and guesses that the slower one has them: by the medians of these times.

Usage: bench/guesses.py [--trials N] [--scans N] [--cells N ...]   (from anywhere; builds the program if it isn't built; five minutes)
  TABD in the environment: another built program
"""
import argparse
import os
import random
import struct
import subprocess
import sys
import time
from pathlib import Path
from statistics import median

sys.dont_write_bytecode = True
from worst import TOP, Server, auths, create_table, create_user, exactly, field, grant, hello, open_row, put, read_frames, take, write


def scan(link, text):
    """Nanoseconds until the row is told."""
    began = time.perf_counter_ns()
    link.sendall(text)
    session = exactly(link, 9)[5:]
    link.sendall(field(b"\x0c" + session + struct.pack(">I", 9)) + field(b"\x0e" + session))
    told = read_frames(link, 3)
    took = time.perf_counter_ns() - began
    assert [frame[:1] for frame in told] == [b"\x82", b"\x83", b"\x80"], told
    return took


def trial(root, bob, pick, name, cells, scans):
    hidden = pick.randrange(2)
    rows = [b"row0", b"row1"]
    for at, row in enumerate(rows):
        take(root, write(name, row, [put(b"f", b"q", b"A", b"v")]))
        labels = [b"B"] * cells if at == hidden else []
        if labels:
            take(root, write(name, row, [put(b"f", b"h%06d" % n, label, b"v") for n, label in enumerate(labels)]))
    times = [[], []]
    asks = [open_row(name, row, [b"A"]) for row in rows]
    for ask in asks:
        scan(bob, ask)
    for _ in range(scans):
        for at in pick.sample((0, 1), 2):
            times[at].append(scan(bob, asks[at]))
    return (median(times[1]) > median(times[0])) == bool(hidden), abs(median(times[1]) - median(times[0])) / 1000


def main():
    parser = argparse.ArgumentParser(description=__doc__, formatter_class=argparse.RawDescriptionHelpFormatter)
    parser.add_argument("--trials", type=int, default=60)
    parser.add_argument("--scans", type=int, default=1000, help="scans of each row before a guess")
    parser.add_argument("--cells", type=int, nargs="+", default=[0, 1, 4, 16, 64, 1000], help="hidden cells")
    asked = parser.parse_args()
    pick = random.Random(5)
    server = Server(os.environ.get("TABD") or subprocess.check_output([TOP / "release/program"], text=True).strip())
    try:
        with server.connect() as root, server.connect() as bob:
            take(root, hello(b"root"), create_user(b"bob"), auths(b"root", [b"A", b"B"]), auths(b"bob", [b"A"]))
            take(bob, hello(b"bob"))
            for cells in asked.cells:
                right, apart = 0, []
                for at in range(asked.trials):
                    name = b"t%d_%d" % (cells, at)
                    take(root, create_table(name), grant(b"bob", name, 0))
                    good, microseconds = trial(root, bob, pick, name, cells, asked.scans)
                    right += good
                    apart.append(microseconds)
                print(f"{cells:6} hidden cells: {right} of {asked.trials} guesses right, medians {median(apart):.1f} microseconds apart", flush=True)
    finally:
        server.close()


if __name__ == "__main__":
    main()
