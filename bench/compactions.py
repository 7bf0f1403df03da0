#!/usr/bin/env python3
"""What compactions cost and what they leave, beside the plain Rust program of store.sh: a flush and a full compaction behind
many inserts, the scans behind them, and writes and scans in turn that are flushed and compacted on their way.

Usage: bench/compactions.py [CELLS [ROUNDS]]   (from anywhere; builds the program if it isn't built)
  CELLS   cells of the table, 10 or more; 1000000 by default
  ROUNDS  runs of each script, of which the median counts; 5 by default
  TABD    in the environment: another built program, measured in place of this folder's
"""
import os
import subprocess
import sys
import tempfile
from pathlib import Path
from statistics import median

TOP = Path(__file__).resolve().parent.parent
sys.path.insert(0, str(TOP / "bench" / "store"))
from phases import phases
from script import PARTS

SCANS = 100_000
TURNS, TURNS_A_PART = 20_000, 1_000


def lines(name, *numbers):
    return "".join(PARTS[name](*numbers)).encode()


def answers(command, texts):
    """The answers to all parts."""
    return subprocess.run(command, input=b"".join(texts), stdout=subprocess.PIPE, check=True).stdout


def with_lengths(commands, texts):
    """The parts with the lengths of their answers, once both programs are seen to answer them alike."""
    ours, theirs = (answers(command, texts) for command in commands)
    if ours != theirs:
        sys.exit("the two disagree")
    lengths = [len(answers(commands[1], texts[:count])) for count in range(len(texts) + 1)]
    return [(text, after - before) for text, before, after in zip(texts, lengths, lengths[1:])]


def measured(commands, texts, rounds):
    """For each program the parts' numbers, each the median of all rounds; the two run in turn."""
    parts = with_lengths(commands, texts)
    runs = [[list(phases(parts, command)) for command in commands] for _ in range(rounds)]
    return [[tuple(map(median, zip(*part))) for part in zip(*(run[who] for run in runs))] for who in range(len(commands))]


def row(name, unit, ours, theirs):
    print(f"{name:36} {ours:10.3f} {unit:3} {theirs:10.3f} {unit:3} {ours / theirs:8.2f}")


def compare(commands, cells, rounds):
    """A flush and a full compaction behind the inserts, and scans of both kinds behind these."""
    before = [lines("inserts", cells), lines("compaction")]
    whole = measured(commands, [*before, lines("whole")], rounds)
    short = measured(commands, [*before, lines("short", cells, SCANS)], rounds)
    (ours, theirs), (ours_short, theirs_short) = whole, short
    print(f"{f'{cells} cells':36} {'tabd':>14} {'rust':>14} {'ratio':>8}")
    row("inserts", "s", ours[0][0], theirs[0][0])
    row("flush and full compaction / inserts", "s", ours[1][0], theirs[0][0])
    row("whole scan", "s", ours[2][0], theirs[2][0])
    row(f"{SCANS} short scans", "s", ours_short[2][0], theirs_short[2][0])
    row("resident behind them, bytes a cell", "B", ours[1][1] * 1024 / cells, theirs[1][1] * 1024 / cells)
    row("most while compacting, bytes a cell", "B", ours[1][2] * 1024 / cells, theirs[1][2] * 1024 / cells)


def in_turn(commands, rounds):
    """Microseconds of a write and a scan, in parts of so many."""
    texts = [lines("turns", first, first + TURNS_A_PART) for first in range(0, TURNS, TURNS_A_PART)]
    ours, theirs = ([part[0] / TURNS_A_PART * 1e6 for part in parts] for parts in measured(commands, texts, rounds))
    print(f"\n{'turns, us a write and a scan':36} {'tabd':>14} {'rust':>14}")
    for first, mine, other in zip(range(0, TURNS, TURNS_A_PART), ours, theirs):
        print(f"{f'from {first}':36} {mine:14.2f} {other:14.2f}")
    print(f"{'the last against the first':36} {ours[-1] / ours[0]:14.2f} {theirs[-1] / theirs[0]:14.2f}")


def main(cells=1_000_000, rounds=5):
    program = os.environ.get("TABD") or subprocess.check_output([TOP / "release/program"], text=True).strip()
    with tempfile.TemporaryDirectory() as work:
        plain = f"{work}/plain"
        subprocess.run(["rustc", "-O", "-o", plain, TOP / "bench/store/plain.rs"], check=True)
        commands = [[program, "script"], [plain]]
        compare(commands, cells, rounds)
        in_turn(commands, rounds)


main(*map(int, sys.argv[1:]))
