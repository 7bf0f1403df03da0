#!/usr/bin/env python3
"""What writes and scans in turn cost, where nothing is flushed by hand: each scan freezes what was written since the one before, so a
table gathers a run a turn. Microseconds of the processor are told for each tenth of the turns, so that one sees whether they rise.

Usage: bench/turns.py [TURNS [ROUNDS]]   (from anywhere; builds the program if it isn't built)
  TURNS   a write and a scan of one row each, a multiple of 10; 20000 by default
  ROUNDS  runs, of which the median counts; 3 by default
  TABD    in the environment: another built program, measured in place of this folder's
"""
import os
import subprocess
import sys
from pathlib import Path
from random import Random
from statistics import median

TOP = Path(__file__).resolve().parent.parent
sys.path.insert(0, str(TOP / "bench" / "store"))
from phases import phases

TENTHS = 10


def parts(turns):
    """The script in tenths, and how many bytes each answers: a write is answered `ok`, a scan its cell and `end`."""
    random = Random(1)
    rows = random.sample(range(10**10), turns)
    lines = ["createtable t\n", *(f"insert t {row:010} f q \\e {row % 10**6:06} 1\nscan t \\0 [{row:010} [{row:010}\n" for row in rows)]
    answers = [3, *(3 + len(f"{row:010} f q \\e 1 {row % 10**6:06}\nend\n") for row in rows)]
    for tenth in range(TENTHS):
        first, end = (turns * at // TENTHS + (at > 0) for at in (tenth, tenth + 1))
        yield "".join(lines[first:end]).encode(), sum(answers[first:end])


def main(turns=20_000, rounds=3):
    program = os.environ.get("TABD") or subprocess.check_output([TOP / "release/program"], text=True).strip()
    script = list(parts(turns))
    runs = [[numbers for numbers in phases(script, [program, "script"])] for _ in range(rounds)]
    print(f"{'turns behind':>12} {'us a turn':>10} {'MiB':>8}")
    for tenth, told in enumerate(zip(*runs), 1):
        seconds, resident = (median(numbers[at] for numbers in told) for at in (0, 1))
        print(f"{turns * tenth // TENTHS:12} {seconds / turns * TENTHS * 1e6:10.2f} {resident / 1024:8.1f}")


main(*map(int, sys.argv[1:]))
