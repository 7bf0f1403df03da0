#!/usr/bin/env python3
"""What tablets cost: the inserts and scans of store.sh over one tablet and over many, and how long a split takes.

Usage: bench/splits.py [CELLS [TABLETS [ROUNDS]]]   (from anywhere; builds the program if it isn't built)
  CELLS    cells of the table; 1000000 by default
  TABLETS  tablets that it is split into before the first insert; 1000 by default
  ROUNDS   runs of each script, of which the median counts; 5 by default. Whole scans are made by turns, 40 of each table
  TABD     in the environment: another built program, measured in place of this folder's
"""
import os
import subprocess
import sys
import threading
from pathlib import Path
from statistics import median

TOP = Path(__file__).resolve().parent.parent
sys.path.insert(0, str(TOP / "bench" / "store"))
from phases import give, phases, processor_seconds
from script import PARTS

SCANS = 100_000
# whole scans of each table, by turns: one takes a tenth of a second, in which a machine does something else as well
TURNS = 40
SPLITS = 200


def text(lines):
    return "".join(lines).encode()


def prepared(command, parts):
    """The parts' lines, each with how many bytes it answers."""
    lines = [text(part) for part in parts]
    outputs = [len(subprocess.run(command, input=b"".join(lines[:count]), stdout=subprocess.PIPE, check=True).stdout) for count in range(len(lines) + 1)]
    return [(part, after - before) for part, before, after in zip(lines, outputs, outputs[1:])]


def measured(command, scripts, rounds):
    """Of each script its parts' seconds, each the median of all rounds; in a round the scripts run one after another."""
    given = [prepared(command, parts) for parts in scripts]
    runs = [[[numbers[0] for numbers in phases(parts, command)] for parts in given] for _ in range(rounds)]
    return [[median(part) for part in zip(*script)] for script in zip(*runs)]


def ends(cells, tablets):
    return [f"addsplit t {cells * one // tablets:010}\n" for one in range(1, tablets)]


def over(cells, tablets):
    """The inserts, whole scans and many short ones, in a table of so many tablets."""
    first, *inserts = PARTS["inserts"](cells)
    return [[first, *ends(cells, tablets)], inserts, PARTS["whole"](), PARTS["short"](cells, SCANS), PARTS["compaction"](), PARTS["short"](cells, SCANS)]


def answered(process, lines, end):
    """Gives a process lines, reads its answers up to those that end so, and returns the seconds of the processor that it took."""
    before, last = processor_seconds(process), b""
    writer = threading.Thread(target=give, args=(process, text(lines)), daemon=True)
    writer.start()
    while not last.endswith(end):
        last = (last + process.stdout.read1(1 << 16))[-len(end):]
    writer.join()
    return processor_seconds(process) - before


def whole_scans(command, cells, tablets, compaction):
    """The medians of whole scans of a table of one tablet and of one of so many, by turns."""
    scan, end, processes = PARTS["whole"](), b"\nend\n", []
    for count in (1, tablets):
        processes.append(subprocess.Popen(command, stdin=subprocess.PIPE, stdout=subprocess.PIPE))
        first, *inserts = PARTS["inserts"](cells)
        answered(processes[-1], [first, *ends(cells, count), *inserts, *compaction, *scan], end)
    took = [[answered(process, scan, end) for process in processes] for _ in range(TURNS)]
    for process in processes:
        process.communicate()
    return [median(times) for times in zip(*took)]


def compare(command, cells, tablets, rounds):
    names = ["inserts", "the first whole scan, with its freeze", f"{SCANS} short scans of runs", "flush and full compaction", f"{SCANS} short scans of sorted tables"]
    print(f"{f'{cells} cells':40} {'one tablet':>12} {f'{tablets} tablets':>14} {'ratio':>8}")
    (_, *first), (_, *second) = measured(command, [over(cells, 1), over(cells, tablets)], rounds)
    for name, one, many in zip(names, first, second):
        print(f"{name:40} {one:10.3f} s {many:12.3f} s {many / one:8.2f}")
    for name, compaction in (("whole scan of runs", []), ("whole scan of sorted tables", PARTS["compaction"]())):
        one, many = whole_scans(command, cells, tablets, compaction)
        print(f"{name:40} {one:10.3f} s {many:12.3f} s {many / one:8.2f}")


def one_split(command, cells, rounds):
    """Microseconds of a split of a tablet of so many cells, which lie in one sorted table, at a row and by size."""
    inserts = [*PARTS["inserts"](cells), *PARTS["compaction"]()]
    at = [f"addsplit t {cells - one:010}\n" for one in range(1, SPLITS + 1)]
    by_size = ["splitsize t \\e 1\n"]
    (_, row), (_, size) = measured(command, [[inserts, at], [inserts, by_size]], rounds)
    return row / SPLITS * 1e6, size * 1e6


def splits(command, rounds):
    print(f"\n{'a split of a tablet of':40} {'at a row':>12} {'by size':>14}")
    for cells in (1_000, 30_000, 1_000_000):
        row, size = one_split(command, cells, rounds)
        print(f"{f'{cells} cells':40} {row:9.2f} us {size:11.2f} us")


def main(cells=1_000_000, tablets=1_000, rounds=5):
    program = os.environ.get("TABD") or subprocess.check_output([TOP / "release/program"], text=True).strip()
    compare([program, "script"], cells, tablets, rounds)
    splits([program, "script"], rounds)


main(*map(int, sys.argv[1:]))
