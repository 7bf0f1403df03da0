#!/usr/bin/env python3
"""What images cost: a save and a load beside a whole scan of the same cells, and the memory while they go on.

Usage: bench/images.py [CELLS [ROUNDS]]   (from anywhere; builds the program if it isn't built)
  CELLS   cells of the table; 1000000 by default
  ROUNDS  runs, of which the median counts; 3 by default
  TABD    in the environment: another built program, measured in place of this folder's
"""
import os
import subprocess
import sys
import tempfile
from pathlib import Path
from statistics import median

TOP = Path(__file__).resolve().parent.parent
sys.path.insert(0, str(TOP / "bench" / "store"))
from phases import phases
from script import PARTS

NAMES = ["inserts", "the first whole scan, with its freeze", "whole scan of a run", "save", "flush and full compaction", "whole scan of a sorted table", "save", "load", "whole scan of what was loaded"]


def parts(cells, image):
    """The lines of each part, and how many bytes they are answered: a scan's are counted beforehand."""
    whole, done = PARTS["whole"](), "ok\n"
    lines = [PARTS["inserts"](cells), whole, whole, [f"save {image}\n"], PARTS["compaction"](), whole, [f"save {image}\n"], [f"load {image}\n"], whole]
    return ["".join(part).encode() for part in lines]


def main(cells=1000000, rounds=3):
    program = os.environ.get("TABD") or subprocess.check_output([TOP / "release/program"], text=True).strip()
    with tempfile.TemporaryDirectory() as room:
        image = f"{room}/image"
        given = parts(cells, image)
        command = [program, "script"]
        first = subprocess.run(command, input=given[0], stdout=subprocess.PIPE, check=True).stdout
        scan = subprocess.run(command, input=given[0] + given[1], stdout=subprocess.PIPE, check=True).stdout[len(first):]
        lengths = [len(first), len(scan), len(scan), 3, 6, len(scan), 3, 3, len(scan)]
        runs = [list(phases(list(zip(given, lengths)), command)) for _ in range(rounds)]
        size = os.path.getsize(image)
    print(f"{f'{cells} cells, an image of {size} bytes':45} {'time':>10} {'held behind it':>16} {'at most meanwhile':>18}")
    for number, name in enumerate(NAMES):
        seconds, held, most = (median(run[number][part] for run in runs) for part in range(3))
        print(f"{name:45} {seconds:8.3f} s {held / 1024:12.1f} MiB {most / 1024:14.1f} MiB")


if __name__ == "__main__":
    main(*map(int, sys.argv[1:]))
