#!/usr/bin/env python3
"""What whole connections cost: the frames of docs/PROTOCOL.md through the program `frames`, beside a plain Rust program over std's
BTreeMap (rustc -O, serve/plain.rs) that answers the same ones. A table of 100 cells a row, written a row a frame, and one of a cell a
row, both in random order; then whole scans in batches, and of the second table many short ranges. Seconds are the processor's: first
through pipes, part by part, and then over memory, from a file in /dev/shm to /dev/null, which leaves out what the pipes take.

Usage: bench/serve.py [CELLS [ROUNDS]]   (from anywhere; builds the program if it isn't built)
  CELLS   cells of each table, a multiple of 100; 1000000 by default
  ROUNDS  runs of each program, of which the median counts; 5 by default
  FRAMES  in the environment: another built program, measured in place of this folder's
"""
import os
import struct
import subprocess
import sys
import tempfile
from itertools import product
from pathlib import Path
from random import Random
from statistics import median

TOP = Path(__file__).resolve().parent.parent
sys.path.insert(0, str(TOP / "bench" / "store"))
from phases import phases
from script import LABELS, LETTERS, NEIGHBOURS

WIDE, BATCH, RANGES, RANGES_A_FRAME, VALUE = 100, 1_000, 100_000, 100, 20
# how often a part that can be asked again is asked over memory, since it is over too soon to be told from what is before it
TIMES = 10
A_LETTER = bytes(ord(LETTERS[byte % len(LETTERS)]) for byte in range(256))


def number(it):
    return struct.pack(">I", it)


def field(text):
    return number(len(text)) + text


def listed(items):
    return number(len(items)) + b"".join(items)


BEGINNING = [b"\x01" + field(b"root"), b"\x02" + field(b"t") + b"\0" + number(1), b"\x06" + field(b"root") + listed([field(b"A"), field(b"B")])]
OPEN = b"\x0b" + field(b"t") + b"\0\0" + number(0) + listed([field(b"A"), field(b"B")])


def updates(cells, random):
    """Puts of random columns and values at time 1, no column twice in a hundred; and how many of them `A,B` satisfies."""
    columns = list(product(range(4), range(1000), range(len(LABELS))))
    heads = [b"\x01" + field(b"f%03d" % family) + field(b"q%03d" % qualifier) + field(LABELS[label].encode()) + b"\x01" + struct.pack(">q", 1) + number(VALUE) for family, qualifier, label in columns]
    chosen = [column for _ in range(0, cells, WIDE) for column in random.sample(range(len(columns)), WIDE)]
    values = random.randbytes(VALUE * cells).translate(A_LETTER)
    shown = sum(columns[column][2] < len(LABELS) // 2 for column in chosen)
    return [heads[column] + values[VALUE * at : VALUE * (at + 1)] for at, column in enumerate(chosen)], shown


def writes(puts, a_row, random):
    """A Write for so many puts at a time, their rows in random order."""
    rows = list(range(len(puts) // a_row))
    random.shuffle(rows)
    return [b"\x0a" + field(b"t") + field(b"%010d" % row) + listed(puts[at * a_row : (at + 1) * a_row]) for at, row in enumerate(rows)]


def scan(session, shown):
    """An Open and its whole answer in batches, as many as it needs and one more."""
    return [OPEN, *[b"\x0c" + number(session) + number(BATCH)] * (shown // BATCH + 2)]


def ranges(session, rows, random):
    """Neighbouring rows from random places, many ranges a frame."""
    lows = [random.randrange(rows - NEIGHBOURS + 1) for _ in range(RANGES)]
    pairs = [b"\x01" + field(b"%010d" % low) + b"\x02" + field(b"%010d" % (low + NEIGHBOURS)) for low in lows]
    return [b"\x0d" + number(session) + listed(pairs[at : at + RANGES_A_FRAME]) for at in range(0, RANGES, RANGES_A_FRAME)]


def workloads(cells):
    """The parts of each connection by their names: a part as its bytes, how many requests it has, and, where it can be asked again, its
    bytes TIMES times over."""
    random = Random(1)
    puts, shown = updates(cells, random)

    def part(bodies, again=()):
        return b"".join(map(field, bodies)), len(bodies), b"".join(map(field, again))

    scans = {"first whole scan": part(scan(0, shown)), "whole scan": part(scan(1, shown), [body for at in range(TIMES) for body in scan(1 + at, shown)])}
    wide = {"writes": part(BEGINNING + writes(puts, WIDE, random)), **scans}
    tall = {"writes": part(BEGINNING + writes(puts, 1, random)), **scans}
    many = ranges(1, cells, random)
    tall[f"{RANGES} ranges"] = part(many, many * TIMES)
    return {"wide": wide, "tall": tall}


def lengths(told, counts):
    """How many bytes the answers to so many requests take, part by part. The last frame of an answer is no Cell and no RangeEnd."""
    at = 0
    for count in counts:
        begin = at
        while count > 0:
            count -= told[at + 4] not in (0x82, 0x86)
            at += 4 + int.from_bytes(told[at : at + 4], "big")
        yield at - begin


def answers(command, texts):
    return subprocess.run(command, input=b"".join(texts), stdout=subprocess.PIPE, check=True).stdout


def with_lengths(commands, parts):
    """The parts with the lengths of their answers, once both programs are seen to answer them alike."""
    texts, counts, _ = zip(*parts)
    ours, theirs = (answers(command, texts) for command in commands)
    if ours != theirs:
        sys.exit("the two disagree")
    return list(zip(texts, lengths(ours, counts)))


def in_turn(commands, rounds, seconds):
    """For each program the parts' seconds as `seconds` tells them of one run, each the median of all rounds; the two run in turn."""
    runs = [[seconds(command) for command in commands] for _ in range(rounds)]
    return [[median(part) for part in zip(*(run[who] for run in runs))] for who in range(len(commands))]


def through_pipes(commands, parts, rounds):
    told = with_lengths(commands, parts)
    return in_turn(commands, rounds, lambda command: [numbers[0] for numbers in phases(told, command)])


def spent(command, asked):
    """The processor's seconds of a run over the file, whose answers are dropped."""
    with open(asked, "rb") as requests:
        process = subprocess.Popen(command, stdin=requests, stdout=subprocess.DEVNULL)
        _, status, used = os.wait4(process.pid, 0)
    process.returncode = os.waitstatus_to_exitcode(status)
    if process.returncode != 0:
        sys.exit("it failed")
    return used.ru_utime + used.ru_stime


def over_memory(commands, parts, rounds):
    """A part's seconds are those of a run that ends with it, TIMES times over where it can be asked again, less those of one that ends
    before it."""
    with tempfile.TemporaryDirectory(dir="/dev/shm") as memory:
        def file(name, texts):
            path = Path(memory, name)
            path.write_bytes(b"".join(texts))
            return path

        texts = [text for text, _, _ in parts]
        before = [file(f"before {at}", texts[:at]) for at in range(len(parts))]
        behind = [file(f"behind {at}", [*texts[:at], again or text]) for at, (text, _, again) in enumerate(parts)]
        times = [TIMES if again else 1 for _, _, again in parts]
        ends = in_turn(commands, rounds, lambda command: [spent(command, path) for path in before + behind])
    return [[(end[len(parts) + at] - end[at]) / times[at] for at in range(len(parts))] for end in ends]


def compare(commands, cells, rounds):
    loads = workloads(cells)
    for way, measured in {"through pipes": through_pipes, "over memory": over_memory}.items():
        print(f"{f'{cells} cells, {way}':30} {'tabd':>11} {'rust':>11} {'ratio':>8}")
        for kind, parts in loads.items():
            for name, ours, theirs in zip(parts, *measured(commands, list(parts.values()), rounds)):
                print(f"{f'{kind}, {name}':30} {ours:9.3f} s {theirs:9.3f} s {ours / theirs:8.2f}")


def main(cells=1_000_000, rounds=5):
    program = os.environ.get("FRAMES")
    if not program:
        subprocess.run(["rt", "run"], cwd=TOP / "crates/frames", stdin=subprocess.DEVNULL, stdout=subprocess.DEVNULL, check=True)
        program = TOP / "crates/frames/out/frames"
    with tempfile.TemporaryDirectory() as work:
        plain = f"{work}/plain"
        subprocess.run(["rustc", "-O", "-o", plain, TOP / "bench/serve/plain.rs"], check=True)
        compare([[program], [plain]], cells, rounds)


main(*map(int, sys.argv[1:]))
