#!/usr/bin/env python3
"""What each operation takes in instructions, counted by callgrind: the same on a machine that is busy.

A count is the difference of two runs, one of which does the operation so many times more: what both do falls out, the start and all that
A count is the difference of two runs, one of which does the operation so many times more: what both do falls out, the start and all that
do for a write isn't in it. Counts in all hold where the C library is the same, those of the program's own code everywhere.

Usage: bench/instructions.py [--beside FILE | --hold FILE] [--cells N]   (from anywhere; wants valgrind)
  --beside  another program, counted too
  --hold    what was printed before: prints what is more than 3 per cent above it, and counts as a test does
  --cells   of a table, a multiple of 1000; 2000 by default, and as many as before with --hold
  TABD      in the environment: another program, counted in place of the release
"""
import argparse
import os
import shutil
import socket
import struct
import subprocess
import sys
import tempfile
import threading
from functools import lru_cache
from pathlib import Path
from typing import NamedTuple

TOP = Path(__file__).resolve().parent.parent
sys.dont_write_bytecode = True
sys.path.insert(0, str(TOP / "bench" / "store"))
from script import inserts, short_scans  # noqa: E402

MORE = 1.03
# the width of an operation's name
NAME = 50
WIDE, RANGES, BATCH, PATIENCE = 100, 100, 1000, 600
CALLGRIND = [shutil.which("valgrind") or sys.exit("there is no valgrind"), "--tool=callgrind", "--callgrind-out-file=counts"]
CALLGRIND += ["--separate-threads=yes", "--dump-line=no", "--compress-strings=no", "--compress-pos=no"]
SERVE = ["serve", "--socket", "socket", "--workers", "1", "--compactors", "0", "--idle", "0"]
STORE = ["--store", "folder"]
# one arena for all threads, so that none is made or chosen by the moment
ENVIRONMENT = {"PATH": os.defpath, "GLIBC_TUNABLES": "glibc.malloc.arena_max=1"}
REFUSED, CELL, RANGE_END = 0x81, 0x82, 0x86


class Count(NamedTuple):
    """Instructions in all, and of the program's own code."""

    all: float
    own: float


class Operation(NamedTuple):
    """Two runs, each a kind and its parts, the second of which does it so many times more."""

    name: str
    less: tuple
    more: tuple
    times: int


# ---- Frames.
def number(it):
    return struct.pack(">I", it)


def field(text):
    return number(len(text)) + text


def listed(items):
    return number(len(items)) + b"".join(items)


AUTHORIZATIONS = listed([field(b"A"), field(b"B")])
HELLO, MAKE = field(b"\x01" + field(b"root")), field(b"\x02" + field(b"t") + b"\0" + number(1))
BEGINNING = HELLO + MAKE + field(b"\x06" + field(b"root") + AUTHORIZATIONS)
COMPACTION = field(b"\x0f" + field(b"t")) + field(b"\x10" + field(b"t") + b"\x01")
DROP = field(b"\x03" + field(b"t"))


def put(family, qualifier, label, value, time):
    return b"\x01" + field(family) + field(qualifier) + field(label) + b"\x01" + struct.pack(">q", int(time)) + field(value)


def write(lines):
    """A Write of what these lines insert, all in the first one's row."""
    words = [line.encode().split() for line in lines]
    return field(b"\x0a" + field(b"t") + field(words[0][2]) + listed([put(*rest) for _, _, _, *rest in words]))


def bounds(scan):
    low, high = (word[1:].encode() for word in scan.split()[-2:])
    return b"\x01" + field(low) + b"\x02" + field(high)


def scanned(session, within, batches=1):
    """An Open, its batches and its Close, each awaited."""
    following = [field(b"\x0c" + number(session) + number(BATCH))] * batches
    return [field(b"\x0b" + field(b"t") + within + number(0) + AUTHORIZATIONS), *following, field(b"\x0e" + number(session))]


def many(session, scans):
    return field(b"\x0d" + number(session) + listed([bounds(scan) for scan in scans]))


# ---- What is counted.
def by_script(cells):
    beginning, *lines = inserts(2 * cells)
    begun = beginning + "".join(lines[:cells])
    written = begun + "".join(lines[cells:])
    frozen = written + "scan t A,B [~ [~~\n"
    saved = frozen + "save image\n"
    scans = list(short_scans(2 * cells, cells // 10 + 1))
    for name, less, more, times in [
        ("a script's insert", begun, written, cells),
        ("a script's scan of ten rows", frozen + scans[0], frozen + "".join(scans), len(scans) - 1),
        ("a record frozen", written, frozen, 2 * cells),
        ("a cell saved", frozen, saved, 2 * cells),
        ("a cell loaded", saved, saved + "load image\n", 2 * cells),
    ]:
        yield Operation(name, ("script", less.encode()), ("script", more.encode()), times)


def writes(cells):
    """Of one update and of a hundred; and entries replayed, once with the table dropped behind them, so that no record is saved."""
    _, *lines = inserts(2 * cells)
    frames = [write([line]) for line in lines]
    _, *lines = inserts(20 * cells)
    wide = [write(lines[at : at + WIDE]) for at in range(0, len(lines), WIDE)]
    few, all_of_them = b"".join(frames[:cells]), b"".join(frames)
    for name, kind, less, more, times in [
        ("a write of one update, in turn", "serve", frames[:cells], frames, cells),
        ("a write of one update, pipelined", "serve", [few], [all_of_them], cells),
        ("a write of 100 updates", "serve", wide[: len(wide) // 2], wide, len(wide) // 2),
        ("an entry replayed", "start", [few, DROP], [all_of_them, DROP], cells),
        ("an entry replayed, and its record saved", "start", [few], [all_of_them], cells),
    ]:
        yield Operation(name, (kind, BEGINNING, *less), (kind, BEGINNING, *more), times)


def reads(cells, source, merged):
    """Of a table in one source. What is counted is asked once before, since then the server has room for it."""
    _, *lines = inserts(cells)
    scans = list(short_scans(cells, cells // 20))
    shorts = [part for at, scan in enumerate(scans) for part in scanned(3 + at, bounds(scan))]
    whole, *wholes = (scanned(session, b"\0\0", cells // BATCH) for session in range(2, 7))
    ranges = [many(0, scans[at : at + RANGES]) for at in range(0, len(scans), RANGES)] * 4
    made = BEGINNING + b"".join(write([line]) for line in lines) + merged
    before = [made, whole[0], *scanned(1, bounds(scans[0])), *whole, ranges[0]]
    for name, more, times in [
        ("Open, Next and Close of ten rows", shorts, len(scans)),
        ("a cell of a whole scan", [part for whole in wholes for part in whole], 4 * cells),
        ("a range of ten rows in Many", ranges, 4 * len(scans)),
    ]:
        yield Operation(f"{name}, {source}", ("serve", *before), ("serve", *before, *more), times)


def operations(cells):
    return [*writes(cells), *reads(cells, "a run", b""), *reads(cells, "a sorted table", COMPACTION), *by_script(cells)]


# ---- Counting.
def bodies(frames):
    at = 0
    while at < len(frames):
        end = at + 4 + int.from_bytes(frames[at : at + 4], "big")
        yield frames[at + 4 : end]
        at = end


def ask(stream, answers, frames):
    """Sends them at once, and takes a whole answer for each."""
    sender = threading.Thread(target=stream.sendall, args=(frames,), daemon=True)
    sender.start()
    for _ in bodies(frames):
        kind = CELL
        while kind in (CELL, RANGE_END):
            kind, *_ = answers.read(int.from_bytes(answers.read(4), "big")) or [REFUSED]
        if kind == REFUSED:
            sys.exit("a request was refused")
    sender.join()


def run(work, command, lines=b""):
    done = subprocess.run(command, cwd=work, env=ENVIRONMENT, input=lines, capture_output=True)
    if done.returncode != 0 or b"fault" in done.stdout or b"refused" in done.stdout:
        sys.exit(f"{command}: {done.stderr.decode()}")


def serve(work, command, parts, *words):
    """A server answers one connection part by part, each once the one before is answered."""
    given = {"cwd": work, "env": ENVIRONMENT, "stdin": subprocess.DEVNULL, "stderr": subprocess.DEVNULL}
    server = subprocess.Popen([*command, *SERVE, *words], stdout=subprocess.PIPE, **given)
    try:
        if not server.stdout.readline():
            sys.exit(f"{command} doesn't listen")
        with socket.socket(socket.AF_UNIX) as stream:
            stream.settimeout(PATIENCE)
            stream.connect(f"{work}/socket")
            with stream.makefile("rb") as answers:
                for part in parts:
                    ask(stream, answers, part)
                server.terminate()
                server.wait()
    finally:
        server.kill()
        server.communicate()


def summed(path, program):
    """The count of a thread. Behind `calls=` comes a line of what the called take, which stands at their own names."""
    everything = own = 0
    is_own = is_called = False
    with open(path, encoding="utf-8", errors="replace") as told:
        for line in told:
            if line.startswith("ob="):
                is_own = line[3:-1] == program
            elif line.startswith("calls="):
                is_called = True
            elif line[0].isdigit():
                cost = 0 if is_called else int(line.split()[-1])
                everything, own, is_called = everything + cost, own + cost * is_own, False
    return Count(everything, own)


@lru_cache(maxsize=None)
def counted(program, kind, *parts):
    """The count of the busiest thread of a run."""
    command = [*CALLGRIND, program]
    with tempfile.TemporaryDirectory() as work:
        if kind == "script":
            run(work, [*command, "script"], b"".join(parts))
        elif kind == "serve":
            serve(work, command, parts)
        else:
            serve(work, [program], parts, *STORE)
            run(work, [*command, "script", *STORE])
        return max(summed(path, program) for path in Path(work).glob("counts-*"))


def each(program, operation):
    less, more = counted(program, *operation.less), counted(program, *operation.more)
    return Count(*((high - low) / operation.times for low, high in zip(less, more)))


# ---- Telling.
def libc():
    return os.confstr("CS_GNU_LIBC_VERSION")


def row(name, counts):
    """A line of a program's counts, and of another's with the ratios of it to them."""
    one, *others = counts
    numbers = [f"{it:11,.1f}" for count in counts for it in count]
    ratios = [f"{ours / theirs:8.3f}" for other in others for ours, theirs in zip(one, other)]
    return f"{name:{NAME}}{''.join(numbers)}{''.join(ratios)}"


def hold(path, program):
    """Whether a count is above its bound, or has none. What is far below may be printed anew."""
    head, *lines = Path(path).read_text(encoding="utf-8").splitlines()
    most = {line[:NAME].rstrip(): Count(*(MORE * float(it.replace(",", "")) for it in line[NAME:].split())) for line in lines}
    kind = "all" if f", {libc()} " in head else "own"
    good = bad = 0
    for operation in operations(int(head.split()[0])):
        count, bound = (getattr(it, kind) for it in (each(program, operation), most.get(operation.name, Count(0, 0))))
        good, bad = good + (count <= bound), bad + (count > bound)
        word = "FAILED" if count > bound else "lower" if count * MORE**2 < bound else None
        if word:
            print(f"{word}: {operation.name}: {count:,.1f} instructions ({kind}), at most {bound:,.1f}", flush=True)
    print(f"{good} passed, {bad} failed")
    return bad > 0


def show(programs, cells):
    heads = [f"{'in all':>11}{'own':>11}"] * len(programs) + [f"{'ratio':>8}{'own':>8}"] * (len(programs) - 1)
    print(f"{f'{cells} cells, {libc()}':{NAME}}{''.join(heads)}")
    for operation in operations(cells):
        print(row(operation.name, [each(program, operation) for program in programs]), flush=True)


def main():
    parser = argparse.ArgumentParser(description=__doc__, formatter_class=argparse.RawDescriptionHelpFormatter)
    parser.add_argument("--beside")
    parser.add_argument("--hold")
    parser.add_argument("--cells", type=int, default=2000)
    asked = parser.parse_args()
    program = os.environ.get("TABD") or subprocess.check_output([TOP / "release/program", "--any"], text=True).strip()
    programs = [os.path.realpath(it) for it in (program, asked.beside) if it]
    if asked.hold:
        sys.exit(hold(asked.hold, programs[0]))
    show(programs, asked.cells)


main()
