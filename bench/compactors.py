#!/usr/bin/env python3
"""What compactors cost the others: `tabd serve` over loopback with several numbers of compactors, a new server for each, by turns.

1. Writes of one cell, pipelined by one connection: the seconds, the processor's seconds that the server used, and the speed beside that
   with the first number of compactors (aim: at least 0.7 of the speed without).
2. Another connection reads sessions of 100,000 cells in batches and awaits each of them (compactors/reader.rs, compiled by rustc -O), for
   SECONDS by itself, and for as long while such writes go on: the median of these Nexts, and the slowest (aim: below ten times the median).
3. Writes and short scans in turn, each awaited: the seconds of the first tenth and of the last one (aim: alike).

Usage: bench/compactors.py [--writes N] [--turns N] [--batch N] [--seconds N] [--compactors N,N,..] [--rounds N] [--plain] [--ahead]
       (from anywhere; builds the program if it isn't built)
  --plain: 1 and 2 of a plain Rust server too (server/plain.rs, a map under a lock), whose Nexts wait for the same scheduler; and what
           the machine alone makes of requests that take as long as a Next (compactors/echo.rs), beside such writes and alone
  --ahead: all that is measured runs in the real-time class, ahead of the machine's other work (wants root). Without it the slowest
           Next is mostly how long the scheduler let something else run.
  TABD in the environment: another built program, measured in place of this folder's
"""
import argparse
import multiprocessing
import os
import random
import socket
import struct
import subprocess
import sys
import tempfile
import time
from pathlib import Path
from statistics import median

TOP = Path(__file__).resolve().parent.parent
sys.dont_write_bytecode = True
sys.path.insert(0, str(TOP / "bench" / "store"))
from phases import processor_seconds  # noqa: E402

HELLO, CREATE_TABLE, WRITE, OPEN, NEXT, CLOSE, STATUS = 0x01, 0x02, 0x0A, 0x0B, 0x0C, 0x0E, 0x13
BLOCK, READ = 500, 100_000


def text(value):
    return struct.pack(">I", len(value)) + value


def frame(opcode, *parts):
    return text(bytes([opcode]) + b"".join(parts))


def write(table, row, moment):
    return frame(WRITE, text(table), text(row), struct.pack(">IB", 1, 1), text(b"f"), text(b"q"), text(b""), struct.pack(">Bq", 1, moment), text(b"value %05d" % (moment % 100000)))


def opened(table, row):
    bound = b"\1" + text(row)
    return frame(OPEN, text(table), bound, bound, struct.pack(">II", 0, 0))


def rows(seed, count):
    pick = random.Random(seed)
    return [b"row%08d" % pick.randrange(10**7) for _ in range(count)]


def blocks(table, seed, count, moment):
    """Writes of so many random rows, some hundred together."""
    requests = [write(table, row, moment) for row in rows(seed, count)]
    return [b"".join(requests[at : at + BLOCK]) for at in range(0, count, BLOCK)]


class Connection:
    """Frames sent and replies read."""

    def __init__(self, port):
        self.socket = socket.create_connection(("127.0.0.1", port))
        self.socket.setsockopt(socket.IPPROTO_TCP, socket.TCP_NODELAY, 1)
        self.input = self.socket.makefile("rb", buffering=1 << 16)
        self.ask(frame(HELLO, text(b"root")))

    def reply(self):
        (length,) = struct.unpack(">I", self.input.read(4))
        return self.input.read(length)

    def ask(self, request):
        self.socket.sendall(request)
        return self.reply()

    def write(self, block):
        """Sends these writes together, and awaits that each is told Ok."""
        self.socket.sendall(block)
        if self.input.read(5 * BLOCK) != b"\0\0\0\1\x80" * BLOCK:
            sys.exit("a write isn't answered by Ok")

    def turn(self, table, row):
        """A write of the row, and a scan of it."""
        if self.ask(write(table, row, 1)) != b"\x80":
            sys.exit("a write isn't answered by Ok")
        session = self.ask(opened(table, row))[1:]
        self.socket.sendall(frame(NEXT, session, struct.pack(">I", 10)))
        while self.reply()[0] == 0x82:
            pass
        self.ask(frame(CLOSE, session))

    def status(self, table):
        return struct.unpack(">QQQ", self.ask(frame(STATUS, text(table)))[1:])


def write_on(port, blocks, ready, stop):
    """Writes these blocks again and again until it's to stop."""
    connection, at = Connection(port), 0
    ready.set()
    while not stop.is_set():
        connection.write(blocks[at % len(blocks)])
        at += 1


def nexts(reader, port, asked):
    """The seconds of each Next of a full batch."""
    told = subprocess.run([reader, str(port), "u", str(asked.batch), str(asked.seconds)], stdout=subprocess.PIPE, text=True, check=True).stdout
    pairs = (line.split() for line in told.splitlines())
    return [int(nanoseconds) / 1e9 for nanoseconds, cells in pairs if int(cells) == asked.batch]


def floor(echo, took, asked):
    """The seconds of each reply of a server that only watches the clock for about as long as a Next took, and writes as many bytes."""
    # the rest of a Next is the way of its bytes
    told = subprocess.run([echo, str(0.7e6 * took), str(64 * asked.batch), str(asked.seconds)], stdout=subprocess.PIPE, text=True, check=True).stdout
    return [int(line) / 1e9 for line in told.split()]


def measure(program, work, compactors, asked):
    """What is told of a new server with so many compactors; where that is none, of the plain server, which knows no more than 1 and 2."""
    with socket.create_server(("127.0.0.1", 0)) as listener:
        port = listener.getsockname()[1]
    words = [program, "serve", "--port", str(port), *([] if compactors is None else ["--compactors", str(compactors)])]
    server = subprocess.Popen(words, stdin=subprocess.DEVNULL, stdout=subprocess.PIPE)
    try:
        server.stdout.readline()
        one = Connection(port)
        for table in (b"t", b"u", b"v"):
            one.ask(frame(CREATE_TABLE, text(table), struct.pack(">BI", 0, 1)))
        told, first = {}, blocks(b"t", 1, asked.writes, 1)
        used, begun = processor_seconds(server), time.perf_counter()
        for block in first:
            one.write(block)
        told["writes"], told["used"] = time.perf_counter() - begun, processor_seconds(server) - used
        told["sources"] = None if compactors is None else one.status(b"t")
        for block in blocks(b"u", 2, READ, 1):
            one.write(block)
        time.sleep(0.5)
        told["alone"] = nexts(f"{work}/reader", port, asked)
        ready, stop = multiprocessing.Event(), multiprocessing.Event()
        beside = multiprocessing.Process(target=write_on, args=(port, blocks(b"t", 3, asked.writes, 2), ready, stop))
        beside.start()
        ready.wait()
        told["beside"] = nexts(f"{work}/reader", port, asked)
        if asked.plain:
            told["echo beside"] = floor(f"{work}/echo", median(told["alone"]), asked)
        stop.set()
        beside.join()
        if compactors is None:
            return told
        told["turns"] = []
        wanted = rows(4, asked.turns)
        for tenth in range(10):
            begun = time.perf_counter()
            for row in wanted[tenth * asked.turns // 10 : (tenth + 1) * asked.turns // 10]:
                one.turn(b"v", row)
            told["turns"].append(time.perf_counter() - begun)
        told["left"] = one.status(b"v")
        return told
    finally:
        server.kill()
        server.wait()


def show_slowest(name, rounds, asked):
    """The slowest of all, and what each round's slowest is to its own median."""
    times = sorted(seconds for told in rounds for seconds in told)
    ratios = [max(told) / median(told) for told in rounds]
    print(f"  {len(times):6} Nexts of {asked.batch} {name:11} median {median(times) * 1e6:6.0f} µs   slowest {times[-1] * 1e6:6.0f} µs, the next {times[-2] * 1e6:6.0f} µs   slowest to median, by rounds {' '.join(f'{ratio:.1f}' for ratio in ratios)}")


def show(compactors, rounds, first, asked):
    """What was measured with so many compactors: medians over the rounds, and of Nexts all of them together."""
    print("plain server" if compactors is None else f"compactors {compactors}")
    speeds = [of_first["writes"] / told["writes"] for of_first, told in zip(first, rounds)]
    print(f"  {asked.writes} writes     {median(told['writes'] for told in rounds):7.3f} s, of the processor {median(told['used'] for told in rounds):7.3f} s   speed to that of the first {median(speeds):.2f} ({min(speeds):.2f} to {max(speeds):.2f})   tablets, sources, records {rounds[-1]['sources']}")
    for name in ("alone", "beside", "echo beside"):
        if name in rounds[0]:
            show_slowest(name, [told[name] for told in rounds], asked)
    if compactors is None:
        return
    tenths = [median(tenth) for tenth in zip(*(told["turns"] for told in rounds))]
    print(f"  {asked.turns} in turn    first tenth {tenths[0]:.3f} s, last {tenths[-1]:.3f} s   ratio {tenths[-1] / tenths[0]:.2f}   tablets, sources, records {rounds[-1]['left']}", flush=True)


def main():
    parser = argparse.ArgumentParser(description=__doc__, formatter_class=argparse.RawDescriptionHelpFormatter)
    parser.add_argument("--writes", type=int, default=400_000, help="a multiple of 500")
    parser.add_argument("--turns", type=int, default=100_000)
    parser.add_argument("--batch", type=int, default=1000, help="cells of a Next; the shell and the client in Python ask for 1,000")
    parser.add_argument("--seconds", type=float, default=1.5, help="how long batches are read")
    parser.add_argument("--compactors", default="0,1,4")
    parser.add_argument("--rounds", type=int, default=1)
    parser.add_argument("--plain", action="store_true", help="a plain Rust server too")
    parser.add_argument("--ahead", action="store_true", help="in the real-time class")
    asked = parser.parse_args()
    program = os.environ.get("TABD") or subprocess.check_output([TOP / "release/program"], text=True).strip()
    numbers = [int(number) for number in asked.compactors.split(",")]
    with tempfile.TemporaryDirectory() as work:
        for helper in ("reader", "echo"):
            subprocess.run(["rustc", "--edition=2021", "-O", "-o", f"{work}/{helper}", TOP / f"bench/compactors/{helper}.rs"], check=True)
        programs = {number: program for number in numbers}
        if asked.plain:
            programs[None] = f"{work}/plain"
            subprocess.run(["rustc", "--edition=2021", "-O", "-o", programs[None], TOP / "bench/server/plain.rs"], check=True)
        if asked.ahead:
            os.sched_setscheduler(0, os.SCHED_FIFO, os.sched_param(1))
        rounds = [{number: measure(one, work, number, asked) for number, one in programs.items()} for _ in range(asked.rounds)]
        for number in programs:
            show(number, [told[number] for told in rounds], [told[numbers[0]] for told in rounds], asked)
        if asked.plain:
            print("an echo server, nothing beside")
            took = median(rounds[0][numbers[0]]["alone"])
            show_slowest("echo alone", [floor(f"{work}/echo", took, asked) for _ in range(asked.rounds)], asked)


main()
