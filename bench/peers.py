#!/usr/bin/env python3
"""What peers cost that mean ill or are stuck: for each kind of them how many are let in, how soon an honest client is answered beside them
(connected, with Hello, a write and a read; the median), and once they are gone, what the server's memory grew by, and how many threads and
descriptors it has. A kind is there with one peer less than the server has workers, and with many more.

Usage: bench/peers.py [--workers N] [--many N] [--wait SECONDS]   (from anywhere; builds the program if it isn't built; half a minute)
  TABD in the environment: another built program
"""
import argparse
import os
import resource
import socket
import struct
import subprocess
import sys
import time
from pathlib import Path
from statistics import median

TOP = Path(__file__).resolve().parent.parent
MIB = 1024 * 1024


def field(text):
    return struct.pack(">I", len(text)) + text


HELLO = field(b"\1" + field(b"root"))
MAKE = field(b"\2" + field(b"t") + b"\0" + struct.pack(">I", 1))
OPEN = field(b"\x0b" + field(b"t") + b"\0\0" + bytes(8))
NEXT = field(b"\x0c" + bytes(4) + struct.pack(">I", 1))


def write(row, value):
    return field(b"\x0a" + field(b"t") + field(row) + struct.pack(">I", 1) + b"\1" + field(b"f") + field(b"q") + field(b"") + b"\0" + field(value))


class Server:
    def __init__(self, program, workers):
        with socket.create_server(("127.0.0.1", 0)) as probe:
            self.port = probe.getsockname()[1]
        words = [program, "serve", "--port", str(self.port), "--workers", str(workers), "--compactors", "1"]
        self.process = subprocess.Popen(words, stdin=subprocess.DEVNULL, stdout=subprocess.PIPE)
        self.process.stdout.readline()

    def connect(self, patience=10):
        link = socket.create_connection(("127.0.0.1", self.port), timeout=patience)
        link.setsockopt(socket.IPPROTO_TCP, socket.TCP_NODELAY, 1)
        return link

    def figures(self):
        """Resident MiB, threads and descriptors."""
        with open(f"/proc/{self.process.pid}/status", encoding="ascii") as told:
            fields = dict(line.split(":", 1) for line in told)
        return int(fields["VmRSS"].split()[0]) / 1024, int(fields["Threads"]), len(os.listdir(f"/proc/{self.process.pid}/fd"))

    def close(self):
        self.process.kill()
        self.process.communicate()


def exactly(link, count):
    got = b""
    while len(got) < count:
        more = link.recv(count - len(got))
        if not more:
            raise ConnectionError("it ended")
        got += more
    return got


def honest(server, patience):
    """Milliseconds until a new client has written and read a cell, or None where that takes longer than the patience."""
    began = time.monotonic()
    try:
        with server.connect(patience) as link:
            link.sendall(HELLO + write(b"honest", b"v") + OPEN + NEXT)
            for _ in range(4):
                (length,) = struct.unpack(">I", exactly(link, 4))
                exactly(link, length)
        return (time.monotonic() - began) * 1000
    except OSError:
        return None


# ---- The peers: each makes one connection, and gives what it does in each turn, if anything.
def says_nothing(server):
    return server.connect(), None


def half_a_frame(server):
    link = server.connect()
    link.sendall(HELLO + write(b"half", b"v")[:9])
    return link, None


def long_frame(server):
    """All but the last byte of the longest frame."""
    link = server.connect()
    link.setblocking(False)
    sent, text = 0, HELLO + struct.pack(">I", 8_388_608) + b"\x0a" + bytes(8_388_606)
    ends = time.monotonic() + 0.5
    while sent < len(text) and time.monotonic() < ends:
        try:
            sent += link.send(text[sent : sent + 262_144])
        except BlockingIOError:
            time.sleep(0.002)
    return link, None


def byte_by_byte(server):
    """A byte a second: of a write after Hello."""
    link = server.connect()
    link.sendall(HELLO)
    rest = iter(write(b"slow", b"v" * 100))

    def turn():
        link.sendall(bytes([next(rest)]))
    return link, turn


def never_reads(server):
    """Asks for some 1,000 MB and reads none of it."""
    link = server.connect()
    link.setblocking(False)
    text, sent = HELLO + OPEN + field(b"\x0c" + bytes(4) + struct.pack(">I", 1)) + field(b"\x0d" + bytes(4) + struct.pack(">I", 1) + b"\0\0") * 20_000, 0
    ends = time.monotonic() + 0.5
    while sent < len(text) and time.monotonic() < ends:
        try:
            sent += link.send(text[sent:])
        except BlockingIOError:
            time.sleep(0.002)
    return link, None


def opens_sessions(server):
    """65,536 sessions of one connection, all open."""
    link = server.connect(60)
    link.sendall(HELLO)
    exactly(link, 5)
    for _ in range(64):
        link.sendall(OPEN * 1024)
        exactly(link, 9 * 1024)
    return link, None


def asks_for_nothing(server):
    """100,000 refused requests, one after another, and then it stays."""
    link = server.connect(60)
    link.sendall(HELLO)
    exactly(link, 5)
    asked = field(b"\x13" + field(b"none"))
    for _ in range(100):
        link.sendall(asked * 1000)
        exactly(link, 14 * 1000)
    return link, None


def measure(program, asked, name, make, count):
    server = Server(program, asked.workers)
    peers, made = [], 0
    try:
        with server.connect() as link:
            link.sendall(HELLO + MAKE + write(b"r", b"v" * 50_000))
            exactly(link, 15)
        time.sleep(0.1)
        before, _, _ = server.figures()
        began = time.monotonic()
        for _ in range(count):
            try:
                peers.append(make(server))
                made += 1
            except OSError:
                break
        took = time.monotonic() - began
        times, ends = [], time.monotonic() + asked.wait
        while time.monotonic() < ends:
            for _, turn in peers:
                if turn:
                    try:
                        turn()
                    except (OSError, StopIteration):
                        pass
            times.append(honest(server, asked.wait))
            time.sleep(0.2)
        now, threads, descriptors = server.figures()
        for link, _ in peers:
            link.close()
        began = time.monotonic()
        after = honest(server, 30)
        again = (time.monotonic() - began) * 1000
        answered = [one for one in times if one is not None]
        beside = f"{median(answered):9.1f} ms" if answered else "  no answer"
        behind = f"{again:9.1f} ms" if after is not None else "  no answer"
        print(f"{name:34} {made:6} {beside:>12} {behind:>12} {now - before:8.1f} MiB {threads:4} {descriptors:6}  (made in {took:.2f} s)", flush=True)
    finally:
        for link, _ in peers:
            link.close()
        server.close()


def main():
    parser = argparse.ArgumentParser(description=__doc__, formatter_class=argparse.RawDescriptionHelpFormatter)
    parser.add_argument("--workers", type=int, default=4)
    parser.add_argument("--many", type=int, default=1000, help="peers at once")
    parser.add_argument("--wait", type=float, default=1.5, help="seconds that an honest client waits")
    asked = parser.parse_args()
    program = os.environ.get("TABD") or subprocess.check_output([TOP / "release/program"], text=True).strip()
    _, most = resource.getrlimit(resource.RLIMIT_NOFILE)
    resource.setrlimit(resource.RLIMIT_NOFILE, (min(most, 4 * asked.many + 1000), most))
    few = asked.workers - 1
    print(f"{f'{asked.workers} workers; peers that':34} {'peers':>6} {'an answer':>12} {'behind them':>12} {'memory':>12} {'thr.':>4} {'descr.':>6}")
    measure(program, asked, "aren't there", says_nothing, 0)
    for name, make, many in (("say nothing", says_nothing, asked.many), ("stop inside a frame", half_a_frame, asked.many),
                             ("stop before the last of 8 MiB", long_frame, 2 * asked.workers), ("send a byte a turn", byte_by_byte, asked.many),
                             ("never read", never_reads, 2 * asked.workers)):
        measure(program, asked, name, make, few)
        measure(program, asked, name, make, many)
    measure(program, asked, "open 65,536 sessions", opens_sessions, 1)
    measure(program, asked, "are refused 100,000 times", asks_for_nothing, 1)


sys.dont_write_bytecode = True
main()
