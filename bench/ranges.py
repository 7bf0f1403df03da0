#!/usr/bin/env python3
"""Ranges of sessions, asked by several connections at once of `tabd serve` over loopback: requests of 1,000 ranges, which a server may read by
several threads, beside the same ranges in requests of 250 sent together, which the connection's worker reads alone. Both ways in turn,
medians of the rounds, in thousands of ranges a second, and the server's seconds of the processor.

Usage: bench/ranges.py [--connections N,N,..] [--cells N] [--width N] [--requests N] [--rounds N]
       (from anywhere; builds the program if it isn't built; for a trial: --cells 20000 --requests 2 --rounds 1)
  TABD in the environment: another built program, measured in place of this folder's
"""
import argparse
import os
import random
import socket
import struct
import subprocess
import sys
import threading
import time
from pathlib import Path
from statistics import median

TOP = Path(__file__).resolve().parent.parent
sys.dont_write_bytecode = True
sys.path.insert(0, str(TOP / "bench" / "store"))
from phases import processor_seconds  # noqa: E402

RANGES = 1000
PARTS = {"1,000 a request": 1, "250 a request": 4}


def arguments():
    parser = argparse.ArgumentParser(description=__doc__, formatter_class=argparse.RawDescriptionHelpFormatter)
    parser.add_argument("--connections", default="1,4,16", help="how many at once, part by part")
    parser.add_argument("--cells", type=int, default=100_000, help="of the table, each in a row of its own")
    parser.add_argument("--width", type=int, default=10, help="rows of a range")
    parser.add_argument("--requests", type=int, default=50, help="times 1,000 ranges, of each connection in each round")
    parser.add_argument("--rounds", type=int, default=5)
    return parser.parse_args()


def field(text):
    return struct.pack(">I", len(text)) + text


def row(number):
    return field(b"%010d" % number)


def many(asked, parts, r):
    """The frames that ask for 1,000 ranges, in so many requests of the first session."""
    text = b""
    for _ in range(parts):
        body = b"\x0d" + struct.pack(">II", 0, RANGES // parts)
        for _ in range(RANGES // parts):
            low = r.randrange(asked.cells)
            body += b"\x01" + row(low) + b"\x02" + row(low + asked.width)
        text += field(body)
    return text


class Connection:
    def __init__(self, port):
        self.stream = socket.create_connection(("127.0.0.1", port))
        self.stream.setsockopt(socket.IPPROTO_TCP, socket.TCP_NODELAY, 1)
        self.file = self.stream.makefile("rb", 1 << 20)
        self.ask(field(b"\x01" + field(b"root")), 1)

    def ask(self, text, replies):
        """How many bytes so many replies to the frames have."""
        self.stream.sendall(text)
        length = 0
        while replies:
            head = self.file.read(5)
            if len(head) < 5 or head[4] == 0x81:
                sys.exit("a request is refused")
            size, = struct.unpack(">I", head[:4])
            length += 4 + size
            self.file.read(size - 1)
            replies -= head[4] in (0x80, 0x83, 0x84)
        return length

    def again(self, text, length):
        """As above, where the replies have so many bytes."""
        self.stream.sendall(text)
        while length:
            got = len(self.file.read1(min(length, 1 << 20)))
            if not got:
                sys.exit("the server ended")
            length -= got


def fill(one, cells):
    one.ask(field(b"\x02" + field(b"t") + b"\x00" + struct.pack(">I", 1)), 1)
    for first in range(0, cells, 1000):
        puts = [b"\x0a" + field(b"t") + row(number) + struct.pack(">I", 1) + b"\x01" + field(b"f") + field(b"q") + field(b"") + b"\x00" + field(b"v" * 20)
                for number in range(first, min(first + 1000, cells))]
        one.ask(b"".join(map(field, puts)), len(puts))
    one.ask(field(b"\x0f" + field(b"t")), 1)


def one_part(server, port, asked, connections, parts):
    """The seconds that elapsed, and the server's of the processor."""
    texts, lengths, links = [], [], []
    for at in range(connections):
        link = Connection(port)
        link.ask(field(b"\x0b" + field(b"t") + b"\x00\x00" + bytes(8)), 1)
        texts.append(many(asked, parts, random.Random(at)))
        lengths.append(link.ask(texts[-1], parts))
        links.append(link)

    def ask(link, text, length):
        for _ in range(asked.requests):
            link.again(text, length)

    threads = [threading.Thread(target=ask, args=each) for each in zip(links, texts, lengths)]
    before, begun = processor_seconds(server), time.monotonic()
    for thread in threads:
        thread.start()
    for thread in threads:
        thread.join()
    elapsed, used = time.monotonic() - begun, processor_seconds(server) - before
    for link in links:
        link.stream.close()
    return elapsed, used


def main():
    asked = arguments()
    program = os.environ.get("TABD") or subprocess.run([TOP / "release" / "program"], check=True, capture_output=True, text=True).stdout.strip()
    several = [int(number) for number in asked.connections.split(",")]
    with socket.create_server(("127.0.0.1", 0)) as listener:
        port = listener.getsockname()[1]
    words = ["--port", str(port), "--workers", str(max(several) + 1), "--compactors", "0"]
    server = subprocess.Popen([program, "serve", *words], stdin=subprocess.DEVNULL, stdout=subprocess.PIPE)
    try:
        if server.stdout.readline() != b"listening %d\n" % port:
            sys.exit(f"{program} doesn't listen")
        fill(Connection(port), asked.cells)
        for connections in several:
            seen = {way: [] for way in PARTS}
            for _ in range(asked.rounds):
                for way, parts in PARTS.items():
                    seen[way].append(one_part(server, port, asked, connections, parts))
            rates = []
            for way, rounds in seen.items():
                elapsed, used = median(one[0] for one in rounds), median(one[1] for one in rounds)
                rates.append(connections * asked.requests * RANGES / elapsed)
                print(f"{connections:3} at once, {way:16} {rates[-1] / 1000:9.1f} thousand ranges a second, {used:7.3f} s of the processor")
            print(f"{connections:3} at once, ratio           {rates[0] / rates[1]:10.2f}", flush=True)
    finally:
        server.kill()
        server.communicate()


if __name__ == "__main__":
    main()
