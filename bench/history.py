#!/usr/bin/env python3
"""What a server's history costs. Its memory over many refused events, with the history dropped and with it in a file; and how long another
connection waits for an answer while the history is rotated, behind so many cells that were written since the last flush.

Usage: bench/history.py [--events N] [--cells N ..]   (from anywhere; ten million events and none, 100,000 and 1,000,000 cells by default:
  some two minutes)
  TABD in the environment: another built program
"""
import argparse
import os
import socket
import struct
import subprocess
import sys
import tempfile
import threading
import time
from pathlib import Path

TOP = Path(__file__).resolve().parent.parent
sys.path.insert(0, str(TOP / "clients/python"))
import tabd  # noqa: E402

BATCH = 10_000


class Server:
    def __init__(self, program, *words):
        with socket.create_server(("127.0.0.1", 0)) as probe:
            self.port = probe.getsockname()[1]
        self.process = subprocess.Popen([program, "serve", "--port", str(self.port), *words], stdin=subprocess.DEVNULL, stdout=subprocess.PIPE)
        self.process.stdout.readline()

    def __enter__(self):
        return self

    def __exit__(self, *_):
        self.process.kill()
        self.process.communicate()

    def memory(self):
        """MiB that it has."""
        text = Path(f"/proc/{self.process.pid}/status").read_text(encoding="ascii")
        return next(int(line.split()[1]) for line in text.splitlines() if line.startswith("VmRSS:")) / 1024


def frame(body):
    return struct.pack(">I", len(body)) + body


def memory_over(program, events, *words):
    """The memory of a server each tenth of so many events, and how many it was asked a second."""
    asked = frame(b"\x13" + struct.pack(">I", 4) + b"none") * BATCH
    told = len(frame(b"\x81\x02" + struct.pack(">I", 4) + b"none")) * BATCH
    with Server(program, *words) as server, socket.create_connection(("127.0.0.1", server.port)) as link, link.makefile("rb") as reader:
        link.sendall(frame(b"\x01" + struct.pack(">I", 4) + b"root"))
        reader.read(5)
        memory, began = [], time.monotonic()
        for done in range(BATCH, events + 1, BATCH):
            sender = threading.Thread(target=link.sendall, args=(asked,))
            sender.start()
            reader.read(told)
            sender.join()
            if done % (events // 10) == 0:
                memory.append(server.memory())
        return memory, events / (time.monotonic() - began)


def longest_wait(program, cells, flushed):
    """The longest that a connection waits for the answer to what costs nothing, with rotations beside it and without, in milliseconds."""
    with Server(program, "--compactors", "0") as server, tabd.connect(server.port, "root") as root, tabd.connect(server.port, "root") as other:
        root.create_table("t")
        with root.pipeline():
            for row in range(cells // 100):
                root.write("t", f"{row:08}", [tabd.Put("f", f"{column:02}", value=b"v" * 20) for column in range(100)])
        if flushed:
            root.flush("t")
        time.sleep(2)  # the rotation behind the writes is over
        waits = []
        for rotated in (False, True):
            if rotated:
                root.rotate()
            worst, until = 0.0, time.monotonic() + 2
            while time.monotonic() < until:
                began = time.monotonic()
                other.rights("t")
                worst = max(worst, time.monotonic() - began)
            waits.append(1000 * worst)
        return waits


def main():
    parser = argparse.ArgumentParser()
    parser.add_argument("--events", type=int, default=10_000_000)
    parser.add_argument("--cells", type=int, nargs="*", default=[0, 100_000, 1_000_000])
    words = parser.parse_args()
    program = os.environ.get("TABD") or subprocess.run([TOP / "release/program"], capture_output=True, text=True, check=True).stdout.strip()
    for cells in words.cells:
        for flushed in (False, True):
            without, beside = longest_wait(program, cells, flushed)
            print(f"{cells:>9} cells{', flushed' if flushed else '':9}: longest wait {without:.1f} ms, beside a rotation {beside:.1f} ms", flush=True)
    with tempfile.TemporaryDirectory() as folder:
        for what, how in (("dropped", ()), ("in a file", ("--history", f"{folder}/log"))):
            memory, rate = memory_over(program, words.events, *how)
            print(f"history {what}: {rate:,.0f} events a second; MiB each tenth of {words.events:,}: {' '.join(f'{each:.0f}' for each in memory)}", flush=True)


if __name__ == "__main__":
    main()
