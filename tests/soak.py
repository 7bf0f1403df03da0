#!/usr/bin/env python3
"""A soak of `tabd serve --history FILE`, by hand: 64 connections for a minute. Two thirds of them write, scan, leave sessions open and come
again, and two of these rotate the history all the time; the others are rude: they stop inside a frame, never read, send what is no frame,
say nothing, or break off. At the end

- every acknowledged write is read back, and no writer's row holds anything else;
- the history has every acknowledged write once, each writer's in their order, whichever part it went with;
- nothing of a frame that was cut off took effect, and of those who never read a beginning of each visit's writes did, each whole;
- the server still serves, its memory stayed below a bound, and over the last half it is level.

With --store the server keeps what it does in a folder. It is killed at the end and started again there: all is as it was.

Usage: tests/soak.py [--seconds N] [--connections N] [--memory MIB] [--slowest MS] [--rest MS] [--seed N] [--folder F]
  [--store always|interval]   (from anywhere; wants Python 3.9; builds the program if it isn't built; the history and the store lie in the
  folder, and take up to 10 MB a second there)
  TABD in the environment: another built program
"""
import argparse
import hashlib
import os
import random
import re
import socket
import struct
import subprocess
import sys
import tempfile
import threading
import time
from collections import Counter
from pathlib import Path

TOP = Path(__file__).resolve().parent.parent
sys.dont_write_bytecode = True
sys.path.insert(0, str(TOP / "clients" / "python"))
import tabd  # noqa: E402
from tabd import Delete, Put, Range  # noqa: E402

ROWS = 200  # of each writer
VISIT, ROUND = 1000, 5000  # writes in a visit of who never reads, and rows that they fill
PATIENCE = 300  # seconds without an answer, also where other work takes all processors
SIZES = 5 * [0] + 15 * [10] + 4 * [1000] + [50_000]
HELLO = b"\0\0\0\x09\x01\0\0\0\x04root"


def field(text):
    return struct.pack(">I", len(text)) + text


def write_frame(row, value):
    put = b"\x01" + field(b"f") + field(b"q") + field(b"") + b"\0" + field(value)
    return field(b"\x0a" + field(b"t") + field(row) + struct.pack(">I", 1) + put)


class Peer(threading.Thread):
    """One of the connections, which comes again until the time is up; what went wrong stands in `faults`."""

    def __init__(self, number, soak):
        super().__init__(daemon=True)
        self.number, self.soak, self.random = number, soak, random.Random(f"{soak.seed} {number}")
        self.done, self.faults = Counter(), []

    def run(self):
        try:
            while time.monotonic() < self.soak.ends:
                self.visit()
        except Exception as error:  # whatever it is, it is told at the end
            self.faults.append(f"{type(self).__name__} {self.number}: {type(error).__name__}: {error}")


class Written:
    """The sum of a writer's writes, in their order, and how many they are."""

    def __init__(self):
        self.sum, self.count = hashlib.sha256(), 0

    def add(self, row, value, time_of):
        """A put of this value, or a delete."""
        self.sum.update(b"%s %d %s\n" % (row, time_of, b"-" if value is None else b"+" + hashlib.sha256(value).digest()))
        self.count += 1

    def told(self):
        return self.count, self.sum.hexdigest()


class Rotator(Peer):
    """Rotates the history, now and then behind a pause."""

    def visit(self):
        with tabd.connect(self.soak.port, "root", timeout=PATIENCE) as client:
            while time.monotonic() < self.soak.ends:
                client.rotate()
                self.done["rotate"] += 1
                self.soak.over.wait(self.random.choice([0, 0.01, 0.1]))


class Writer(Peer):
    """Writes rows of its own, and remembers what was acknowledged; reads in all ways."""

    def __init__(self, number, soak):
        super().__init__(number, soak)
        self.acknowledged, self.time = {}, 0
        self.written, self.slowest = Written(), Counter()

    def visit(self):
        with tabd.connect(self.soak.port, "root", timeout=PATIENCE) as client:
            for _ in range(self.random.randrange(1, 200)):
                if time.monotonic() >= self.soak.ends:
                    break
                act = self.random.choice([self.write, self.write, self.pipeline, self.scan, self.leave, self.ranges, self.delete, self.tidy])
                self.soak.over.wait(self.random.random() * 2 * self.soak.rest)
                began = time.monotonic()
                act(client)
                self.slowest[act.__name__] = max(self.slowest[act.__name__], time.monotonic() - began)
                self.done[act.__name__] += 1

    def row(self):
        return b"w%03d-%03d" % (self.number, self.random.randrange(ROWS))

    def put(self, value):
        self.time += 1
        return [Put("f", "q", value=value, timestamp=self.time)]

    def write(self, client):
        row, value = self.row(), self.random.randbytes(self.random.choice(SIZES))
        client.write("t", row, self.put(value))
        self.acknowledged[row] = value
        self.written.add(row, value, self.time)

    def pipeline(self, client):
        written = []
        with client.pipeline():
            for _ in range(self.random.randrange(300)):
                row, value = self.row(), b"%d" % self.time
                client.write("t", row, self.put(value))
                written.append((row, value, self.time))
        for row, value, time_of in written:
            self.acknowledged[row] = value
            self.written.add(row, value, time_of)
        self.done["writes in pipelines"] += len(written)

    def delete(self, client):
        row = self.row()
        self.time += 1
        client.write("t", row, [Delete("f", "q", timestamp=self.time)])
        self.acknowledged.pop(row, None)
        self.written.add(row, None, self.time)

    def tidy(self, client):
        if self.random.randrange(20) == 0:
            client.compact("t", full=True)
        else:
            client.flush("t")

    def own(self):
        return Range(b"w%03d" % self.number, b"w%03d-~" % self.number)

    def scan(self, client):
        found = {cell.row: cell.value for cell in client.scan("t", rows=self.own(), batch=self.random.choice([1, 50, 1000]))}
        if found != self.acknowledged:
            self.faults.append(f"writer {self.number}: {len(found)} rows are read, {len(self.acknowledged)} were written, and they differ")

    def leave(self, client):
        """Takes a few cells of a scan of all and leaves it; now and then the connection keeps the session."""
        session = client.scan("t", batch=10)
        session.fetch(5)
        session.closed = self.random.randrange(4) == 0

    def ranges(self, client):
        with client.scan("t", rows=self.own()) as session:
            rows = [self.row() for _ in range(20)]
            for row, found in zip(rows, session.ranges(Range(row, row) for row in rows)):
                if {cell.row: cell.value for cell in found} != {row: self.acknowledged[row] for row in [row] if row in self.acknowledged}:
                    self.faults.append(f"writer {self.number}: a range tells something else of {row}")


class Rude(Peer):
    """Connects and behaves badly, for up to two seconds; every fourth of them once and until the end."""

    def __init__(self, number, soak):
        super().__init__(number, soak)
        self.sent = 0

    def visit(self):
        with socket.create_connection(("127.0.0.1", self.soak.port)) as link:
            act = self.random.choice([self.cut, self.never_read, self.no_frame, self.say_nothing, self.read_a_little])
            self.done[act.__name__] += 1
            try:
                act(link)
            except OSError:
                pass  # the server ended the connection, or takes no more
            left = self.soak.ends - time.monotonic()
            self.soak.over.wait(max(0, left if self.number % 4 == 0 else min(left, self.random.random() * 2)))
            if self.random.randrange(2):
                link.setsockopt(socket.SOL_SOCKET, socket.SO_LINGER, struct.pack("ii", 1, 0))  # it breaks off

    def cut(self, link):
        frame = write_frame(b"cut", self.random.randbytes(self.random.choice([10, 100_000])))
        link.sendall(HELLO + frame[: self.random.randrange(1, len(frame))])

    def never_read(self, link):
        link.settimeout(0.5)
        writes = range(self.sent, self.sent + VISIT)
        self.sent += VISIT
        link.sendall(HELLO + b"".join(write_frame(b"u%03d-%04d" % (self.number, at % ROUND), b"%d" % at) for at in writes))
        link.sendall(field(b"\x0b" + field(b"t") + b"\0\0" + bytes(8)) + field(b"\x0c" + bytes(4) + b"\xff\xff\xff\xff") * 10_000)

    def no_frame(self, link):
        link.sendall(HELLO + self.random.choice([b"\0\0\0\0", b"\xff\xff\xff\xff", field(b"\x7f"), field(b"\x0a\xff\xff\xff\xff"), HELLO]))

    def say_nothing(self, link):
        link.sendall(HELLO[: self.random.randrange(len(HELLO))])

    def read_a_little(self, link):
        link.settimeout(0.5)
        link.sendall(HELLO + field(b"\x0b" + field(b"t") + b"\0\0" + bytes(8)) + field(b"\x0c" + bytes(4) + b"\0\0\xff\xff"))
        link.recv(100)


class Soak:
    def __init__(self, program, asked):
        self.seed, self.rest = asked.seed, asked.rest / 1000
        with socket.create_server(("127.0.0.1", 0)) as listener:
            self.port = listener.getsockname()[1]
        self.folder = tempfile.TemporaryDirectory(dir=asked.folder)
        self.history = os.path.join(self.folder.name, "history")
        self.words = [program, "serve", "--port", str(self.port), "--workers", str(asked.connections), "--compactors", "2", "--history", self.history]
        if asked.store:
            self.words += ["--store", os.path.join(self.folder.name, "store"), "--sync", asked.store]
        self.start()
        with tabd.connect(self.port, "root") as root:
            root.create_table("t")
        self.ends, self.over = time.monotonic() + asked.seconds, threading.Event()
        self.peers = [self.peer(number) for number in range(asked.connections)]
        self.resident = []

    def start(self):
        self.server = subprocess.Popen(self.words, stdin=subprocess.DEVNULL, stdout=subprocess.PIPE)
        if self.server.stdout.readline() != b"listening %d\n" % self.port:
            sys.exit(f"{self.words[0]} doesn't listen")

    def start_again(self):
        self.server.kill()
        self.server.wait()
        self.start()

    def peer(self, number):
        return (Rotator if number in (1, 3) else Rude if number % 3 == 2 else Writer)(number, self)

    def memory(self):
        """MiB that are resident, and the most that were."""
        with open(f"/proc/{self.server.pid}/status", encoding="ascii") as told:
            fields = dict(line.split(":", 1) for line in told)
        return [int(fields[name].split()[0]) / 1024 for name in ("VmRSS", "VmHWM")]

    def run(self):
        for peer in self.peers:
            peer.start()
        while time.monotonic() < self.ends and self.server.poll() is None:
            time.sleep(min(5, max(0, self.ends - time.monotonic())))
            told = self.memory()
            self.resident.append(told[0])
            print("{:4.0f} s left, {:.0f} MiB resident, {:.0f} MiB at most".format(max(0, self.ends - time.monotonic()), *told), flush=True)
        self.over.set()
        for peer in self.peers:
            peer.join(PATIENCE)
        return [f"{type(peer).__name__} {peer.number} doesn't end" for peer in self.peers if peer.is_alive()]

    def read_back(self):
        """What is wrong with what the store holds, once all connections have ended."""
        with tabd.connect(self.port, "root", timeout=PATIENCE) as root:
            found = {cell.row: cell.value for cell in root.scan("t", batch=100)}
        for peer in self.peers:
            if isinstance(peer, Writer):
                own = {row: value for row, value in found.items() if row.startswith(b"w%03d-" % peer.number)}
                if own != peer.acknowledged:
                    yield f"writer {peer.number}: {len(peer.acknowledged)} rows were acknowledged, {len(own)} are held, and they differ"
        if any(row[:1] == b"u" and int(value) % ROUND != int(row[5:]) for row, value in found.items()):
            yield "a row of who never reads holds what wasn't written to it"
        if b"cut" in found:
            yield "a write whose frame was cut took effect"

    def hand_on(self):
        """Has the server hand the rest of its history on, and waits until it is in the file."""
        with tabd.connect(self.port, "root", timeout=PATIENCE) as root:
            root.create_user("the-end")
            root.rotate()
        for _ in range(600):
            with open(self.history, "rb") as file:
                file.seek(-min(4096, os.path.getsize(self.history)), os.SEEK_END)
                if b"\ncreateuser the-end\n# ok\n" in file.read():
                    return
            time.sleep(0.1)

    def settle(self):
        """What is wrong with the history: each writer's writes stand in it once, in their order, and of each visit of who never reads a beginning."""
        written = {peer.number: Written() for peer in self.peers if isinstance(peer, Writer)}
        visits, self.entries, rotations, clock = Counter(), 0, 0, 0
        with open(self.history, "rb") as file:
            for at, user, line, reply in zip(file, file, file, file):
                self.entries += 1
                if at[:3] != b"at " or user != b"as root\n" or reply[:2] != b"# " or int(at[3:]) < clock:
                    yield f"entry {self.entries} of the history is none: {(at, user, line[:100], reply)}"
                    return
                clock = int(at[3:])
                rotations += line == b"rotate\n" and reply == b"# ok\n"
                words = line.split()
                if words[0] != b"mutate" or reply != b"# ok\n":
                    continue
                row = words[2]
                if row[:1] == b"w":
                    value = unescaped(words[7]) if words[3] == b"put" else None
                    written[int(row[1:4])].add(row, value, int(words[-1]))
                elif row[:1] == b"u":
                    place = int(row[1:4]), int(words[7]) // VISIT
                    if int(words[7]) % VISIT != visits[place]:
                        yield f"peer {place[0]}, who never reads: the writes of a visit are no beginning of it"
                    visits[place] += 1
                else:
                    yield "the history has a write whose frame was cut"
        for peer in self.peers:
            if isinstance(peer, Writer) and written[peer.number].told() != peer.written.told():
                yield f"writer {peer.number}: {peer.written.count} writes were acknowledged, {written[peer.number].count} are in the history, and they differ"
        asked = sum(peer.done["rotate"] for peer in self.peers)
        if rotations < asked:
            yield f"{asked} rotations were acknowledged, {rotations} are in the history"

    def levels(self):
        """The greatest memory that was seen resident over each quarter, in MiB."""
        quarter = len(self.resident) // 4
        ends = [0, quarter, 2 * quarter, 3 * quarter, len(self.resident)]
        return [max(self.resident[begin:end]) for begin, end in zip(ends, ends[1:])] if quarter else 4 * [0]


def ticks():
    """The processors' ticks since the machine began: those that were busy, and all."""
    with open("/proc/stat", encoding="ascii") as told:
        seen = [int(word) for word in told.readline().split()[1:9]]
    return sum(seen) - seen[3] - seen[4], sum(seen)


def unescaped(word):
    """The bytes that a word of a script says."""
    return b"" if word == b"\\e" else re.sub(rb"\\(x..|.)", lambda found: bytes.fromhex(found[1][1:].decode()) if found[1][:1] == b"x" else found[1], word)


def main():
    parser = argparse.ArgumentParser(description=__doc__, formatter_class=argparse.RawDescriptionHelpFormatter)
    parser.add_argument("--seconds", type=float, default=60)
    parser.add_argument("--connections", type=int, default=64, help="at once, 64 at most")
    parser.add_argument("--memory", type=float, default=2048, help="the bound in MiB")
    parser.add_argument("--slowest", type=float, default=None, help="how long a request may take at most, in ms")
    parser.add_argument("--rest", type=float, default=0, help="how long a writer rests before each of its requests, in ms, on average")
    parser.add_argument("--seed", type=int, default=1)
    parser.add_argument("--folder", help="where the history and the store lie")
    parser.add_argument("--store", choices=["always", "interval"], help="keep what the server does in a folder, synced so")
    asked = parser.parse_args()
    program = os.environ.get("TABD") or subprocess.check_output([TOP / "release/program"], text=True).strip()
    soak, began = Soak(program, asked), ticks()
    try:
        faults = soak.run()
        busy, all_of = (now - before for now, before in zip(ticks(), began))
        faults += [fault for peer in soak.peers for fault in peer.faults] + list(soak.read_back())
        resident, most = soak.memory()
        soak.hand_on()
        faults += soak.settle()
        if asked.store:
            soak.start_again()
            faults += soak.read_back()
    finally:
        soak.server.kill()
        soak.server.wait()
    done = sum((peer.done for peer in soak.peers), Counter())
    print(", ".join(f"{name} {count}" for name, count in sorted(done.items())))
    writers = [peer for peer in soak.peers if isinstance(peer, Writer)]
    print(f"{soak.entries} entries in {os.path.getsize(soak.history) / 2**20:.0f} MiB, {sum(peer.written.count for peer in writers)} of them writes that were acknowledged")
    slowest = {act: max(peer.slowest[act] for peer in writers) for act in sorted(set().union(*(peer.slowest for peer in writers)))}
    print("the slowest, in ms: " + ", ".join(f"{act} {seconds * 1000:.0f}" for act, seconds in slowest.items()))
    *_, third, last = levels = soak.levels()
    quarters = ", ".join(f"{level:.0f}" for level in levels)
    print(f"{resident:.0f} MiB resident, {most:.0f} MiB at most, bound {asked.memory:.0f} MiB; at most {quarters} in the four quarters")
    print(f"processors busy: {busy / all_of * os.cpu_count():.1f} of {os.cpu_count()} on average, load {os.getloadavg()[2]:.1f} at the end")
    if asked.slowest is not None and max(slowest.values()) * 1000 > asked.slowest:
        faults.append("a request was slower than it may be")
    if most > asked.memory:
        faults.append("over the bound of memory")
    if last > 1.25 * third + 64:
        faults.append("memory isn't level over the last half")
    soak.folder.cleanup()
    print("\n".join(faults) or "nothing is lost")
    sys.exit(bool(faults))


main()
