#!/usr/bin/env python3
"""Random hostile input by a generator. Each round many connections at once send requests with fields cut, counts forged, lengths off by
one, opcodes out of turn and bytes flipped, whole or in pieces, and some break off or never read; tests/strict.py reads what they are told.
Beside them images are cut, forged, flipped, sorted otherwise and lengthened, and loaded: what tests/strict.py takes for an image is loaded
and saved as itself, and nothing else is. A script is given broken lines, and shells are told broken replies. Over memory, by the programs
that the gate builds for tests, a core and books are sent the same connections, and tell the same. After each round

- the server still runs, has said nothing on standard error, and all its workers serve;
- an honest client finds its data, and nobody else's;
- the most memory that the process ever had is bounded.

What is sent depends on the seed, the round and the number of the connection alone; which connection comes first doesn't.

Usage: tests/hostile.py [--seed S] [--rounds N] [--first N] [--connections N] [--keep FOLDER]   (from anywhere; wants Python 3.9)
  N rounds, 2 by default, endless with 0; --first begins with another round than the first; what went wrong is written to the folder
  TABD, FRAMES, BOOK_FRAMES in the environment: other built programs
"""
import argparse
import concurrent.futures
import itertools
import os
import random
import re
import resource
import select
import signal
import socket
import struct
import subprocess
import sys
import tempfile
import time
from pathlib import Path

TOP = Path(__file__).resolve().parent.parent
sys.dont_write_bytecode = True
sys.path.insert(0, str(TOP / "tests"))
import strict  # noqa: E402

PATIENCE = 120  # seconds without a byte: a hang
WORKERS = 8
BUSY = b"note: all workers are busy (%d), and further connections wait for one\n" % WORKERS
MIB = 1024 * 1024
KEPT = b"kept-for-honest-clients"
USERS, TABLES, AUTHS = [b"root"] * 6 + [b"mallory", b"ghost"], [b"h0", b"h1", b"h2"] * 3 + [b"none"], [b"A", b"B"] * 4 + [b"long-term"]
LABELS = [b"", b"A", b"A&B", b"A|B", b"(A|B)&A", b'"a b"|A', b"(" * 64 + b"A" + b")" * 64]
NO_LABELS = [b"A&B|A", b"(", b"A&", b'"\\x"', b"(" * 65, b'""', b"\0"]


def field(text):
    return struct.pack(">I", len(text)) + text


def u32(number):
    return struct.pack(">I", number)


# ---- Requests, as pieces: each is the name of its kind and its bytes.
class Maker:
    """Makes requests of pieces, so that a mutation knows where a length, a count and a text stand."""

    def __init__(self, r):
        self.r = r

    def text(self, text):
        return [("number", u32(len(text))), ("text", text)]

    def name(self, of):
        return self.text(self.r.choice(of))

    def byte(self, below):
        return [("byte", bytes([self.r.randrange(below)]))]

    def number(self, number):
        return [("number", u32(number))]

    def counted(self, most, part):
        count = self.r.randrange(most + 1)
        return self.number(count) + [piece for _ in range(count) for piece in part()]

    def row(self):
        r = self.r
        return r.choice([b"r%d" % r.randrange(40), b"r%d" % r.randrange(40), b"", r.randbytes(r.randrange(6)), b"x" * r.choice([100, 5000])])

    def bound(self):
        kind = self.r.randrange(3)
        return [("byte", bytes([kind]))] + (self.text(self.row()) if kind else [])

    def bounds(self):
        return self.bound() + self.bound() if self.r.randrange(4) else [("byte", b"\0"), ("byte", b"\0")]

    def column(self):
        is_qualified = self.r.randrange(2)
        return self.text(b"f%d" % self.r.randrange(3)) + [("byte", bytes([is_qualified]))] + (self.text(b"q") if is_qualified else [])

    def update(self):
        r = self.r
        kind, is_timed = r.choice([0, 1, 1, 1]), r.randrange(2)
        key = self.text(b"f%d" % r.randrange(3)) + self.text(r.choice([b"q", b"q2", b""])) + self.text(r.choice(LABELS if r.randrange(20) else NO_LABELS))
        time = [("wide", struct.pack(">q", r.choice([0, 5, 7, -5, 2**63 - 1, -(2**63), r.getrandbits(40)])))] if is_timed else []
        value = self.text(r.choice([b"v", b"7", r.randbytes(20), b"w" * 300])) if kind else []
        return [("byte", bytes([kind])), *key, ("byte", bytes([is_timed])), *time, *value]

    def permission(self):
        if self.r.randrange(2):
            return [("byte", b"\0"), *self.byte(8)]
        return [("byte", b"\1"), *self.byte(5), *self.name(TABLES)]

    def session(self):
        return self.number(self.r.choice([0, 0, 0, 1, 1, 2, 3, 2**32 - 1]))

    def request(self):
        """The pieces of one request in its form."""
        r = self.r
        opcode = r.choices(range(1, 24), [1, 4, 1, 2, 1, 2, 3, 2, 2, 30, 10, 12, 8, 3, 3, 3, 3, 3, 4, 4, 1, 1, 1])[0]
        if opcode == strict.ROTATE:
            rest = []
        elif opcode in (strict.NEXT, strict.CLOSE, strict.MANY):
            rest = self.session()
            if opcode == strict.NEXT:
                rest += self.number(r.choice([0, 1, 5, 1000, 2**32 - 1]))
            elif opcode == strict.MANY:
                rest += self.counted(r.choice([3, 3, 3, 1003]), self.bounds)
        else:
            rest = self.name(USERS if opcode in (1, 4, 5, 6, 7, 8) else TABLES)
            if opcode == strict.CREATE_TABLE:
                rest += self.byte(2) + self.number(r.choice([1, 3, 1000]))
            elif opcode == strict.SET_AUTHS:
                rest += self.counted(4, lambda: self.name(AUTHS))
            elif opcode in (strict.GRANT, strict.REVOKE):
                rest += self.permission()
            elif opcode == strict.SET_CONSTRAINTS:
                rest += [("byte", bytes([r.choice([0, 0, 1, 15])]))]
            elif opcode == strict.WRITE:
                rest += self.text(self.row()) + self.counted(r.choice([1, 3, 3, 3, 50, 1002 if r.randrange(8) == 0 else 3]), self.update)
            elif opcode == strict.OPEN:
                rest += self.bounds() + self.counted(r.choice([0, 0, 3]), self.column) + self.counted(2, lambda: self.name(AUTHS))
            elif opcode == strict.COMPACT:
                rest += self.byte(2)
            elif opcode == strict.ADD_SPLIT:
                rest += self.text(self.row())
            elif opcode == strict.SET_VERSIONS:
                rest += self.number(r.choice([1, 2, 1000]))
            elif opcode == strict.SET_HORIZON:
                rest += [("wide", struct.pack(">q", r.choice([-(2**63), -5, 0])))]
        return [("byte", bytes([opcode])), *rest]

    # ---- what is done to the pieces of a request
    def forge(self, kind, bytes_):
        """Another number in the place of one."""
        r = self.r
        if kind == "byte":
            return bytes([r.choice([bytes_[0] ^ 1 << r.randrange(8), (bytes_[0] + 1) % 256, 255, r.randrange(256)])])
        most = 256 ** len(bytes_)
        number = int.from_bytes(bytes_, "big")
        forged = r.choice([number + 1, number - 1, 0, most - 1, most // 2, most // 2 - 1, number + 256, r.randrange(most), number << 8])
        return (forged % most).to_bytes(len(bytes_), "big")

    def broken(self, pieces):
        """The body of the request, broken in one or two ways."""
        r, pieces = self.r, list(pieces)
        for _ in range(r.choice([1, 1, 2])):
            at = r.randrange(len(pieces))
            kind, text = pieces[at]
            way = r.randrange(7)
            if way <= 1 and kind != "text":
                pieces[at] = (kind, self.forge(kind, text))
            elif way <= 2 and text:
                pieces[at] = (kind, text[: r.randrange(len(text))] + text[r.randrange(len(text)) :])
            elif way == 3:
                pieces.insert(at, pieces[r.randrange(len(pieces))])
            elif way == 4:
                del pieces[at]
            elif way == 5:
                pieces = pieces[:at]
            else:
                pieces.append(("text", r.randbytes(r.randrange(1, 20))))
            if not pieces:
                break
        body = bytearray(b"".join(text for _, text in pieces))
        if body and r.randrange(4) == 0:
            for _ in range(r.randrange(1, 4)):
                body[r.randrange(len(body))] ^= 1 << r.randrange(8)
        return bytes(body)

    def frame(self):
        r, pieces = self.r, self.request()
        body = b"".join(text for _, text in pieces) if r.randrange(3) else self.broken(pieces)
        way = r.randrange(120)
        if way == 0:
            return self.forge("number", u32(len(body))) + body  # all behind it is read otherwise
        if way == 1:
            return r.randbytes(r.randrange(1, 30))
        if way == 2:
            return field(body + bytes(r.choice([70_000, 300_000])))
        return field(body) if body or way < 10 else b""

    def opening(self):
        """Requests by which there is something to be read, each in its form."""
        r, table = self.r, self.r.choice(TABLES[:3])
        yield [b"\2", field(table), b"\0", u32(3)]
        for right in (0, 1):
            yield [b"\7", field(b"root"), bytes([1, right]), field(table)]
        yield [b"\6", field(b"root"), u32(2), field(b"A"), field(b"B")]
        for _ in range(r.randrange(6)):
            yield [b"\x0a", field(table), field(b"r%d" % r.randrange(40)), u32(1), b"\1", field(b"f1"), field(b"q"), field(r.choice(LABELS)), b"\0", field(b"v")]
        yield [b"\x0b", field(table), b"\0\0", u32(0), u32(1), field(b"A")]

    def connection(self):
        """The bytes that one connection sends."""
        r = self.r
        frames = [self.frame() for _ in range(r.choice([1, 5, 40, 40, 120]))]
        if r.randrange(2):
            frames = [field(b"".join(parts)) for parts in self.opening()] + frames
        if r.randrange(12):
            frames.insert(0, field(b"\1" + field(r.choice(USERS))))
        sent = bytearray(b"".join(frames))
        if sent and r.randrange(8) == 0:
            for _ in range(r.randrange(1, 6)):
                sent[r.randrange(len(sent))] ^= 1 << r.randrange(8)
        if r.randrange(4) == 0:
            del sent[r.randrange(len(sent) + 1) :]
        if r.randrange(2):  # nothing behind what ends the connection
            del sent[length_to_end(sent) :]
        return bytes(sent)


def length_to_end(sent):
    """How many bytes a connection takes: with what isn't a frame it ends."""
    at = 0
    while at + 4 <= len(sent):
        length = int.from_bytes(sent[at : at + 4], "big")
        if not 1 <= length <= strict.MAX_FRAME:
            return at + 4
        at += 4 + length
    return len(sent)


# ---- Connections.
class Hang(Exception):
    pass


def talk(port, sent, r):
    """Sends the bytes and reads all that is told. Gives what was told, and whether that must be all."""
    manner = r.choice(["whole", "whole", "pieces", "pieces", "bytes", "breaks off", "never reads"])
    step = {"pieces": r.choice([29, 400, 4096]), "bytes": 1}.get(manner, 1 << 16)
    step = max(step, len(sent) // 500)
    with socket.create_connection(("127.0.0.1", port), timeout=PATIENCE) as link:
        link.setsockopt(socket.IPPROTO_TCP, socket.TCP_NODELAY, 1)
        link.setblocking(False)
        told, at, stop = bytearray(), 0, r.randrange(len(sent) + 1) if manner in ("breaks off", "never reads") else len(sent)
        reads, patience = ([], 0.2) if manner == "never reads" else ([link], PATIENCE)
        is_sending = True
        try:
            while True:
                if is_sending and at == stop:
                    is_sending = False
                    if manner == "breaks off":
                        link.setsockopt(socket.SOL_SOCKET, socket.SO_LINGER, struct.pack("ii", 1, 0))
                        return bytes(told), False
                    if manner != "never reads":
                        link.shutdown(socket.SHUT_WR)
                ready, writable, _ = select.select(reads, [link] if is_sending else [], [], patience)
                if ready:
                    got = link.recv(1 << 16)
                    if not got:  # all of the answer, where all was sent that the connection takes
                        return bytes(told), at >= length_to_end(sent)
                    told += got
                if writable:
                    at += link.send(sent[at : min(stop, at + step)])
                elif not ready and reads:
                    raise Hang("no byte for %d seconds, behind %d bytes" % (PATIENCE, len(told)))
                elif not ready:
                    return b"", False
        except (ConnectionError, OSError):
            return bytes(told), False  # the server ended it with bytes unread, and what it told may be lost


class Round:
    """What one round sends, and what went wrong."""

    def __init__(self, asked, number, port):
        self.asked, self.number, self.port = asked, number, port
        self.sent = self.told = self.answered = self.whole = 0

    def connection(self, at):
        r = random.Random(f"{self.asked.seed} {self.number} {at}")
        sent, told = Maker(r).connection(), b""
        try:
            told, is_whole = talk(self.port, sent, r)
            return len(sent), len(told), strict.judge(sent, told, is_whole), is_whole, None
        except (strict.Strange, Hang, struct.error, OSError) as fault:
            if self.asked.keep:
                for name, text in (("sent", sent), ("told", told)):
                    Path(self.asked.keep, f"{self.asked.seed}-{self.number}-{at}.{name}").write_bytes(text)
            return len(sent), len(told), 0, False, f"round {self.number}, connection {at}: {type(fault).__name__}: {fault}"

    def run(self):
        with concurrent.futures.ThreadPoolExecutor(16) as pool:
            done = list(pool.map(self.connection, range(self.asked.connections)))
        self.sent, self.told, self.answered, self.whole = (sum(one[part] for one in done) for part in range(4))
        return [fault for *_, fault in done if fault]


# ---- Connections over memory.
def programs_for_tests():
    """The programs for tests that are built: of each how it is called, and whose answers are the same."""
    frames, books = (os.environ.get(name.upper()) or TOP / "crates" / name / "out" / name for name in ("frames", "book_frames"))
    ways = [([frames], "whole"), ([books, "served"], "whole"), ([books, "book"], "parts"), ([books, "shared"], "parts")]
    return [(words, same) for words, same in ways if os.access(words[0], os.X_OK)]


def in_memory(asked, number, at):
    """What is wrong with the answers to one connection, and how many of its requests were answered: each is the protocol's, those of a core and
    of `serve_shared` are the same, and so are those by a book's own calls and by a shared one's. By the latter compactions have three parts."""
    sent = Maker(random.Random(f"memory {asked.seed} {number} {at}")).connection()
    faults, answered, first = [], 0, {}
    for words, same in programs_for_tests():
        try:
            done = subprocess.run(words, input=sent, stdout=subprocess.PIPE, stderr=subprocess.PIPE, timeout=PATIENCE)
            answered += strict.judge(sent, done.stdout)
            if (done.returncode, done.stderr) != (0, b""):
                faults.append(f"round {number}, connection {at}, {words}: status {done.returncode}, {done.stderr[:200]}")
            if first.setdefault(same, done.stdout) != done.stdout:
                faults.append(f"round {number}, connection {at}: {words} tells something else")
        except (strict.Strange, struct.error, subprocess.TimeoutExpired) as fault:
            faults.append(f"round {number}, connection {at}, {words}: {type(fault).__name__}: {fault}")
    return faults, answered


def all_in_memory(asked, number):
    """The faults of half as many connections as come over loopback, and how many requests were answered."""
    with concurrent.futures.ThreadPoolExecutor(4) as pool:
        done = list(pool.map(lambda at: in_memory(asked, number, at), range(asked.connections // 2)))
    return [fault for faults, _ in done for fault in faults], sum(answered for _, answered in done)


# ---- The server and its honest client.
class Honest:
    """Who has data in the server, and reads it."""

    def __init__(self, port):
        self.port = port
        self.rows = [(b"row%03d" % at, b"value %d" % (at * at)) for at in range(300)]

    def ask(self, user, *bodies):
        """What these requests are told, by frames."""
        sent = b"".join(field(body) for body in (b"\1" + field(user), *bodies))
        with socket.create_connection(("127.0.0.1", self.port), timeout=PATIENCE) as link:
            link.sendall(sent)
            link.shutdown(socket.SHUT_WR)
            told = b""
            while got := link.recv(1 << 16):
                told += got
        strict.judge(sent, told)
        replies = strict.Replies(told)
        while replies.at < len(told):
            yield replies.next()

    def begin(self):
        """Makes the tables and users of all, and writes the honest data."""
        made = [b"\2" + field(table) + b"\0" + u32(1) for table in (KEPT, *TABLES[:3])] + [b"\4" + field(b"honest-client"), b"\4" + field(b"mallory")]
        made += [b"\6" + field(user) + u32(2) + field(b"A") + field(b"B") for user in (b"honest-client", b"mallory", b"root")]
        made += [b"\7" + field(user) + bytes([1, right]) + field(table) for user, right, table in (
            (b"honest-client", 0, KEPT), (b"honest-client", 1, KEPT), (b"mallory", 0, b"h0"), (b"mallory", 1, b"h0"))]
        told = list(self.ask(b"root", *made))
        writes = [b"\x0a" + field(KEPT) + field(row) + u32(1) + b"\1" + field(b"f") + field(b"q") + field(b"A&B") + b"\1" + bytes(8) + field(value)
                  for row, value in self.rows]
        told += self.ask(b"honest-client", *writes)
        return {reply for reply in told} == {(strict.OK, None)}

    def is_whole(self):
        """Whether they read what they wrote, and nothing else."""
        auths = u32(2) + field(b"A") + field(b"B")
        told = list(self.ask(b"honest-client", b"\x0b" + field(KEPT) + b"\0\0" + u32(0) + auths, b"\x0c" + u32(0) + u32(1000)))
        wanted = [(strict.CELL, (row, b"f", b"q", b"A&B", 0, value)) for row, value in self.rows]
        return told == [(strict.OK, None), (strict.OPENED, 0), *wanted, (strict.END, 1)]


class Server:
    def __init__(self, program):
        for _ in range(3):
            with socket.create_server(("127.0.0.1", 0)) as probe:
                self.port = probe.getsockname()[1]
            words = [program, "serve", "--port", str(self.port), "--workers", str(WORKERS), "--compactors", "1"]
            self.process = subprocess.Popen(words, stdin=subprocess.DEVNULL, stdout=subprocess.PIPE, stderr=subprocess.PIPE)
            if self.process.stdout.readline():
                break
        os.set_blocking(self.process.stderr.fileno(), False)

    def most_memory(self):
        """The most that was resident, in MiB."""
        with open(f"/proc/{self.process.pid}/status", encoding="ascii") as told:
            return next(int(line.split()[1]) for line in told if line.startswith("VmHWM:")) / 1024

    def all_serve(self):
        """Whether as many connections as there are workers are answered at once."""
        links = []
        try:
            for _ in range(WORKERS):
                links.append(socket.create_connection(("127.0.0.1", self.port), timeout=PATIENCE))
                links[-1].sendall(field(b"\1" + field(b"root")))
            return all(link.recv(5) == b"\0\0\0\1\x80" for link in links)
        finally:
            for link in links:
                link.close()


# ---- Images.
SCRIPT = """setauths root A,B
createuser ann
createuser bob
setauths ann A,B,C
setauths bob B
createtable t time=any versions=3
createtable u time=server
grant ann READ t
grant bob WRITE t
grant bob READ u
horizon t 2
insert t b f q A 1 5
insert t d f q A&B|C x
insert t d f q A&B 2 6
insert t d f q A&B 2 6
delete t b f q A 4
insert t m f q (A|B)&C 3 7
addsplit t c
addsplit t k
at 9
mutate u r put f q \\e 1 - ; put f q2 "a\\x20b" 2 - ; put g q A 3 -
save image
"""


def pieces_of(image):
    """The image in pieces of a part each, as a connection's requests."""
    r, pieces = strict.Bytes(image), []

    def part(kind, count):
        pieces.append((kind, r.take(count)))
        return int.from_bytes(pieces[-1][1], "big") if kind in ("number", "byte", "wide") else None

    def text():
        part("text", part("number", 4))

    part("text", 6), part("byte", 1), part("byte", 1)
    version = image[7]
    part("wide", 8), part("wide", 8)
    for _ in range(part("number", 4)):
        text(), part("byte", 1)
        for _ in range(part("number", 4)):
            text()
    for _ in range(part("number", 4)):
        text(), part("byte", 1), part("number", 4), part("byte", 1)
        if version == 2:
            part("wide", 8)
        for _ in range(part("number", 4)):
            text(), part("byte", 1)
        for _ in range(part("number", 4)):
            text()
        for _ in range(part("wide", 8)):
            for _ in range(4):
                text()
            part("wide", 8), part("byte", 1), part("wide", 8), part("number", 4), text()
    part("text", 4)
    r.ends()
    return pieces


def first_version(image):
    """That image in version 1, which has no horizons; a horizon is lost."""
    pieces, kept, tables = pieces_of(image), [], 0
    for at, (kind, text) in enumerate(pieces):
        # a horizon is the only wide number behind a byte behind a number behind a byte
        if kind == "wide" and [before for before, _ in pieces[at - 3 : at]] == ["byte", "number", "byte"]:
            tables += 1
            continue
        kept.append(text)
    return b"TABIMG\0\1" + b"".join(kept)[8:]


def broken_image(image, maker):
    r, way = maker.r, maker.r.randrange(10)
    pieces = pieces_of(image)
    if way == 0:
        return image[: r.randrange(len(image))]
    if way == 1:
        return image + r.randbytes(r.randrange(1, 9))
    if way == 2:
        at, other = r.randrange(len(pieces)), r.randrange(len(pieces))
        pieces[at], pieces[other] = pieces[other], pieces[at]
        return b"".join(text for _, text in pieces)
    if way == 3:  # two stretches in the place of each other, as records or users that don't rise
        low, middle, high = sorted(r.randrange(len(pieces) + 1) for _ in range(3))
        return b"".join(text for _, text in pieces[:low] + pieces[middle:high] + pieces[low:middle] + pieces[high:])
    if way == 4:
        low, high = sorted(r.randrange(len(pieces)) for _ in range(2))
        return b"".join(text for _, text in pieces[:high] + pieces[low:])
    if way <= 6:
        at = r.randrange(len(pieces))
        kind, text = pieces[at]
        if kind == "text":
            return maker.broken(pieces)
        pieces[at] = (kind, maker.forge(kind, text))
        return b"".join(text for _, text in pieces)
    if way == 7:
        texts = [at for at, (kind, text) in enumerate(pieces) if kind == "text" and 8 < at < len(pieces) - 1]
        at = r.choice(texts)
        text = r.choice([*LABELS, *NO_LABELS, b"zz", b"\0", r.randbytes(3), b"x" * 129, b"x" * 1025])
        pieces[at - 1 : at + 1] = [("number", u32(len(text))), ("text", text)]
        return b"".join(text for _, text in pieces)
    changed = bytearray(image)
    for _ in range(r.randrange(1, 4)):
        changed[r.randrange(len(changed))] ^= 1 << r.randrange(8)
    return bytes(changed)


def images(program, asked, number, count=300):
    """Loads broken images, and gives what went wrong, and how many were loaded."""
    maker, faults = Maker(random.Random(f"{asked.seed} {number} images")), []
    # a save waits for the disk, so only now and then what stands behind a refused load is saved
    with tempfile.TemporaryDirectory(dir="/dev/shm" if os.access("/dev/shm", os.W_OK) else None) as work:
        def ran(words, lines):  # in little memory, so that a forged count that took some would be told
            return subprocess.run([program, "script", *words], input=lines, stdout=subprocess.PIPE, stderr=subprocess.PIPE, cwd=work, timeout=PATIENCE,
                                  preexec_fn=lambda: resource.setrlimit(resource.RLIMIT_AS, (64 * MIB, 64 * MIB)))

        ran([], SCRIPT.encode())
        whole = Path(work, "image").read_bytes()
        bases = [whole, first_version(whole)]
        kept = [broken_image(bases[at % 2], maker) if at > 1 else bases[at] for at in range(count)]
        for at, image in enumerate(kept):
            Path(work, f"i{at}").write_bytes(image)
        wanted = [strict.image_fault(image) for image in kept]
        saved = [at for at, fault in enumerate(wanted) if fault is None or at % 16 == 0]
        # at the least moment, so that no save moves the clock of what was loaded
        lines = f"at {-(2**63)}\n" + "".join(f"load i{at}\n" + f"save s{at}\n" * (at in saved) for at in range(count))
        done = ran([], lines.encode())
        told = iter(done.stdout.decode("latin-1").split("\n"))
        if (done.returncode, done.stderr) != (0, b""):
            faults.append(f"round {number}, images: status {done.returncode}, {done.stderr[:200]}")
        last = None
        for at, (image, fault) in enumerate(zip(kept, wanted)):
            said = next(told, None)
            last = image if fault is None else last
            back = Path(work, f"s{at}").read_bytes() if at in saved and next(told, None) == "ok" else None
            if said != ("fault load " + fault if fault else "ok"):
                faults.append(f"round {number}, image {at}: {said}, where it is {fault or 'an image'}")
            elif at in saved and (back is None or back != last and (last[7] == 2 or first_version(back) != last)):
                faults.append(f"round {number}, image {at}: what is saved isn't what was loaded last")
            else:
                continue
            if asked.keep:
                Path(asked.keep, f"{asked.seed}-{number}-{at}.image").write_bytes(image)
        for at in maker.r.sample(range(count), 6):
            done = ran(["--image", f"i{at}"], b"")
            right = (0, b"", 0) if wanted[at] is None else (1, b"", 1)
            if (done.returncode, done.stdout, done.stderr.count(b"\n")) != right or right[2] and not done.stderr.startswith(b"fault: "):
                faults.append(f"round {number}, --image {at}: status {done.returncode}, {done.stderr[:200]}")
    return faults, wanted.count(None)


# ---- Lines, and servers that are none.
WORDS = [b"\\e", b"\\0", b"\\x00", b"18446744073709551615", b"18446744073709551616", b"-9223372036854775808", b"-9223372036854775809", b"4294967295",
         b"4294967296", b"(" * 65, b"", b"\\", b"a" * 200, b"1000", b"1001", b"-0", b"[", b"(", b";", b"t", b"root"]
REPLIES = [b"\x80", b"\x81\x01" + field(b"u"), b"\x81\x06" + struct.pack(">IBBI", 1, 1, 1, 0), b"\x82" + b"".join(map(field, (b"r", b"f", b"q", b""))) + bytes(8) + field(b"v"),
           b"\x83\0", b"\x83\1", b"\x84" + bytes(4), b"\x85" + field(b"r"), b"\x86", b"\x87" + bytes(24), b"\x88\xff\x1f" + u32(1) + field(b"A"), b"\x81\x11"]


def lines(program, asked, number):
    """Lines of tests/cases with words cut, forged, shuffled and doubled: each is answered, and each fault is explained."""
    r = random.Random(f"{asked.seed} {number} lines")
    cases = b"".join(path.read_bytes() for path in sorted((TOP / "tests/cases").glob("*.txt")))
    known, sent = [line[2:] for line in cases.split(b"\n") if line.startswith(b"> ")], []
    for _ in range(1000):
        line, way = r.choice(known), r.randrange(6)
        words = line.split(b" ")
        if way == 0 and line:
            at = r.randrange(len(line))
            line = line[:at] + bytes([line[at] ^ 1 << r.randrange(8)]) + line[at + 1 :]
        elif way == 1:
            line = line[: r.randrange(len(line) + 1)]
        elif way == 2:
            line += b" " + r.choice(known)
        elif way == 3:
            line = b" ".join(r.sample(words, len(words)))
        elif way == 4:
            words[r.randrange(len(words))] = r.choice(WORDS)
            line = b" ".join(words)
        if not re.match(rb" *(save|load)", line):
            sent.append(line.replace(b"\n", b" "))
    done = subprocess.run([program, "script", "--explain"], input=b"\n".join(sent), stdout=subprocess.PIPE, stderr=subprocess.PIPE, timeout=PATIENCE)
    faults = [len(re.findall(pattern, text, re.M)) for pattern, text in ((rb"^line fault$", done.stdout), (rb"^line \d+: ", done.stderr))]
    if done.returncode or faults[0] != faults[1] or faults[1] != done.stderr.count(b"\n"):
        yield f"round {number}, lines: status {done.returncode}, {faults} faults and explanations"


def no_server(program, asked, number, at):
    """A shell whose server tells broken replies prints what it understands, and ends with 0, or with 1 and one line."""
    r, told = random.Random(f"{asked.seed} {number} shell {at}"), field(b"\x80")
    for _ in range(r.randrange(1, 12)):
        body = bytearray(r.choice(REPLIES))
        if r.randrange(3) == 0:
            body[r.randrange(len(body))] ^= 1 << r.randrange(8)
        if r.randrange(8) == 0:
            body = body[: r.randrange(len(body) + 1)] + r.randbytes(r.randrange(5))
        told += field(bytes(body)) if r.randrange(20) else u32(r.choice([0, 1, len(body) + 1, strict.MAX_FRAME, 2**32 - 1])) + body
    with socket.create_server(("127.0.0.1", 0)) as listener:
        words = [program, "shell", "--port", str(listener.getsockname()[1]), "--user", "root"]
        shell = subprocess.Popen(words, stdin=subprocess.PIPE, stdout=subprocess.PIPE, stderr=subprocess.PIPE)
        link, _ = listener.accept()
    with link:
        link.sendall(told)
        link.shutdown(socket.SHUT_WR)
        asks = [b"scan t \\0", b"rights t", b"status t", b"splits t", b"open t \\0", b"next 0 3", b"many 0 [a [b [c [d", b"createtable t", b"close 0"]
        _, err = shell.communicate(b"\n".join(r.choice(asks) for _ in range(5)), timeout=PATIENCE)
    if (shell.returncode, err.count(b"\n"), err[:7]) not in ((0, 0, b""), (1, 1, b"fault: ")):
        yield f"round {number}, shell {at}: status {shell.returncode}, {err[:200]}"


# ---- The reader of replies.
def reader_faults():
    """What the strict reader lets through of the examples of docs/PROTOCOL.md and tests/frames/examples.txt: each as it stands is taken, and
    none that is cut, longer, told by another opcode or in another order of replies."""
    texts = re.findall(r"```frames\n(.*?)```", (TOP / "docs/PROTOCOL.md").read_text(encoding="utf-8"), re.S)
    texts += re.split(r"^# ", (TOP / "tests/frames/examples.txt").read_text(encoding="utf-8"), flags=re.M)[1:]
    for number, text in enumerate(texts, 1):
        frames = [(line[0], bytes.fromhex(line[2:])) for line in text.splitlines() if line[:2] in ("> ", "< ")]
        sent, told = (b"".join(frame for which, frame in frames if which == side) for side in "><")
        replies = [frame for which, frame in frames if which == "<"]
        changed = [told[:-1], told + b"\0", told + replies[-1], b"".join(replies[:-1])]
        changed += [b"".join(replies[:at] + [body[:4] + bytes([body[4] ^ 0x10]) + body[5:]] + replies[at + 1 :]) for at, body in enumerate(replies)]
        changed += [b"".join([*replies[:at], replies[at + 1], replies[at], *replies[at + 2 :]]) for at in range(len(replies) - 1)
                    if replies[at][4] != replies[at + 1][4]]
        try:
            strict.judge(sent, told)
        except strict.Strange as why:
            yield f"example {number} isn't taken: {why}"
        for at, other in enumerate(changed):
            try:
                strict.judge(sent, other)
                yield f"example {number}, change {at}, is taken"
            except strict.Strange:
                pass


# ---- All of it.
def main():
    parser = argparse.ArgumentParser(description=__doc__, formatter_class=argparse.RawDescriptionHelpFormatter)
    parser.add_argument("--seed", type=int, default=1)
    parser.add_argument("--rounds", type=int, default=2)
    parser.add_argument("--first", type=int, default=0)
    parser.add_argument("--connections", type=int, default=200, help="of each round")
    parser.add_argument("--keep")
    asked = parser.parse_args()
    program = os.environ.get("TABD") or subprocess.check_output([TOP / "release/program"], text=True).strip()
    passed = failed = sent = told = 0

    def count(name, faults):
        nonlocal passed, failed
        passed, failed = passed + (not faults), failed + bool(faults)
        for fault in (faults or [])[:5]:
            print(f"FAILED: {name}: {fault}", flush=True)

    count("the reader of replies is strict", list(reader_faults()))
    server = Server(program)
    try:
        honest = Honest(server.port)
        count("the honest data is written", [] if honest.begin() and honest.is_whole() else ["it isn't"])
        for number in itertools.count(asked.first) if asked.rounds == 0 else range(asked.first, asked.first + asked.rounds):
            began, this = time.monotonic(), Round(asked, number, server.port)
            faults = this.run()
            sent, told = sent + this.sent, told + this.told
            count("connections", faults or ([] if this.answered > asked.connections else [f"{this.answered} requests were answered"]))
            ways = len(programs_for_tests())
            if ways:
                memory_faults, in_all = all_in_memory(asked, number)
                count("connections over memory", memory_faults or ([] if in_all > asked.connections else [f"{in_all} requests were answered"]))
            image_faults, loaded = images(program, asked, number)
            count("images", image_faults or ([] if loaded > 2 else ["none was loaded"]))
            count("lines", list(lines(program, asked, number)))
            count("servers that are none", [fault for at in range(30) for fault in no_server(program, asked, number, at)])
            # (a connection that waits for a second, as some do on a slow machine, is said)
            status, said = server.process.poll(), (server.process.stderr.read() or b"").replace(BUSY, b"")
            count("the server goes on", [] if status is None and not said else [f"status {status}, {said}"])
            if status is not None:
                break
            count("each worker serves", [] if server.all_serve() else ["one doesn't"])
            count("the honest client finds their data", [] if honest.is_whole() else ["they don't"])
            # what each worker may hold of a frame and of replies, and the history, which keeps a part of what was sent
            most, bound = server.most_memory(), 32 + 9 * WORKERS + sent / MIB
            count("memory is bounded", [] if most <= bound else [f"{most:.0f} MiB at most, where {bound:.0f} MiB are the bound"])
            print(f"round {number}: {this.answered} requests answered, {in_all if ways else 0} over memory, {this.whole} connections whole, {this.sent / MIB:.1f} MiB sent, "
                  f"{this.told / MIB:.1f} MiB told, {loaded} images loaded, {most:.0f} MiB of memory at most, {time.monotonic() - began:.1f} s", flush=True)
            if asked.rounds == 0 and failed:
                break
    finally:
        server.process.kill()
        server.process.wait()
    print(f"{passed} passed, {failed} failed")
    sys.exit(failed != 0)


if __name__ == "__main__":
    signal.signal(signal.SIGTERM, lambda *_: sys.exit(1))  # so that the server ends with it
    main()
