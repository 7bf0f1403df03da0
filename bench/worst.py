#!/usr/bin/env python3
"""What single requests take at worst (the table of docs/SECURITY.md): each on a server of its own, with what it was asked before. Of each: the
bytes of the request or requests, how much memory the server holds behind them and how much it took meanwhile, the seconds of the processor
that it spent, those until all was answered, and the longest wait of another connection meanwhile, which asks again and again for its rights;
`the next Open` and the like are what a request leaves to a later one.

Usage: bench/worst.py [CASE ...]   (from anywhere; builds the program if it isn't built; ten minutes, 6 GB of memory)
  TABD in the environment: another built program
"""
import os
import socket
import struct
import subprocess
import sys
import threading
import time
from pathlib import Path

TOP = Path(__file__).resolve().parent.parent
MIB = 1024 * 1024


def field(text):
    return struct.pack(">I", len(text)) + text


def u32(number):
    return struct.pack(">I", number)


def hello(user):
    return field(b"\x01" + field(user))


def create_table(name, versions=1):
    return field(b"\x02" + field(name) + b"\0" + u32(versions))


def create_user(name):
    return field(b"\x04" + field(name))


def auths(user, terms):
    return field(b"\x06" + field(user) + u32(len(terms)) + b"".join(map(field, terms)))


def grant(user, table, place):
    return field(b"\x07" + field(user) + b"\x01" + bytes([place]) + field(table))


def put(family, qualifier, label, value, stamp=5):
    return b"\x01" + field(family) + field(qualifier) + field(label) + b"\x01" + struct.pack(">q", stamp) + field(value)


def write(table, row, updates):
    return field(b"\x0a" + field(table) + field(row) + u32(len(updates)) + b"".join(updates))


def open_all(table, columns=(), terms=(), low=b"\0", high=b"\0"):
    return field(b"\x0b" + field(table) + low + high + u32(len(columns)) + b"".join(columns) + u32(len(terms)) + b"".join(map(field, terms)))


def open_row(table, row, terms=()):
    return open_all(table, (), terms, b"\x01" + field(row), b"\x01" + field(row))


def next_cells(session, count):
    return field(b"\x0c" + u32(session) + u32(count))


def many(session, ranges):
    return field(b"\x0d" + u32(session) + u32(len(ranges)) + b"".join(low + high for low, high in ranges))


def exactly(link, count):
    got = bytearray()
    while len(got) < count:
        more = link.recv(min(count - len(got), MIB))
        if not more:
            raise ConnectionError("it ended")
        got += more
    return bytes(got)


def read_frames(link, count):
    return [exactly(link, struct.unpack(">I", exactly(link, 4))[0]) for _ in range(count)]


def take(link, *requests):
    """Asks each, and sees that it is answered by Ok or Opened."""
    for at in range(0, len(requests), 256):
        part = requests[at : at + 256]
        link.sendall(b"".join(part))
        for told in read_frames(link, len(part)):
            assert told[0] in (0x80, 0x84), told[:20]


def drain(link, last):
    """Reads replies until one is the last; gives how many bytes they were."""
    held, count = bytearray(), 0
    while True:
        more = link.recv(4 * MIB)
        if not more:
            raise ConnectionError("it ended")
        count += len(more)
        held += more
        del held[:-16]
        if bytes(held).endswith(last):
            return count


class Server:
    def __init__(self, program, compactors=1):
        with socket.create_server(("127.0.0.1", 0)) as probe:
            self.port = probe.getsockname()[1]
        words = [program, "serve", "--port", str(self.port), "--compactors", str(compactors)]
        self.process = subprocess.Popen(words, stdin=subprocess.DEVNULL, stdout=subprocess.PIPE)
        self.process.stdout.readline()

    def connect(self):
        link = socket.create_connection(("127.0.0.1", self.port), timeout=600)
        link.setsockopt(socket.IPPROTO_TCP, socket.TCP_NODELAY, 1)
        return link

    def memory(self):
        """Resident MiB now, and at most since the last call."""
        with open(f"/proc/{self.process.pid}/status", encoding="ascii") as told:
            fields = dict(line.split(":", 1) for line in told)
        with open(f"/proc/{self.process.pid}/clear_refs", "w", encoding="ascii") as peak:
            peak.write("5")
        return int(fields["VmRSS"].split()[0]) / 1024, int(fields["VmHWM"].split()[0]) / 1024

    def seconds(self):
        """Seconds of the processor, of all threads."""
        with open(f"/proc/{self.process.pid}/stat", encoding="ascii") as told:
            fields = told.read().rpartition(")")[2].split()
        return (int(fields[11]) + int(fields[12])) / os.sysconf("SC_CLK_TCK")

    def close(self):
        self.process.kill()
        self.process.communicate()


class Beside:
    """Another connection, and how long it waited at most for an answer."""

    def __init__(self, server):
        self.link, self.longest, self.goes_on = server.connect(), 0.0, True
        take(self.link, hello(b"root"))
        self.thread = threading.Thread(target=self.ask)

    def ask(self):
        while self.goes_on:
            began = time.monotonic()
            self.link.sendall(field(b"\x14" + field(b"beside")))
            read_frames(self.link, 1)
            self.longest = max(self.longest, time.monotonic() - began)
            time.sleep(0.005)

    def __enter__(self):
        self.thread.start()
        return self

    def __exit__(self, *_):
        self.goes_on = False
        self.thread.join()
        self.link.close()


class Case:
    """A server with root's connection, and what it is measured by."""

    def __init__(self, program, compactors=1):
        self.server = Server(program, compactors)
        self.link = self.server.connect()
        take(self.link, hello(b"root"), create_table(b"beside"))

    def measure(self, what, sent, work):
        before, _ = self.server.memory()
        spent, began = self.server.seconds(), time.monotonic()
        with Beside(self.server) as beside:
            note = work()
        took = time.monotonic() - began
        held, most = self.server.memory()
        spent = self.server.seconds() - spent
        print(f"{what:58} {sent:>13,} {held - before:10.1f} {most - before:10.1f} {spent:9.2f} {took:9.2f} {beside.longest:9.2f}  {note or ''}", flush=True)

    def ask(self, what, *requests):
        self.measure(what, sum(map(len, requests)), lambda: take(self.link, *requests))

    def told(self, what, request, last=b"\0\0\0\2\x83\1"):
        def work():
            self.link.sendall(request)
            return f"{drain(self.link, last):,} bytes told"
        self.measure(what, len(request), work)


def fill(case, table, rows, updates, tag=b"r"):
    take(case.link, *(write(table, b"%s%07d" % (tag, at), updates) for at in range(rows)))


def long_row(program):
    case = Case(program)
    take(case.link, create_table(b"t"))
    case.ask("a write: 1,000 puts to a row of 1 MiB", write(b"t", b"r" * MIB, [put(b"f", b"%d" % n, b"", b"") for n in range(1000)]))
    case.ask("the next Open", open_all(b"t"))
    case.ask("an Open behind that", open_all(b"t"))
    return case


def many_columns(program):
    case = Case(program, 0)
    take(case.link, create_table(b"t"))
    fill(case, b"t", 200, [put(b"f", b"q%03d" % n, b"", b"v") for n in range(1000)])
    take(case.link, open_all(b"t"))
    case.told("a Next of 200,000 cells, all columns", next_cells(0, 4_000_000))
    columns = [field(b"f") + b"\1" + field(b"q%03d" % n) for n in range(1000)]
    case.ask("an Open with 1,000 columns", open_all(b"t", columns))
    case.told("a Next of the same cells by their columns", next_cells(1, 4_000_000))
    case.ask("an Open with 1,000 families, none of them there", open_all(b"t", [field(b"f%03d" % n) + b"\0" for n in range(1000)]))
    case.told("a Next that shows nothing", next_cells(2, 4_000_000))
    return case


def whole_ranges(program):
    case = Case(program, 0)
    take(case.link, create_table(b"t"))
    fill(case, b"t", 1000, [put(b"f", b"q", b"", b"v" * 1000)])
    take(case.link, open_all(b"t"))
    case.told("a Next of all of a table of 1 MB", next_cells(0, 4_000_000))
    case.told("a Many of 1,000 ranges, each of all of it", many(0, [(b"\0", b"\0")] * 1000))
    return case


def hidden_cells(program):
    case = Case(program, 0)
    take(case.link, create_table(b"t"), auths(b"root", [b"A"]))
    fill(case, b"t", 10_000, [put(b"f", b"q%02d" % n, b"B", b"v") for n in range(100)])
    take(case.link, open_all(b"t", (), [b"A"]))
    case.told("a Next that shows none of a million cells", next_cells(0, 1))
    return case


def labels(program):
    case = Case(program, 0)
    take(case.link, create_table(b"t"))
    nested = b"(" * 63 + b"a" + b"".join(b"&b)|c)"[at % 2 * 3 : at % 2 * 3 + 3] for at in range(63))
    fill(case, b"t", 1000, [put(b"f", b"q%03d" % n, nested, b"") for n in range(100)])
    take(case.link, open_all(b"t"))
    case.told("a Next over 100,000 cells, one label nested 64 deep", next_cells(0, 1))
    take(case.link, create_table(b"u"))
    for at in range(1000):
        take(case.link, write(b"u", b"r%d" % at, [put(b"f", b"q%03d" % n, nested.replace(b"a", b"a%d" % (at * 100 + n)), b"") for n in range(100)]))
    take(case.link, open_all(b"u"))
    case.told("the same with as many labels", next_cells(1, 1))
    long = b"&".join(b"a%06d" % n for n in range(MIB // 8))
    case.ask("a write: seven labels of 1 MiB", write(b"t", b"z", [put(b"f", b"%d" % n, long, b"") for n in range(7)]))
    take(case.link, open_row(b"t", b"z"))
    case.told("a Next over these", next_cells(2, 9))
    return case


def sessions(program):
    case = Case(program, 0)
    take(case.link, create_table(b"t"), write(b"t", b"r", [put(b"f", b"q", b"", b"v")]))
    case.ask("65,536 Opens", *[open_all(b"t")] * 65_536)
    return case


def spread(program):
    """A table of 2,001 tablets, with ten cells in each."""
    case = Case(program, 0)
    take(case.link, create_table(b"t"))
    rows = [b"r%05d" % at for at in range(2000)]
    take(case.link, *(field(b"\x11" + field(b"t") + field(row)) for row in rows))
    take(case.link, *(write(b"t", row, [put(b"f", b"q%d" % n, b"", b"v") for n in range(10)]) for row in rows))
    case.ask("the first Open of 2,001 tablets behind 20,000 writes", open_all(b"t"))
    case.ask("1,000 Opens of all of it", *[open_all(b"t")] * 1000)
    case.ask("1,000 Opens of one row of it", *[open_row(b"t", rows[5])] * 1000)
    case.told("a Many of 1,000 rows of it", many(0, [(b"\1" + field(row), b"\1" + field(row)) for row in rows[:1000]]))
    return case


def many_tablets(program):
    case = Case(program, 0)
    take(case.link, create_table(b"t"))
    case.ask("100,000 AddSplits", *(field(b"\x11" + field(b"t") + field(b"r%06d" % at)) for at in range(100_000)))
    case.measure("a Status of them", 10, lambda: (case.link.sendall(field(b"\x13" + field(b"t"))), read_frames(case.link, 1)) and None)
    case.told("Splits of them", field(b"\x12" + field(b"t")))
    case.ask("an Open of all", open_all(b"t"))
    case.ask("an Open of one row", open_row(b"t", b"r5"))
    take(case.link, create_table(b"u"))
    for at in range(100):
        take(case.link, field(b"\x11" + field(b"u") + field(b"%03d" % at + b"r" * (MIB - 3))))
    case.told("Splits of 100 end rows of 1 MiB", field(b"\x12" + field(b"u")))
    return case


def compaction(program):
    case = Case(program, 0)
    take(case.link, create_table(b"t"))
    fill(case, b"t", 10_000, [put(b"f", b"q%02d" % n, b"", b"v" * 100) for n in range(100)])
    case.ask("the first Open behind a million writes of 100 bytes", open_all(b"t"))
    case.ask("a Flush of them", field(b"\x0f" + field(b"t")))
    case.ask("a Compact of them, full", field(b"\x10" + field(b"t") + b"\1"))
    return case


def turns(program):
    """A source for each scan behind a write, where nothing compacts."""
    for compactors in (0, 1):
        case = Case(program, compactors)
        take(case.link, create_table(b"t"))
        asks = []
        for at in range(4000):
            asks += [write(b"t", b"r%d" % at, [put(b"f", b"q", b"", b"v")]), open_row(b"t", b"r"), field(b"\x0e" + u32(at))]
        case.ask(f"4,000 writes, an Open behind each, {compactors} compactors", *asks)
        case.ask("an Open behind them", open_all(b"t"))
        if compactors == 0:
            case.server.close()
    return case


def names(program):
    case = Case(program, 0)
    case.ask("100,000 CreateUsers", *(create_user(b"u%06d" % at) for at in range(100_000)))
    case.ask("100,000 CreateTables", *(create_table(b"t%06d" % at) for at in range(100_000)))
    case.ask("SetAuths of 1,024 terms of 1,024 bytes", auths(b"root", [b"%04d" % at + b"a" * 1020 for at in range(1024)]))
    case.ask("an Open under them", open_all(b"t000000", (), [b"%04d" % at + b"a" * 1020 for at in range(1024)]))
    return case


def refusals(program):
    case = Case(program, 0)

    def work():
        for _ in range(64):
            case.link.sendall(field(b"\x13" + field(b"n" * 128)) * 1024)
            read_frames(case.link, 1024)
    case.measure("65,536 requests that are refused", 65_536 * 137, work)
    return case


CASES = [long_row, many_columns, whole_ranges, hidden_cells, labels, sessions, spread, many_tablets, compaction, turns, names, refusals]


def main():
    program = os.environ.get("TABD") or subprocess.check_output([TOP / "release/program"], text=True).strip()
    print(f"{'':58} {'bytes asked':>13} {'MiB held':>10} {'at most':>10} {'CPU s':>9} {'seconds':>9} {'beside':>9}")
    for case in CASES:
        if not sys.argv[1:] or case.__name__ in sys.argv[1:]:
            case(program).server.close()


if __name__ == "__main__":
    main()
