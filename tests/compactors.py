"""What tests/compactors.sh tests. Its last line counts what passed and failed."""

import os
import struct
import subprocess
import time

from serving import HELLO, OK, PATIENCE, Server, count, field, frame, read_exactly, run_parts

COUNTING = r"""
#define _GNU_SOURCE
#include <dlfcn.h>
#include <fcntl.h>
#include <stdlib.h>
#include <sys/mman.h>
#include <unistd.h>
/* Keeps in the file LARGEST how many bytes were asked for at once at most, since somebody wrote a 0 there. */
static _Atomic(unsigned long) lost, *largest;
static void tell(size_t size) {
    if (!largest) {
        const char *name = getenv("LARGEST");
        int file = name ? open(name, O_RDWR | O_CREAT, 0600) : -1;
        void *at = file >= 0 && ftruncate(file, sizeof lost) == 0 ? mmap(NULL, sizeof lost, PROT_READ | PROT_WRITE, MAP_SHARED, file, 0) : MAP_FAILED;
        largest = at == MAP_FAILED ? &lost : at;
    }
    unsigned long before = *largest;
    while (before < size && !__atomic_compare_exchange_n((unsigned long *)largest, &before, size, 0, __ATOMIC_RELAXED, __ATOMIC_RELAXED)) {}
}
#define REAL(name) ((__typeof__(name) *)dlsym(RTLD_NEXT, #name))
void *malloc(size_t size) {
    tell(size);
    return REAL(malloc)(size);
}
void *realloc(void *old, size_t size) {
    tell(size);
    return REAL(realloc)(old, size);
}
"""


def write(table, row, values, family=b"f"):
    """The frame of a mutation of one row: each value in a column of its own."""
    puts = b"".join(b"\x01" + field(family) + field(b"%d" % place) + field(b"") + b"\x00" + field(value) for place, value in enumerate(values))
    return frame(b"\x0a" + field(table) + field(row) + struct.pack(">I", len(values)) + puts)


def told_ok(stream, *frames):
    """Whether each of them is answered Ok."""
    stream.sendall(b"".join(frames))
    wanted = len(frames) * OK
    return read_exactly(stream, len(wanted)) == wanted


def status(server, table, holds):
    """What the table's status tells: once it holds of the counts of tablets, sources and records, or at last."""
    end = time.monotonic() + PATIENCE
    while True:
        words = server.shell(b"status %s\n" % table).stdout.split()
        if len(words) == 6 and holds(*map(int, words[1::2])) or time.monotonic() > end:
            return words


def again_and_again():
    """In each round a table gets 5,000 cells in 1,000 columns: compacted, they are 1,000, in few sorted tables. So each round every table
    waits for a minor compaction of its own, and some for a partial one."""
    tables = [b"t", b"u"]
    with Server("--compactors", "2") as server, server.connect() as stream:
        good = told_ok(stream, HELLO, *(frame(b"\x02" + field(table) + b"\x00" + struct.pack(">I", 1)) for table in tables))
        count("tables", good)
        for number in range(1, 6):
            written = [5 * [write(table, b"r", [b"v%d" % number] * 1000)] for table in tables]
            good = told_ok(stream, *(one for each in written for one in each))
            for table in tables:
                words = status(server, table, lambda tablets, sources, records: sources <= 4 and records <= 1000 * number)
                count("round %d of %s" % (number, table.decode()), good and len(words) == 6 and int(words[3]) <= 4
                      and int(words[5]) <= 1000 * number, words)


def several_at_once():
    """Twelve tables get 5,000 cells each, so that several of them are due at once, in two rounds, the second beside scans. Each is compacted,
    and shows all of its cells, and those that were written last."""
    tables = [b"t%02d" % number for number in range(12)]
    rows = [b"%02d" % number for number in range(5)]
    for compactors in ("1", "3"):
        with Server("--compactors", compactors) as server, server.connect() as stream:
            good = told_ok(stream, HELLO, *(frame(b"\x02" + field(table) + b"\x00" + struct.pack(">I", 1)) for table in tables))
            for word in (b"first", b"second"):
                good = good and told_ok(stream, *(write(table, row, [word + table + row] * 1000) for row in rows for table in tables))
                for table in tables:
                    words = status(server, table, lambda tablets, sources, records: 1 <= sources <= 4)
                    count("%s of %s by %s" % (word.decode(), table.decode(), compactors), good and len(words) == 6 and 1 <= int(words[3]) <= 4, words)
            for table in tables:
                cells = server.shell(b"scan %s \\0\n" % table).stdout.splitlines()[:-1]
                values = {cell.rsplit(b" ", 1)[1] for cell in cells}
                count("all cells of %s by %s" % (table.decode(), compactors), len(cells) == 5000 and values == {b"second" + table + row for row in rows}, (len(cells), cells[:1]))


def split_in_two():
    """A tablet of 18 MiB in two sorted tables is split; then each half is one sorted table. So is one of a second table."""
    value = 1_000_000 * b"v"
    for_all = [b"%02d" % number for number in range(18)]
    with Server() as server, server.connect() as stream:
        for table in (b"one", b"two"):
            good = told_ok(stream, *[HELLO][table == b"two":], frame(b"\x02" + field(table) + b"\x00" + struct.pack(">I", 1)))
            for first in (0, 1):
                good = good and told_ok(stream, *(write(table, row, [value]) for row in for_all[first::2]))
                good = good and server.shell(b"flush %s\n" % table).stdout == b"ok\n"
            good = good and told_ok(stream, write(table, b"00", [b"w"], b"g"))
            count("18 MiB of " + table.decode(), good)
            words = status(server, table, lambda tablets, sources, records: tablets == 2 and sources == 2)
            count("%s is split in two tables" % table.decode(), words == b"tablets 2 sources 2 records 19".split(), words)
            words = server.shell(b"status %s\nsplits %s\n" % (table, table)).stdout
            # (the middle without the last write, where a compactor saw a pause before that)
            middles = (b"08", b"09")
            count("%s stays so" % table.decode(), words in [b"tablets 2 sources 2 records 19\n%s\nend\n" % row for row in middles], words[:200])


def nothing_is_kept():
    """A tablet of 17 MiB in one row can't be split: behind each write a compactor is refused it. What it was told isn't kept: no list of it
    grows, so that little memory is asked for at once. Each write is one to a small table, and each connection is short."""
    with open("counting.c", "w") as source:
        source.write(COUNTING)
    subprocess.run([os.environ.get("CC", "cc"), "-shared", "-fPIC", "-O1", "-o", "counting.so", "counting.c", "-ldl"], check=True)
    work = os.getcwd()
    with Server(LD_PRELOAD=work + "/counting.so", LARGEST=work + "/largest") as server:
        with server.connect() as stream:
            good = told_ok(stream, HELLO, frame(b"\x02" + field(b"t") + b"\x00" + struct.pack(">I", 1)),
                           *(write(b"t", b"r", [b"v" * 1_000_000], b"%d" % number) for number in range(17)))
        count("17 MiB in one row", good and server.shell(b"flush t\n").stdout == b"ok\n")
        with open("largest", "r+b") as largest:
            largest.write(bytes(8))
        for number in range(25):
            with server.connect() as stream:
                good = good and told_ok(stream, HELLO, frame(b"\x02" + field(b"u%d" % number) + b"\x00" + struct.pack(">I", 1)))
                for _ in range(100):
                    good = good and told_ok(stream, write(b"u%d" % number, b"r", [b"v"]))
                    time.sleep(0.0015)
        with open("largest", "rb") as largest:
            most, = struct.unpack("=Q", largest.read(8))
        count("2,500 writes beside a tablet that is refused", good)
        count("at most 128 KiB are asked for at once", 0 < most <= 131_072, most)
        words = server.shell(b"status t\n").stdout
        count("it isn't split", words == b"tablets 1 sources 1 records 17\n", words)


run_parts(again_and_again, several_at_once, split_in_two, nothing_is_kept)
