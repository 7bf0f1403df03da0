"""What tests/ranges.sh tests. Its last line counts what passed and failed."""

import os
import random
import subprocess
import threading

from serving import Server, count, run, run_parts

ROWS = 900
# how many ranges one request has: around how many there are at least for threads, and the most that one may have, and one more
COUNTS = (0, 1, 2, 63, 64, 65, 499, 500, 501, 999, 1000, 1001)
# the same of ranges that have cells enough for threads
WIDE_COUNTS = (499, 500, 501, 502, 503, 1000)
COUNTING = r"""
#define _GNU_SOURCE
#include <dlfcn.h>
#include <fcntl.h>
#include <pthread.h>
#include <stdlib.h>
#include <sys/mman.h>
#include <unistd.h>
/* Keeps in the file THREADS how many threads were made. */
int pthread_create(pthread_t *made, const pthread_attr_t *how, void *(*does)(void *), void *with) {
    static _Atomic(unsigned long) *threads;
    if (!threads) {
        int file = open(getenv("THREADS"), O_RDWR | O_CREAT, 0600);
        void *at = file >= 0 && ftruncate(file, sizeof *threads) == 0 ? mmap(NULL, sizeof *threads, PROT_READ | PROT_WRITE, MAP_SHARED, file, 0) : MAP_FAILED;
        if (at != MAP_FAILED) threads = at;
    }
    if (threads) ++*threads;
    return ((int (*)(pthread_t *, const pthread_attr_t *, void *(*)(void *), void *))dlsym(RTLD_NEXT, "pthread_create"))(made, how, does, with);
}
"""


def row(number):
    return "r%05d" % number


def table(r):
    """The lines of a table of some versions and labels, part of it in sorted tables and in three tablets."""
    lines = ["createtable t versions=2", "setauths root A,B"]
    for turn in range(3):
        for number in r.sample(range(ROWS), ROWS // 2):
            label = r.choice(["\\e", "A", "B", "A&B", "A|B", "C", "A&C", "B|(A&C)"])
            column = (row(number), r.randrange(2), label)
            moment = turn + r.randrange(9)
            if r.randrange(3):
                lines.append("insert t %s f q%d %s v%d %d" % (*column, r.randrange(1000), moment))
            else:
                lines.append("delete t %s f q%d %s %d" % (*column, moment))
        lines += [["addsplit t " + row(300), "flush t"], ["addsplit t " + row(600)], []][turn]
    return lines


def bounds(r):
    """One range: of a few rows, of one row, of many, of none, and without an end."""
    low, kind = r.randrange(ROWS), r.randrange(12)
    high = low + r.randrange(1, 12)
    if kind == 0:
        return "\\0 \\0" if r.randrange(20) == 0 else "\\0 (" + row(r.randrange(9))
    if kind == 1:
        return "[%s \\0" % row(ROWS - r.randrange(9))
    if kind == 2:
        return "(%s (%s" % (row(low), row(low + 1))
    if kind == 3:
        return "[%s [%s" % (row(low), row(low))
    return "%s%s %s%s" % (r.choice("[("), row(low), r.choice("[("), row(high))


def wide(r):
    """One range of 200 rows, which have more than 32 cells."""
    low = r.randrange(ROWS - 200)
    return "[%s (%s" % (row(low), row(low + 200))


def many(r, number, session=0, one=bounds):
    return " ".join(["many %d" % session, *(one(r) for _ in range(number))])


def requests(r):
    """Sessions under several authorizations, one of them read already, each asked for ranges; and an answer of one range at a time."""
    lines = ["open t A,B", "open t \\0", "open t A [%s (%s" % (row(100), row(800)), "next 0 100"]
    for session in range(3):
        for number in COUNTS:
            lines.append(many(r, number, session))
    lines += [many(r, number, 0, wide) for number in WIDE_COUNTS]
    bad = many(r, 600).split(" ")
    lines += [" ".join(bad[:400] + ["[z", "(a"] + bad[400:]), many(r, 600, 9), "next 0 50", "close 0", many(r, 600)]
    return lines


def as_one_after_another():
    r = random.Random(52)
    lines = "\n".join([*table(r), *requests(r), ""]).encode()
    said = run("script", stdin=lines)
    with Server("--workers", "4") as server:
        told = server.shell(lines)
    told_of = 3 * sum(number for number in COUNTS if number <= 1000) + sum(WIDE_COUNTS)
    count("a script answers", said.returncode == 0 and said.stdout.count(b"range\n") == told_of and said.stdout.count(b"refused") == 6, said.stdout[-200:])
    count("a server tells the same", told.stdout == said.stdout, (len(told.stdout), len(said.stdout), told.stderr))


def beside_writes():
    """Four connections at once, each of which asks for 1,000 ranges of a session of its own, again and again, beside one that writes: what a
    session shows is the same each time."""
    r = random.Random(11)
    setup, ask, turns = table(r), many(r, 1000, 0, wide), 3
    same = []

    def reads(server):
        lines = "\n".join(["open t A,B", *[ask] * turns, ""]).encode()
        told = server.shell(lines).stdout.split(b"\n", 1)[1]
        part = told[:len(told) // turns]
        if part.count(b"range\n") == 1000 and told == part * turns:
            same.append(len(part))

    with Server("--workers", "6") as server:
        made = server.shell("\n".join([*setup, ""]).encode()).stdout
        readers = [threading.Thread(target=reads, args=[server]) for _ in range(4)]
        for reader in readers:
            reader.start()
        written = "".join("insert t %s f q A w 99\n" % row(r.randrange(ROWS)) for _ in range(1000)).encode()
        done = server.shell(written).stdout
        for reader in readers:
            reader.join()
    count("a table", made == b"ok\n" * len(setup), made[-100:])
    count("1,000 writes", done == b"ok\n" * 1000, done[-100:])
    count("four at once", len(same) == 4, same)


def by_threads():
    """That 500 ranges are read by more threads than the server has, and neither 499 are nor 1,000 that have few cells."""
    with open("counting.c", "w") as source:
        source.write(COUNTING)
    subprocess.run([os.environ.get("CC", "cc"), "-shared", "-fPIC", "-O1", "-o", "counting.so", "counting.c", "-ldl"], check=True)
    work = os.getcwd()

    def made():
        with open("threads", "rb") as threads:
            return int.from_bytes(threads.read(8), "little")

    r = random.Random(4)
    with Server("--workers", "2", LD_PRELOAD=work + "/counting.so", THREADS=work + "/threads") as server:
        lines = "\n".join([*table(r), "open t A,B", ""]).encode()
        count("a session", server.shell(lines).stdout.endswith(b"session 0\n"))
        seen = [made()]
        for number, one in ((499, wide), (1000, bounds), (500, wide), (1000, wide)):
            told = server.shell(("open t A,B\n%s\n" % many(r, number, 0, one)).encode()).stdout
            count("%d ranges" % number, told.count(b"range\n") == number, told[-100:])
            seen.append(made())
    few, short, some, most = (b - a for a, b in zip(seen, seen[1:]))
    count("499 ranges are read by one thread", few == 0, seen)
    count("1,000 ranges of few cells are read by one thread", short == 0, seen)
    if len(os.sched_getaffinity(0)) > 1:
        count("500 and 1,000 by several", some > 0 and most >= some, seen)


run_parts(as_one_after_another, beside_writes, by_threads)
