"""What tests/ample.sh tests. Its last line counts what passed and failed.

Each contract lets a request be refused for want of memory, whenever it asks for some; so none sees a body that gives up early. Here memory is
ample, and sizes lie around and past each constant of the program: all is answered, as a few lines of Python foresee it.
"""

import os
import random
import shutil
import socket
import struct
import subprocess
import threading

from serving import HELLO, MAKE, OK, PATIENCE, PROGRAM, Server, count, field, frame, read_exactly, read_frame, run, run_parts


def script(lines, *words):
    """What a script answers to these lines, one string for each that it prints."""
    done = run("script", *words, stdin=("\n".join(lines) + "\n").encode())
    return done.stdout.decode().splitlines()


def answers(name, lines, wanted, *words):
    told = script(lines, *words)
    at = next((at for at, (one, other) in enumerate(zip(told, wanted)) if one != other), min(len(told), len(wanted)))
    count(name, told == wanted, (at, told[at:at + 2], wanted[at:at + 2], len(told), len(wanted)))


def around(*sizes):
    return [size + more for size in sizes for more in (-1, 0, 1)]


# ---- Cells.
def records():
    """Rows in any order, and rising, as many as blocks, partitions and merges of runs have, and one less and one more: scanned, flushed, and
    scanned in ranges."""
    chance = random.Random(7)
    for number in around(64, 4_096, 16_384, 65_536):
        rows = ["%06d" % row for row in range(number)]
        shown = ["%s f q \\e 1 v" % row for row in rows]
        near = sorted({0, 1, number // 2, number - 1} | {row for row in (15, 16, 63, 64, 65, 127) if row < number})
        ranges = " ".join("[%s [%s" % (rows[row], rows[row]) for row in near)
        for order in (chance.sample(rows, number),) if number > 10_000 else (rows, chance.sample(rows, number)):
            lines = ["createtable t", *("insert t %s f q \\e v 1" % row for row in order)]
            asked = ["open t \\0", "next 0 %d" % (number - 1), "next 0 5", "many 0 " + ranges, "flush t", "open t \\0", "many 1 " + ranges, "next 1 %d" % (number + 1), "status t"]
            of_ranges = [line for row in near for line in (shown[row], "range")]
            wanted = ["ok"] * (number + 1) + ["session 0", *shown[:-1], "more", shown[-1], "end", *of_ranges, "ok", "session 1", *of_ranges, *shown, "end",
                      "tablets 1 sources 1 records %d" % number]
            answers("%d records" % number, lines + asked, wanted)


def bytes_of_cells():
    """Values that come to as much as a block of input, a partition and a tablet, in few cells."""
    for length, number in ((65_500, 3), (1_000_000, 3), (1_048_576, 20)):
        value = length * "v"
        lines = ["createtable t", *("insert t %02d f q \\e %s 1" % (row, value) for row in range(number)), "open t \\0", "next 0 100", "flush t", "scan t \\0"]
        shown = ["%02d f q \\e 1 %s" % (row, value) for row in range(number)] + ["end"]
        answers("%d values of %d bytes" % (number, length), lines, ["ok"] * (number + 1) + ["session 0", *shown, "ok", *shown])


def long_lines():
    """Lines of more than a block has, and of more than the longest part."""
    for number in (1, 3, 7):
        puts = " ; ".join("put f %d \\e %s 1" % (at, 1_048_576 * "v") for at in range(number))
        shown = ["r f %d \\e 1 %s" % (at, 1_048_576 * "v") for at in range(number)]
        answers("a line of %d MiB" % number, ["createtable t", "mutate t r " + puts, "scan t \\0"], ["ok", "ok", *shown, "end"])


def labels():
    """More labels than verdicts are kept of, short ones and long ones."""
    held = ["a%d" % at for at in range(700)]
    for width in (1, 60):
        names = [("a%d" % (at % 1400)) + ("|(%s)" % "&".join("x%d" % each for each in range(width)) if at >= 1400 else "") for at in range(2_800)]
        lines = ["createtable t", "setauths root " + ",".join(held)] + ["insert t %05d f q %s v 1" % (at, name) for at, name in enumerate(names)]
        shown = ["%05d f q %s 1 v" % (at, name) for at, name in enumerate(names) if at % 1400 < 700]
        scan = "scan t " + ",".join(held)
        answers("labels of %d terms" % width, [*lines, scan, "flush t", scan], ["ok"] * len(lines) + [*shown, "end", "ok", *shown, "end"])


def versions():
    """As many versions as a table may show."""
    lines = ["createtable t versions=1000"] + ["insert t r f q \\e %d %d" % (at, at) for at in range(1_200)] + ["scan t \\0", "compact t full", "scan t \\0", "status t"]
    shown = ["r f q \\e %d %d" % (at, at) for at in range(1_199, 199, -1)] + ["end"]
    answers("1,000 versions", lines, ["ok"] * 1_201 + [*shown, "ok", *shown, "tablets 1 sources 1 records 1000"])


# ---- What a request may have.
def limits():
    """As much as one request may have, and one more."""
    for number, is_told in ((1_000, True), (1_001, False)):
        puts = " ; ".join("put f %04d \\e v 1" % at for at in range(number))
        columns = ",".join("f:%04d" % at for at in range(number))
        ranges = " ".join("[r [r" for _ in range(number))
        shown = ["r f %04d \\e 1 v" % at for at in range(number)]
        answers("%d updates" % number, ["createtable t", "mutate t r " + puts, "scan t \\0"], ["ok", *(["ok", *shown] if is_told else ["refused 9 TooLarge updates"]), "end"])
        answers("%d columns" % number, ["createtable t", "insert t r f 0999 \\e v 1", "open t \\0 \\0 \\0 " + columns],
                ["ok", "ok", "session 0" if is_told else "refused 9 TooLarge columns"])
        answers("%d ranges" % number, ["createtable t", "insert t r f q \\e v 1", "open t \\0", "many 0 " + ranges],
                ["ok", "ok", "session 0", *(["r f q \\e 1 v", "range"] * number if is_told else ["refused 9 TooLarge ranges"])])
    for number, told in ((1_024, "ok"), (1_025, "refused 9 TooLarge authorizations")):
        answers("%d authorizations" % number, ["setauths root " + ",".join("a%04d" % at for at in range(number))], [told])


def sessions():
    """As many sessions as a connection may have open."""
    many = 65_536
    lines = ["createtable t", "insert t r f q \\e v 1"] + ["open t \\0"] * (many + 1) + ["next %d 1" % at for at in (0, 1_024, many - 1)] + ["close 7", "open t \\0"]
    cell = ["r f q \\e 1 v", "more"]
    wanted = ["ok", "ok", *("session %d" % at for at in range(many)), "refused 9 TooLarge sessions", *(3 * cell), "ok", "session %d" % many]
    answers("65,536 sessions", lines, wanted)


def tables_and_users():
    """Many tables, users and rights, and tablets of a table: more than are kept beside each other without a list of their own."""
    for number in (15, 16, 17, 300):
        users = ["u%03d" % at for at in range(number)]
        lines = ["createtable t%03d" % at for at in range(number)] + ["createuser " + user for user in users]
        lines += ["grant %s READ t%03d" % (user, at) for user in users for at in (0, number - 1)]
        asked, told = ["insert t000 r f q \\e v 1"], ["ok"]
        for user in (users[0], users[-1]):
            asked += ["as " + user, "scan t000 \\0", "insert t000 r f q \\e v"]
            told += ["r f q \\e 1 v", "end", "refused 3 PermissionDenied Table.WRITE t000"]
        answers("%d tables and users" % number, lines + asked, ["ok"] * len(lines) + told)


def tablets():
    """More tablets than caches and works are, each in several sources: read in turn, in ranges and whole, before they are merged and behind."""
    number = 130
    rows = ["%04d" % row for row in range(number)]
    lines = ["createtable t"]
    for turn in range(3):
        lines += ["insert t %s f q%d \\e v 1" % (row, turn) for row in rows] + ["flush t"]
        lines += ["addsplit t " + row for row in rows[:-1]] if turn == 0 else []
    cells = ["%s f q%d \\e 1 v" % (row, turn) for row in rows for turn in range(3)]
    ranges = "many 0 " + " ".join("[%s [%s" % (row, row) for row in rows)
    of_ranges = [line for at in range(number) for line in (*cells[3 * at:3 * at + 3], "range")]
    asked = ["open t \\0", ranges, ranges, "next 0 100", "next 0 1000", "splits t", "compact t full", "status t", "scan t \\0"]
    wanted = ["ok"] * len(lines) + ["session 0", *of_ranges, *of_ranges, *cells[:100], "more", *cells[100:], "end", *rows[:-1], "end", "ok",
              "tablets %d sources %d records %d" % (number, number, 3 * number), *cells, "end"]
    answers("130 tablets", lines + asked, wanted)


# ---- Servers.
OPEN = frame(b"\x0b" + field(b"t") + b"\0\0" + bytes(8))


def write(row, values, table=b"t"):
    puts = b"".join(b"\1" + field(b"f") + field(b"%d" % place) + field(b"") + b"\0" + field(value) for place, value in enumerate(values))
    return frame(b"\x0a" + field(table) + field(row) + struct.pack(">I", len(values)) + puts)


def frames():
    """The longest frame, and answers and requests of many of them at once."""
    longest = write(b"r", [1_048_576 * b"v"] * 7 + [1_048_300 * b"w"])
    count("the longest write is near the limit of frames", 8_388_608 - 300 < len(longest) - 4 <= 8_388_608, len(longest))
    with Server() as server, server.connect() as stream:
        stream.sendall(HELLO + MAKE + longest)
        count("the longest write is done", read_exactly(stream, 15) == 3 * OK)
        stream.sendall(b"".join(write(b"%05d" % row, [b"v"]) for row in range(9_000)))
        count("9,000 writes at once are done", read_exactly(stream, 45_000) == 9_000 * OK)
        stream.sendall(2_000 * OPEN)
        opened = [read_frame(stream)[5:] for _ in range(2_000)]
        count("2,000 sessions of a connection", opened == [struct.pack(">I", at) for at in range(2_000)], opened[-1:])
        stream.sendall(OPEN + frame(b"\x0c" + bytes(4) + struct.pack(">I", 1 << 20)))
        opened, cells = read_frame(stream), 0
        while read_frame(stream)[4:5] == b"\x82":
            cells += 1
        count("all cells come in one answer", opened[4:5] == b"\x84" and cells == 9_008, cells)


def journals():
    """More than one batch of a journal has, asked at once: it is answered, and there at the next start."""
    value = 500_000 * b"v"
    shutil.rmtree("store", ignore_errors=True)
    with Server("--store", "store", "--sync", "interval") as server, server.connect() as stream:
        sending = threading.Thread(target=stream.sendall, args=(HELLO + MAKE + b"".join(write(b"%02d" % row, [value]) for row in range(60)),))
        sending.start()
        told = read_exactly(stream, 62 * 5)
        sending.join()
        count("30 MB at once are answered", told == 62 * OK, len(told))
        server.process.kill()
    done = run("script", "--store", "store", stdin=b"status t\n")
    count("and kept", done.stdout.endswith(b"records 60\n"), (done.stdout[:100], done.stderr[:200]))
    shutil.rmtree("store")
    done = run("script", "--store", "store", stdin=b"createtable t\n" + b"".join(b"insert t %d f q \\e %s\n" % (row, 1_048_576 * b"v") for row in range(12)))
    count("a script's long lines too", done.stdout == 13 * b"ok\n" and run("script", "--store", "store", stdin=b"status t\n").stdout.endswith(b"records 12\n"), done.stdout[-100:])


def histories():
    """More entries than lie in one block, taken up in parts, and asked for by others meanwhile."""
    lines = b"createtable t\n" + b"".join(b"insert t %d f q \\e v\n" % row for row in range(5_000))
    with Server("--history", "history", "--accept", "1") as server:
        count("5,000 requests are answered", server.shell(lines).stdout == 5_001 * b"ok\n" and server.ends() == 0)
    with open("history", "rb") as file:
        count("and are in the history", file.read().count(b"\nmutate t ") == 5_000)


def queues():
    """More connections at once than are served at once and wait."""
    for workers in ("1", "64"):
        with Server("--workers", workers) as server:
            streams = [server.connect() for _ in range(100)]
            for stream in streams:
                stream.sendall(HELLO)
                stream.shutdown(socket.SHUT_WR)
            told = [read_exactly(stream, 6) for stream in streams]
            count("100 connections by %s workers" % workers, told == 100 * [OK], told.count(OK))
            for stream in streams:
                stream.close()


if __name__ == "__main__":
    run_parts(records, bytes_of_cells, long_lines, labels, versions, limits, sessions, tables_and_users, tablets, frames, journals, histories, queues)
