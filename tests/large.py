"""What tests/large.sh tests. Its last line counts what passed and failed."""

import os
import subprocess
import sys
import threading

from serving import HELLO, OK, PROGRAM, Server, count, field, frame, read_exactly, run_parts

sys.path.insert(0, os.path.join(os.path.dirname(os.path.dirname(os.path.abspath(__file__))), "bench/store"))
from phases import phases  # noqa: E402

ROWS, COLUMNS, FLUSHES, LIVES = 1100, 1000, 70, 5000


def answers(name, lines, *wanted):
    """Whether a script answers so. What is wanted is parts, since all of it is long."""
    done = subprocess.run([PROGRAM, "script"], input=lines, stdout=subprocess.PIPE, timeout=240)
    told = done.stdout
    for number, part in enumerate(wanted):
        if not told.startswith(part):
            return count("%s, part %d" % (name, number), False, told[:200])
        told = told[len(part):]
    count(name, done.returncode == 0 and told == b"", told[:200])


def large_script():
    """1,100,000 cells: the first 70 rows are each a sorted table, the others lie where they were written."""
    columns = [b"%03d" % column for column in range(COLUMNS)]
    puts = b" ;".join(b" put f %s \\e v 1" % column for column in columns)
    lines = [b"createtable t\n"]
    for row in range(ROWS):
        lines.append(b"mutate t %04d%s\n" % (row, puts))
        if row < FLUSHES:
            lines.append(b"flush t\n")
    cells = ROWS * COLUMNS
    shown = b"".join(b"%04d f %s \\e 1 v\n" % (row, column) for row in range(ROWS) for column in columns)
    lines.append(b"status t\nsave large.image\ncompact t full\nstatus t\nopen t \\0\nnext 0 %d\n" % (cells + 1))
    answers("a large table", b"".join(lines), (1 + ROWS + FLUSHES) * b"ok\n", b"tablets 1 sources %d records %d\n" % (FLUSHES, cells),
            2 * b"ok\n", b"tablets 1 sources 1 records %d\n" % cells, b"session 0\n", shown, b"end\n")
    answers("a large image", b"load large.image\nopen t \\0\nnext 0 %d\nnext 0 1\n" % cells, b"ok\nsession 0\n", shown, b"more\nend\n")


def many_lives():
    """A user that is made and dropped again and again: each life begins without rights."""
    life = b"createuser u\ngrant u READ t\ndropuser u\n"
    answers("many lives", b"createtable t\n" + LIVES * life + b"createuser u\nas u\nscan t \\0\n", (2 + 3 * LIVES) * b"ok\n",
            b"refused 3 PermissionDenied Table.READ t\n")


def many_events():
    """Connections one behind the other, whose events come to over 2^20, and then one that writes and reads."""
    event, reply = frame(b"\x12" + field(b"t")), frame(b"\x83\x01")
    per = 1 << 16
    with Server("--compactors", "0") as server:
        server.shell(b"createtable t\n")
        for number in range(17):
            with server.connect() as stream:
                threading.Thread(target=stream.sendall, args=(HELLO + per * event,), daemon=True).start()
                wanted = OK + per * reply
                told = read_exactly(stream, len(wanted))
                count("events up to %d" % ((number + 1) * per), told == wanted, told[-20:])
        told = server.shell(b"insert t r f q \\e v 1\nscan t \\0\ncreatetable u\ndroptable t\n").stdout
        count("behind over 2^20 events", told == b"ok\nr f q \\e 1 v\nend\nok\nok\n", told)


def turns_taken():
    """The seconds of the processor that each tenth of 40,000 writes and scans in turn takes."""
    tenth = 4000
    parts = [(b"createtable t\n", 3)]
    for part in range(10):
        rows = [b"%06d" % (number * 7919 % 1_000_003) for number in range(part * tenth, (part + 1) * tenth)]
        lines = b"".join(b"insert t %s f q \\e v 1\nscan t \\0 [%s [%s\n" % (row, row, row) for row in rows)
        parts.append((lines, sum(len(b"ok\n%s f q \\e 1 v\nend\n" % row) for row in rows)))
    return [taken for taken, _, _ in phases(parts, [PROGRAM, "script"])][1:]


def turns():
    """The last tenths take at most twice what the first ones do. A tenth takes some 30 ms, and where others share a processor, its own pace
    doubles for longer than that: so one of five runs is enough."""
    runs, level = [], False
    while not level and len(runs) < 5:
        runs.append(turns_taken())
        level = min(runs[-1][7:]) <= 2 * min(runs[-1][:3])
    count("writes and scans in turn", level, runs)


run_parts(large_script, many_lives, many_events, turns)
