"""What tests/quiet.sh tests. Its last line counts what passed and failed."""

import os
import struct
import time

from serving import HELLO, OK, PATIENCE, Server, count, field, frame, read_exactly, read_frame, run, run_parts

# for how many seconds nobody has to write
QUIET = 1


def make(table):
    return frame(b"\x02" + field(table) + b"\x00" + struct.pack(">I", 1))


def write(table, row, value=b"v"):
    return frame(b"\x0a" + field(table) + field(row) + struct.pack(">I", 1) + b"\1" + field(b"f") + field(b"q") + field(b"") + b"\0" + field(value))


def split(table, row):
    return frame(b"\x11" + field(table) + field(row))


def flush(table):
    return frame(b"\x0f" + field(table))


def told_ok(stream, *frames):
    """Whether each of them is answered Ok."""
    stream.sendall(b"".join(frames))
    wanted = len(frames) * OK
    return read_exactly(stream, len(wanted)) == wanted


def joined(server):
    stream = server.connect()
    return stream if told_ok(stream, HELLO) else None


def status(stream, table):
    """The counts of tablets, sources and records."""
    stream.sendall(frame(b"\x13" + field(table)))
    told = read_frame(stream)
    return struct.unpack(">QQQ", told[5:]) if told[4:5] == b"\x87" else told


def until(stream, table, wanted):
    """The counts once they are so, or at last."""
    end = time.monotonic() + PATIENCE
    while True:
        counts = status(stream, table)
        if counts == wanted or time.monotonic() > end:
            return counts
        time.sleep(0.1)


def spread(table):
    """Makes a table of three tablets of ten rows each, all in two sorted tables that aren't due for a compaction, and what was written behind these:
    one of the rows is written three times."""
    rows = [b"%02d" % row for row in range(30)]
    again = (rows[0], rows[15], rows[29])
    return [make(table), *(write(table, row) for row in rows), split(table, rows[9]), split(table, rows[19]), flush(table),
            *(write(table, row, b"w") for row in again), flush(table), *(write(table, row, b"x") for row in again)]


SPREAD, MERGED = (3, 6, 36), (3, 3, 30)


def scan(server, table):
    return server.shell(b"scan %s \\0\n" % table).stdout


def becomes_one():
    """Each tablet is one source soon, of what the scan shows, and shows the same."""
    for compactors in ("1", "3"):
        with Server("--compactors", compactors) as server, joined(server) as stream:
            good = told_ok(stream, *spread(b"t"), *spread(b"u"))
            first = scan(server, b"t")
            count("what is written", good and first.count(b"\n") == 31 and first.count(b" x\n") == 3, first[:200])
            for table in (b"t", b"u"):
                counts = until(stream, table, MERGED)
                count("one source a tablet of %s by %s" % (table.decode(), compactors), counts == MERGED, counts)
            count("the same is shown", scan(server, b"t") == first)
            good = told_ok(stream, write(b"t", b"00", b"y"))
            counts = until(stream, b"t", MERGED)
            count("and again behind a write by " + compactors, good and counts == MERGED, counts)
            told = scan(server, b"t")
            count("which is shown", told.count(b"\n") == 31 and told.count(b" y\n") == 1 and told.count(b" x\n") == 2, told[:200])


def a_load():
    """20,000 rows, which are compacted meanwhile as they become due, are one source a tablet at last."""
    with Server() as server, joined(server) as stream:
        good = told_ok(stream, make(b"t"), split(b"t", b"10000"))
        for first in range(0, 20_000, 500):
            good = good and told_ok(stream, *(write(b"t", b"%05d" % row) for row in range(first, first + 500)))
        counts = until(stream, b"t", (2, 2, 20_000))
        count("a load is one source a tablet", good and counts == (2, 2, 20_000), counts)


def not_beside_writes():
    with Server() as server, joined(server) as stream:
        good = told_ok(stream, make(b"other"), *spread(b"t"))
        last, most, end = time.monotonic(), 0, time.monotonic() + 3 * QUIET
        while last < end:
            good = good and told_ok(stream, write(b"other", b"r"))
            most, last = max(most, time.monotonic() - last), time.monotonic()
            time.sleep(QUIET / 10)
        counts = status(stream, b"t")
        # a machine that stood still for so long has made a pause of its own
        count("nothing is compacted beside writes", good and (counts == SPREAD or most > QUIET / 2), (counts, most))
        counts = until(stream, b"t", MERGED)
        count("but behind them", counts == MERGED, counts)


def not_without_compactors():
    with Server("--compactors", "0") as server, joined(server) as stream:
        good = told_ok(stream, *spread(b"t"))
        time.sleep(3 * QUIET)
        counts = status(stream, b"t")
        count("nothing is compacted without compactors", good and counts == SPREAD, counts)


def figures(path):
    with open(path) as file:
        return {name: int(number) for name, number in (line.split() for line in file if line[0] != "#")}


def nothing_is_asked():
    """A server that holds one source a tablet asks nothing of itself, however long it runs."""
    lines = b"createtable t\n" + b"".join(b"insert t %02d f q \\e v\n" % row for row in range(30)) + b"addsplit t 09\nsave start.image\n"
    count("an image", run("script", stdin=lines).stdout.endswith(b"ok\n"))
    with Server("--image", "start.image", "--metrics", "one.prom", "--accept", "1") as server:
        time.sleep(4 * QUIET)
        server.connect().close()
        count("it ends", server.ends() == 0)
    told = figures("one.prom")
    names = ("tabd_tablets", "tabd_sources", "tabd_events_total", "tabd_compactions_total")
    count("of one source a tablet nothing is asked", [told[name] for name in names] == [2, 2, 0, 0], told)


def nothing_more_is_asked():
    """One that has compacted rests then, and its history holds nothing of what was merged."""
    with Server("--metrics", "two.prom") as server:
        with joined(server) as stream:
            good = told_ok(stream, *spread(b"t"))
        seen, end = [], time.monotonic() + PATIENCE
        # a report comes each ten seconds
        while len(seen) < 2 and time.monotonic() < end:
            time.sleep(0.2)
            told = figures("two.prom") if os.path.exists("two.prom") else {"tabd_history_entries": 1}
            if told["tabd_history_entries"] == 0 < told["tabd_compactions_total"] and (not seen or told["tabd_uptime_seconds"] > seen[0]["tabd_uptime_seconds"]):
                seen.append(told)
    count("each tablet is merged once", good and len(seen) == 2 and [told["tabd_compactions_total"] for told in seen] == [3, 3], seen)
    count("so that each is one source", len(seen) == 2 and seen[1]["tabd_sources"] == 3, seen)
    count("and nothing more is asked", len(seen) == 2 and seen[0]["tabd_events_total"] == seen[1]["tabd_events_total"], seen)


def from_a_store():
    """What a store's journal is made of again is compacted too, though nobody writes."""
    with Server("--store", "folder", "--compactors", "0") as server, joined(server) as stream:
        good = told_ok(stream, *spread(b"t"))
        first = scan(server, b"t")
    with Server("--store", "folder") as server, joined(server) as stream:
        counts = until(stream, b"t", MERGED)
        count("one source a tablet behind a start", good and counts == MERGED, counts)
        count("which show the same", scan(server, b"t") == first)
    with Server("--store", "folder", "--compactors", "0") as server:
        count("and at the next start", scan(server, b"t") == first)


run_parts(becomes_one, a_load, not_beside_writes, not_without_compactors, nothing_is_asked, nothing_more_is_asked, from_a_store)
