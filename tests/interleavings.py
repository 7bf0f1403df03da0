"""Scripts in which writes, scans, sessions, splits, drops, settings of tables, rotations, whole compactions and compactions in parts (begin,
merge, install) fall in any order, beside a model that is written down here from the definitions alone: every line that is printed is foreseen,
those of `status`, `splits`, `begin` and `install` among them. The model keeps lists and filters them, and merges nothing but what a
compaction is said to keep.
Usage: interleavings.py PROGRAM [STEPS]   (one script of so many lines, and many short ones; 10,000 by default)"""
import bisect
import itertools
import os
import random
import subprocess
import sys

LEAST = -(2**63)
PUT, MARKER = 1, 0
LABELS = ["\\e", "\\e", "A", "B"]


class Record:
    """An accepted update."""

    def __init__(self, row, column, time, kind, value, seq):
        self.row, self.column, self.time, self.kind, self.value, self.seq = row, column, time, kind, value, seq
        self.place = (row, *column, -time, kind, -seq)
        self.parts = (row, *column)


def kept(records, versions):
    """The puts that no marker hides, the newest of each column, in their order."""
    shown = []
    for _, column in itertools.groupby(sorted(records, key=lambda r: r.place), key=lambda r: (r.row, r.column)):
        column = list(column)
        hidden = max((r.time for r in column if r.kind == MARKER), default=None)
        puts = [r for r in column if r.kind == PUT and (hidden is None or r.time > hidden)]
        shown += puts[:versions]
    return shown


def merged(records, is_full, floor, versions):
    """What a merge keeps: what is shown, and the first marker of each column; a full one only where that isn't below the floor."""
    first = {}
    for r in sorted(records, key=lambda r: r.place):
        if r.kind == MARKER:
            first.setdefault((r.row, r.column), r)
    markers = [r for r in first.values() if not (is_full and r.time < floor)]
    return sorted(kept(records, versions) + markers, key=lambda r: r.place)


def size_of(records):
    """What they take in a sorted table: each 57 bytes, its value, and what the four parts don't share with the record before in its block."""
    size = 0
    for k, r in enumerate(records):
        before = records[k - 1].parts if k % 64 else ("",) * 4
        shared = sum(len(os.path.commonprefix(pair)) for pair in zip(before, r.parts))
        size += 57 + sum(map(len, r.parts)) - shared + len(r.value)
    return size


class Sorted:
    """A tablet's part of a sorted table, with the size of the whole."""

    def __init__(self, records, size):
        self.records, self.size = records, size


class Merge:
    """A compaction that began: what it reads."""

    def __init__(self, tablet, kind, runs, tables, floor, versions):
        self.tablet, self.kind, self.runs, self.tables, self.floor, self.versions = tablet, kind, runs, tables, floor, versions

    def output(self):
        records = [r for run in self.runs for r in run] + [r for table in self.tables for r in table.records]
        made = merged(records, self.kind == "full", self.floor, self.versions)
        return Sorted(made, size_of(made))

    def is_like(self, other):
        """Whether both read sources of equal contents in one order, with one floor and number of versions."""
        return (
            other is not None
            and (self.floor, self.versions) == (other.floor, other.versions)
            and self.runs == other.runs
            and [t.records for t in self.tables] == [t.records for t in other.tables]
        )


class Tablet:
    """What was written since it was frozen, its sources, and the merges that are under way, one of each kind."""

    def __init__(self, number, end, runs=(), tables=()):
        self.number, self.end, self.active, self.runs, self.tables, self.under_way = number, end, [], list(runs), list(tables), {}

    def held(self):
        return self.active + [r for run in self.runs for r in run] + [r for table in self.tables for r in table.records]

    def freeze(self):
        if self.active:
            self.runs.append(sorted(self.active, key=lambda r: r.place))
            self.active = []

    def captured(self, kind, floor, versions):
        """The merge that a compaction of this kind begins, if there is anything to merge."""
        runs, tables = self.runs, self.tables
        if kind == "minor":
            tables = []
        if kind == "partial":
            runs, tables = [], sorted(self.tables, key=lambda t: t.size)
            fitting = [k for k in range(2, len(tables) + 1) if 3 * tables[k - 1].size <= sum(t.size for t in tables[:k])]
            tables = tables[: fitting[-1]] if fitting else []
        return Merge(self.number, kind, list(runs), list(tables), floor, versions) if runs or tables else None

    def left_by(self, merge):
        """The sources beside its inputs, if each of these has one of equal contents of its own."""
        runs, tables = list(self.runs), list(self.tables)
        for run in merge.runs:
            if run not in runs:
                return None
            runs.remove(run)
        for table in merge.tables:
            alike = [t for t in tables if t.records == table.records]
            if not alike:
                return None
            tables.remove(next((t for t in alike if t.size == table.size), alike[0]))
        return runs, tables

    def replace(self, merge):
        left = self.left_by(merge)
        self.runs, self.tables = left[0], left[1] + [merge.output()]
        self.under_way.pop(merge.kind, None)

    def compact(self, kind, floor, versions):
        self.freeze()
        merge = self.captured(kind, floor, versions)
        if merge:
            self.replace(merge)

    def install(self, merge):
        """None where it is done, or how many sources a stale one finds."""
        if merge.is_like(self.under_way.get(merge.kind)) and self.left_by(merge):
            self.replace(merge)
            return None
        self.under_way.pop(merge.kind, None)
        return len(self.runs) + len(self.tables)

    def cut(self, number, end, is_inside):
        runs = [[r for r in run if is_inside(r.row)] for run in self.runs]
        tables = [Sorted([r for r in t.records if is_inside(r.row)], t.size) for t in self.tables]
        return Tablet(number, end, runs, tables)


class Table:
    """Its settings, all updates of its life, and its tablets by end row."""

    def __init__(self, is_server, versions, number):
        self.is_server, self.versions, self.horizon, self.updates, self.tablets = is_server, versions, LEAST, [], [Tablet(number, None)]

    def place(self, row):
        return bisect.bisect_left([t.end for t in self.tablets[:-1]], row)


class Store:
    """What lines are answered."""

    def __init__(self):
        self.tables, self.moment, self.clock, self.seq, self.numbered = {}, 0, 0, 0, 0
        self.sessions, self.jobs = [], []

    def ask(self, line):
        word, *words = line.split(" ")
        return getattr(self, word)(*words)

    def event(self):
        self.clock = max(self.clock, self.moment)

    def number(self):
        self.numbered += 1
        return self.numbered - 1

    def floor(self, table):
        return self.clock if table.is_server else table.horizon

    def setauths(self, user, auths):
        self.event()
        return ["ok"]

    def rotate(self):
        self.event()
        return ["ok"]

    def at(self, moment):
        self.moment = int(moment)
        return []

    def createtable(self, name, time, versions):
        self.event()
        if name in self.tables:
            return [f"refused 10 TableExists {name}"]
        self.tables[name] = Table(time == "time=server", int(versions.split("=")[1]), self.number())
        return ["ok"]

    def found(self, name):
        self.event()
        return self.tables.get(name)

    def droptable(self, name):
        if not self.found(name):
            return [f"refused 2 NoTable {name}"]
        del self.tables[name]
        return ["ok"]

    def versions(self, name, count):
        table, count = self.found(name), int(count)
        if not table:
            return [f"refused 2 NoTable {name}"]
        if count > table.versions:
            return [f"refused 21 VersionsRaised {table.versions}"]
        table.versions = count
        return ["ok"]

    def horizon(self, name, time):
        table, time = self.found(name), int(time)
        if not table:
            return [f"refused 2 NoTable {name}"]
        if table.is_server:
            return ["refused 22 ServerTime"]
        if time < table.horizon:
            return [f"refused 22 HorizonLowered {table.horizon}"]
        table.horizon = time
        return ["ok"]

    def write(self, name, row, column, kind, value, time):
        table = self.found(name)
        if not table:
            return [f"refused 2 NoTable {name}"]
        if time and table.is_server:
            return ["refused 7 TimestampNotAllowed 0"]
        at = int(time[0]) if time else self.clock
        if at < table.horizon:
            return ["refused 22 BelowHorizon 0"]
        record = Record(row, column, at, kind, value, self.seq)
        self.seq += 1
        table.updates.append(record)
        table.tablets[table.place(row)].active.append(record)
        return ["ok"]

    def insert(self, name, row, family, qualifier, label, value, *time):
        return self.write(name, row, (family, qualifier, "" if label == "\\e" else label), PUT, value, time)

    def delete(self, name, row, family, qualifier, label, *time):
        return self.write(name, row, (family, qualifier, "" if label == "\\e" else label), MARKER, "", time)

    def shown(self, name, auths):
        """The cells of a scan, which freezes all tablets."""
        table = self.found(name)
        if not table:
            return None
        for tablet in table.tablets:
            tablet.freeze()
        held = {"", *(auths.split(",") if auths != "\\0" else ())}
        cells = [r for r in kept(table.updates, table.versions) if r.column[2] in held]
        return ["%s %s %s %s %d %s" % (r.row, r.column[0], r.column[1], r.column[2] or "\\e", r.time, r.value) for r in cells]

    def scan(self, name, auths):
        cells = self.shown(name, auths)
        return [f"refused 2 NoTable {name}"] if cells is None else cells + ["end"]

    def open(self, name, auths):
        cells = self.shown(name, auths)
        if cells is None:
            return [f"refused 2 NoTable {name}"]
        self.sessions.append(cells)
        return [f"session {len(self.sessions) - 1}"]

    def next(self, slot, count):
        slot, count = int(slot), int(count)
        if slot >= len(self.sessions) or self.sessions[slot] is None:
            return [f"refused 15 NoSession {slot}"]
        batch, self.sessions[slot] = self.sessions[slot][:count], self.sessions[slot][count:]
        return batch + ["more" if len(batch) == count else "end"]

    def close(self, slot):
        slot = int(slot)
        if slot >= len(self.sessions) or self.sessions[slot] is None:
            return [f"refused 15 NoSession {slot}"]
        self.sessions[slot] = None
        return ["ok"]

    def compact_all(self, name, kind):
        table = self.found(name)
        if not table:
            return [f"refused 2 NoTable {name}"]
        for tablet in table.tablets:
            tablet.compact(kind, self.floor(table), table.versions)
        return ["ok"]

    def flush(self, name):
        return self.compact_all(name, "minor")

    def compact(self, name, extent):
        return self.compact_all(name, extent)

    def status(self, name):
        table = self.found(name)
        if not table:
            return [f"refused 2 NoTable {name}"]
        sources = sum(len(t.runs) + len(t.tables) for t in table.tablets)
        return [f"tablets {len(table.tablets)} sources {sources} records {sum(len(t.held()) for t in table.tablets)}"]

    def splits(self, name):
        table = self.found(name)
        return [f"refused 2 NoTable {name}"] if not table else [t.end for t in table.tablets[:-1]] + ["end"]

    def divide(self, table, row):
        at = table.place(row)
        parent = table.tablets[at]
        parent.freeze()
        lower = parent.cut(self.number(), row, lambda r: r <= row)
        upper = parent.cut(self.number(), parent.end, lambda r: r > row)
        table.tablets[at : at + 1] = [lower, upper]
        return ["ok"]

    def addsplit(self, name, row):
        table = self.found(name)
        if not table:
            return [f"refused 2 NoTable {name}"]
        if any(t.end == row for t in table.tablets):
            return ["refused 20 BadSplit present"]
        return self.divide(table, row)

    def splitsize(self, name, row, limit):
        table = self.found(name)
        if not table:
            return [f"refused 2 NoTable {name}"]
        tablet = table.tablets[table.place(row)]
        if sum(t.size for t in tablet.tables) < int(limit):
            return ["refused 20 BadSplit small"]
        rows = [r.row for r in sorted(tablet.held(), key=lambda r: r.place)]
        below = [r for r in rows if r < rows[-1]] if rows else []
        if not below:
            return ["refused 20 BadSplit onerow"]
        middle = rows[len(rows) // 2]
        return self.divide(table, middle if middle < rows[-1] else below[-1])

    def begin(self, name, row, kind):
        table = self.found(name)
        if not table:
            return [f"refused 2 NoTable {name}"]
        tablet = table.tablets[table.place(row)]
        tablet.freeze()
        merge = tablet.captured(kind, self.floor(table), table.versions)
        if not merge:
            return ["nothing"]
        tablet.under_way[kind] = merge
        self.jobs.append([merge, "waiting", name])
        return [f"job {len(self.jobs) - 1}"]

    def merge(self, slot):
        slot = int(slot)
        if slot >= len(self.jobs) or self.jobs[slot][1] != "waiting":
            return [f"refused 15 NoSession {slot}"]
        self.jobs[slot][1] = "merged"
        return ["ok"]

    def install(self, name, slot):
        slot = int(slot)
        if slot >= len(self.jobs) or self.jobs[slot][1] != "merged":
            return [f"refused 15 NoSession {slot}"]
        self.jobs[slot][1] = "used"
        table = self.found(name)
        if not table:
            return [f"refused 2 NoTable {name}"]
        merge = self.jobs[slot][0]
        for tablet in table.tablets:
            if tablet.number == merge.tablet:
                count = tablet.install(merge)
                return ["ok"] if count is None else [f"refused 14 Stale {count}"]
        return ["refused 14 Stale 0"]


def steps(seed, count, store):
    """So many lines that fall on few tables, rows, columns and times; the store has answered those before each."""
    pick = random.Random(seed)
    created = ["createtable t time=any versions=1", "createtable u time=any versions=3", "createtable s time=server versions=1"]
    yield "setauths root A,B"
    yield from created

    def table():
        return pick.choice("ttttuus")

    def row():
        return pick.choice("abcdefghm")

    def write(name):
        words = f"{name} {row()} f {pick.choice('pq')} {pick.choice(LABELS)}"
        time = "" if name == "s" or pick.random() < 0.05 else f" {pick.randrange(-2, 12)}"
        return f"insert {words} v{pick.randrange(100)}{time}" if pick.random() < 0.75 else f"delete {words}{time}"

    kinds = ["minor", "partial", "full"]
    for _ in range(count):
        draw = pick.random()
        slot = max(0, len(store.jobs) - pick.choice([1, 1, 1, 2, 2, 3, 5]))
        session = max(0, len(store.sessions) - pick.choice([1, 1, 2, 4]))
        if draw < 0.342:
            yield write(table())
        elif draw < 0.354:
            # now and then one above all moments, which closes the table for writes
            yield f"horizon {table()} {pick.randrange(-3, 6) if pick.random() < 0.95 else 14}"
        elif draw < 0.36:
            yield f"versions {table()} {pick.choice([1, 2, 2, 3])}"
        elif draw < 0.46:
            yield f"begin {table()} {row()} {pick.choice(kinds)}"
        elif draw < 0.58:
            yield f"merge {slot}"
        elif draw < 0.71:
            begun_in = store.jobs[slot][2] if store.jobs and pick.random() < 0.9 else table()
            yield f"install {begun_in} {slot}"
        elif draw < 0.76:
            yield f"flush {table()}"
        elif draw < 0.79:
            yield f"compact {table()} {pick.choice(['partial', 'full'])}"
        elif draw < 0.81:
            yield f"addsplit {table()} {row()}"
        elif draw < 0.82:
            yield f"splitsize {table()} {row()} {pick.choice([0, 1, 200])}"
        elif draw < 0.86:
            yield f"scan {table()} {pick.choice([chr(92) + '0', 'A', 'A,B'])}"
        elif draw < 0.90:
            yield f"status {table()}"
        elif draw < 0.91:
            yield f"splits {table()}"
        elif draw < 0.913:
            yield "rotate"
        elif draw < 0.94:
            yield f"at {pick.randrange(0, 14)}"
        elif draw < 0.96:
            yield f"open {table()} {pick.choice([chr(92) + '0', 'A,B'])}"
        elif draw < 0.985:
            yield f"next {session} {pick.randrange(5)}"
        elif draw < 0.995:
            yield f"close {session}"
        else:
            name = table()
            yield f"droptable {name}"
            yield next(line for line in created if line.split(" ")[1] == name)


def differs(program, seed, count):
    """The first line that is answered otherwise than foreseen, if any."""
    store = Store()
    foreseen = [(line, store.ask(line)) for line in steps(seed, count, store)]
    script = "".join(line + "\n" for line, _ in foreseen)
    ran = subprocess.run([program, "script"], input=script, stdout=subprocess.PIPE, stderr=subprocess.STDOUT, text=True, timeout=300)
    told, at = ran.stdout.split("\n"), 0
    for number, (line, wanted) in enumerate(foreseen, 1):
        if told[at : at + len(wanted)] != wanted:
            return f"line {number}, {line}: told {told[at:at + len(wanted)]}, foreseen {wanted}"
        at += len(wanted)
    return None if told[at:] == [""] else f"{told[at:]} behind the last line"


def main():
    program, count = sys.argv[1], int(sys.argv[2]) if len(sys.argv) > 2 else 10_000
    passed = failed = 0
    for seed, length in [(0, count)] + [(seed, 150) for seed in range(1, 60)]:
        fault = differs(program, seed, length)
        if fault is None:
            passed += 1
        else:
            failed += 1
            print(f"FAILED: script {seed} of {length} lines: {fault}")
    print(f"{passed} passed, {failed} failed")
    return failed != 0


if __name__ == "__main__":
    sys.exit(main())
