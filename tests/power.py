"""Power cuts, of `tabd serve --store` and `tabd script --store`.

A program runs over a folder, and all calls that change the folder, all syncs and all answers are logged (tests/power.c). Behind each call the
power may be cut. Then a file has what its last sync covered; of each later write any blocks of 512 bytes may be there, with what was
there before, or zeros, in the place of the others, and the file may have its full length or end behind the last block that is there. Of
the names that were given, changed or taken away since the folder's last sync any may be so, but that those of one name keep their order. So there
are many folders that the disk may hold: all of them, where they differ in at most so many places as `WHOLE` says, and else as many as fit,
picked by a fixed seed.

The program takes up each of these folders: with status 0, always. All rows are there that were answered before the cut, or, under `--sync interval`,
before the last sync of a journal; what is there is a beginning of what was asked, each write whole; and the next start finds the same, and has
nothing to cut off. Where the power is cut while a folder is taken up, any 8 bytes of a write may be there or not, so that a header is torn too.
Usage: power.py PROGRAM [MOST]   (of how many folders each moment has at most, 40 by default)"""

import concurrent.futures
import itertools
import os
import random
import re
import shutil
import subprocess
import sys
import tempfile
import time

from serving import HELLO, OK, MAKE, PATIENCE, PROGRAM, Server, count, field, frame, read_frame, run_parts

HERE = os.path.dirname(os.path.abspath(__file__))
MOST = int(sys.argv[2]) if len(sys.argv) > 2 else 40
STORE = "store"
BLOCK = 512
PIECE = 8
MAKE_LINE = "createtable t\n"


# ---- What the disk may hold.
class File:
    """What a file has on the disk, and what was done to it since."""

    def __init__(self, block):
        self.block = block
        self.kept = b""
        self.since = []

    def now(self):
        """What it has if all of that is there."""
        return self.held([True] * len(self.since))

    def sync(self):
        self.kept, self.since = self.now(), []

    def held(self, there, full=0):
        """What it has if these are there; it may have its full length all the same."""
        has = bytearray(self.kept)
        for (place, piece), is_there in zip(self.since, there):
            if not is_there:
                continue
            if piece is None:
                del has[place:]
                has.extend(bytes(place - len(has)))
            else:
                has.extend(bytes(max(0, place - len(has))))
                has[place:place + len(piece)] = piece
        return bytes(has) + bytes(max(0, full - len(has)))

    def write(self, place, text):
        """Notes a write, block by block."""
        while text:
            end = (place // self.block + 1) * self.block - place
            self.since.append((place, text[:end]))
            place, text = place + len(text[:end]), text[end:]


class Disk:
    """A disk, with the folder as it was left, and as it may be."""

    def __init__(self, names=None, block=BLOCK):
        self.block = block
        self.kept = {}
        for name, text in (names or {}).items():
            self.kept[name] = File(block)
            self.kept[name].kept = text
        self.made = names is not None  # whether the folder outlives a cut
        self.since = []  # what was done to its names: the name, the name that it gives, and the file
        self.inodes = {}

    def names(self, there=None):
        """The files by their names, if these changes are there: none behind one of the same name that isn't."""
        names, lost = dict(self.kept), set()
        for (name, to, file), is_there in itertools.zip_longest(self.since, there or [], fillvalue=True):
            if not is_there or name in lost or to in lost:
                lost |= {name, to} - {None}
            elif to:
                names[to] = names.pop(name)
            elif file:
                names[name] = file
            else:
                names.pop(name, None)
        return names

    def line(self, words):
        """What a line of the log does."""
        kind, first, *rest = words
        if kind == "O":
            if rest[0] == "1":
                self.inodes[first] = File(self.block)
                self.since.append((rest[1], None, self.inodes[first]))
            else:
                self.inodes[first] = self.names()[rest[1]]
                if rest[0] == "2":
                    self.inodes[first].since.append((0, None))
        elif kind == "W":
            self.inodes[first].write(int(rest[0]), bytes.fromhex(rest[1]))
        elif kind == "T":
            self.inodes[first].since.append((int(rest[0]), None))
        elif kind == "S":
            self.inodes[first].sync()
        elif kind == "D" and first == STORE:
            self.kept, self.since = self.names(), []
        elif kind == "D":
            self.made = True
        elif kind in "UR":
            self.since.append((first, rest[0] if rest else None, None))

    def holds(self, most):
        """What the folder may hold if the power is cut now: the bytes by the files' names, or nothing where there is no folder."""
        if not self.made:
            yield None
        files = list({id(file): file for file in (*self.kept.values(), *self.names().values(), *(file for _, _, file in self.since if file))}.values())
        files = [file for file in files if file.since]
        # a bit for each change of a name, each block, and each file's length
        widths = [len(self.since)] + [len(file.since) + 1 for file in files]
        for bits in chosen(sum(widths), most):
            bits, text = iter(bits), {}
            there = list(itertools.islice(bits, len(self.since)))
            for file in files:
                *blocks, is_full = itertools.islice(bits, len(file.since) + 1)
                text[id(file)] = file.held(blocks, len(file.now()) if is_full else 0)
            yield {name: text.get(id(file), file.kept) for name, file in self.names(there).items()}


def chosen(width, most):
    """All ways to have so many things or not, or this many: all and none, each alone, all but one, and others by chance."""
    if 1 << width <= most:
        yield from itertools.product((True, False), repeat=width)
        return
    chance = random.Random(width)
    some = [[True] * width, [False] * width]
    some += [[(place == at) == one for place in range(width)] for one in (False, True) for at in range(width)]
    yield from some[:most]
    for _ in range(most - len(some)):
        share = chance.choice((0.2, 0.5, 0.8))
        yield [chance.random() < share for _ in range(width)]


# ---- What was asked, and answered.
class Asked:
    """Rows in rounds: those of a round are asked at once, by one client or several, each once the last round is answered."""

    def __init__(self):
        self.rounds = []
        self.numbers = {}

    def round(self, **counts):
        """So many new rows of each client."""
        rows = {}
        for client, many in counts.items():
            first = self.numbers.get(client, 0)
            rows[client] = ["%s%04d" % (client, number) for number in range(first, first + many)]
            self.numbers[client] = first + many
        self.rounds.append(rows)
        return rows

    def fits(self, found, answered):
        """Whether these rows are a beginning of what was asked, with so many of each client at least."""
        over = False
        for rows in self.rounds:
            for client, mine in rows.items():
                got = [row for row in mine if row in found]
                if got != mine[:len(got)] or over and got:
                    return False
            over = over or any(row not in found for mine in rows.values() for row in mine)
        known = {row for rows in self.rounds for mine in rows.values() for row in mine}
        return set(found) <= known and all(sum(row[0] == client for row in found) >= many for client, many in answered.items())


def value_of(row):
    return (row + "-") * 12


def write(row):
    """The frame of a write of two cells."""
    cells = b"".join(b"\x01" + field(b"f") + field(name) + field(b"") + b"\x00" + field(value_of(row).encode()) for name in (b"a", b"b"))
    return frame(b"\x0a" + field(b"t") + field(row.encode()) + b"\x00\x00\x00\x02" + cells)


def line(row):
    return "mutate t %s put f a \\e %s - ; put f b \\e %s -\n" % (row, value_of(row), value_of(row))


def rows_of(out):
    """The rows that a scan shows, or none where one isn't whole."""
    cells = [line.split(" ") for line in out.splitlines() if line.count(" ") == 5]
    rows = [cell[0] for cell in cells[::2]]
    whole = [(row, name, value_of(row)) for row in rows for name in "ab"]
    return rows if [(cell[0], cell[2], cell[5]) for cell in cells] == whole else None


# ---- Runs that are logged.
class Log:
    """A folder, and the log of the runs over it."""

    def __init__(self, name, asked, names=None, due=None, block=BLOCK):
        self.path, self.asked, self.disk, self.due = os.path.abspath(name + ".log"), asked, Disk(names, block), due or {}
        self.clients = []  # of each run the clients in the order in which they came, and what each asked
        self.modes = []
        shutil.rmtree(STORE, ignore_errors=True)
        if names is not None:
            make(STORE, names)

    def environment(self):
        return {"LOG": self.path, "FOLDER": STORE, "LD_PRELOAD": os.path.abspath("power.so")}

    def mark(self, mode):
        with open(self.path, "a", encoding="ascii") as file:
            file.write("P %s\n" % mode)
        self.modes.append(mode)

    def quiet(self, least=0.12):
        """Waits until nothing more is done for a while."""
        ends, size = time.monotonic() + PATIENCE, -1
        while size != os.path.getsize(self.path) and time.monotonic() < ends:
            size = os.path.getsize(self.path)
            time.sleep(least)

    def script(self, *rounds, ends=False, lines=()):
        """A script that asks for these rounds, and comes to its end or is killed. What other lines there are go first."""
        self.mark("script")
        running = subprocess.Popen([PROGRAM, "script", "--store", STORE], stdin=subprocess.PIPE, stdout=subprocess.PIPE, stderr=subprocess.PIPE, text=True, env={**os.environ, **self.environment()})
        asked = []
        for texts in [[each] for each in lines] + [list(map(line, rows["a"])) for rows in rounds]:
            running.stdin.write("".join(texts))
            running.stdin.flush()
            good = [running.stdout.readline() for _ in texts] == ["ok\n"] * len(texts)
            asked += [("a", text.startswith("mutate")) for text in texts]
            count("a script's lines are done", good)
        self.clients.append(asked)
        if ends:
            running.communicate()
        else:
            self.quiet()
            running.kill()
            running.communicate()

    def server(self, *rounds, mode="always", before=(), checkpoint="3000", waits=None):
        """A server that is asked for these rounds, and killed. It makes an image once the journal has so many bytes; behind the round of that number it is waited for."""
        self.mark(mode)
        clients = []
        with Server("--store", STORE, "--workers", "4", "--sync", mode, "--checkpoint", checkpoint, **self.environment()) as server:
            streams = {}
            for client in "abc":
                streams[client] = server.connect()
                streams[client].sendall(HELLO)
                count("a client is greeted", read_frame(streams[client]) == OK)
                clients.append((client, []))
            first = newest()
            for body in before:
                streams["a"].sendall(body)
                clients[0][1].append(False)
                count("a request is done", read_frame(streams["a"]) == OK)
            for number, rows in enumerate(rounds):
                for client, mine in rows.items():
                    streams[client].sendall(b"".join(map(write, mine)))
                    dict(clients)[client].extend([True] * len(mine))
                good = all(read_frame(streams[client]) == OK for client, mine in rows.items() for _ in mine)
                count("a round is answered", good)
                if number == waits:
                    ends = time.monotonic() + PATIENCE
                    while newest() == first and time.monotonic() < ends:
                        time.sleep(0.005)
                    count("an image is made", newest() > first)
            self.quiet()
            server.process.kill()
        self.clients.append(clients)

    def cuts(self, most):
        """What the disk may hold behind each call, with how many rows of each client were answered then, so that they are to be there."""
        with open(self.path, encoding="ascii") as file:
            lines = [line.split() for line in file]
        answers, due, run = Answers(self), dict(self.due), -1
        for words in [["P", "nothing"]] + lines:
            if words[0] == "P":
                run += words[1] != "nothing"
                answers.begin(run)
            elif words[0] == "A":
                answers.add(words[1], bytes.fromhex(words[2]))
            else:
                self.disk.line(words)
            if answers.mode != "interval" or words[0] == "S" and any(name.startswith(STORE + "/journal.") and file is self.disk.inodes[words[1]] for name, file in self.disk.names().items()):
                due = dict(answers.rows)
            for names in self.disk.holds(most):
                yield names, dict(due)
        count("the log tells all that is there", {name: file.now() for name, file in self.disk.names().items()} == found_in(STORE))


class Answers:
    """How many rows of each client were answered, by what went to them."""

    def __init__(self, log):
        self.log, self.rows, self.mode = log, dict(log.due), None

    def begin(self, run):
        self.mode = self.log.modes[run] if run >= 0 else None
        self.clients = self.log.clients[run] if run >= 0 else []
        self.streams, self.told = {}, {}

    def add(self, stream, text):
        if self.mode == "script":
            for _, is_row in self.clients[self.told.get(stream, 0):self.told.get(stream, 0) + text.count(b"\n")]:
                self.rows["a"] = self.rows.get("a", 0) + is_row
            self.told[stream] = self.told.get(stream, 0) + text.count(b"\n")
        elif stream != "1":
            client, kinds = self.clients[self.streams.setdefault(stream, len(self.streams))]
            for _ in range(text.count(OK)):  # the first one is of its Hello
                place = self.told.get(stream, 0)
                self.told[stream] = place + 1
                if place > 0:
                    self.rows[client] = self.rows.get(client, 0) + kinds[place - 1]


def newest():
    """The greatest number of an image."""
    return max([int(name.split(".")[1]) for name in os.listdir(STORE) if re.fullmatch("image[.][0-9]+", name)], default=-1)


def found_in(path):
    names = {}
    for name in os.listdir(path):
        with open("%s/%s" % (path, name), "rb") as file:
            names["%s/%s" % (path, name)] = file.read()
    return names


def make(path, names):
    """The folder of this path with these files, which have names under STORE."""
    os.mkdir(path, 0o700)
    for name, text in names.items():
        with open(path + name[len(STORE):], "wb") as file:
            file.write(text)


# ---- Each of these folders is taken up.
class Taken:
    """What came of a folder."""

    def __init__(self, rows, status, told):
        self.rows, self.status, self.told = rows, status, told


def by_script(path):
    done = subprocess.run([PROGRAM, "script", "--store", path], input="scan t \\0\n", capture_output=True, text=True, timeout=60,
                          env={**os.environ, "LD_PRELOAD": os.path.abspath("power.so")})
    return Taken(rows_of(done.stdout), done.returncode, done.stderr)


def by_server(path):
    with Server("--store", path, LD_PRELOAD=os.path.abspath("power.so")) as server:
        if not server.said:
            return Taken(None, server.ends(), server.process.stderr.read().decode())
        shown = server.shell(b"scan t \\0\n")
        server.process.kill()
        return Taken(rows_of(shown.stdout.decode()), 0, server.process.stderr.read().decode())


def wrong_with(names, asked, due, first):
    """What is wrong with what is found in such a folder, and what a start says there."""
    with tempfile.TemporaryDirectory(dir=".") as work:
        path = work + "/" + STORE
        if names is not None:
            make(path, names)
        one = first(path)
        two = by_script(path)
    if one.status != 0 or one.rows is None:
        return "the first start: %s %s" % (one.status, one.told), one
    if not asked.fits(one.rows, due):
        return "found %s, due %s" % (one.rows, due), one
    # a server that is killed at once has made no image yet, so that the next start passes the same load over
    told = two.told.replace("a load was cut off", "") if first is by_server else two.told
    if two.status != 0 or two.rows != one.rows or "cut off" in told or "fault" in told:
        return "the second start: %s %s %s" % (two.status, two.rows, two.told), one
    return "", one


def judge(name, log):
    """All that the disk may hold behind each call of this log. Gives those folders of which a start cuts something off, with what is to be there."""
    asked, folders = log.asked, {}
    for names, due in log.cuts(MOST):
        most_due = folders.setdefault(None if names is None else tuple(sorted(names.items())), {})
        for client, many in due.items():
            most_due[client] = max(many, most_due.get(client, 0))
    cases = [(None if key is None else dict(key), due) for key, due in folders.items()]

    def one(case):
        place, (names, due) = case
        return names, due, wrong_with(names, asked, due, by_server if place % 64 == 63 else by_script)

    with concurrent.futures.ThreadPoolExecutor(os.cpu_count()) as pool:
        came = list(pool.map(one, enumerate(cases)))
    wrong = [(sorted(names or {}), why) for names, _, (why, _) in came if why]
    count("%s: what was answered is there, in each of %d folders" % (name, len(cases)), not wrong and cases, (len(wrong), wrong[:1]))
    print("%s: %d folders" % (name, len(cases)), flush=True)
    return [(names, due, start.told) for names, due, (_, start) in came if "cut off" in start.told]


# ---- The runs.
def scripts():
    asked = Asked()
    log = Log("scripts", asked)
    log.script(asked.round(a=1), asked.round(a=4), asked.round(a=9), lines=[MAKE_LINE])
    log.script(asked.round(a=3), asked.round(a=1), ends=True)
    log.script(asked.round(a=2), lines=["save saved\n", "load saved\n"])
    log.script(asked.round(a=1))
    starts("scripts", log)


def servers():
    asked = Asked()
    log = Log("servers", asked)
    log.server(asked.round(a=1), asked.round(a=4), asked.round(a=20), asked.round(a=3, b=3, c=3), asked.round(b=1), before=[MAKE], waits=2)
    log.server(asked.round(c=2), asked.round(a=2, c=2), checkpoint="100000")
    log.script(asked.round(a=2))
    log.server(asked.round(b=3))
    starts("servers", log)


def intervals():
    asked = Asked()
    log = Log("intervals", asked)
    log.server(asked.round(a=1), asked.round(a=12), asked.round(a=3, b=3), asked.round(a=2, c=9), asked.round(b=1), mode="interval", before=[MAKE], waits=1)
    log.server(asked.round(c=2), asked.round(a=2, b=2), asked.round(a=6), mode="interval", checkpoint="100000")
    starts("intervals", log)


def starts(name, log):
    """The runs of this log, and then starts over some of the folders that they may leave: the power is cut again in these."""
    torn = judge(name, log)
    nothing = [(names, due) for names, due, told in torn if "replayed" not in told]
    something = [(names, due) for names, due, told in torn if "replayed" in told]
    count("%s: ends are cut off" % name, something and (nothing or name == "intervals"), len(torn))
    for place, (names, due) in enumerate(nothing[:2] + something[:1] + something[-2:]):
        again = Log("%s-%d" % (name, place), log.asked, names, due, PIECE)
        again.script(ends=place % 2 == 1)
        judge("%s, started over %d" % (name, place), again)


def build():
    subprocess.run([os.environ.get("CC", "cc"), "-shared", "-fPIC", "-O1", "-o", "power.so", "%s/power.c" % HERE, "-ldl"], check=True)


if __name__ == "__main__":
    run_parts(build, scripts, servers, intervals)
