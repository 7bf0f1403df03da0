"""Each request for memory refused in turn: of each case the first, the second and so on, until one more doesn't come; alone, and with all
behind it. The event is answered 17 or as it always is, and as always where none was refused; what is asked afterwards is as before where
it was answered 17, and as after the whole event where it wasn't. Lines go to a script, frames to a server.

Usage: denials.py PROGRAM [--anew]   (with --anew each try is made in a process of its own)"""
import itertools
import os
import random
import re
import socket
import sys
import tempfile
import threading
import time
from pathlib import Path

from failing import NO_MEMORY, PATIENCE, Connection, Control, Counted, Script, Server, Silent, library, start

PROGRAM, ANEW = sys.argv[1], "--anew" in sys.argv[2:]
counted = Counted()

# ---- The cases.
MADE = ["createtable t versions=2", "setauths root A,B", "insert t b f q A 1 5", "insert t f f q \\e 2 5", "insert t m f q A&B 3 5", "insert t z f q B 4 5"]
SPLIT = [*MADE, "addsplit t c", "addsplit t k"]  # three tablets, frozen
MORE = ["insert t a f q A 6 6", "delete t g f q A 7", "insert t g f q A 7 7", "insert t y f q A|B 8 8"]
SORTED = [*SPLIT, "flush t", *MORE]  # a sorted table in each tablet, and records beside it
AGAIN = [*SORTED, "flush t", "insert t aa f q A 9 9", "flush t", "insert t zz f q A 9 9"]
OPENED = [*SORTED, "open t A,B"]
USER = [*MADE, "createuser u", "setauths u A,B", "grant u READ t", "grant u CREATE_USER"]
TABLE = ["status t", "splits t", "rights t", "scan t A,B"]
OF_SESSION = ["next {k} 1000", "many {k} \\0 \\0", *TABLE]
OF_USER = ["as u", "rights t", "scan t A,B", "scan t B", "as root", *TABLE]
# the name, what goes before, the line, what is asked afterwards, and whether a script never refuses it for memory
CASES = [
    ("a table", [], "createtable t versions=2", TABLE),
    ("a table that goes", SORTED, "droptable t", TABLE, True),
    ("an insert", MADE, "insert t c f q A&(B|C) 5 9", TABLE),
    ("a delete", MADE, "delete t b f q A 9", TABLE),
    ("a mutation", SORTED, "mutate t k put f q A 2 9 ; put f q2 B 3 9 ; del f q A&B 4", TABLE),
    ("an open", SORTED, "open t A,B", TABLE),
    ("an open of few", AGAIN, "open t A [b (m", TABLE),
    ("a first open", MADE, "open t A,B", TABLE),
    ("a batch", OPENED, "next {k} 3", OF_SESSION),
    ("a whole batch", OPENED, "next {k} 1000", OF_SESSION),
    ("ranges", OPENED, "many {k} [a [c (f [m \\0 \\0", OF_SESSION),
    ("a close", OPENED, "close {k}", OF_SESSION, True),
    ("a flush of three tablets", [*SPLIT, *MORE], "flush t", TABLE),
    ("a flush beside sorted tables", SORTED, "flush t", TABLE),
    ("a partial compaction of three tablets", AGAIN, "compact t partial", TABLE),
    ("a full compaction of three tablets", SORTED, "compact t full", TABLE),
    ("a split", SORTED, "addsplit t g", TABLE),
    ("a first split", MADE, "addsplit t c", TABLE),
    ("a split that is there", SORTED, "addsplit t k", TABLE),
    ("the splits", SORTED, "splits t", TABLE),
    ("a status", SORTED, "status t", TABLE, True),
    ("rights", USER, "rights t", OF_USER),
    ("a user", MADE, "createuser u", OF_USER),
    ("a user that goes", USER, "dropuser u", OF_USER, True),
    ("authorizations", USER, "setauths u B,A,C,a-longer-one-than-the-others", OF_USER),
    ("a right of the system", USER, "grant u ALTER_TABLE", OF_USER),
    ("a right on a table", USER, "grant u WRITE t", OF_USER),
    ("a first right on a table", [*MADE, "createuser u"], "grant u WRITE t", OF_USER),
    ("a right that goes", USER, "revoke u READ t", OF_USER, True),
    ("constraints", SORTED, "constraints t alphanum,numeric", [*TABLE, "insert t r- f q A x 9"]),
    ("versions", SORTED, "versions t 1", TABLE, True),
    ("a horizon", SORTED, "horizon t 6", [*TABLE, "insert t b f q A x 5"], True),
    ("a rotation", [*SORTED, "createuser u", "setauths u A,B", "grant u READ t"], "rotate", OF_USER),
    ("a table that gives the times", [], "createtable t time=server", [*TABLE, "insert t b f q A x 5", "insert t b f q A x"]),
    ("a scan", SORTED, "scan t A,B", TABLE),
    ("an open of columns", SORTED, "open t A,B [b \\0 f:q,g:a-longer-one", TABLE),
    ("a right of the system that goes", USER, "revoke u CREATE_USER", OF_USER, True),
    # what is refused, by what takes memory to find or to tell
    ("a table that is there", SORTED, "createtable t", TABLE),
    ("a user that is there", USER, "createuser u", OF_USER),
    ("authorizations that aren't held", USER, "open t A,C,a-longer-one-than-the-others", OF_USER),
    ("a label that is none", SORTED, "mutate t k put f q A 2 9 ; put f q A&(B|) 3 9", TABLE),
    ("a mutation that breaks constraints", [*SORTED, "constraints t alphanum,numeric,visibility"], "mutate t k- put f! q A&C x 9 ; put f q? B y 9 ; del f q- C 4", TABLE),
    ("a mutation without updates", SORTED, "mutate t k", TABLE),
    ("a mutation below the horizon", [*SORTED, "horizon t 6"], "mutate t k put f q A 2 9 ; put f q2 B 3 5", TABLE),
    ("a range that is none", SORTED, "open t A,B (b (b", TABLE),
    ("ranges one of which is none", OPENED, "many {k} [a [c (f [a", OF_SESSION),
    ("a session that is closed", [*OPENED, "close {k}"], "next {k} 3", TABLE),
]
# what only a script has
JOB = [*AGAIN, "begin t b full"]
LINES = [
    ("a minor beginning", SORTED, "begin t b minor", TABLE),
    ("a partial beginning", AGAIN, "begin t b partial", TABLE),
    ("a full beginning", AGAIN, "begin t b full", TABLE),
    ("a merge", JOB, "merge {j}", [*TABLE, "merge {j}", "install t {j}", *TABLE]),
    ("an installation", [*JOB, "merge {j}"], "install t {j}", TABLE),
    ("a split by size", SORTED, "splitsize t m 1", TABLE),
    ("a save", [*SORTED, "save image", "insert t q f q A 9 9"], "save image", [*TABLE, "load image", *TABLE]),
    ("a load", [*SORTED, "save image", "createtable other", "droptable t"], "load image", [*TABLE, "status other"]),
]
# as many ranges as several threads read, of a server's connections
MANY = ("many ranges", OPENED, "many {k} [a [c (f [m" + 598 * " \\0 \\0", OF_SESSION)
CLEAN = ["as root", "droptable t", "dropuser u", "droptable other"]


def numbered(line, told):
    """The line with the number of the last session or job in its place."""
    for word, place in ((b"session ", "{k}"), (b"job ", "{j}")):
        if place in line:
            line = line.replace(place, next(reply for reply in reversed(told) if reply.startswith(word)).split()[1].decode())
    return line


class Lines:
    """A script, which goes from try to try but with --anew."""

    def __init__(self, folder, preloaded):
        self.folder, self.preloaded, self.script = folder, preloaded, None

    def fresh(self):
        if self.script and ANEW:
            self.close()
        if self.script is None:
            self.script = Script(PROGRAM, self.folder, self.preloaded)
        return self.script

    def close(self):
        self.script.close()
        self.script = None


class Frames:
    """A connection to a server, the same way."""

    def __init__(self, folder, preloaded):
        self.folder, self.preloaded, self.server = folder, preloaded, None

    def fresh(self):
        if self.server and ANEW:
            self.close()
        if self.server is None:
            self.server = Server(PROGRAM, self.folder, self.preloaded, workers=2)
        return Many(self)

    def close(self):
        self.server.close()
        self.server = None


class Many:
    """Asks for whoever `as` names, each over a connection of their own."""

    def __init__(self, frames):
        self.frames, self.control = frames, frames.server.control
        self.links = {}
        self.user = "root"

    def link(self):
        if self.user not in self.links:
            self.links[self.user] = self.frames.server.connect(self.user)
        return self.links[self.user]

    def ask(self, *lines):
        said = []
        for names_user, some in itertools.groupby(lines, lambda line: line.startswith("as ")):
            if names_user:
                some = list(some)
                self.user = some[-1][3:]
                said += [b""] * len(some)
            else:
                said += self.link().ask(*some)
        return said

    def close(self):
        for link in self.links.values():
            link.close()


def once(way, before, event, afterwards, at=0, stays=0):
    """What the event and what is asked afterwards are told, and whether memory was refused."""
    asker = way.fresh()
    asker.ask(*CLEAN)
    told = asker.ask(*(line for line in before if "{" not in line))
    for line in before:
        if "{" in line:
            told += asker.ask(numbered(line, told))
    if event is None:
        return None, asker.ask(*(numbered(line, told) for line in afterwards)), False
    event = numbered(event, told)
    asker.control.deny(at, stays)
    answer = asker.ask(event)[0]
    failed = asker.control.lift() > 0
    told += [answer]
    said = asker.ask(*(numbered(line, told) for line in afterwards))
    if isinstance(asker, Many):
        asker.close()
    return answer, said, failed


def shape(answer):
    """The answer without a number that counts on."""
    return re.sub(rb"^(session|job|refused 15 NoSession|refused \(15,) \d+", rb"\1", answer)


def deny_in_turn(kind, way, name, before, event, afterwards, is_free=False, step=1):
    """How many tries there were, and how many were refused. With a step only each such request is."""
    _, unchanged, _ = once(way, before, None, afterwards)
    right, changed, _ = once(way, before, event, afterwards)
    is_fault = event.split()[0] in ("save", "load")
    refusal = b"fault %s memory\n" % event.split()[0].encode() if is_fault else NO_MEMORY
    refused = tries = 0
    wrong = []
    for stays in (0, 1):
        at, spared = 1 - step, 0
        while spared < 2:
            at += step
            answer, said, failed = once(way, before, event, afterwards, at, stays)
            spared = 0 if failed else spared + 1
            tries += 1
            if answer in (refusal, NO_MEMORY) and failed and not (is_free and kind == "lines"):
                refused += 1
                # a scan's Open has taken effect where a batch behind it is refused
                good = list(map(shape, said)) in [list(map(shape, state)) for state in (unchanged, changed)[: 1 + event.startswith("scan ")]]
            else:
                good = shape(answer) == shape(right) and list(map(shape, said)) == list(map(shape, changed))
            if not good:
                wrong.append((at, stays, failed, answer, said, unchanged if answer == NO_MEMORY else changed))
    counted.tell(f"{name}, {kind}", not wrong and tries > 2, wrong[:1])
    return tries, refused


def cases(folder, preloaded):
    tries = refused = 0
    for kind, way, these in (("lines", Lines(folder, preloaded), CASES + LINES), ("frames", Frames(folder, preloaded), CASES + [MANY])):
        for name, *case in these:
            try:
                some = deny_in_turn(kind, way, name, *case, step=29 if name == MANY[0] else 1)
                tries, refused = tries + some[0], refused + some[1]
            except Silent as why:
                counted.tell(f"{name}, {kind}", False, why)
                way.close()
        if kind == "lines":
            counted.tell("no part of an image is left", not list(Path(folder).glob("*.part")))
        way.close()
    counted.tell("memory was refused", refused > 500, refused)
    print(f"{tries} tries, in {refused} of which an event was refused for memory")


# ---- The clock.
TIMED = ["insert t c f q A 5", "createuser v", "addsplit t e", "open t A,B", "flush t", "compact t full", "begin t b minor", "rotate", "status none", "versions t 3"]


def clocks(folder, preloaded):
    """Behind an event of a later moment the clock is the earlier one where it was told 17, and else its own."""
    script, now = Script(PROGRAM, folder, preloaded), 0
    for event in TIMED:
        wrong, at, spared = [], 0, 0
        while spared < 2:
            at, now = at + 1, now + 100
            script.ask("at %d" % now, *CLEAN, "dropuser v", "droptable clock", *SORTED, "at %d" % (now + 50))
            script.control.deny(at, 0)
            answer = script.ask(event)[0]
            failed = script.control.lift() > 0
            spared = 0 if failed else spared + 1
            cell = script.ask("at 0", "createtable clock time=server", "insert clock r f q \\e v", "scan clock \\0")[-1]
            if cell != b"r f q \\e %d v\nend\n" % (now if failed and answer == NO_MEMORY else now + 50):
                wrong.append((at, answer, cell, now))
        counted.tell(f"the clock behind {event}", not wrong, wrong[:1])
    script.close()


class Reconnecting:
    """A connection, and another one once it has ended."""

    def __init__(self, server):
        self.server, self.link = server, server.connect()

    def ask(self, *lines):
        return self.link.ask(*lines)

    def ask_denied(self, line, seconds):
        """What the line is told, none where the connection ends, memory being refused for so long; and whether it was."""
        self.link.send(line)
        time.sleep(seconds)
        failed = self.server.control.lift() > 0
        try:
            return self.link.reply(line.split(" ", 1)[0]), failed
        except (Silent, ConnectionError):
            self.link.close()
            self.link = self.server.connect()
            return None, failed

    def close(self):
        self.link.close()


# ---- Rotations, of a server that keeps its history in a file.
def rotations(folder, preloaded):
    """Each request for memory of a rotation is refused in turn, from the client's frame to the file. What is asked afterwards is as before;
    what is done is in the file once, unless it is said that its part couldn't be written."""
    log = Path(folder, "log")
    server = Server(PROGRAM, folder, preloaded, "--history", str(log), workers=2)
    os.set_blocking(server.process.stderr.fileno(), False)
    client = Reconnecting(server)
    client.ask(*SORTED, "createuser u", "setauths u A,B", "grant u READ t")
    user = server.connect("u")
    rotate = b"rotate\n# ok\n"

    def asked():
        return client.ask(*TABLE), user.ask("rights t", "scan t A,B", "scan t B")

    def handed_on(since, mark):
        """What the file gets, up to this mark and behind it a rotation that is told of twice: the client's entry, and the recorder's."""
        ends = time.monotonic() + 30
        while time.monotonic() < ends:
            with open(log, "rb") as file:
                file.seek(since)
                more = file.read()
            if re.search(mark + rb"(?s:.*)\n" + rotate + rb"at \d+\nas root\n" + rotate + rb"\Z", more):
                return more
            time.sleep(0.001)
        raise Silent("the history isn't handed on")

    def once_denied(at, stays):
        """Whether memory was refused, and what is wrong."""
        client.ask("droptable zeroth%d%d" % (stays, at), "rotate")
        handed_on(0, b"zeroth%d%d" % (stays, at))
        before, since = asked(), log.stat().st_size
        client.ask("droptable first%d%d" % (stays, at))
        server.control.deny(at, stays)
        answer, failed = client.ask_denied("rotate", 0.03 if stays else 0.015)
        after = asked()
        client.ask("droptable second%d%d" % (stays, at))
        again = client.ask("rotate")[0]
        text, said = handed_on(since, b"second%d%d" % (stays, at)), server.process.stderr.read() or b""
        lost = said.count(b"fault: %s: no memory\n" % bytes(log))
        marks = [text.count(b"droptable %s%d%d\n# refused 2 NoTable" % (word, stays, at)) for word in (b"first", b"second")]
        # whose part couldn't be written isn't answered
        good = answer in (None if lost else b"ok\n", b"ok\n", NO_MEMORY) and (failed or answer == b"ok\n" and not lost) and again == b"ok\n" and before == after
        good = good and said.count(b"\n") == lost and (marks == [1, 1] or lost and marks == [0, 1])
        return failed, answer == NO_MEMORY, lost, [] if good else [(at, stays, failed, answer, again, said, marks, before == after)]

    asked()  # its scan freezes what was written
    tries = refused = lost = 0
    wrong = []
    for stays in (0, 1):
        at, spared = 0, 0
        while spared < 3:
            at, tries = at + 1, tries + 1
            failed, told, gone, why = once_denied(at, stays)
            spared, refused, lost, wrong = 0 if failed else spared + 1, refused + told, lost + gone, wrong + why
    counted.tell(f"rotations of a server, {tries} tries", not wrong and refused > 4, wrong[:1] or refused)
    print(f"{tries} rotations, {refused} of them refused for memory, {lost} whose part couldn't be written")
    client.close()
    user.close()
    server.close()


def kept(folder, preloaded):
    """A server that keeps what it did in a folder, under writes and rotations: the server never ends, each request is answered, late where
    memory was refused for long, and what was answered is found after a kill."""
    store = str(Path(folder, "kept-store"))
    server = Server(PROGRAM, folder, preloaded, "--store", store, workers=2)
    client = Reconnecting(server)
    client.ask("createtable t")
    wrong, done, cut, refused = [], [], 0, 0
    try:
        for stays, asks in itertools.product((0, 1), ("insert t r%d-%d f q \\e v", "rotate")):
            at, spared = 0, 0
            while spared < 3 and not wrong:
                at += 1
                row = "b%d-%d-%s" % (stays, at, asks[:1])
                before = client.ask(f"insert t {row} f q \\e v")[0]
                line = asks % (stays, at) if "%d" in asks else asks
                server.control.deny(at, stays)
                answer, failed = client.ask_denied(line, 0.05)
                time.sleep(0.02)
                spared, refused, cut = 0 if failed else spared + 1, refused + (answer == NO_MEMORY), cut + (answer is None)
                done += [row] + line.split()[2:3] * (answer == b"ok\n")
                if before != b"ok\n" or server.process.poll() is not None:
                    wrong.append((stays, at, line, answer, server.process.poll(), server.process.stderr.read()))
    except (Silent, OSError) as why:
        wrong.append((stays, at, line, why, server.process.poll(), server.process.stderr.read()))
    server.close()
    script = Script(PROGRAM, folder, preloaded, "--store", store)
    found = [line.split()[0].decode() for line in script.ask("scan t \\0")[0].splitlines()[:-1]]
    script.close()
    counted.tell("a server that keeps what it did goes on", not wrong and refused > 4, wrong[:1] or refused)
    counted.tell("each request is answered", cut == 0, cut)
    counted.tell("and what was answered is kept", set(done) <= set(found) and len(done) > 20, sorted(set(done) - set(found)))


# ---- Many at once.
ROWS, UPDATES = 160, 40
PUTS = " ; ".join("put f q%02d \\e v 5" % at for at in range(UPDATES))


def connected(server):
    """A connection whose Hello was taken, though memory is refused now and then."""
    while True:
        client = Connection(server)
        try:
            if client.greet() == b"ok\n":
                return client
        except (Silent, ConnectionError):
            pass
        client.close()


class Writing(threading.Thread):
    """Writes rows of its own, some of them refused, scans, flushes and rotates between; remembers which were done."""

    def __init__(self, server, number):
        super().__init__()
        self.server, self.client, self.number, self.done, self.refused, self.cut, self.wrong = server, server.connect(), number, [], 0, 0, []

    def run(self):
        try:
            for at in range(ROWS):
                row = "%d-%05d" % (self.number, at)
                self.told(self.client.ask(f"mutate t {row} {PUTS}")[0], row)
                if at % 20 == self.number:
                    self.scans()
                if at % 50 == self.number:
                    self.told(self.client.ask("flush t")[0])
                    self.rotates()
        except Silent as why:
            self.wrong.append(why)

    def rotates(self):
        """It isn't answered where some of the history couldn't be written."""
        try:
            self.told(self.client.ask("rotate")[0])
        except (Silent, ConnectionError):
            self.cut += 1
            self.client.close()
            self.client = connected(self.server)

    def told(self, answer, row=None):
        self.refused += answer == NO_MEMORY
        if answer == b"ok\n" and row:
            self.done.append(row.encode())
        elif answer not in (b"ok\n", NO_MEMORY):
            self.wrong.append(answer)

    def scans(self):
        """Its own rows: all that were done, each whole; the first thousand cells."""
        cells = self.client.ask("scan t \\0 [%d- (%d-~" % (self.number, self.number))[0]
        if cells == NO_MEMORY:
            self.refused += 1
        elif cells.splitlines()[:-1] != [b"%s f q%02d \\e 5 v" % (row, at) for row in self.done for at in range(UPDATES)][:1000]:
            self.wrong.append(cells[-100:])


def many_at_once(folder, preloaded):
    """Memory is refused now and then, beside four who write, two compactors and rotations: what was done stands whole, in the table and, unless
    it is said that its part couldn't be written, once in the history; what was refused stands nowhere."""
    log, r = Path(folder, "many"), random.Random(1)
    server = Server(PROGRAM, folder, preloaded, "--history", str(log), workers=6, compactors=2)
    client = server.connect()
    client.ask("createtable t")
    writers = [Writing(server, number) for number in range(4)]
    for writer in writers:
        writer.start()
    failed = 0
    while any(writer.is_alive() for writer in writers):
        stays = r.randrange(4) == 0
        server.control.deny(1 if stays else r.randrange(1, 500), stays)
        time.sleep(0.0005 if stays else 0.002)
        failed += server.control.lift()
    done = sorted(row for writer in writers for row in writer.done)
    refused, wrong = sum(writer.refused for writer in writers), [one for writer in writers for one in writer.wrong]
    opened = int(client.ask("open t \\0")[0].split()[1])
    cells = client.ask(f"next {opened} {4 * ROWS * UPDATES}")[0].split(b"\n")[:-2]
    held = [b"%s f q%02d \\e 5 v" % (row, at) for row in done for at in range(UPDATES)]
    counted.tell("many at once: what was done stands whole, and nothing else", cells == held and not wrong and refused > 20 and failed > 30, wrong[:1] or (refused, failed, len(cells), len(held)))
    client.ask("createuser the-end", "rotate")
    ends = time.monotonic() + 30
    while b"\ncreateuser the-end\n# ok\n" not in log.read_bytes()[-1000:] and time.monotonic() < ends:
        time.sleep(0.01)
    text = log.read_bytes()
    rows = re.findall(rb"^mutate t (\S+) .*\n# ok$", text, re.MULTILINE)
    server.process.kill()
    lost = server.process.communicate()[1]
    good = sorted(rows) == done or lost and len(set(rows)) == len(rows) and set(rows) <= set(done)
    good = good and (lost or not any(writer.cut for writer in writers))
    counted.tell("many at once: and is in the history once", good and (lost or text.count(b"# begin t") > 0), (len(rows), len(done), lost))
    print(f"many at once: {len(done)} rows, {refused} requests refused for memory, {failed} times")


# ---- Lines and frames that take much memory to read.
def long_ones(folder, preloaded):
    """A line or a frame of over two MiB that is cut off from memory anywhere is read to its end, and what is behind it is answered."""
    line = "insert t r f q \\e " + "v" * 1_000_000
    longer = "mutate t r " + " ; ".join("put f q%d \\e %s -" % (at, "v" * 700_000) for at in range(3))
    behind = ["status t", "rights t", "createtable u", "status u"]
    for kind in ("lines", "frames"):
        for text in (line, longer):
            wrong, refused, at, failed = [], 0, 0, True
            while failed:
                at += 1
                if kind == "lines":
                    program = asker = Script(PROGRAM, folder, preloaded)
                else:
                    program = Server(PROGRAM, folder, preloaded)
                    asker = program.connect()
                try:
                    asker.ask("createtable t")
                    asker.control.deny(at, 0)
                    said = asker.ask(text)
                    failed = asker.control.lift() > 0
                    said += asker.ask(*behind)
                    records = 0 if said[0] == NO_MEMORY else text.count("v" * 700_000)
                    refused += said[0] == NO_MEMORY
                    good = said[0] in (b"ok\n", NO_MEMORY) and (failed or said[0] == b"ok\n") and said[1] == b"tablets 1 sources 0 records %d\n" % records
                    if not (good and said[2].startswith((b"system", b"rights")) and said[3:] == [b"ok\n", b"tablets 1 sources 0 records 0\n"]):
                        wrong.append((at, said))
                except Silent as why:
                    wrong.append((at, why))
                finally:
                    program.close()
            counted.tell(f"{kind} of {len(text)} bytes without memory", not wrong and refused > 3, wrong[:1] or refused)


def beginnings(folder, preloaded):
    """A connection for which there is no memory is told 17, or ends; the next one is served."""
    server = Server(PROGRAM, folder, preloaded, workers=2)
    wrong, at, spared = [], 0, 0
    while spared < 2:
        at += 1
        server.control.deny(at, 0)
        connection = Connection(server)
        try:
            said = connection.greet()
            if said == NO_MEMORY:
                said = connection.greet()
        except (Silent, ConnectionError):
            said = None
        failed = server.control.lift() > 0
        spared = 0 if failed else spared + 1
        if said != b"ok\n" and not (failed and said is None):
            wrong.append((at, said))
        connection.close()
        other = server.connect()
        if other.ask("splits none") != [b"refused (2, b'none')\n"]:
            wrong.append((at, "the next one"))
        other.close()
    server.close()
    counted.tell("connections that begin without memory", not wrong and at > 3, wrong[:1])


def starts(folder, preloaded):
    """A server for which there is no memory when it begins ends with the status 1 and a line that says so; or it listens, and serves."""
    for words in ([], ["--image", "started"]):
        script = Script(PROGRAM, folder, preloaded)
        script.ask(*CLEAN, *SORTED, "save started")
        script.close()
        wrong, told, at, failed = [], 0, 0, True
        while failed:
            at, control = at + 1, Control(folder)
            control.deny(at, 0)
            with socket.create_server(("127.0.0.1", 0)) as probe:
                port = probe.getsockname()[1]
            process = start(PROGRAM, ["serve", "--port", str(port), "--workers", "1", "--compactors", "0", *words], folder, preloaded, control)
            line = process.stdout.readline()
            time.sleep(0.02)  # its threads begin after that line
            failed = control.lift() > 0
            serves = bool(line) and process.poll() is None
            if serves:
                process.kill()
            said = process.communicate(timeout=PATIENCE)[1]
            told += not serves
            if not (serves and said == b"" or failed and process.returncode == 1 and re.fullmatch(rb"fault: [^\n]*(memory|thread)[^\n]*\n", said)):
                wrong.append((at, line, process.returncode, said))
        counted.tell(f"a server begins without memory, {words}", not wrong and told > 2, wrong[:1] or told)


# ---- A script that keeps what it does in a folder.
def stores(folder, preloaded):
    """A line is answered, or refused for memory, or the run ends and says that memory lacked; whoever takes the folder up next finds all that
    was answered `ok`, and the line done whole or not at all."""
    def kept(name, *lines, at=0):
        """What the lines are told, the last one with this request for memory refused, or why the run ended; whether one was; and what is found then."""
        words = ["--store", str(Path(folder, f"store-{name}"))]
        script = Script(PROGRAM, folder, preloaded, *words)
        script.ask(*lines[:-1])
        script.control.deny(at, 0)
        try:
            answer = script.ask(lines[-1])[0]
        except Silent as why:
            answer = str(why).encode()
        failed = script.control.lift() > 0
        script.close()
        script = Script(PROGRAM, folder, preloaded, *words)
        found = script.ask(*TABLE)
        script.close()
        return answer, failed, found

    for event in ("mutate t k put f q A 2 9 ; del f q A&B 4", "addsplit t g", "compact t full", "createuser u"):
        word = event.split()[0]
        before, after = kept(word + "-before", *SORTED)[2], kept(word + "-after", *SORTED, event)[2]
        wrong, ended, at, failed = [], 0, 0, True
        while failed:
            at += 1
            answer, failed, found = kept(f"{word}-{at}", *SORTED, event, at=at)
            has_ended = answer.startswith(b"it ended with 1: ") and b"there is no memory" in answer
            ended += has_ended
            if found not in ([after] if answer == b"ok\n" else [before, after]) or not (answer == b"ok\n" or failed and (has_ended or answer == NO_MEMORY)):
                wrong.append((at, answer, found))
        counted.tell(f"{word} into a store without memory", not wrong and at > 3, wrong[:1] or at)
        print(f"{word} into a store: {at} tries, behind {ended} of which the run ended")


# ---- Numbers that are used up.
def numbers(folder, preloaded):
    """An image whose next number is used up: no write is numbered any more, and all else goes on."""
    last = bytes.fromhex(
        "544142494d47 0002 0000000000000000 ffffffffffffffff 00000001 00000004726f6f74 ff 00000000 00000001 00000001 74 00 00000001 00"
        "8000000000000000 00000001 00000004726f6f74 1f 00000000 0000000000000001 00000001 72 00000001 66 00000001 71 00000000 0000000000000005"
        "01 fffffffffffffffe 00000000 00000001 76 454e4421")
    Path(folder, "last").write_bytes(last)
    Path(folder, "last but one").write_bytes(last.replace(b"\xff" * 8, b"\xff" * 7 + b"\xfe", 1).replace(b"\xff" * 7 + b"\xfe" + bytes(4), bytes(12)))
    full, ok, cell = b"refused 9 TooLarge numbers\n", b"ok\n", b"r f q \\e 5 v\nend\n"
    writes = ["insert t s f q \\e w 6", "delete t r f q \\e 5", "mutate t r put f q \\e x 7 ; del f q \\e 6"]
    others = ["scan t \\0", "createtable u", "status u", "addsplit t r", "flush t", "compact t full", "status t", "scan t \\0"]
    told = [cell, ok, b"tablets 1 sources 0 records 0\n", ok, ok, ok, b"tablets 2 sources 2 records 1\n", cell]
    script = Script(PROGRAM, folder, preloaded)
    script.ask("load last")
    counted.tell("no number is left for a write", script.ask(*writes) == [full] * 3)
    counted.tell("all else goes on", script.ask(*others) == told)
    counted.tell("it is kept so", script.ask("save kept", "load kept", writes[0], "scan t \\0") == [ok, ok, full, cell])
    counted.tell("other refusals come first", script.ask("insert t s f q ( w 6", "insert none s f q A w") == [b"refused 5 MalformedVisibility 0 1\n", b"refused 2 NoTable none\n"])
    counted.tell("the last number is given once", script.ask("load last\\x20but\\x20one", *writes[:2], "scan t \\0") == [ok, ok, full, cell[:-4] + b"s f q \\e 6 w\nend\n"])
    script.close()
    server = Server(PROGRAM, folder, preloaded, "--image", "last")
    client = server.connect()
    full = b"refused (9, 11)\n"
    counted.tell("nor for a frame", client.ask(*writes, "scan t \\0", "createtable u", writes[0]) == [full, full, full, cell, ok, full])
    client.close()
    server.close()


def main():
    with tempfile.TemporaryDirectory() as work:
        made = library(work)
        cases(work, made)
        if not ANEW:
            clocks(work, made)
            rotations(work, made)
            kept(work, made)
            many_at_once(work, made)
            long_ones(work, made)
            beginnings(work, made)
            starts(work, made)
            stores(work, made)
            numbers(work, made)
    counted.end()


if __name__ == "__main__":
    main()
