"""What tests of failing memory, reads and writes share: a program with tests/failing.c preloaded, its control, and talking to it in lines or
in frames. A case is written in lines; those of a server are sent as frames, and its replies told as a script prints them."""
import atexit
import itertools
import mmap
import os
import select
import signal
import socket
import struct
import subprocess
import sys
import tempfile
import time
from pathlib import Path

import strict

TOP = Path(__file__).resolve().parent.parent
PATIENCE = 60
NAMES = ("memory", "memory_stays", "memory_failed", "calls", "calls_stay", "calls_failed", "which", "how", "least", "most")
READS, WRITES, DISK, SOCKETS, OTHERS = 1, 2, 4, 8, 16
SYSTEM = "GRANT CREATE_TABLE DROP_TABLE ALTER_TABLE CREATE_USER DROP_USER ALTER_USER SYSTEM".split()
ON_TABLE = "READ WRITE ALTER_TABLE GRANT DROP_TABLE".split()
PARTS = "updates row family qualifier label value columns authorizations ranges sessions numbers".split()
NO_MEMORY = b"refused 17 NoMemory\n"
# so that a test that is stopped takes its programs with it
signal.signal(signal.SIGTERM, lambda *_: sys.exit(1))


def library(folder):
    """Compiles what is preloaded."""
    made = f"{folder}/failing.so"
    words = [os.environ.get("CC", "cc"), "-shared", "-fPIC", "-O1", "-o", made, TOP / "tests/failing.c", "-ldl"]
    subprocess.run(words, check=True)
    return made


class Control:
    """The page that tells the program what fails."""

    def __init__(self, folder):
        handle, self.path = tempfile.mkstemp(dir=folder)
        os.ftruncate(handle, 8 * len(NAMES))
        self.page = mmap.mmap(handle, 8 * len(NAMES))
        os.close(handle)

    def set(self, **numbers):
        for name, number in numbers.items():
            struct.pack_into("=q", self.page, 8 * NAMES.index(name), number)

    def get(self, name):
        return struct.unpack_from("=q", self.page, 8 * NAMES.index(name))[0]

    def deny(self, at, stays):
        """The request for memory of this number from now on gets none; with `stays` those behind it neither."""
        self.set(memory_failed=0, memory_stays=stays, memory=at)

    def lift(self):
        """From now on none fails. How many did."""
        self.set(memory=0, calls=0)
        return self.get("memory_failed") + self.get("calls_failed")


def start(program, words, folder, preloaded, control):
    environment = {**os.environ, "LD_PRELOAD": preloaded, "CONTROL": control.path}
    process = subprocess.Popen([program, *words], env=environment, cwd=folder, stdin=subprocess.PIPE, stdout=subprocess.PIPE, stderr=subprocess.PIPE, bufsize=0)
    atexit.register(process.kill)
    return process


class Silent(Exception):
    """The program says nothing, or has ended."""


class Script:
    """A script that is asked line by line."""

    def __init__(self, program, folder, preloaded, *words):
        self.control = Control(folder)
        self.process = start(program, ["script", *words], folder, preloaded, self.control)
        self.file, self.behind = self.process.stdout.fileno(), b""

    def some(self):
        if not select.select([self.file], [], [], PATIENCE)[0]:
            raise Silent("nothing for %d seconds" % PATIENCE)
        more = os.read(self.file, 1 << 16)
        if not more:
            raise Silent("it ended with %s: %s" % (self.process.wait(PATIENCE), self.process.stderr.read()[:200]))
        self.behind += more

    def line(self):
        while b"\n" not in self.behind:
            self.some()
        line, self.behind = self.behind.split(b"\n", 1)
        return line + b"\n"

    def reply(self, asked):
        """What is printed for the line."""
        word, said = asked.split(" ", 1)[0], b""
        if word in ("as", "at"):
            return said
        while True:
            line = self.line()
            said += line
            if word not in ("scan", "next", "many", "rights", "splits") or line.startswith(b"refused ") or line in (b"end\n", b"more\n", b"line fault\n"):
                return said
            if word == "many" and line == b"range\n" and said.count(b"range\n") == asked.count(" ") // 2:
                return said

    def send(self, *lines):
        self.process.stdin.write("".join(line + "\n" for line in lines).encode())

    def ask(self, *lines):
        """The replies to the lines, which are sent together."""
        self.send(*lines)
        return [self.reply(line) for line in lines]

    def close(self):
        self.process.kill()
        self.process.communicate()


# ---- In frames.
def field(text):
    return struct.pack(">I", len(text)) + text


def listed(words, part=field):
    words = [] if words == "\\0" else words.split(",")
    return struct.pack(">I", len(words)) + b"".join(part(word.encode()) for word in words)


def bound(word):
    return b"\0" if word == "\\0" else bytes([1 + "[(".index(word[0])]) + field(word[1:].encode())


def column(word):
    family, colon, qualifier = word.partition(b":")
    return field(family) + (b"\1" + field(qualifier) if colon else b"\0")


def put(words, kind):
    family, qualifier, label, *rest = words
    value, time = (rest[0], rest[1:]) if kind else ("", rest)
    stamp = b"\1" + struct.pack(">q", int(time[0])) if time and time[0] != "-" else b"\0"
    key = b"".join(field(b"" if word == "\\e" else word.encode()) for word in (family, qualifier, label))
    return bytes([kind]) + key + stamp + (field(value.encode()) if kind else b"")


def permission(words):
    if len(words) == 1:
        return bytes([0, SYSTEM.index(words[0])])
    return bytes([1, ON_TABLE.index(words[0])]) + field(words[1].encode())


def frame_of(line):
    """The frame that asks what the line does."""
    if line == "rotate":
        return field(b"\x17")
    word, first, *rest = line.split(" ")
    name = field(first.encode())
    if word == "createtable":
        body = b"\2" + name + (b"\1" if "time=server" in rest else b"\0") + struct.pack(">I", next((int(w[9:]) for w in rest if w.startswith("versions=")), 1))
    elif word in ("droptable", "createuser", "dropuser", "flush", "splits", "status", "rights"):
        body = bytes([dict(droptable=3, createuser=4, dropuser=5, flush=15, splits=18, status=19, rights=20)[word]]) + name
    elif word == "setauths":
        body = b"\6" + name + listed(rest[0])
    elif word in ("grant", "revoke"):
        body = (b"\7" if word == "grant" else b"\x08") + name + permission(rest)
    elif word == "constraints":
        body = b"\x09" + name + bytes([sum(dict(keysize=1, alphanum=2, numeric=4, visibility=8)[c] for c in rest[0].split(",") if c != "\\0")])
    elif word in ("insert", "delete"):
        body = b"\x0a" + name + field(rest[0].encode()) + struct.pack(">I", 1) + put(rest[1:], word == "insert")
    elif word == "mutate":
        updates = [update.split() for update in " ".join(rest[1:]).split(" ; ") if update]
        body = b"\x0a" + name + field(rest[0].encode()) + struct.pack(">I", len(updates)) + b"".join(put(u[1:], u[0] == "put") for u in updates)
    elif word == "open":
        bounds, columns = rest[1:3] or ["\\0", "\\0"], rest[3] if len(rest) > 3 else "\\0"
        body = b"\x0b" + name + b"".join(map(bound, bounds)) + listed(columns, column) + listed(rest[0])
    elif word == "next":
        body = b"\x0c" + struct.pack(">II", int(first), int(rest[0]))
    elif word == "many":
        body = b"\x0d" + struct.pack(">II", int(first), len(rest) // 2) + b"".join(map(bound, rest))
    elif word == "close":
        body = b"\x0e" + struct.pack(">I", int(first))
    elif word == "compact":
        body = b"\x10" + name + bytes([rest[0] == "full"])
    elif word == "addsplit":
        body = b"\x11" + name + field(rest[0].encode())
    elif word == "versions":
        body = b"\x15" + name + struct.pack(">I", int(rest[0]))
    else:
        body = b"\x16" + name + struct.pack(">q", int(rest[0]))
    return field(body)


def printed(word, kind, told):
    """What a script prints of a reply's frame; and whether the reply ends with it."""
    if kind == strict.OK:
        return b"ok\n", True
    if kind == strict.REFUSED:
        return (NO_MEMORY if told == (17,) else b"refused %r\n" % (told,)), True
    if kind == strict.CELL:
        row, family, qualifier, label, time_of, value = told
        return b" ".join((row, family, qualifier, label or b"\\e", b"%d" % time_of, value)) + b"\n", False
    if kind == strict.END:
        return (b"" if word == "many" else b"end\n" if told else b"more\n"), True
    if kind == strict.OPENED:
        return b"session %d\n" % told, True
    if kind in (strict.ROW, strict.RANGE_END):
        return (told if kind == strict.ROW else b"range") + b"\n", False
    if kind == strict.COUNTS:
        return b"tablets %d sources %d records %d\n" % told, True
    return b"rights %r\n" % (told,), True


class Connection:
    """A connection to a server, asked in lines that are sent as frames; a scan is an open, a next and a close."""

    def __init__(self, server, user="root"):
        self.server, self.control = server, server.control
        self.link = socket.create_connection(("127.0.0.1", server.port), timeout=PATIENCE)
        self.link.setsockopt(socket.IPPROTO_TCP, socket.TCP_NODELAY, 1)
        self.user, self.behind = user, b""

    def greet(self):
        self.link.sendall(field(b"\1" + field(self.user.encode())))
        return self.reply("hello")

    def exactly(self, count):
        while len(self.behind) < count:
            try:
                more = self.link.recv(1 << 16)
            except socket.timeout:
                raise Silent("nothing for %d seconds" % PATIENCE) from None
            if not more:
                raise Silent("the connection ended")
            self.behind += more
        got, self.behind = self.behind[:count], self.behind[count:]
        return got

    def reply(self, word):
        said, is_last = b"", False
        while not is_last:
            (length,) = struct.unpack(">I", self.exactly(4))
            text, is_last = printed(word, *strict.reply(self.exactly(length)))
            said += text
        return said

    def send(self, *lines):
        self.link.sendall(b"".join(map(frame_of, lines)))

    def ask(self, *lines):
        """The replies to the lines; those between two scans are sent together."""
        said = []
        for is_scan, some in itertools.groupby(lines, lambda line: line.startswith("scan ")):
            if is_scan:
                said += map(self.scan, some)
            else:
                some = list(some)
                self.send(*some)
                said += [self.reply(line.split(" ", 1)[0]) for line in some]
        return said

    def scan(self, line):
        opened = self.ask("open" + line[4:])[0]
        if opened.startswith(b"refused"):
            return opened
        number = int(opened.split()[1])
        return self.ask(f"next {number} 1000", f"close {number}")[0]

    def close(self):
        self.link.close()


class Server:
    """A server with one worker and no compactor, unless it is said, so that nothing but what is asked takes memory."""

    def __init__(self, program, folder, preloaded, *words, workers=1, compactors=0):
        self.control = Control(folder)
        for _ in range(3):
            with socket.create_server(("127.0.0.1", 0)) as probe:
                self.port = probe.getsockname()[1]
            told = ["serve", "--port", str(self.port), "--workers", str(workers), "--compactors", str(compactors), *words]
            self.process = start(program, told, folder, preloaded, self.control)
            if self.process.stdout.readline():
                break
        # its workers begin behind that line; once it has served a connection they are there
        self.connect().close()

    def connect(self, user="root"):
        connection = Connection(self, user)
        connection.greet()
        return connection

    def close(self):
        self.process.kill()
        self.process.communicate()


class Piped(Connection):
    """A connection over a program's own standard streams; it is root's, whoever `as` names."""

    def __init__(self, program, folder, preloaded, *words):
        self.control = Control(folder)
        self.process = start(program, words, folder, preloaded, self.control)
        self.link, self.user, self.behind = self, "root", b""
        self.greet()

    def ask(self, *lines):
        return super().ask(*(line for line in lines if not line.startswith("as ")))

    def sendall(self, text):
        self.process.stdin.write(text)

    def recv(self, count):
        if not select.select([self.process.stdout], [], [], PATIENCE)[0]:
            raise Silent("nothing for %d seconds" % PATIENCE)
        return os.read(self.process.stdout.fileno(), count)

    def end(self):
        """Its status once nothing more is asked, and what it says then."""
        said = self.process.communicate(timeout=PATIENCE)[1]
        return self.process.returncode, said

    def close(self):
        self.process.kill()
        self.process.communicate()


class Counted:
    """Counts what passed and failed."""

    def __init__(self):
        self.passed = self.failed = 0
        self.began = time.monotonic()

    def tell(self, name, holds, why=""):
        if holds:
            self.passed += 1
        else:
            self.failed += 1
            print(f"FAILED: {name} {str(why)[:400]}", flush=True)

    def end(self):
        print(f"{self.passed} passed, {self.failed} failed")
        raise SystemExit(self.failed != 0)
