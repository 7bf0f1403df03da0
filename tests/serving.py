"""What the tests of a server share: a server on a free port, its frames, and the count of what passed and failed.

The program is the first word of the command line."""

import os
import select
import socket
import struct
import subprocess
import sys
import tempfile

PROGRAM = sys.argv[1]
# How many seconds are waited for what comes at once on a quiet machine.
PATIENCE = 45
# The names of the parts that are run alone, all where it is empty, and the one that runs.
PARTS = os.environ.get("PARTS", "").split()
running = ""
passed = failed = 0


def count(name, good, told=""):
    global passed, failed
    if good:
        passed += 1
    else:
        failed += 1
        print("FAILED: %s: %s %s" % (running, name, str(told)[:300]), flush=True)


def is_run(part):
    """Whether the part of this name is among those that are run."""
    return not PARTS or part in PARTS


def free_port():
    with socket.socket() as probe:
        probe.bind(("127.0.0.1", 0))
        return probe.getsockname()[1]


class Server:
    """A server on a free port, once it listens."""

    def __init__(self, *words, **environment):
        for _ in range(3):
            self.port = free_port()
            self.process = subprocess.Popen(
                [PROGRAM, "serve", "--port", str(self.port), *words], stdin=subprocess.DEVNULL,
                stdout=subprocess.PIPE, stderr=subprocess.PIPE, env={**os.environ, **environment})
            ready, _, _ = select.select([self.process.stdout], [], [], PATIENCE)
            self.said = self.process.stdout.readline() if ready else b""
            if self.said:
                return

    def connect(self):
        stream = socket.create_connection(("127.0.0.1", self.port), timeout=PATIENCE)
        stream.setsockopt(socket.IPPROTO_TCP, socket.TCP_NODELAY, 1)
        return stream

    def shell(self, lines, *words, user="root"):
        return subprocess.run(
            [PROGRAM, "shell", "--port", str(self.port), "--user", user, *words], input=lines,
            stdout=subprocess.PIPE, stderr=subprocess.PIPE, timeout=60)

    def ends(self):
        """The status, or None where it goes on."""
        try:
            return self.process.wait(timeout=PATIENCE)
        except subprocess.TimeoutExpired:
            return None

    def __enter__(self):
        return self

    def __exit__(self, *_):
        if self.process.poll() is None:
            self.process.kill()
        self.process.communicate()


def frame(body):
    return struct.pack(">I", len(body)) + body


def field(text):
    return struct.pack(">I", len(text)) + text


def read_exactly(stream, length):
    got = b""
    while len(got) < length:
        piece = stream.recv(length - len(got))
        if not piece:
            return got
        got += piece
    return got


def read_frame(stream):
    head = read_exactly(stream, 4)
    return head + read_exactly(stream, struct.unpack(">I", head)[0]) if len(head) == 4 else head


HELLO = frame(b"\x01" + field(b"root"))
OK = frame(b"\x80")
MAKE = frame(b"\x02" + field(b"t") + b"\x00" + struct.pack(">I", 1))


def run(*words, stdin=b"", **how):
    how.setdefault("stdout", subprocess.PIPE)
    return subprocess.run([PROGRAM, *words], input=stdin, stderr=subprocess.PIPE, timeout=60, **how)


def run_parts(*parts):
    """Runs each part in a folder of its own for all of them, says what passed and failed, and ends with the status. PARTS in the environment:
    those alone, behind `build`."""
    global running
    with tempfile.TemporaryDirectory() as work:
        os.chdir(work)
        for part in parts:
            running = part.__name__
            if running != "build" and not is_run(running):
                continue
            try:
                part()
            except Exception as fault:  # a part that doesn't come to its end is one failure
                count(part.__name__, False, repr(fault))
        os.chdir("/")
    print("%d passed, %d failed" % (passed, failed))
    sys.exit(1 if failed else 0)
