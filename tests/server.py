"""What tests/server.sh tests. Its last line counts what passed and failed."""

import concurrent.futures
import os
import select
import socket
import struct
import subprocess
import time

from serving import HELLO, MAKE, OK, PATIENCE, PROGRAM, Server, count, field, frame, free_port, read_exactly, read_frame, run, run_parts

TOP = os.path.dirname(os.path.dirname(os.path.abspath(__file__)))


# ---- Command lines.
def refused_command_lines():
    for words in (
        "serve", "serve --port", "serve --port 0", "serve --port 65536", "serve --port -1", "serve --port x",
        "serve --port 1 --workers 0", "serve --port 1 --workers 65", "serve --port 1 --compactors 17",
        "serve --port 1 --compactors -1", "serve --port 1 --accept 4294967296", "serve --port 1 --accept -1",
        "serve --port 1 extra", "shell", "shell --port 1", "shell --user root", "shell --port 0 --user root",
        "shell --port 65536 --user root", "shell --port 1 --user a/b", "shell --port 1 --user " + 129 * "u",
        "shell --port 1 --user=", "shell --port 1 --user root extra",
    ):
        ran = run(*words.split())
        count("refused: " + words[:40], (ran.returncode, ran.stdout) == (2, b"") and ran.stderr, ran)


# ---- Statuses of a server.
def statuses():
    with Server("--accept", "1") as server:
        count("it says that it listens", server.said == b"listening %d\n" % server.port, server.said)
        ran = run("serve", "--port", str(server.port))
        count("a port in use", ran.returncode == 1 and ran.stdout == b"" and ran.stderr ==
              b"fault: port %d can't be listened on: Address already in use (os error 98)\n" % server.port, ran)
        ran = run("serve", "--port", str(server.port), "--image", "none/such")
        count("a failed image comes before a port in use", ran.returncode == 1 and ran.stdout == b"" and
              ran.stderr == b"fault: none/such: the image can't be read: No such file or directory (os error 2)\n", ran)
        server.connect().close()
        count("it ends after its one connection", server.ends() == 0, server.process.returncode)
    with open("/dev/full", "wb") as full:
        ran = run("serve", "--port", str(free_port()), stdout=full)
        count("a full output", ran.returncode == 1 and ran.stderr ==
              b"fault: the output can't be written: No space left on device (os error 28)\n", ran)
    with Server("--accept", "3", "--workers", "1", "--compactors", "0") as server:
        for _ in range(3):
            ran = server.shell(b"createtable t\n")
        count("three connections, one behind the other", ran.stdout == b"refused 10 TableExists t\n", ran)
        count("and it ends", server.ends() == 0, server.process.returncode)


def watched_shells():
    """A shell that stops, that says little, that explains, and one whose server gives no answer."""
    with Server() as server:
        for name, lines, words, wanted in (
            ("strict", b"createtable t\n\nsplits u\ndroptable t\n", ["--strict"], (3, b"ok\nrefused 2 NoTable u\n", b"line 3: refused 2 NoTable u\n")),
            ("strict, at a line fault", b"at 5\ndroptable t\n", ["--strict"], (3, b"line fault\n", b'line 1: word 1, "at": expected a line of a shell; '
             b"this one is a script's alone\nline 1: line fault\n")),
            ("quiet", b"addsplit t ok\nsplits t\nsplits u\n", ["--quiet"], (0, b"ok\nend\nrefused 2 NoTable u\n", b"1 ok, 1 refused, 0 faults\n")),
            ("explaining", b"at 5\nclose\n", ["--explain"], (0, b"line fault\nline fault\n", b'line 1: word 1, "at": expected a line of a shell; '
             b"this one is a script's alone\nline 2: word 2 is missing: expected SESSION (the number that an open gave: a whole number of 32 bits without a sign, as 0)\n")),
        ):
            ran = server.shell(lines, *words)
            count("a shell that is " + name, (ran.returncode, ran.stdout, ran.stderr) == wanted, ran)
    with socket.create_server(("127.0.0.1", 0)) as silent:
        port = silent.getsockname()[1]
        ran = run("shell", "--port", str(port), "--user", "root", "--timeout", "1", stdin=b"splits t\n")
        count("a server that says nothing", (ran.returncode, ran.stdout, ran.stderr) == (1, b"", b"fault: port %d doesn't answer as tabd\n" % port), ran)
    for words in ("--timeout 0", "--timeout 86401", "--timeout x"):
        ran = run("shell", "--port", "1", "--user", "root", *words.split())
        count("refused: " + words, (ran.returncode, ran.stdout) == (2, b"") and ran.stderr, ran)


def other_addresses():
    """Addresses of this machine beside 127.0.0.1: what listens on all of them is reached there."""
    yield socket.AF_INET, "127.0.0.2"
    if socket.has_ipv6:
        yield socket.AF_INET6, "::1"
    with socket.socket(socket.AF_INET, socket.SOCK_DGRAM) as probe:
        try:
            probe.connect(("192.0.2.1", 9))  # it sends nothing, and takes the address from which it would
            yield socket.AF_INET, probe.getsockname()[0]
        except OSError:
            pass


def this_machine_alone():
    with Server() as server:
        for family, address in other_addresses():
            with socket.socket(family) as stream:
                stream.settimeout(PATIENCE)
                reached = None
                try:
                    reached = stream.connect_ex((address, server.port)) == 0
                except OSError:
                    reached = False
                count("it doesn't listen on " + address, reached is False)
        server.connect().close()


# ---- Frames.
def frames():
    with Server() as server:
        with server.connect() as stream:
            stream.sendall(HELLO)
            count("a lone request is answered", read_frame(stream) == OK)
            stream.sendall(MAKE + MAKE + 2000 * frame(b"\x13" + field(b"t")))
            told = [read_frame(stream) for _ in range(2002)]
            count("pipelined requests are answered in order", told[0] == OK and told[1][4:6] == b"\x81\x0a" and
                  set(told[2:]) == {frame(b"\x87" + struct.pack(">QQQ", 1, 0, 0))}, told[:3])
            stream.sendall(b"\x00\x00\x00\x00")
            count("what is no frame is told", read_frame(stream) == frame(b"\x81\x10\x01"))
            count("and ends the connection", stream.recv(1) == b"")


def bytes_behind_the_end():
    """What was told before what is no frame arrives, whatever a client still sends."""
    with Server() as server:
        lines = b"".join(b"insert t r%d f q \\e %s 1\n" % (number, 500_000 * b"v") for number in range(4))
        server.shell(b"createtable t\n" + lines)
        with server.connect() as stream:
            stream.sendall(HELLO + open_range(b"t"))
            opened = [read_frame(stream) for _ in range(2)]
            stream.sendall(frame(b"\x0c" + struct.pack(">II", 0, 100)) + bytes(4) + 300_000 * b"x")
            stream.shutdown(socket.SHUT_WR)
            time.sleep(0.5)
            try:
                told = [read_frame(stream) for _ in range(6)]
            except OSError as error:
                told = [repr(error).encode()]
            count("all that was told before what is no frame arrives", opened[0] == OK and [len(it) > 500_000 for it in told] == 4 * [True] + 2 * [False]
                  and told[5] == frame(b"\x81\x10\x01"), [it[:40] for it in told])


def moments():
    """The timestamp of a write without one is the machine's clock, in milliseconds."""
    with Server("--compactors", "0") as server:
        ran = server.shell(b"createtable t time=server\ninsert t r f q \\e v\nscan t \\0\n")
        told = ran.stdout.split(b"\n")
        timestamp = int(told[2].split()[4]) if len(told) == 5 else 0
        count("moments are milliseconds since 1970", abs(timestamp - time.time() * 1000) < 60_000, ran)


def side_by_side():
    with Server() as server:
        with server.connect() as stream:
            stream.sendall(HELLO + MAKE)
            read_exactly(stream, 2 * len(OK))
            # Two clients at once: one more while the first one stays, and then the first one again.
            with server.connect() as other:
                other.sendall(HELLO + frame(b"\x12" + field(b"t")))
                count("a second client is answered", read_frame(other) == OK and read_frame(other) == frame(b"\x83\x01"))
            stream.sendall(frame(b"\x12" + field(b"t")))
            count("and the first one goes on", read_frame(stream) == frame(b"\x83\x01"))
            # One stops inside a frame and stays, another one closes inside a frame, a third one at once.
            with server.connect() as stopped:
                stopped.sendall(HELLO + MAKE[:7])
                count("what came whole is answered", read_frame(stopped) == OK)
                with server.connect() as gone:
                    gone.sendall(HELLO + MAKE[:7])
                server.connect().close()
                ran = server.shell(b"splits t\n")
                count("a client that stops inside a frame hinders none", ran.stdout == b"end\n", ran)
                stopped.sendall(MAKE[7:])
                count("and can go on", read_frame(stopped)[4:6] == b"\x81\x0a")


def open_range(table):
    return frame(b"\x0b" + field(table) + b"\x00\x00" + struct.pack(">II", 0, 0))


def stuck_peers():
    """Peers that never read, or stop inside a frame, take a worker each, and nothing else."""
    with Server("--workers", "3") as server:
        ran = server.shell(b"createtable t\ninsert t r f q \\e " + 500_000 * b"v" + b" 1\n")
        count("a large cell", ran.stdout == b"ok\nok\n", ran.stdout[:99])
        with server.connect() as deaf, server.connect() as stopped:
            # some 500 MB are asked for, and none of it is read
            deaf.sendall(HELLO + open_range(b"t") + 1000 * frame(b"\x0d" + struct.pack(">II", 0, 1) + b"\x00\x00"))
            stopped.sendall(HELLO + MAKE[:7])
            count("a peer that stops was answered before", read_frame(stopped) == OK)
            time.sleep(0.3)
            ran = server.shell(b"insert t s f q \\e w 1\nsplits t\n")
            count("peers that are stuck hinder none", ran.stdout == b"ok\nend\n", ran)
            with server.connect() as third:
                third.sendall(HELLO)
                count("the third worker", read_frame(third) == OK)
                with server.connect() as fourth:
                    fourth.sendall(HELLO)
                    ready, _, _ = select.select([fourth], [], [], 0.5)
                    count("one more waits", not ready)
                    third.close()
                    count("until a worker is free", read_frame(fourth) == OK)


# ---- Workers that are held, and connections that wait for one.
BAD = frame(b"\xff") + b"\0\0\0\0"


def lingering_ends():
    """Who sends a byte now and then after a bad frame doesn't hold a worker."""
    with Server("--workers", "1") as server, server.connect() as slow:
        slow.sendall(HELLO + BAD)
        read_frame(slow)
        with server.connect() as other:
            other.sendall(HELLO)
            other.settimeout(0.05)
            # (its bytes alone would hold the worker for a minute)
            told, ends = b"", time.monotonic() + 20
            while not told and time.monotonic() < ends:
                try:
                    told = read_frame(other)
                except socket.timeout:
                    pass
                try:
                    slow.send(b"x")
                except OSError:
                    pass
                time.sleep(0.2)
            count("it's over after a second", told == OK, told)


def told_on(process, seconds, wanted=None):
    """What the process says on standard error within so many seconds; until it has said what is wanted."""
    os.set_blocking(process.stderr.fileno(), False)
    ends, told = time.monotonic() + seconds, b""
    while time.monotonic() < ends and (not wanted or wanted not in told):
        time.sleep(0.05)
        told += process.stderr.read() or b""
    return told


def full_servers():
    """A server whose workers are all busy says so, once, where a connection has waited for a second."""
    note = b"note: all workers are busy (2), and further connections wait for one\n"
    with Server("--workers", "2", "--metrics", "full.prom") as server:
        busy = [server.connect() for _ in range(2)]
        count("two of two workers are busy, and nobody waits", told_on(server.process, 1.3) == b"")
        waiting = [server.connect() for _ in range(2)]
        count("one that waits for a second is told of", told_on(server.process, PATIENCE, note) == note)
        count("it's said once", told_on(server.process, 1.2) == b"")
        for stream in waiting + busy:
            stream.close()
        count("a free one isn't told of", told_on(server.process, 0.3) == b"")
        waiting = [server.connect() for _ in range(4)]
        count("nor the next time within a minute", told_on(server.process, 1.3) == b"")
        ends = time.monotonic() + PATIENCE
        while b"tabd_connections_waiting 2\n" not in reading("full.prom") and time.monotonic() < ends:
            time.sleep(0.1)
        count("how many wait is among the metrics", b"tabd_connections_waiting 2\n" in reading("full.prom"), reading("full.prom"))
        for stream in waiting:
            stream.close()


def reading(path):
    with open(path, "rb") as file:
        return file.read()


def made(name):
    return HELLO + frame(b"\x02" + field(name) + b"\0" + struct.pack(">I", 1))


def whoever_has_gone(*words):
    """What was asked by a peer who has closed its socket while it waited for a worker isn't done; what was asked by one who ended only its side is."""
    where = words or ("--port", str(free_port()))
    process = subprocess.Popen([PROGRAM, "serve", *where, "--workers", "1"], stdout=subprocess.PIPE, stderr=subprocess.PIPE)
    process.stdout.readline()
    address = where[1] if words else ("127.0.0.1", int(where[1]))

    def connect(sent):
        stream = socket.socket(socket.AF_UNIX if words else socket.AF_INET)
        stream.settimeout(PATIENCE)
        stream.connect(address)
        stream.sendall(sent)
        return stream

    def shell(lines):
        return subprocess.run([PROGRAM, "shell", *where, "--user", "root"], input=lines, stdout=subprocess.PIPE, timeout=PATIENCE).stdout

    try:
        busy = connect(HELLO)
        read_frame(busy)
        connect(made(b"gone")).close()
        cut = connect(made(b"reset"))
        cut.setsockopt(socket.SOL_SOCKET, socket.SO_LINGER, struct.pack("ii", 1, 0))
        cut.close()
        half = connect(made(b"half"))
        half.shutdown(socket.SHUT_WR)
        there = connect(made(b"there"))
        time.sleep(1.5)
        busy.close()
        count("who ended only their side is answered", [read_frame(half), read_frame(half)] == 2 * [OK])
        half.close()
        count("and who waits", [read_frame(there), read_frame(there)] == 2 * [OK])
        there.close()
        told = shell(b"".join(b"droptable %s\n" % name for name in (b"gone", b"reset", b"half", b"there")))
        count("what they asked who are gone isn't done, %s" % where[0], told == b"refused 2 NoTable gone\nrefused 2 NoTable reset\nok\nok\n", told)
        # (on a machine that stands still they may have waited)
        for _ in range(5):
            connect(made(b"gone")).close()
            told = shell(b"droptable gone\n")
            if told == b"ok\n":
                break
        count("it is where there is a free worker", told == b"ok\n", told)
    finally:
        process.kill()
        process.communicate()


def over_both():
    whoever_has_gone()
    whoever_has_gone("--socket", "gone.sock")


def shell_over_loopback():
    with Server("--accept", "2") as server:
        ran = server.shell(b"createtable t time=any\ninsert t r f q \\e v 5\nscan t \\0\n")
        count("shell_over_loopback", (ran.returncode, ran.stdout) == (0, b"ok\nok\nr f q \\e 5 v\nend\n"), ran)
        ran = server.shell('insert t "Ann Müller" f q "" "a\\x09b" 6\ninsert t s f q "" "open 7\nscan t \\0\n'.encode(), "--prompt")
        told = b"root> ok\nroot> root> Ann\\x20M\\xc3\\xbcller f q \\e 6 a\\x09b\nr f q \\e 5 v\nend\nroot> \n"
        good = ran.returncode == 0 and ran.stdout.endswith(told) and ran.stderr == b"line 2: a quote isn't closed; nothing was sent\n"
        count("a shell's prompt takes words in quotes and in UTF-8", good, ran)


def own_write_is_read():
    """Each scan shows the cell that was written just before it, on one connection, beside another one that does the same."""
    def put(value):
        return frame(b"\x0a" + field(b"t") + field(b"r") + struct.pack(">I", 1) + b"\x01" + field(b"f") + field(b"q") + field(b"")
                     + b"\x01" + struct.pack(">q", value) + field(b"%d" % value))

    def cell(value):
        return frame(b"\x82" + field(b"r") + field(b"f") + field(b"q") + field(b"") + struct.pack(">q", value) + field(b"%d" % value))

    with Server() as server, server.connect() as stream:
        stream.sendall(HELLO + MAKE)
        told = [read_frame(stream) for _ in range(2)]
        for value in range(200):
            stream.sendall(put(value) + open_range(b"t") + frame(b"\x0c" + struct.pack(">II", value, 2)))
            told += [read_frame(stream) for _ in range(4)]
        wanted = 2 * [OK]
        for value in range(200):
            wanted += [OK, frame(b"\x84" + struct.pack(">I", value)), cell(value), frame(b"\x83\x01")]
        count("own_write_is_read", told == wanted)


def compacted_beside():
    """Compactors beside shells that write: all that was written is scanned, and most of it lies in sorted tables before long."""
    def rows(writer):
        return [b"%d%04d" % (writer, number) for number in range(2500)]

    def writes(writer):
        return server.shell(b"".join(b"insert t r%s f q \\e v%s 7\n" % (row, row) for row in rows(writer))).stdout

    for compactors, shows in (("4", "sorted tables"), ("0", "none without compactors")):
        with Server("--compactors", compactors) as server:
            server.shell(b"createtable t time=any\n")
            with concurrent.futures.ThreadPoolExecutor(4) as pool:
                told = list(pool.map(writes, range(4)))
            count("writers beside compactors: " + compactors, told == 4 * [2500 * b"ok\n"])
            end, status = time.monotonic() + PATIENCE, b""
            while time.monotonic() < end and (not status or compactors != "0" and b"sources 0 " in status):
                status = server.shell(b"status t\n").stdout
            count("what they leave: " + shows, (b"sources 0 " in status) == (compactors == "0"), status)
            scanned = server.shell(b"scan t \\0\n").stdout
            cells = [b"r%s f q \\e 7 v%s\n" % (row, row) for writer in range(4) for row in rows(writer)]
            count("a scan behind compactors: " + compactors, scanned == b"".join(cells) + b"end\n", scanned[:200])


# ---- The shell.
def shell_lines(lines):
    """The lines that a shell has too, and whether a script answers them alike: one user, no moments, no files."""
    words = [line.split() for line in lines.split(b"\n")]
    return not any(w and w[0] in (b"as", b"at", b"save", b"load", b"splitsize", b"begin", b"merge", b"install") for w in words)


def cases():
    """The scripts of tests/cases that a shell answers as a script does, each with its title."""
    folder = os.path.join(TOP, "tests/cases")
    for name in sorted(os.listdir(folder)):
        scripts = []
        with open(os.path.join(folder, name), "rb") as file:
            for line in file.read().split(b"\n"):
                if line.startswith(b"# "):
                    scripts.append([line[2:].decode("latin-1"), b""])
                elif line.startswith(b">"):
                    scripts[-1][1] += line[2:] + b"\n"
        for title, lines in scripts:
            if shell_lines(lines) and not implicit_moments(lines):
                yield name + ": " + title, lines


def implicit_moments(lines):
    """Whether a cell gets the clock, which a server takes from the machine's."""
    for line in lines.split(b"\n"):
        words = line.split()
        if b"time=server" in words or words[:1] == [b"insert"] and len(words) == 7 or words[:1] == [b"delete"] and len(words) == 6:
            return True
        if words[:1] == [b"mutate"] and b"-" in words:
            return True
    return False


MANY = b"createtable m\n" + b"".join(b"insert m r%05d f q \\e v 1\n" % n for n in range(2500)) + \
    b"open m \\0\nnext 0 2000\nnext 0 2000\nmany 0 [r00001 [r00003 [z \\0\nmany 0\nclose 0\nnext 0 1\nscan m \\0\n"

LINES = b"""createtable t
insert t r f q \\e v 5
insert t s f q \\e v 5
open t \\0
scan t \\0
splits t
many 0 [a [b [r [r [t \\0
many 0 [s \\0 [t \\0
many 0 [t \\0
next 0 0
next 0 1
next 0 1
next 0 1
addsplit t r
splits t
status t
rights t
flush t
compact t full
rotate
rotate t
scan nope \\0
scan t \\0 [b [a
scan t A
scan t \\0 \\0 \\0 f:q,g
setauths root A,B
insert t r f q a& v 5
insert t r f q C v 5
constraints t visibility,numeric
mutate t r put f q C x 1 ; put f q D 1 2 ; del f q \\e -
mutate t r
createuser bob
grant bob READ t
grant bob GRANT
revoke root SYSTEM
dropuser root
droptable t
bogus
# nothing

dropuser bob"""


def shells():
    found = 0
    for name, lines in [("many lines", MANY), ("every line", LINES), *cases()]:
        found += 1
        wanted = run("script", stdin=lines)
        with Server("--accept", "1") as server:
            ran = server.shell(lines)
            # A scan takes a number of the connection, and none of a script.
            count("a shell answers %s as a script does" % name, (ran.returncode, ran.stderr) == (0, b"") and
                  numberless(ran.stdout) == numberless(wanted.stdout), (ran, wanted))
            count("status 0 behind %s" % name, server.ends() == 0)
    count("there are cases", found > 10, found)
    with Server() as server:
        for line in (b"as root", b"at 5", b"save x", b"load x", b"splitsize t r 1", b"begin t r full", b"merge 0", b"install t 0", b"bogus"):
            ran = server.shell(line + b"\n")
            count("a shell has no %s" % line.decode(), ran.stdout == b"line fault\n" and ran.returncode == 0, ran)
        ran = server.shell(b"insert t r f q \\e " + 9_000_000 * b"v" + b"\nrights t\n")
        count("a request that is too long", ran.stdout == b"refused 16 BadFrame toolong\nrefused 2 NoTable t\n", ran.stderr)
        ran = server.shell(b"rights t\n", user="ghost")
        count("an unknown user", ran.stdout == b"refused 1 UnknownUser ghost\n", ran)
        ran = server.shell(b"")
        count("no line", (ran.returncode, ran.stdout, ran.stderr) == (0, b"", b""), ran)
        with open("/dev/full", "wb") as full:
            ran = run("shell", "--port", str(server.port), "--user", "root", stdin=b"bogus\n", stdout=full)
            count("a full output of a shell", ran.returncode == 1 and ran.stderr ==
                  b"fault: the output can't be written: No space left on device (os error 28)\n", ran)
        one_by_one(server)
    ran = run("shell", "--port", str(server.port), "--user", "root", "--timeout", "1", stdin=b"bogus\n")
    count("no server", ran.returncode == 1 and ran.stdout == b"" and ran.stderr ==
          b"fault: no server is reached on port %d: Connection refused (os error 111)\n" % server.port, ran)
    goes_away()


def numberless(text):
    """The text without the numbers of sessions."""
    return b"\n".join(b"session" if line.startswith(b"session ") else line for line in text.split(b"\n"))


def one_by_one(server):
    """Each reply comes before the next line is given."""
    process = subprocess.Popen([PROGRAM, "shell", "--port", str(server.port), "--user", "root"],
                               stdin=subprocess.PIPE, stdout=subprocess.PIPE)
    told = []
    for line in (b"createtable one\n", b"scan one \\0\n", b"bogus\n"):
        process.stdin.write(line)
        process.stdin.flush()
        ready, _, _ = select.select([process.stdout], [], [], PATIENCE)
        told.append(process.stdout.readline() if ready else b"")
    process.stdin.close()
    count("a shell answers before it awaits more", told == [b"ok\n", b"end\n", b"line fault\n"], told)
    count("status 0 at the end of its lines", process.wait(timeout=PATIENCE) == 0)


class StandIn:
    """A shell whose server this is."""

    def __enter__(self):
        with socket.socket() as listener:
            listener.bind(("127.0.0.1", 0))
            listener.listen()
            self.process = subprocess.Popen([PROGRAM, "shell", "--port", str(listener.getsockname()[1]), "--user", "root"],
                                            stdin=subprocess.PIPE, stdout=subprocess.PIPE, stderr=subprocess.PIPE)
            self.stream, _ = listener.accept()
        self.stream.settimeout(PATIENCE)
        return self

    def lines(self, lines):
        self.process.stdin.write(lines)
        self.process.stdin.flush()

    def __exit__(self, *_):
        self.stream.close()
        if self.process.poll() is None:
            self.process.kill()
        self.process.communicate()


# The frames of replies, and what a shell prints of each.
PRINTED = [
    (b"\x80", b"ok"),
    (b"\x81\x01" + field(b"u"), b"refused 1 UnknownUser u"),
    (b"\x81\x02" + field(b"t"), b"refused 2 NoTable t"),
    *((b"\x81\x03\x00" + bytes([place]), b"refused 3 PermissionDenied System." + name) for place, name in enumerate(
        (b"GRANT", b"CREATE_TABLE", b"DROP_TABLE", b"ALTER_TABLE", b"CREATE_USER", b"DROP_USER", b"ALTER_USER", b"SYSTEM"))),
    *((b"\x81\x03\x01" + bytes([place]) + field(b"t"), b"refused 3 PermissionDenied Table." + name + b" t") for place, name in enumerate(
        (b"READ", b"WRITE", b"ALTER_TABLE", b"GRANT", b"DROP_TABLE"))),
    (b"\x81\x04" + field(b"A"), b"refused 4 BadAuthorizations A"),
    (b"\x81\x05" + struct.pack(">II", 3, 70_000), b"refused 5 MalformedVisibility 3 70000"),
    (b"\x81\x06" + struct.pack(">IBBIBBI", 2, 1, 2, 3, 4, 5, 70_000), b"refused 6 ConstraintViolation 1:2:3 4:5:70000"),
    (b"\x81\x07" + struct.pack(">I", 70_000), b"refused 7 TimestampNotAllowed 70000"),
    (b"\x81\x08", b"refused 8 EmptyMutation"),
    *((b"\x81\x09" + bytes([part]), b"refused 9 TooLarge " + name) for part, name in enumerate(
        (b"updates", b"row", b"family", b"qualifier", b"label", b"value", b"columns", b"authorizations", b"ranges", b"sessions",
         b"numbers"), 1)),
    (b"\x81\x0a" + field(b"t"), b"refused 10 TableExists t"),
    (b"\x81\x0b" + field(b"u"), b"refused 11 UserExists u"),
    (b"\x81\x0c" + field(b"u"), b"refused 12 NoUser u"),
    (b"\x81\x0d", b"refused 13 BadRange"),
    (b"\x81\x0f" + struct.pack(">I", 70_000), b"refused 15 NoSession 70000"),
    *((b"\x81\x10" + bytes([reason]), b"refused 16 BadFrame " + name) for reason, name in enumerate(
        (b"empty", b"toolong", b"cut", b"opcode", b"field", b"order"), 1)),
    (b"\x81\x11", b"refused 17 NoMemory"),
    (b"\x81\x12", b"refused 18 RootFixed"),
    (b"\x81\x13", b"refused 19 GrantInvalid"),
    *((b"\x81\x14" + bytes([why]), b"refused 20 BadSplit " + name) for why, name in enumerate((b"present", b"small", b"onerow"))),
    (b"\x81\x15" + struct.pack(">I", 70_000), b"refused 21 VersionsRaised 70000"),
    (b"\x81\x16\x00" + struct.pack(">q", -5), b"refused 22 HorizonLowered -5"),
    (b"\x81\x16\x01" + struct.pack(">I", 70_000), b"refused 22 BelowHorizon 70000"),
    (b"\x81\x16\x02", b"refused 22 ServerTime"),
    (b"\x84" + struct.pack(">I", 70_000), b"session 70000"),
    (b"\x87" + struct.pack(">QQQ", 1, 2, 3 << 40), b"tablets 1 sources 2 records %d" % (3 << 40)),
]


def each_reply():
    """Whatever a server tells, the shell prints the text that a script has for it."""
    with StandIn() as stand_in:
        told = OK
        for reply, _ in PRINTED:
            stand_in.lines(b"rights t\n")
            told += frame(reply)
        stand_in.stream.sendall(told)
        out, err = stand_in.process.communicate(timeout=PATIENCE)
        printed, wanted = out.split(b"\n"), [text for _, text in PRINTED] + [b""]
        count("a shell prints each reply", (stand_in.process.returncode, err, len(printed)) == (0, b"", len(wanted)), (out[-200:], err))
        for at, (line, text) in enumerate(zip(printed, wanted)):
            count("a shell prints " + text.decode(), line == text, (at, line))


def scans_close_sessions():
    """Each scan of a shell closes its session, also one that is refused on its way."""
    cell = frame(b"\x82" + field(b"r") + field(b"f") + field(b"q") + field(b"") + struct.pack(">q", 5) + field(b"v"))
    more = 1000 * cell + frame(b"\x83\x00")
    for name, batches, printed in (
        ("of no cell", [frame(b"\x83\x01")], b"end\n"),
        ("of 1,001 cells", [more, cell + frame(b"\x83\x01")], 1001 * b"r f q \\e 5 v\n" + b"end\n"),
        ("that is refused", [more, frame(b"\x81\x11")], 1000 * b"r f q \\e 5 v\n" + b"refused 17 NoMemory\n"),
    ):
        with StandIn() as stand_in:
            stand_in.lines(b"scan t \\0\n")
            stream = stand_in.stream
            asked = [read_frame(stream), read_frame(stream)]
            stream.sendall(OK + frame(b"\x84\x00\x01\x02\x03"))
            for batch in batches:
                asked.append(read_frame(stream))
                stream.sendall(batch)
            asked.append(read_frame(stream))
            stream.sendall(OK)
            out, err = stand_in.process.communicate(timeout=PATIENCE)
            fetch = frame(b"\x0c\x00\x01\x02\x03" + struct.pack(">I", 1000))
            count("a scan %s closes its session" % name, asked == [HELLO, open_range(b"t"), *len(batches) * [fetch],
                                                                    frame(b"\x0e\x00\x01\x02\x03")], asked)
            count("a scan %s is printed" % name, (stand_in.process.returncode, out, err) == (0, printed, b""), (out[-99:], err))


def goes_away():
    """A server that ends while a shell is there, one that isn't ours, and one that tells less than a reply."""
    for name, reply, fault in (
        ("ended", b"", b"fault: the server has ended the connection\n"),
        ("cut", OK + b"\x00\x00", b"fault: the server has ended the connection\n"),
        ("another server", b"HTTP/1.1 400 Bad Request\r\n\r\n", b"fault: the server's reply isn't understood\n"),
        ("no such reply", OK + frame(b"\x8f"), b"fault: the server's reply isn't understood\n"),
        ("bytes left over", OK + frame(b"\x80\x00"), b"fault: the server's reply isn't understood\n"),
        ("a count that no frame holds", OK + frame(b"\x88\x00\x00\xff\xff\xff\xff"), b"fault: the server's reply isn't understood\n"),
    ):
        with StandIn() as stand_in:
            stand_in.lines(b"bogus\nrights t\n")
            stand_in.stream.recv(65536)
            stand_in.stream.sendall(reply)
            stand_in.stream.shutdown(socket.SHUT_WR)
            process = stand_in.process
            out, err = process.communicate(timeout=PATIENCE)
            count("a server that goes away: " + name, (process.returncode, out, err) == (1, b"line fault\n", fault),
                  (process.returncode, out, err))


def servers_that_come_later():
    """A shell waits for a server that isn't there yet, at a port, at a socket file, and at one that is left there, but no longer than it is told to."""
    port = str(free_port())
    with socket.socket(socket.AF_UNIX) as left:
        left.bind("left")
    for place in ("--port", port), ("--socket", "later"), ("--socket", "left"):
        shell = subprocess.Popen([PROGRAM, "shell", *place, "--user", "root", "--timeout", "40"], stdin=subprocess.PIPE, stdout=subprocess.PIPE, stderr=subprocess.PIPE)
        time.sleep(0.5)
        server = subprocess.Popen([PROGRAM, "serve", *place, "--accept", "1"], stdin=subprocess.DEVNULL, stdout=subprocess.PIPE, stderr=subprocess.PIPE)
        out, err = shell.communicate(b"createtable t\n", timeout=PATIENCE)
        count("a server that comes later, at %s" % place[1], (shell.returncode, out, err) == (0, b"ok\n", b""), (shell.returncode, out, err))
        server.kill()
        server.communicate()
        began = time.monotonic()
        ran = run("shell", *place, "--user", "root", "--timeout", "1")
        waited = time.monotonic() - began
        count("and one that doesn't come", ran.returncode == 1 and b"no server is reached" in ran.stderr and 0.9 < waited < PATIENCE, (ran, waited))
    began = time.monotonic()
    ran = run("shell", "--socket", "/dev/null/none", "--user", "root", "--timeout", "40")
    count("what can't be one isn't waited for", ran.returncode == 1 and time.monotonic() - began < 30, ran)


run_parts(refused_command_lines, statuses, watched_shells, this_machine_alone, frames, bytes_behind_the_end, lingering_ends, full_servers, over_both, moments, side_by_side, stuck_peers, own_write_is_read,
          compacted_beside, shell_over_loopback, shells, each_reply, scans_close_sessions, goes_away, servers_that_come_later)
