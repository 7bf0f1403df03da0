"""What tests/running.sh tests. Its last line counts what passed and failed."""

import os
import re
import resource
import socket
import struct
import subprocess
import threading
import time

import failing
from serving import HELLO, MAKE, OK, PATIENCE, PROGRAM, Server, count, field, frame, is_run, read_exactly, read_frame, run, run_parts

HERE = os.path.dirname(os.path.abspath(__file__))
OPEN = frame(b"\x0b" + field(b"t") + b"\0\0" + bytes(8))
MANY = frame(b"\x0d" + bytes(4) + struct.pack(">I", 1) + b"\0\0")


def write(table, row, values):
    puts = b"".join(b"\1" + field(b"f") + field(b"%d" % place) + field(b"") + b"\0" + field(value) for place, value in enumerate(values))
    return frame(b"\x0a" + field(table) + field(row) + struct.pack(">I", len(values)) + puts)


def make(table):
    return frame(b"\2" + field(table) + b"\0" + struct.pack(">I", 1))


def told_ok(stream, *frames):
    stream.sendall(b"".join(frames))
    wanted = len(frames) * OK
    return read_exactly(stream, len(wanted)) == wanted


def status(stream, table):
    """How many tablets, sources and records a table has."""
    stream.sendall(frame(b"\x13" + field(table)))
    return struct.unpack(">QQQ", read_frame(stream)[5:])


# ---- Time limits.
def idle_at_a_socket_file():
    """Who says nothing, or takes nothing, at a socket file holds a worker no longer than it may."""
    place = os.path.abspath("sock")
    words = [PROGRAM, "serve", "--socket", place, "--workers", "1", "--idle", "1"]
    with subprocess.Popen(words, stdout=subprocess.PIPE) as server:
        server.stdout.readline()

        def connect():
            stream = socket.socket(socket.AF_UNIX)
            stream.settimeout(PATIENCE)
            stream.connect(place)
            return stream

        with connect() as stream:
            count("a large row", told_ok(stream, HELLO, MAKE, write(b"t", b"r", [bytes(500_000)])))
        for name, sent in (("says nothing", HELLO), ("takes nothing", HELLO + OPEN + 100 * MANY)):
            began = time.monotonic()
            with connect() as peer, connect() as honest:
                peer.sendall(sent)
                honest.sendall(HELLO)
                told, waited = read_frame(honest), time.monotonic() - began
                count("%s at a socket file: others are served once its time is over" % name, told == OK and waited > 0.5, waited)
        server.kill()


def answers_that_take_longer():
    """A shell waits for its server's first bytes alone no longer than it is told to."""
    def serve(listener):
        stream = listener.accept()[0]
        stream.settimeout(PATIENCE)
        with stream:
            read_frame(stream)
            stream.sendall(OK)
            read_frame(stream)
            time.sleep(3.5)
            stream.sendall(frame(b"\x83\1"))
            stream.recv(1)

    with socket.create_server(("127.0.0.1", 0)) as listener:
        thread = threading.Thread(target=serve, args=(listener,))
        thread.start()
        ran = run("shell", "--port", str(listener.getsockname()[1]), "--user", "root", "--timeout", "3", stdin=b"splits t\n")
        thread.join()
    count("a later answer may take longer", (ran.returncode, ran.stdout, ran.stderr) == (0, b"end\n", b""), ran)


def limits(*words):
    """The seconds of the limits that a server and a shell set, by these words of each."""
    environment = {"LD_PRELOAD": os.path.abspath("calls.so"), "LOG": os.path.abspath("log")}

    def told():
        with open("log", encoding="ascii") as file:
            return [tuple(line.split()[3:]) for line in file if " limit " in line]

    open("log", "w").close()
    with Server(*words, "--accept", "1", **environment) as server:
        server.connect().close()
        server.ends()
        return set(told())


def of_a_shell():
    open("log", "w").close()
    with Server() as server:
        environment = {**os.environ, "LD_PRELOAD": os.path.abspath("calls.so"), "LOG": os.path.abspath("log")}
        subprocess.run([PROGRAM, "shell", "--port", str(server.port), "--user", "root"], input=b"splits t\n", capture_output=True, env=environment, timeout=60)
    with open("log", encoding="ascii") as file:
        return [tuple(line.split()[3:]) for line in file if " limit " in line]


def defaults():
    """What help says is what documents say, and what is done."""
    with open("%s/../docs/OPERATING.md" % HERE, encoding="utf-8") as file:
        rows = {row.split("`")[1].split(" ")[0]: row.replace(",", "") for row in file if row.startswith("| `--")}
    of_help = re.findall(r"^ +(--[a-z-]+) .*\[default: ([^\]]*)\]", run("serve", "--help").stdout.decode(), re.M)
    wanted = {"--workers": "4", "--compactors": "1", "--accept": "0", "--idle": "600", "--sync": "always", "--checkpoint": "67108864"}
    count("the defaults of a server", dict(of_help) == wanted, of_help)
    for word, default in of_help:
        count("%s: %s is documented" % (word, default), re.search(r"\b%s\b" % default, rows.get(word, "")), rows.get(word))
    shell = dict(re.findall(r"^ +(--[a-z-]+) .*\[default: ([^\]]*)\]", run("shell", "--help").stdout.decode(), re.M))
    count("the defaults of a shell", shell == {"--timeout": "10"}, shell)
    for words, seconds in ((), "600"), (("--idle", "7"), "7"):
        found = limits(*words)
        count("a server's limits by %s" % (words,), found == {("receive", seconds), ("send", seconds)}, found)
    found = limits("--idle", "0")
    count("and none without one", found == set(), found)
    count("a shell's limit, until the first answer", of_a_shell() == [("receive", "10"), ("receive", "0")], of_a_shell())
    with Server("--metrics", "figures", "--accept", "1") as server:
        server.connect().close()
        server.ends()
    with open("figures", encoding="ascii") as file:
        count("as many workers", "tabd_workers 4\n" in file.read())


# ---- What is told beside the answers.
def an_end_is_told_at_once():
    """Behind what is no frame, though the peer goes on; and a server says nothing that it isn't asked for."""
    # (a loaded machine may let one wait for long, but not each time)
    tries = 12
    with Server("--accept", str(tries)) as server:
        good, waited = True, []
        for _ in range(tries):
            with server.connect() as stream:
                stream.sendall(HELLO + b"\0\0\0\0")
                began = time.monotonic()
                good = good and read_exactly(stream, 100) == OK + frame(b"\x81\x10\1")
                waited.append(time.monotonic() - began)
        count("the end behind what is no frame", good and min(waited) < 0.7, waited)
        count("nothing is said of it", server.ends() == 0 and server.process.stderr.read() == b"")


def metrics_of(name):
    with open(name, encoding="ascii") as file:
        return {line.split(" ")[0]: float(line.split(" ")[1]) for line in file if line[0] != "#"}


def refusal(name):
    return 'tabd_refusals_total{refusal="%s"}' % name


def counted():
    """Each refusal by its own name, updates of writes alone, and who came by a socket file."""
    with Server("--metrics", "counted", "--accept", "1") as server:
        lines = b"createtable t versions=3\nmutate t r put f q \\e 1 - ; put f q2 \\e 2 - ; put f q3 \\e 3 -\ncreateuser ann\ngrant ann READ t\nhorizon t 9\n"
        ran = server.shell(lines + b"versions t 4\n" + 2 * b"horizon t 8\n" + 3 * b"versions t 9\n")
        count("lines of a shell", ran.stdout.count(b"ok\n") == 5 and server.ends() == 0, ran)
    told = metrics_of("counted")
    count("refusals have their own names", [told[refusal(name)] for name in ("VersionsRaised", "HorizonLowered", "NoTable")] == [4, 2, 0], told)
    count("updates of writes are counted, and of nothing else", told["tabd_cells_written_total"] == 3, told["tabd_cells_written_total"])
    words = [PROGRAM, "serve", "--socket", os.path.abspath("logged"), "--log", "--workers", "1", "--accept", "2"]
    with subprocess.Popen(words, stdout=subprocess.PIPE, stderr=subprocess.PIPE) as server:
        server.stdout.readline()
        for table in (b"t", b"u"):
            with socket.socket(socket.AF_UNIX) as stream:
                stream.connect("logged")
                count("a table at a socket file", told_ok(stream, HELLO, make(table)))
                time.sleep(0.15)
        server.wait(PATIENCE)
        said = server.stderr.read()
        wanted = rb"[^\n]* user=root peer=socket frames=2 refusals=0 cells=0 seconds=[0-9]\.[0-9]{3} ended=end\n"
        count("who came by a socket file, what they asked, and for how long", re.fullmatch(2 * wanted, said), said)


def progress():
    """A line that says how far one is goes at the end."""
    lines = b"createtable t\n" + b"".join(b"insert t %d f q \\e %s\n" % (row, 100_000 * b"v") for row in range(40)) + b"save large\n"
    count("an image of 4 MB", run("script", stdin=lines).stdout.endswith(b"ok\nok\n"))
    environment = {**os.environ, "LD_PRELOAD": os.path.abspath("calls.so"), "FAST": "1"}
    ran = subprocess.run([PROGRAM, "inspect", "--progress", "large"], capture_output=True, env=environment, timeout=60)
    count("progress is shown, and goes", ran.returncode == 0 and b"reading" in ran.stderr and ran.stderr.endswith(b"\r\x1b[K"), ran.stderr[-200:])


class Resting(threading.Thread):
    """A server at rest, for some seconds, beside all others: how many of its threads go on."""

    def run(self):
        with Server() as server, server.connect() as stream:
            told_ok(stream, HELLO, MAKE, write(b"t", b"r", [b"v"]))
            time.sleep(4)
            # (on a loaded machine it rests later)
            for _ in range(10):
                before = self.switches(server.process.pid)
                time.sleep(2.5)
                after = self.switches(server.process.pid)
                self.busy = sum(after[thread] > before.get(thread, 0) for thread in after)
                self.threads = len(after)
                if self.busy <= 2:
                    break

    @staticmethod
    def switches(process):
        """How often each thread has waited."""
        found = {}
        for thread in os.listdir("/proc/%d/task" % process):
            with open("/proc/%d/task/%s/status" % (process, thread), encoding="ascii") as file:
                found[thread] = int(re.search(r"^voluntary_ctxt_switches:\s+(\d+)", file.read(), re.M)[1])
        return found


resting = Resting()


def at_rest():
    """Of the threads of a server at rest only two look at anything: who hands the history on, and who makes images."""
    resting.join()
    count("a server rests", resting.threads == 8 and resting.busy <= 2, (resting.busy, resting.threads))


class Figures(threading.Thread):
    """A server whose metrics can't be written at first, can then, and can't at the end: it takes ten seconds, beside all others."""

    def run(self):
        with Server("--metrics", "late/figures", "--accept", "1") as server:
            time.sleep(9)
            os.mkdir("late")
            ends = time.monotonic() + PATIENCE
            while not os.path.exists("late/figures") and time.monotonic() < ends:
                time.sleep(0.05)
            os.rename("late", "gone")
            server.connect().close()
            server.ends()
            self.told = server.process.stderr.read().decode()


figures = Figures()


def failures_of_metrics():
    """Each failure is told that comes behind a success, and no part stays."""
    figures.join()
    count("both failures are told", figures.told.count("fault: late/figures: the metrics can't be written: No such file") == 2 == figures.told.count("\n"), figures.told)
    count("and the file between them is whole", os.listdir("gone") == ["figures"], os.listdir("gone"))
    open("on", "w").close()
    environment = {"LD_PRELOAD": os.path.abspath("calls.so"), "RULES": "rename:part:fails", "WHILE": os.path.abspath("on")}
    with Server("--metrics", "part", "--accept", "1", **environment) as server:
        server.connect().close()
        server.ends()
        told = server.process.stderr.read().decode()
    count("metrics that get no name leave no part", not os.path.exists("part.part") and told.count("fault: part: ") == 1, (os.listdir("."), told))


# ---- Descriptors and memory that run out.
def without_descriptors():
    """Where there is no descriptor for a connection the server rests before it tries again, and goes on once there is one."""
    log = os.path.abspath("descriptors")
    with Server(LD_PRELOAD=os.path.abspath("calls.so"), LOG=log) as server, server.connect() as one:
        count("a connection is served", told_ok(one, HELLO))
        used = {int(name) for name in os.listdir("/proc/%d/fd" % server.process.pid)}
        before = resource.prlimit(server.process.pid, resource.RLIMIT_NOFILE)
        # the first one that is free is beyond the limit now
        resource.prlimit(server.process.pid, resource.RLIMIT_NOFILE, (min(set(range(len(used) + 1)) - used), before[1]))

        def refused():
            """When it was told that there is no descriptor, in milliseconds: from and to."""
            with open(log, encoding="ascii") as file:
                return [tuple(map(int, line.split()[:2])) for line in file if " refused " in line]

        def wait_for(many):
            ends = time.monotonic() + PATIENCE
            while len(refused()) < many and time.monotonic() < ends:
                time.sleep(0.02)

        # (the system had kept one for the next connection, which is cut since there is none for its handle)
        server.connect().close()
        wait_for(1)
        with server.connect() as two:
            two.sendall(HELLO + MAKE)
            wait_for(5)
            tries = refused()
            rests = [later[0] - sooner[1] for sooner, later in zip(tries, tries[1:])]
            count("it rests between its tries", len(tries) > 4 and min(rests) >= 40, rests)
            count("who is served goes on", told_ok(one, make(b"u")))
            resource.prlimit(server.process.pid, resource.RLIMIT_NOFILE, before)
            count("and who waited is served once there is a descriptor", read_exactly(two, 2 * len(OK)) == 2 * OK)


def requests_without_memory():
    """Each that is told that memory lacked is counted so, also where there is none for the request itself."""
    server = failing.Server(PROGRAM, ".", failing.library(os.getcwd()), "--metrics", "lacking", "--accept", "2")
    told = []
    with socket.create_connection(("127.0.0.1", server.port), timeout=PATIENCE) as stream:
        count("a table", told_ok(stream, HELLO, MAKE))
        # (somebody else may be who gets none)
        while told.count(frame(b"\x81\x11")) < 5 and len(told) < 200:
            server.control.deny(1, 0)
            stream.sendall(write(b"t", b"r", [bytes(1_000_000)]))
            told.append(read_frame(stream))
        server.control.lift()
    server.process.wait(PATIENCE)
    lacked = told.count(frame(b"\x81\x11"))
    count("memory lacks for a request", lacked == 5 and lacked + told.count(OK) == len(told), told[:3])
    with open("lacking", encoding="ascii") as file:
        text = file.read()
    count("each is counted", 'tabd_refusals_total{refusal="NoMemory"} %d\n' % lacked in text, (lacked, text))
    server.close()


def an_end_without_memory():
    """A history whose end can't be handed on is told, and the server ends all the same."""
    server = failing.Server(PROGRAM, ".", failing.library(os.getcwd()), "--history", "ended", "--accept", "2")
    with socket.create_connection(("127.0.0.1", server.port), timeout=PATIENCE) as stream:
        count("a table", told_ok(stream, HELLO, MAKE))
        server.control.deny(1, 1)
    server.process.wait(PATIENCE)
    said = server.process.stderr.read()
    count("the end of a history that is lost is told", said == b"note: there is no memory for the end of the history, which is lost\n", said)
    server.close()


# ---- Merges and splits.
def beside_writes(stream, table, holds, seconds=PATIENCE):
    """The counts of the table once they are so, or at last, while another table is written to all the while: no compactor is idle."""
    ends = time.monotonic() + seconds
    while True:
        told_ok(stream, write(b"other", b"r", [b"v"]))
        found = status(stream, table)
        if holds(*found) or time.monotonic() > ends:
            return found
        time.sleep(0.01)


def is_merged(_tablets, sources, records):
    return sources == 1 and records == 4100


def refused_to(server, at, stays):
    """Whether a request for memory was refused, at this number from now on, until one is or a merge is over; with `stays` for 20 ms then."""
    server.control.deny(at, stays)
    ends = time.monotonic() + 0.2
    while not server.control.get("memory_failed") and time.monotonic() < ends:
        time.sleep(0.001)
    time.sleep(0.02 * stays)
    return server.control.lift() > 0


def claims_are_given_back():
    """Where a merge lacks memory, at whichever of its requests, alone or for a while, it is made later."""
    server = failing.Server(PROGRAM, ".", failing.library(os.getcwd()), compactors=1)
    with socket.create_connection(("127.0.0.1", server.port), timeout=PATIENCE) as stream:
        count("a server", told_ok(stream, HELLO, make(b"other")))
        at, met, missed, number = 1, 0, 0, 0
        # (where the machine is loaded, a merge may be over before anything is refused)
        while missed < 3 or met <= 3 and number < 100:
            for stays in (0, 1):
                number += 1
                table = b"t%d" % number
                good = told_ok(stream, make(table), *(write(table, b"%d" % row, 1000 * [b"v"]) for row in range(4)), write(table, b"last", 100 * [b"v"]))
                failed = refused_to(server, at, stays)
                found = beside_writes(stream, table, is_merged)
                count("at %d%s: it is merged later" % (at, ", for a while" * stays), good and is_merged(*found), found)
            met, missed = met + failed, 0 if failed else missed + 1
            at = at + 3 if missed < 3 else 1
        count("requests of merges were refused", met > 3, met)
    server.close()


def merged_again():
    """A tablet is merged again and again, though nobody rests."""
    with Server() as server, server.connect() as stream:
        good = told_ok(stream, HELLO, make(b"t"), make(b"other"))
        for number in range(5):
            good = good and told_ok(stream, *(5 * [write(b"t", b"r", [b"v%d" % number] * 1000)]))
            found = beside_writes(stream, b"t", lambda _, sources, records: sources <= 4 and records <= 1000 * (number + 1))
            count("round %d: it is merged" % number, good and found[1] <= 4 and found[2] <= 1000 * (number + 1), found)


def one_split_after_another():
    """Two tables of 22 MiB are each split in two, and not their halves with them, however many compactors look for what is due."""
    value = 500_000 * b"v"
    with Server("--compactors", "4") as server, server.connect() as stream:
        good = told_ok(stream, HELLO, make(b"other"))
        for table in (b"t", b"u"):
            good = good and told_ok(stream, make(table))
            for first in (0, 1):
                good = good and told_ok(stream, *(write(table, b"%02d" % row, [value]) for row in range(first, 44, 2)), frame(b"\x0f" + field(table)))
            beside_writes(stream, table, lambda tablets, sources, _: tablets == 2 == sources)
            found = beside_writes(stream, table, lambda tablets, sources, _: tablets > 2, 0.3)
            count("22 MiB of %s are two tablets" % table.decode(), good and found[:2] == (2, 2), found)


def many_tablets():
    """Of more tablets than are looked at in one piece each is one source, once nobody writes."""
    rows = [b"%02d" % row for row in range(40)]
    with Server() as server, server.connect() as stream:
        good = told_ok(stream, HELLO, MAKE, *(write(b"t", row, [b"v"]) for row in rows), *(frame(b"\x11" + field(b"t") + field(row)) for row in rows[:-1]))
        good = good and told_ok(stream, frame(b"\x0f" + field(b"t")), *(write(b"t", row, [b"w"]) for row in rows), frame(b"\x0f" + field(b"t")))
        ends = time.monotonic() + PATIENCE
        while status(stream, b"t") != (40, 40, 40) and time.monotonic() < ends:
            time.sleep(0.1)
        count("forty tablets are one source each", good and status(stream, b"t") == (40, 40, 40), status(stream, b"t"))


def build():
    subprocess.run([os.environ.get("CC", "cc"), "-shared", "-fPIC", "-O1", "-o", "calls.so", "%s/calls.c" % HERE, "-ldl"], check=True)
    if is_run("failures_of_metrics"):
        figures.start()
    if is_run("at_rest"):
        resting.start()


if __name__ == "__main__":
    run_parts(build, idle_at_a_socket_file, answers_that_take_longer, defaults, an_end_is_told_at_once, counted, progress, without_descriptors,
              requests_without_memory, an_end_without_memory, claims_are_given_back, merged_again, one_split_after_another, many_tablets, at_rest,
              failures_of_metrics)
