"""Reads and writes that fail, each in turn until one more doesn't come, with tests/failing.c preloaded: of a script's standard streams, of a
server's and a shell's connection, of an image that is saved or loaded. And each of them that passes on one byte alone, which changes nothing.

Usage: broken.py PROGRAM"""
import errno
import os
import select
import socket
import sys
import tempfile
from pathlib import Path

import strict
from failing import DISK, OTHERS, PATIENCE, READS, SOCKETS, WRITES, Control, Counted, Script, Server, field, frame_of, library, start

PROGRAM = sys.argv[1]
counted = Counted()
ALWAYS = (0, 1 << 20)  # all descriptors
LINES = b"""createtable t versions=2
# nothing
insert t b f q \\e 1 5
insert t d f q \\e 2 5
bogus
scan t \\0
addsplit t c
open t \\0
next 0 1
insert t e f q \\e %s 5
many 0 [a [b [b \\0
scan t \\0
rights t
flush t
status t
close 0
""" % (b"v" * 150_000)


def pieces(text, many):
    """The text in pieces, some of which end inside a line."""
    cuts = sorted({len(text) * at // many for at in range(many + 1)} | {at + 1 for at in range(len(text)) if text[at : at + 1] == b"\n"})
    return [text[low:high] for low, high in zip(cuts, cuts[1:])]


PIECES = pieces(LINES, 9)


class Run:
    """A script or a shell that is fed piece by piece, each when the answers to the one before have come."""

    def __init__(self, words, folder, preloaded, **control):
        self.control = Control(folder)
        self.control.set(least=ALWAYS[0], most=ALWAYS[1], **control)
        self.process = start(PROGRAM, words, folder, preloaded, self.control)
        self.out, self.fed = b"", 0

    def feed(self, wanted):
        """Feeds the pieces; `wanted` tells of so many pieces what is answered."""
        for count, piece in enumerate(PIECES, 1):
            try:
                self.process.stdin.write(piece)
            except BrokenPipeError:
                break
            self.fed = count
            while len(self.out) < len(wanted[count]):
                if not select.select([self.process.stdout], [], [], PATIENCE)[0]:
                    raise TimeoutError("nothing behind %d bytes" % len(self.out))
                more = os.read(self.process.stdout.fileno(), 1 << 16)
                if not more:
                    break
                self.out += more
            else:
                continue
            break
        rest, self.err = self.process.communicate(timeout=PATIENCE)
        self.out += rest
        return self.process.returncode

    def failed(self):
        return self.control.lift()


def answers(words, folder, preloaded):
    """What a script or a shell answers to each number of pieces."""
    wanted = [b""]
    for count in range(1, len(PIECES) + 1):
        text = b"".join(PIECES[:count])
        process = start(PROGRAM, words(), folder, preloaded, Control(folder))
        wanted.append(process.communicate(text[: text.rfind(b"\n") + 1], timeout=PATIENCE)[0])
    return wanted


def streams(folder, preloaded):
    """A script's input and output."""
    wanted = answers(lambda: ["script"], folder, preloaded)
    for name, which, why, side in (("reads", READS, errno.EIO, b"fault: the input can't be read: "), ("writes", WRITES, errno.EIO, b"fault: the output can't be written: "),
                                   ("writes to a full disk", WRITES, errno.ENOSPC, b"fault: the output can't be written: "), ("writes that nobody reads", WRITES, errno.EPIPE, b"fault: ")):
        at, failed, wrong = 0, True, []
        while failed:
            at += 1
            run = Run(["script"], folder, preloaded, which=which | OTHERS, how=why, calls=at)
            run.control.set(least=which - 1, most=which - 1)  # standard input or output
            status = run.feed(wanted)
            failed = run.failed()
            if failed:
                good = status == 1 and run.err.startswith(side) and run.err.count(b"\n") == 1 and wanted[-1].startswith(run.out)
                # what ended before the read is answered, line by line; a piece that is answered by nothing may be read with the next one
                good = good and (which == WRITES or run.out in wanted)
            else:
                good = status == 0 and run.err == b"" and run.out == wanted[-1]
            if not good:
                wrong.append((at, failed, status, run.err, run.out[-100:], len(run.out)))
        counted.tell(f"{at - 1} {name} of a script that fail", not wrong and at > 8, wrong[:1])
        if why != errno.EIO:
            continue
        run = Run(["script"], folder, preloaded, which=which | OTHERS, how=errno.EINTR, calls=3)
        run.control.set(least=which - 1, most=which - 1)
        status = run.feed(wanted)
        counted.tell(f"{name} of a script, one of which is interrupted", (status, run.err, run.out, run.failed()) == (0, b"", wanted[-1], 1), (status, run.err))
    for name, which in (("read", READS), ("write", WRITES)):
        run = Run(["script"], folder, preloaded, which=which | OTHERS, how=0, calls=1, calls_stay=1)
        run.control.set(least=which - 1, most=which - 1)
        status = run.feed(wanted)
        counted.tell(f"a script of which each {name} takes one byte", (status, run.err, run.out) == (0, b"", wanted[-1]) and run.failed() > 1000, (status, run.err))


# ---- A server's connection, and a shell's.
def frames_with(length):
    """The frames of a connection, one of which has a value of this length."""
    return [field(b"\1" + field(b"root")), *map(frame_of, (
        "createtable t", "insert t b f q \\e 1 5", "insert t d f q \\e 2 5", "open t \\0", "next 0 1", "many 0 [a [b [b \\0", "splits t",
        "insert t e f q \\e %s 5" % ("v" * length), "open t \\0", "next 1 9", "rights t", "flush t", "status t", "close 0", "droptable t"))]


def converse(server, frames):
    """Sends each frame when the one before is answered, the long one in two pieces. Gives what was told, and whether all was sent."""
    link = socket.create_connection(("127.0.0.1", server.port), timeout=PATIENCE)
    link.setsockopt(socket.IPPROTO_TCP, socket.TCP_NODELAY, 1)
    told, sent = b"", b""
    try:
        for count, text in enumerate(frames, 1):
            middle = len(text) // 2
            link.sendall(text[:middle])
            link.sendall(text[middle:])
            sent += text
            while strict.judge(sent, told, False) < count:
                more = link.recv(1 << 16)
                if not more:
                    return told, False
                told += more
        link.shutdown(socket.SHUT_WR)
        return told, link.recv(1) == b""
    except ConnectionError:
        return told, False
    finally:
        link.close()


def found_behind(server):
    """What the next connection is told of what took effect; then it takes the table away."""
    other = server.connect()
    said = other.ask("status t", "splits t", "rights t", "scan t \\0")
    other.ask("droptable t")
    other.close()
    return said


def connections(folder, preloaded):
    server = Server(PROGRAM, folder, preloaded, workers=2)
    frames = frames_with(150_000)
    # what the next connection finds behind so many of the frames
    states = []
    for count in range(len(frames) + 1):
        converse(server, frames[:count])
        states.append(found_behind(server))
    whole, _ = converse(server, frames)
    counted.tell("a connection", strict.judge(b"".join(frames), whole) == len(frames))
    for name, which, why in (("reads", READS, errno.ECONNRESET), ("writes", WRITES, errno.EPIPE), ("writes that are reset", WRITES, errno.ECONNRESET), ("reads out of time", READS, errno.ETIMEDOUT)):
        at, failed, wrong = 0, True, []
        while failed:
            at += 1
            server.control.set(least=ALWAYS[0], most=ALWAYS[1], which=which | SOCKETS, how=why, calls_failed=0, calls_stay=0, calls=at)
            told, is_whole = converse(server, frames)
            failed = server.control.lift()
            # the end of what is sent is read too: where that fails, all was told
            if not whole.startswith(told) or not (is_whole or failed) or is_whole and told != whole or server.process.poll() is not None:
                wrong.append((at, failed, len(told), is_whole))
            # the next one finds what was answered; where a write failed the last request may have been done too
            done, found = strict.judge(b"".join(frames), told, False), found_behind(server)
            if found not in states[done : done + 1 + (which == WRITES)]:
                wrong.append((at, failed, done, found))
        counted.tell(f"{at - 1} {name} of a server that fail", not wrong and at > 8, wrong[:1])
    few = frames_with(1000)
    short, _ = converse(server, few)
    for name, which in (("read", READS), ("write", WRITES)):
        server.control.set(which=which | SOCKETS, how=0, calls_failed=0, calls_stay=1, calls=1)
        told, is_whole = converse(server, few)
        counted.tell(f"a connection of which each {name} takes one byte", is_whole and told == short and server.control.lift() > 200)
    server.close()
    counted.tell("nothing is said of it", server.process.returncode == -9, server.process.returncode)


def shells(folder, preloaded):
    """A shell whose connection fails."""
    server = Server(PROGRAM, folder, preloaded, workers=2)

    def words():
        other = server.connect()
        other.ask("droptable t")
        other.close()
        return ["shell", "--port", str(server.port), "--user", "root"]

    wanted = answers(words, folder, preloaded)
    for name, which, why in (("reads", READS, errno.ECONNRESET), ("writes", WRITES, errno.EPIPE)):
        at, failed, wrong = 0, True, []
        while failed:
            at += 1
            run = Run(words(), folder, preloaded, which=which | SOCKETS, how=why, calls=at)
            status = run.feed(wanted)
            failed = run.failed()
            good = wanted[-1].startswith(run.out) and (status, run.err.count(b"\n"), run.err[:7]) == ((1, 1, b"fault: ") if failed else (0, 0, b""))
            if not good or not failed and run.out != wanted[-1]:
                wrong.append((at, failed, status, run.err, run.out[-100:]))
        counted.tell(f"{at - 1} {name} of a shell that fail", not wrong and at > 8, wrong[:1])
    server.close()


# ---- Files.
def files(folder, preloaded):
    """Each step of a save and of a load that fails."""
    made = ["createtable t", "insert t b f q \\e 1 5"]
    image = Path(folder, "image")
    script = Script(PROGRAM, folder, preloaded)
    script.ask(*made, "save image")
    old = image.read_bytes()
    script.ask("insert t c f q \\e %s 5" % ("v" * 200_000), "save new")
    new = Path(folder, "new").read_bytes()
    for kinds, name in ((WRITES | OTHERS, "writes"), (DISK, "names and syncs"), (READS | OTHERS, "reads")):
        at, failed, wrong = 0, True, []
        while failed and at < 100:
            at += 1
            image.write_bytes(old)
            script.control.set(least=3, most=1 << 20, which=kinds, how=errno.EIO, calls_failed=0, calls=at)
            said = script.ask("save image")[0]
            failed = script.control.lift()
            kept = image.read_bytes()
            good = said in (b"ok\n", b"fault save io\n") and (failed or said == b"ok\n") and kept in (old, new) and (said != b"ok\n" or kept == new)
            if not good or list(Path(folder).glob("*.part")) or script.ask("status t") != [b"tablets 1 sources 0 records 2\n"]:
                wrong.append((at, failed, said, kept == old, kept == new, list(Path(folder).glob("*.part"))))
        counted.tell(f"{at - 1} {name} of a save that fail", not wrong and (at > 2 or kinds & READS), wrong[:1])
    image.write_bytes(old)
    Path(folder, "image.sha256").unlink()
    for kinds, name in ((READS | OTHERS, "reads"), (DISK, "names")):
        at, failed, wrong = 0, True, []
        while failed and at < 100:
            at += 1
            script.ask("load new")
            script.control.set(least=3, most=1 << 20, which=kinds, how=errno.EIO, calls_failed=0, calls=at)
            said = script.ask("load image")[0]
            failed = script.control.lift()
            records = 2 if failed else 1
            if said != (b"fault load io\n" if failed else b"ok\n") or script.ask("status t") != [b"tablets 1 sources 1 records %d\n" % records]:
                wrong.append((at, failed, said))
            # the command line's image
            control = Control(folder)
            control.set(least=3, most=1 << 20, which=kinds, how=errno.EIO, calls=at)
            process = start(PROGRAM, ["script", "--image", "new"], folder, preloaded, control)
            out, err = process.communicate(b"status t\n", timeout=PATIENCE)
            if control.lift():
                reason = err.startswith(b"fault: new: the image can't be read: ") and err.endswith(b"Input/output error (os error 5)\n")
                good = (process.returncode, out, err.count(b"\n"), reason) == (1, b"", 1, True)
            else:
                good = (process.returncode, out, err) == (0, b"tablets 1 sources 1 records 2\n", b"")
            if not good:
                wrong.append((at, process.returncode, out, err))
        counted.tell(f"{at - 1} {name} of a load that fail", not wrong and at > 1, wrong[:1])
    script.close()


with tempfile.TemporaryDirectory(dir="/dev/shm" if os.access("/dev/shm", os.W_OK) else None) as work:
    made = library(work)
    for part in (streams, connections, shells, files):
        part(work, made)
counted.end()
