"""What tests/history.sh tests. Its last line counts what passed and failed."""

import os
import re
import stat
import threading
import time

from serving import HELLO, MAKE, OK, PATIENCE, Server, count, frame, free_port, read_exactly, read_frame, run, run_parts

# All that changes something, by several users, some of it refused, with what only asks between.
LINES = rb"""createtable t versions=2
createtable s time=server
createuser ann
createuser bob
setauths ann a,b&c,\x2c
setauths bob \0
grant ann READ t
grant ann WRITE t
grant bob CREATE_TABLE
grant bob DROP_USER
revoke bob DROP_USER
constraints t keysize,numeric
constraints t \0
insert t r1 f q \e v1
insert t r1 f q a v2 7
insert t \x00\xff f:g q,r "x"|a \e -9
insert t r4 f q "x\\"|a v
mutate t r2 put f q a|b 1 - ; put f q \e 2 5 ; del f q2 \e -
mutate t r2
insert t r2 f q a& broken
insert s r f q \e v
insert s r f q \e v 5
delete t r1 f q \e 3
scan t \0
scan t a
open t \0 [r1 (r3 f:q,g
next 0 5
close 0
addsplit t r1
addsplit t r1
splits t
splitsize t r2 0
flush t
compact t partial
compact t full
versions t 3
versions t 1
horizon t 4
horizon t 1
horizon s 9
insert t r9 f q \e late 3
begin t r1 full
rights t
status t
createtable gone
droptable gone
droptable gone
dropuser nobody
rotate
insert t r3 f q b v3
insert s r f q \e v4
"""
ASKED = rb"""scan t \0
scan s \0
rights t
splits t
splits s
"""
OF_ANN = rb"""scan t a,b&c
scan t \x2c
scan s \0
rights t
"""


def lines_of(path):
    with open(path, "rb") as file:
        return file.read().split(b"\n")[:-1]


def all_is_in_it():
    with Server("--history", "log", "--accept", "3") as server:
        ran = server.shell(LINES)
        count("the lines are answered", ran.returncode == 0, ran)
        told, of_ann = server.shell(ASKED).stdout, server.shell(OF_ANN, user="ann").stdout
        count("it ends", server.ends() == 0, server.process.returncode)
        count("without a word", server.process.stderr.read() == b"")
    count("for its owner alone", stat.S_IMODE(os.stat("log").st_mode) == 0o600, oct(os.stat("log").st_mode))
    log = lines_of("log")
    replies = [line for line in ran.stdout.split(b"\n") if line.startswith(b"refused") and b"NoSession" not in line]  # those are no events
    logged = [line[2:] for line in log if line.startswith(b"# refused")]
    count("each refusal is in it, in order", replies == logged[: len(replies)], (replies, logged))
    count("who scanned, under which authorizations", [line for line in log if b"# open t" in line][:3] == [
        rb"# open t \0 \0 \0 \0", rb"# open t a \0 \0 \0", rb"# open t \0 [r1 (r3 f:q,g"], [line for line in log if b"open" in line])
    last = max((at for at, line in enumerate(log) if line == b"as ann"), default=-1)
    count("the last that was asked, too", log[last + 1 : last + 2] == [b"# rights t"], log[-9:])
    count("and who it was", any(one == b"as ann" and b"# open t" in two for one, two in zip(log, log[1:])))
    times = [int(line[3:]) for line in log if line.startswith(b"at ")]
    count("the clock doesn't go back", times == sorted(times))
    count("an entry is four lines", len(log) == 4 * len(times), (len(log), len(times)))
    count("a client's rotation is one of them", log.count(b"rotate") >= 2)
    with open("log", "rb") as file:
        text = file.read()
    ran = run("script", stdin=text + b"as root\n" + ASKED + b"as ann\n" + OF_ANN)
    count("a script's run of it is all done", not re.search(rb"^(?!ok$)", ran.stdout[: -len(told + of_ann)].rstrip(b"\n"), re.MULTILINE), ran.stdout[:400])
    count("and answers as the server did", ran.stdout.endswith(told + of_ann), (ran.stdout[-400:], told, of_ann))
    ran = run("script", "--explain", stdin=text)
    count("no line of it is a fault", b"fault" not in ran.stdout + ran.stderr, ran.stderr)


def it_is_appended_to():
    with open("log", "rb") as file:
        before = file.read()
    with Server("--history", "log", "--accept", "1") as server:
        server.shell(b"createuser eve\n")
        count("it ends", server.ends() == 0)
    with open("log", "rb") as file:
        after = file.read()
    count("what stood in the file stays", after.startswith(before) and b"\ncreateuser eve\n# ok\n" in after[len(before):], after[len(before):])


def nothing_is_lost_beside_others():
    """As many entries as were asked for, whoever rotates between them, and none of them twice."""
    with Server("--history", "many", "--accept", "5", "--workers", "5") as server:
        server.shell(b"createtable t\n")
        text = [b"".join(b"insert t %d-%d f q \\e v\n%s" % (each, row, b"rotate\n" * (row % 50 == each)) for row in range(400)) for each in range(4)]
        asking = [threading.Thread(target=server.shell, args=(each,)) for each in text]
        for thread in asking:
            thread.start()
        for thread in asking:
            thread.join()
        count("it ends", server.ends() == 0)
    rows = sorted(line.split()[2] for line in lines_of("many") if line.startswith(b"mutate t "))
    count("each write is in it once", rows == sorted(b"%d-%d" % (each, row) for each in range(4) for row in range(400)), len(rows))


def whoever_is_killed():
    """What was answered is in the file before long, when a signal ends the server; and so is all before a rotation that was answered."""
    with Server("--history", "killed") as server:
        for name in (b"eve", b"adam"):
            server.shell(b"createuser %s\n" % name)
            count("what was answered a moment ago", waits_for("killed", b"\ncreateuser %s\n# ok\n" % name), reading("killed"))
        server.process.terminate()
        server.process.wait(PATIENCE)
    good = 0
    for each in range(20):
        with Server("--history", "rotated%d" % each) as server, server.connect() as stream:
            stream.sendall(HELLO + MAKE + frame(b"\x17"))
            told = [read_frame(stream) for _ in range(3)]
            server.process.kill()
            good += told == 3 * [OK] and b"\ncreatetable t time=any versions=1\n# ok\n" in reading("rotated%d" % each)
    count("what stood before a rotation that was answered", good == 20, good)


def an_idle_server():
    """Nothing is added to a history to which nobody adds."""
    with Server("--history", "idle") as server:
        server.shell(b"createuser eve\n")
        count("what was asked is in it", waits_for("idle", b"\nrotate\n"), reading("idle"))
        time.sleep(0.3)
        before = reading("idle")
        time.sleep(1.3)
        count("an idle server adds nothing", before == reading("idle") and before.count(b"\nrotate\n") == 1, reading("idle"))


def reading(path):
    with open(path, "rb") as file:
        return file.read()


def waits_for(path, text):
    """Whether the file has this before long."""
    ends = time.monotonic() + PATIENCE
    while text not in reading(path) and time.monotonic() < ends:
        time.sleep(0.05)
    return text in reading(path)


def whose_file():
    """A pipe and a folder are refused before the server listens, and whose file it is, where that may be wrong, is told."""
    os.mkfifo("pipe")
    os.mkdir("folder")
    for name in ("pipe", "folder"):
        ran = run("serve", "--port", str(free_port()), "--history", name)
        count("a %s is refused" % name, (ran.returncode, ran.stdout, ran.stderr) == (1, b"", b"fault: %s: it is neither a file nor a device\n" % name.encode()), ran)
    for mode, told in ((0o600, b""), (0o400 | 0o200, b""), (0o644, b"note: open: others may use it (mode 644)\n"), (0o660, b"note: open: others may use it (mode 660)\n")):
        with open("open", "wb"):
            os.chmod("open", mode)
        with Server("--history", "open", "--accept", "1") as server:
            server.connect().close()
            count("a file of mode %o" % mode, (server.ends(), server.process.stderr.read()) == (0, told))
    if os.geteuid() == 0:
        os.chmod("open", 0o600)
        os.chown("open", 65534, -1)
        with Server("--history", "open", "--accept", "1") as server:
            server.connect().close()
            count("another one's file", (server.ends(), server.process.stderr.read()) == (0, b"note: open: it belongs to another user\n"))
    with Server("--history", "/dev/null", "--accept", "1") as server:
        server.connect().close()
        count("a device", (server.ends(), server.process.stderr.read()) == (0, b""))


def where_it_cannot_be_written():
    ran = run("serve", "--port", str(free_port()), "--history", "none/such")
    count("no folder", ran.returncode == 1 and ran.stdout == b"" and
          ran.stderr == b"fault: none/such: No such file or directory (os error 2)\n", ran)
    with Server("--history", "/dev/full", "--accept", "1") as server:
        ran = server.shell(b"createuser eve\nscan t \\0\n")
        count("requests are answered", ran.stdout == b"ok\nrefused 2 NoTable t\n", ran)
        count("it ends", server.ends() == 0)
        said = server.process.stderr.read()
        count("what isn't in it is told", said == b"fault: /dev/full: the history can't be written\n", said)
    with Server("--history", "/dev/full") as server:
        for each in range(3):
            server.shell(b"createuser eve%d\n" % each)
            time.sleep(0.7)
        with server.connect() as stream:
            stream.sendall(HELLO + frame(b"\x17"))
            told = [read_exactly(stream, 5), read_exactly(stream, 1)]
        count("a rotation whose part isn't in it isn't answered", told == [b"", b""], told)
        server.process.kill()
        said = server.process.stderr.read()
        count("it's told once", said == b"fault: /dev/full: the history can't be written\n", said)


if __name__ == "__main__":
    run_parts(all_is_in_it, it_is_appended_to, nothing_is_lost_beside_others, whoever_is_killed, an_idle_server, whose_file, where_it_cannot_be_written)
