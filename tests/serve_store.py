"""Servers with --store FOLDER.

A client makes a table and writes rows. The server is killed before, in and behind each call of the system that changes a file or a folder, in
turn, or that call fails; then a server starts anew. All rows that were answered are there then, what is there is a beginning of what was asked,
and the next start finds the same. So it is where the start behind a kill is killed too; where the server is killed at random times beneath eight
writers and a reader, who has seen nothing that is lost; and where the disk is full. A journal with a byte that is turned is refused by its name, or
cut where the byte stands in its last batch, or in the sum before that. Two servers don't have one folder at once.
Usage: serve_store.py PROGRAM [SECONDS]"""

import os
import random
import re
import resource
import select
import shutil
import signal
import socket
import struct
import subprocess
import sys
import threading
import time

from serving import HELLO, MAKE, OK, PATIENCE, PROGRAM, count, field, frame, free_port, read_exactly, read_frame, run_parts

SECONDS = float(sys.argv[2]) if len(sys.argv) > 2 else 20
HERE = os.path.dirname(os.path.abspath(__file__))
ROWS = 20
CHUNK = 4
STORE = "store"
ASKED = ["r%02d" % number for number in range(ROWS)]


def environment(at=0, how="before"):
    if not at:
        return {}
    if os.path.exists("killed"):
        os.remove("killed")
    return {"LD_PRELOAD": os.path.abspath("killing.so"), "KILL_AT": str(at), "HOW": how, "KILLED": os.path.abspath("killed")}


def was_met():
    return os.path.exists("killed")


class Server:
    """A server over the folder. It may end before it listens."""

    def __init__(self, *words, env=(), before=None):
        for _ in range(3):
            self.port = free_port()
            self.process = subprocess.Popen(
                [PROGRAM, "serve", "--port", str(self.port), "--store", STORE, *words], stdin=subprocess.DEVNULL, stdout=subprocess.PIPE,
                stderr=subprocess.PIPE, env={**os.environ, **dict(env)}, preexec_fn=before)
            select.select([self.process.stdout], [], [], PATIENCE)
            self.said = self.process.stdout.readline()
            if self.said or self.process.wait(PATIENCE) != 1:
                break
            self.told = self.process.stderr.read().decode()
            if "port" not in self.told:
                break

    def connect(self):
        stream = socket.create_connection(("127.0.0.1", self.port), timeout=PATIENCE)
        stream.setsockopt(socket.IPPROTO_TCP, socket.TCP_NODELAY, 1)
        stream.sendall(HELLO)
        if read_frame(stream) != OK:
            raise ConnectionError
        return stream

    def kill(self, how=signal.SIGKILL):
        """Kills it, and gives what it said on standard error."""
        self.process.send_signal(how)
        return self.end()

    def end(self, patience=PATIENCE):
        """Waits for its end, for so many seconds, and gives what it said on standard error."""
        try:
            self.process.wait(patience)
        except subprocess.TimeoutExpired:
            self.process.kill()
        _, told = self.process.communicate()
        return told.decode() or getattr(self, "told", "")

    def __enter__(self):
        return self

    def __exit__(self, *_):
        if self.process.poll() is None:
            self.process.kill()
        self.process.communicate()


def write(row, value=b"v" * 20):
    update = b"\x01" + field(b"f") + field(b"q") + field(b"") + b"\x00" + field(value)
    return frame(b"\x0a" + field(b"t") + field(row.encode()) + struct.pack(">I", 1) + update)


def scan(lines="scan t \\0\n"):
    """What a script over the folder is answered, and what it says on standard error."""
    done = subprocess.run([PROGRAM, "script", "--store", STORE], input=lines, capture_output=True, text=True, timeout=60)
    return done.stdout, done.stderr


def rows_of_script():
    """The rows that the folder keeps, by a script, and what it says; none where it isn't taken up."""
    out, told = scan()
    return None if "fault:" in told else named(out), told


def named(out):
    """The rows of these cells."""
    return [line.split()[0] for line in out.splitlines() if re.match("[rsw][a-h]?[0-9]", line)]


def rows_of_server():
    """The rows that the folder keeps, by a server, which is killed then."""
    with Server() as server:
        if not server.said:
            return None, server.end()
        done = subprocess.run([PROGRAM, "shell", "--port", str(server.port), "--user", "root"], input="scan t \\0\n", capture_output=True, text=True, timeout=60)
        return named(done.stdout), server.kill()


def write_rows(server, rows=None):
    """Asks for the table and the rows, some at a time, each time once the last ones are answered, and gives how many rows were answered. Of rows
    that are named the table is there."""
    answered = 1 if rows else 0
    if not server.said:
        return 0
    try:
        with server.connect() as stream:
            asks = [write(row) for row in rows] if rows else [MAKE] + [write(row) for row in ASKED]
            for at in range(0, len(asks), CHUNK):
                chunk = asks[at:at + CHUNK]
                stream.sendall(b"".join(chunk))
                for _ in chunk:
                    if read_frame(stream) != OK:
                        raise ConnectionError
                    answered += 1
    except OSError:
        pass
    return max(0, answered - 1)


def is_kept(answered, asked=None):
    """Whether the folder keeps a beginning of what was asked, with all that was answered, and keeps it still; what was cut off is gone then, and
    nothing is replayed behind a script's end."""
    asked = asked or ASKED
    first, _ = rows_of_server()
    again, more = rows_of_script()
    last, told = rows_of_server()
    fine = first is not None and first == asked[:len(first)] and len(first) >= answered and first == again == last
    return fine and "cut off" not in more and told == ""


def copied(name):
    shutil.rmtree(name, ignore_errors=True)
    if os.path.exists(STORE):
        shutil.copytree(STORE, name)


def put_back(name):
    shutil.rmtree(STORE, ignore_errors=True)
    if os.path.exists(name):
        shutil.copytree(name, STORE)


def run_once(at, how):
    """A server that is killed at this call, or whose call fails: how many rows were answered, its status, and what it said."""
    shutil.rmtree(STORE, ignore_errors=True)
    with Server("--workers", "1", env=environment(at, how)) as server:
        answered = write_rows(server)
        if not was_met():
            server.kill(signal.SIGTERM)
            return answered, 0, ""
        # what can't be removed is removed another time
        told = server.end(1 if how == "fails" and answered == ROWS else PATIENCE)
        return answered, server.process.returncode, told


def kills():
    """A kill at each call of a run, and at each call of the start behind some of them."""
    for how in ("before", "half", "behind", "fails"):
        at = 1
        while True:
            answered, status, told = run_once(at, how)
            if not was_met():
                count("%s %d: no call is met, and all is answered" % (how, at), answered == ROWS)
                break
            ended = status == 1 and told.count("\n") == 1 and told.startswith("fault: ") if how == "fails" else status == -signal.SIGKILL
            count("%s %d: it ends so" % (how, at), ended or (how == "fails" and answered == ROWS), (status, told))
            copied("lost")
            count("%s %d: what was answered is kept" % (how, at), is_kept(answered), answered)
            if at % 9 == 1 and how != "fails":
                starts(how, at, answered)
            at += 1


def short_writes():
    """Each write takes half of its bytes, in turn, and the rest is written behind it."""
    at = 1
    while True:
        shutil.rmtree(STORE, ignore_errors=True)
        with Server("--workers", "1", env=environment(at, "short")) as server:
            answered = write_rows(server)
            met = was_met()
            server.kill()
        count("short %d: all is answered, and kept" % at, answered == ROWS and rows_of_script()[0] == ASKED, answered)
        if not met:
            return
        at += 1


MORE = ["s%02d" % number for number in range(12)]


def newest():
    """The greatest number of an image."""
    names = os.listdir(STORE) if os.path.exists(STORE) else []
    return max([int(name.split(".")[1]) for name in names if re.fullmatch("image[.][0-9]+", name)], default=-1)


def waits(what):
    """Whether that comes about in time."""
    ends = time.monotonic() + PATIENCE
    while not what() and time.monotonic() < ends:
        time.sleep(0.01)
    return what()


def waits_for_image(least, patience=PATIENCE):
    """Whether there is an image of this number or a greater one within so many seconds."""
    ends = time.monotonic() + patience
    while newest() < least and time.monotonic() < ends:
        time.sleep(0.02)
    return newest() >= least


def run_longer(at, how):
    """A server makes an image while it serves, and goes on behind it."""
    shutil.rmtree(STORE, ignore_errors=True)
    with Server("--workers", "1", "--checkpoint", "600", env=environment(at, how)) as server:
        answered = write_rows(server)
        ends = time.monotonic() + PATIENCE
        while server.process.poll() is None and newest() < 1 and time.monotonic() < ends:
            time.sleep(0.01)
        if answered == ROWS and server.process.poll() is None:
            answered += write_rows(server, MORE)
        if not was_met():
            server.kill(signal.SIGTERM)
            return answered, newest()
        server.end(1 if how == "fails" and answered == ROWS + len(MORE) else PATIENCE)
        return answered, newest()


def checkpoints():
    """An image is made in the place of a long journal, while requests are answered, and kills meanwhile lose nothing."""
    for how in ("half", "fails"):
        at = 1
        while True:
            answered, number = run_longer(at, how)
            if not was_met():
                count("%s %d: all is answered, and an image was made" % (how, at), answered == ROWS + len(MORE) and number >= 1, (answered, number))
                count("%s %d: all is kept" % (how, at), is_kept(answered, ASKED + MORE))
                break
            count("%s %d beside an image: what was answered is kept" % (how, at), is_kept(answered, ASKED + MORE), answered)
            at += 1


def starts(how, at, answered):
    again = 1
    while True:
        put_back("lost")
        with Server(env=environment(again, how)) as server:
            met = was_met()
            server.kill()
        count("%s %d, and %d of the start: what was answered is kept" % (how, at, again), is_kept(answered))
        if not met:
            return
        again += 1


def killed_folder(*words, rows=ROWS):
    """A folder whose server was killed once all was answered."""
    shutil.rmtree(STORE, ignore_errors=True)
    with Server(*words) as server:
        answered = write_rows(server)
        server.kill()
    return answered == rows


def turned():
    """Each byte of a journal turned, in turn, and each of its beginnings."""
    count("all is answered", killed_folder())
    journal = [name for name in os.listdir(STORE) if name.startswith("journal.")][0]
    copied("whole")
    with open("%s/%s" % (STORE, journal), "rb") as file:
        bytes_are = file.read()
    fine, cut, refused = True, 0, 0
    for place in range(0, len(bytes_are), 11):
        put_back("whole")
        with open("%s/%s" % (STORE, journal), "wb") as file:
            file.write(bytes_are[:place] + bytes([bytes_are[place] ^ 0x40]) + bytes_are[place + 1:])
        found, told = rows_of_script()
        if found is None:
            refused += 1
            fine = fine and "%s is damaged" % journal in told
        else:
            cut += 1
            fine = fine and "are cut off" in told and found == ASKED[:len(found)] and len(found) >= ROWS - 2 * CHUNK
    count("a journal with a byte that is turned is refused or cut", fine and cut > 0 and refused > 0, (cut, refused))
    put_back("whole")
    with open("%s/%s" % (STORE, journal), "r+b") as file:
        file.seek(70)
        file.write(b"\xff")
    before = sizes()
    with Server() as server:
        told = server.end()
        count("a server refuses it too", server.process.returncode == 1 and told.startswith("fault: %s: %s is damaged at " % (STORE, journal)), told)
    count("and changes nothing", before == sizes())
    fine = True
    for length in range(0, len(bytes_are), 9):
        put_back("whole")
        os.truncate("%s/%s" % (STORE, journal), length)
        found, told = rows_of_script()
        fine = fine and (told == "fault: %s: %s has no header\n" % (STORE, journal) if length < 48 else found == ASKED[:len(found)])
    count("each beginning of a journal keeps a beginning of its rows, and one without a header is refused", fine)


def sizes():
    return sorted((name, os.stat("%s/%s" % (STORE, name)).st_size) for name in os.listdir(STORE))


def followed():
    """A journal that is cut is refused where the next one was begun behind it, and stays; where that one has no header its end is cut off, and told."""
    count("all is answered", killed_folder())
    with open(STORE + "/journal.0", "r+b") as file:
        header = file.read(48)
        file.seek(-3, os.SEEK_END)
        file.truncate()
    with open(STORE + "/journal.1", "wb") as file:
        file.write(header)
    before = sizes()
    with Server() as server:
        told = server.end()
        count("a server refuses it", server.process.returncode == 1 and told == "fault: %s: journal.0 is cut, and isn't the last one\n" % STORE, told)
    count("and leaves it", before == sizes())
    os.truncate(STORE + "/journal.1", 47)
    found, told = rows_of_script()
    count("else its end is cut off", found == ASKED[:len(found)] and len(found) >= ROWS - CHUNK and "are cut off" in told, told)


def folders():
    """What a folder is, and who takes it up."""
    shutil.rmtree(STORE, ignore_errors=True)
    with Server() as server:
        count("all is answered", write_rows(server) == ROWS)
        count("the folder is its owner's alone", os.stat(STORE).st_mode & 0o077 == 0)
        count("and so are its files", all(os.stat("%s/%s" % (STORE, name)).st_mode & 0o077 == 0 for name in os.listdir(STORE)))
        with Server() as second:
            told = second.end()
            count("a folder that is taken is refused", second.process.returncode == 1 and told == "fault: %s: another process has it\n" % STORE, told)
        count("and to a script", scan("")[1] == "fault: %s: another process has it\n" % STORE)
        server.kill(signal.SIGTERM)
    with Server() as server:
        has_image = waits_for_image(1)
        told = server.kill()
        count("a start tells what it found", told == "%s: %d entries are replayed\n" % (STORE, ROWS + 1), told)
    count("it makes an image while it serves", has_image)
    count("the next start finds nothing more", rows_of_server() == (ASKED, ""))
    run = subprocess.run([PROGRAM, "serve", "--port", str(free_port()), "--store", STORE, "--image", "%s/image.1" % STORE], capture_output=True, text=True, timeout=60)
    count("an image is for an empty folder", run.returncode == 1 and "keeps something already" in run.stderr, run.stderr)
    shutil.copy("%s/image.%d" % (STORE, newest()), "begun")
    shutil.rmtree(STORE, ignore_errors=True)
    with Server("--image", "begun") as server:
        server.kill()
    count("which keeps it from then on", rows_of_server() == (ASKED, ""))
    run = subprocess.run([PROGRAM, "serve", "--port", str(free_port()), "--sync", "interval"], capture_output=True, text=True, timeout=60)
    count("a sync is one of a store", run.returncode == 2 and "--store" in run.stderr, run.stderr)


def both_formats():
    """What a server left is taken up by a script, and what a script left by a server."""
    count("all is answered", killed_folder())
    found, told = rows_of_script()
    count("a script takes up what a server left", found == ASKED and told == "%s: %d entries are replayed\n" % (STORE, ROWS + 1), told)
    script = subprocess.Popen([PROGRAM, "script", "--store", STORE], stdin=subprocess.PIPE, stdout=subprocess.PIPE, text=True)
    script.stdin.write("insert t r99 f q \\e 1\n")
    script.stdin.flush()
    count("a script goes on", script.stdout.readline() == "ok\n")
    script.kill()
    script.communicate()
    found, told = rows_of_server()
    count("a server takes up what a script left", found == ASKED + ["r99"] and told.endswith("bytes of lines are replayed\n"), told)


def intervals():
    """What is in the hands of the system outlives a kill."""
    count("all is answered", killed_folder("--sync", "interval"))
    count("all is there behind a kill", rows_of_server()[0] == ASKED)
    shutil.rmtree(STORE, ignore_errors=True)
    with Server("--sync", "interval", "--accept", "1") as server:
        count("all is answered", write_rows(server) == ROWS)
        told = server.end()
        count("a server ends behind its connections", server.process.returncode == 0 and told == "", told)
    count("all is there behind its end", rows_of_server()[0] == ASKED)


class Disk:
    """A disk that is slow, or has no room, where it's asked to, and what a server asks of it (tests/disk.c)."""

    def __init__(self):
        self.env = {"LD_PRELOAD": os.path.abspath("disk.so"), "DISK": os.path.abspath("disk"), "NOTED": os.path.abspath("noted")}
        self.lift()
        if os.path.exists("noted"):
            os.remove("noted")

    def hinder(self, fsync=0, fdatasync=0, full=""):
        with open("disk", "w", encoding="ascii") as file:
            file.write("%f %f %s\n" % (fsync, fdatasync, full))

    def lift(self):
        if os.path.exists("disk"):
            os.remove("disk")

    def noted(self):
        """The lengths of long writes, and a 0 for each sync of a journal."""
        if not os.path.exists("noted"):
            return []
        with open("noted", encoding="ascii") as file:
            return [int(line) for line in file.read().split()]


def intervals_beside_a_history():
    """With --sync interval the disk is asked once a second, though the history's file takes nine."""
    shutil.rmtree(STORE, ignore_errors=True)
    disk = Disk()
    with Server("--sync", "interval", "--history", "slow-history", env=disk.env) as server:
        write_rows(server)
        with server.connect() as writer, server.connect() as rotator:
            disk.hinder(fsync=9)
            rotator.sendall(frame(b"\x17"))
            time.sleep(0.2)
            before, ends = len(disk.noted()), time.monotonic() + 8
            answered = 0
            while time.monotonic() < ends and (len(disk.noted()) - before < 3 or answered < 30):
                writer.sendall(write("s%04d" % answered))
                answered += read_frame(writer) == OK
                time.sleep(0.02)
            count("writes are answered", answered > 20, answered)
            count("the disk is asked meanwhile", len(disk.noted()) - before >= 3, (before, disk.noted()))
            server.kill()


def short_batches():
    """What many write while the disk is asked goes into several batches: each ends once it has 8 MiB."""
    shutil.rmtree(STORE, ignore_errors=True)
    disk = Disk()
    many = 24
    with Server("--workers", str(many), env=disk.env) as server:
        write_rows(server)
        disk.hinder(fdatasync=0.5)
        streams = [server.connect() for _ in range(many)]
        for stream in streams:
            stream.settimeout(4 * PATIENCE)
        senders = [threading.Thread(target=stream.sendall, args=(write("s%02d" % number, bytes(1 << 20)),)) for number, stream in enumerate(streams)]
        for sender in senders:
            sender.start()
        count("all is answered", [read_frame(stream) for stream in streams] == [OK] * many)
        lengths = [length for length in disk.noted() if length]
        count("no batch has more than 8 MiB and an entry", sum(lengths) > many << 20 and max(lengths) < (9 << 20) + 1000, lengths)
        for sender, stream in zip(senders, streams):
            sender.join()
            stream.close()
        server.kill()


def images_come_later():
    """Where there is no room for an image, or for the journal behind it, the server goes on, says so once, and makes the image once there is."""
    for full in ("/image.", "/journal.1"):
        shutil.rmtree(STORE, ignore_errors=True)
        disk = Disk()
        with Server("--workers", "1", "--checkpoint", "600", env=disk.env) as server:
            disk.hinder(full=full)
            count("no room for %s: all is answered" % full, write_rows(server) == ROWS)
            time.sleep(2.5)
            count("no room for %s: it goes on" % full, server.process.poll() is None and write_rows(server, MORE) == len(MORE))
            count("no room for %s: there is no image" % full, newest() == 0)
            disk.lift()
            count("no room for %s: once there is one is made" % full, waits_for_image(1), os.listdir(STORE))
            told = server.kill()
        count("no room for %s: it's told once" % full, told.count("\n") == 1 and "No space left on device" in told, told)
        count("no room for %s: all is kept" % full, is_kept(ROWS + len(MORE), ASKED + MORE))


def limited(most=60_000):
    """No file may grow beyond so many bytes."""
    signal.signal(signal.SIGXFSZ, signal.SIG_IGN)
    resource.setrlimit(resource.RLIMIT_FSIZE, (most, most))


def full_disk():
    """A disk that is full ends the server, and each connection; no reply is told for what isn't kept."""
    shutil.rmtree(STORE, ignore_errors=True)
    with Server("--workers", "2", before=limited) as server:
        idle = server.connect()
        answered = 0
        try:
            with server.connect() as stream:
                stream.sendall(MAKE)
                read_frame(stream)
                for number in range(4_000):
                    stream.sendall(write("w%05d" % number))
                    if read_frame(stream) != OK:
                        break
                    answered += 1
        except OSError:
            pass
        told = server.end()
        count("a full disk ends the server", server.process.returncode == 1 and told.count("\n") == 1 and told.startswith("fault: %s: " % STORE), told)
        idle.settimeout(PATIENCE)
        count("and each connection", read_exactly(idle, 1) == b"")
        idle.close()
    for _ in range(2):
        done = subprocess.run([PROGRAM, "script", "--store", STORE], stdin=subprocess.DEVNULL, capture_output=True, text=True, preexec_fn=lambda: limited(5_000))
        said = f"fault: {STORE}: the image can't be written: File too large (os error 27)"
        count("a script says why it can't write its image", done.returncode == 1 and done.stderr.splitlines()[-1] == said and "replayed" in done.stderr, done)
        count("and leaves no part of it", not [name for name in os.listdir(STORE) if name.endswith(".part")] and newest() == 0, os.listdir(STORE))
    found, _ = rows_of_server()
    count("what was answered is kept", found is not None and found == ["w%05d" % number for number in range(len(found))] and answered <= len(found) <= answered + 1 and answered > 100, (answered, found and len(found)))


def file_limit_is_told():
    """Where a write that is too long ends the program by a signal, a start says so; else nothing is said, and nothing without a limit."""
    def beginning(before):
        shutil.rmtree(STORE, ignore_errors=True)
        with Server(before=before) as server:
            return server.kill()

    told = beginning(lambda: resource.setrlimit(resource.RLIMIT_FSIZE, (60_000, 60_000)))
    count("a limit of a file's size is told", told.startswith("note: no file may have more than 60000 bytes here, and SIGXFSZ isn't ignored: "), told)
    count("and isn't where it's a fault of a write", beginning(limited) == beginning(None) == "")


def reads_wait_for_nothing():
    """Reads put nothing into the journal, and the disk isn't asked for anything."""
    shutil.rmtree(STORE, ignore_errors=True)
    at = 1
    while True:
        run_once(at, "fails")
        if not was_met():
            break
        at += 1
    shutil.rmtree(STORE, ignore_errors=True)
    with Server(env=environment(at, "fails")) as server:
        count("all is answered", write_rows(server) == ROWS)
        run = subprocess.run([PROGRAM, "shell", "--port", str(server.port), "--user", "root"], input="scan t \\0\nstatus t\nrights -\ninsert u r f q \\e v\n" * 50, capture_output=True, text=True, timeout=60)
        count("reads and refusals are answered", run.stdout.count("refused 2 NoTable u") == 50, run.stdout[-200:])
        count("without the disk", not was_met() and server.process.poll() is None)


WORDS = {2: "createtable", 4: "createuser", 6: "setauths", 7: "grant", 10: "mutate"}


def kept_in(name):
    """Of each entry of a server's journal who asked, and the first word of its line."""
    with open(name, "rb") as file:
        left, text, at = file.read()[48:], b"", 0
    while left:
        (length,) = struct.unpack_from(">I", left, 16)
        text, left = text + left[20 : 20 + length], left[28 + length :]
    while at < len(text):
        (user,) = struct.unpack_from(">I", text, at + 8)
        (body,) = struct.unpack_from(">I", text, at + 12 + user)
        yield text[at + 12 : at + 12 + user].decode(), WORDS[text[at + 16 + user]]
        at += 16 + user + body


def ask(server, user, lines):
    subprocess.run([PROGRAM, "shell", "--port", str(server.port), "--user", user], input="\n".join(lines) + "\n", stdout=subprocess.DEVNULL, text=True, timeout=60)


def history_says_yes():
    """The journal has just those requests of the history that were done and changed something, whoever asked them, in its order."""
    shutil.rmtree(STORE, ignore_errors=True)
    with Server("--history", "history") as server:
        ask(server, "root", ["createtable t", "createuser ann", "grant ann READ t", "grant ann WRITE t", "setauths ann a"])
        mixed = [line for each in range(100) for line in (f"insert t r{each} f q \\e v", f"insert u r{each} f q \\e v", "scan t \\0", f"delete t r{each} f q \\e", "createuser ann")]
        asked = [threading.Thread(target=ask, args=(server, user, mixed)) for user in ("root", "ann", "ann")]
        for thread in asked:
            thread.start()
        for thread in asked:
            thread.join()
        ask(server, "root", ["createuser the-end", "rotate"])
        ends, told = time.monotonic() + PATIENCE, []
        while "createuser the-end" not in told and time.monotonic() < ends:
            time.sleep(0.05)
            with open("history", encoding="ascii") as file:
                told = file.read().split("\n")
        server.kill()
    done = [(user[3:], line.split()[0]) for user, line, reply in zip(told[1::4], told[2::4], told[3::4]) if reply == "# ok"]
    kept = list(kept_in("%s/journal.0" % STORE))
    count("what is kept is what the history says was done", kept == [it for it in done if it[1] in WORDS.values()] and len(kept) > 300, (len(kept), len(done)))


class Writer(threading.Thread):
    """Writes rows of its own one after another, some at a time, until the server is gone."""

    def __init__(self, server, letter, seed):
        super().__init__()
        self.server, self.letter, self.random = server, letter, random.Random(seed)
        self.asked = self.answered = 0

    def run(self):
        try:
            with self.server.connect() as stream:
                while True:
                    many = self.random.choice((1, 1, 2, 7, 40))
                    stream.sendall(b"".join(write("w%s%06d" % (self.letter, self.asked + each)) for each in range(many)))
                    self.asked += many
                    for _ in range(many):
                        if read_frame(stream) != OK:
                            return
                        self.answered += 1
                    if self.random.random() < 0.2:
                        time.sleep(self.random.random() / 100)
        except OSError:
            pass


def reads(server, seen):
    """Scans again and again, and keeps what it saw last."""
    while True:
        try:
            done = subprocess.run([PROGRAM, "shell", "--port", str(server.port), "--user", "root", "--timeout", "1"], input="scan t \\0\n", capture_output=True, text=True, timeout=60)
        except subprocess.TimeoutExpired:
            return
        if done.returncode != 0 or not done.stdout.endswith("end\n"):
            return
        seen[:] = named(done.stdout)


def beneath_writers():
    """Kills at random times beneath writers and a reader."""
    seed = random.randrange(1 << 30)
    chance = random.Random(seed)
    ends = time.monotonic() + SECONDS
    rounds = 0
    while time.monotonic() < ends:
        rounds += 1
        shutil.rmtree(STORE, ignore_errors=True)
        mode = chance.choice(("always", "always", "interval"))
        long = chance.choice(("30000", "67108864"))
        with Server("--workers", "10", "--sync", mode, "--checkpoint", long) as server:
            with server.connect() as stream:
                stream.sendall(MAKE)
                read_frame(stream)
            writers = [Writer(server, letter, chance.random()) for letter in "abcdefgh"]
            seen = []
            reader = threading.Thread(target=reads, args=(server, seen))
            for thread in (*writers, reader):
                thread.start()
            time.sleep(chance.random() ** 2 * 1.5)
            server.kill()
            for thread in (*writers, reader):
                thread.join()
        found, told = rows_of_server()
        again, _ = rows_of_script()
        fine = found is not None and found == again
        for writer in writers if fine else ():
            mine = [row for row in found if row[1] == writer.letter]
            fine = fine and mine == ["w%s%06d" % (writer.letter, each) for each in range(len(mine))] and writer.answered <= len(mine) <= writer.asked
        count("round %d of seed %d: what was answered is kept, and what is there was asked" % (rounds, seed), fine, (mode, long, told))
        count("round %d of seed %d: what was seen is there" % (rounds, seed), set(seen) <= set(found or ()))
    count("there were rounds", rounds > 0)


def copies_beneath_writers():
    """Copies that are made beneath writers while images take the place of others: one that is taken up has what was answered before it began,
    of each writer a beginning of what it asked; others are refused by `cp` or by `inspect`."""
    shutil.rmtree(STORE, ignore_errors=True)
    kept = []
    with Server("--workers", "5", "--checkpoint", "30000") as server:
        with server.connect() as stream:
            stream.sendall(MAKE)
            read_frame(stream)
        writers = [Writer(server, letter, letter) for letter in "abcd"]
        for writer in writers:
            writer.start()
        for number in range(15):
            copy = "copy%d" % number
            answered = [writer.answered for writer in writers]
            fine = subprocess.run(["cp", "-a", STORE + "/.", copy], stderr=subprocess.DEVNULL).returncode == 0
            done = subprocess.run([PROGRAM, "inspect", copy], capture_output=True, text=True, timeout=60)
            if done.returncode != 0:
                count("copy %d is refused by a fault" % number, done.stderr.startswith("fault: ") and not done.stdout, done.stderr)
            elif fine:
                kept.append((copy, answered))
            time.sleep(number / 500)
        server.kill()
        for writer in writers:
            writer.join()
    count("some copies are taken up", len(kept) > 2, len(kept))
    for copy, answered in kept[-4:]:
        shutil.rmtree(STORE)
        os.rename(copy, STORE)
        found, told = rows_of_server()
        for writer, least in zip(writers, answered):
            mine = [row for row in found or () if row[1] == writer.letter]
            fine = mine == ["w%s%06d" % (writer.letter, each) for each in range(len(mine))] and least <= len(mine) <= writer.asked
            count("%s has what was answered before it began" % copy, fine, (writer.letter, least, len(mine), told))


def build():
    for name in ("killing", "disk"):
        subprocess.run([os.environ.get("CC", "cc"), "-shared", "-fPIC", "-O1", "-o", name + ".so", "%s/%s.c" % (HERE, name), "-ldl"], check=True)


run_parts(build, folders, both_formats, intervals, intervals_beside_a_history, short_batches, images_come_later, full_disk, file_limit_is_told, reads_wait_for_nothing, history_says_yes, turned, followed, kills, short_writes, checkpoints, copies_beneath_writers, beneath_writers)
