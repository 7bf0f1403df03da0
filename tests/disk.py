"""What tests/disk.sh tests. Its last line counts what passed and failed.

The calls that a program makes of files and folders are noted, and some of them fail or wait (tests/calls.c). So it is seen that a sync comes when
it was promised; that a call that fails is told, and nothing is answered that rests on it; that answers wait for a journal that isn't written
yet, of however many entries; and that a start behind a kill finds what was answered, as it was answered.
"""

import os
import re
import select
import shutil
import stat
import struct
import subprocess
import threading
import time

from serving import HELLO, MAKE, OK, PATIENCE, PROGRAM, Server, count, field, frame, read_exactly, read_frame, run_parts

HERE = os.path.dirname(os.path.abspath(__file__))
STORE = "store"
ON = "on"  # while this file is there the rules hold


def environment(rules="", **more):
    """That of a program whose calls are noted, by these rules."""
    for name in ("log", ON):
        if os.path.exists(name):
            os.remove(name)
    path = os.path.abspath
    return {"LD_PRELOAD": path("calls.so"), "LOG": path("log"), "RULES": rules, "WHILE": path(ON), **more}


def calls():
    """The calls so far: when each began and ended, in seconds, its name, the file's, and how it was asked."""
    with open("log", encoding="ascii") as file:
        lines = [line.split(" ") for line in file]
    return [(int(begun) / 1000, int(ended) / 1000, call, name, int(how)) for begun, ended, call, name, how in lines]


def let(name, there):
    if there:
        open(name, "w").close()
    else:
        os.remove(name)


OPEN = frame(b"\x0b" + field(b"t") + b"\0\0" + bytes(8))


def write(row, value=b"v"):
    return frame(b"\x0a" + field(b"t") + field(row) + b"\0\0\0\1\1" + field(b"f") + field(b"q") + field(b"") + b"\0" + field(value))


def rows_of(out):
    return [line.split(" ")[0] for line in out.splitlines() if line.count(" ") == 5]


def found(store=STORE):
    """The rows that a folder keeps, as a start says; none where it is refused."""
    done = subprocess.run([PROGRAM, "script", "--store", store], input="scan t \\0\n", capture_output=True, text=True, timeout=60)
    return rows_of(done.stdout) if done.returncode == 0 else None


def script(lines, *words, rules="", **how):
    """A script over the folder that comes to its end."""
    return subprocess.run([PROGRAM, "script", "--store", STORE, *words], input=lines, capture_output=True, text=True, timeout=60, env={**os.environ, **environment(rules)}, **how)


class Asked:
    """A script over a folder that is asked bit by bit, and killed."""

    def __init__(self, rules="", store=STORE):
        self.process = subprocess.Popen([PROGRAM, "script", "--store", store], stdin=subprocess.PIPE, stdout=subprocess.PIPE, stderr=subprocess.PIPE,
                                        env={**os.environ, **environment(rules)})
        self.behind = b""

    def say(self, text):
        self.process.stdin.write(text.encode())
        self.process.stdin.flush()

    def ask(self, *lines):
        self.say("".join(line + "\n" for line in lines))
        return self.told(len(lines))

    def told(self, many):
        """So many lines, or those that come in time."""
        ends = time.monotonic() + PATIENCE
        while self.behind.count(b"\n") < many and select.select([self.process.stdout], [], [], max(0, ends - time.monotonic()))[0]:
            more = os.read(self.process.stdout.fileno(), 1 << 16)
            self.behind += more or b"\n" * many
        *lines, self.behind = self.behind.split(b"\n", many)
        return [line.decode() for line in lines]

    def kill(self):
        self.process.kill()
        self.process.communicate()


def anew(*lines):
    """A folder in which these lines were done, and a table made."""
    shutil.rmtree(STORE, ignore_errors=True)
    count("a folder is made", script("\n".join(["createtable t", *lines]) + "\n").returncode == 0)


def joined(server):
    stream = server.connect()
    stream.sendall(HELLO)
    count("a client is greeted", read_frame(stream) == OK)
    return stream


def serving(*words, rules="", **more):
    return Server("--store", STORE, *words, **environment(rules, **more))


def wait_for(holds, patience=PATIENCE):
    ends = time.monotonic() + patience
    while not holds() and time.monotonic() < ends:
        time.sleep(0.005)
    return holds()


def images():
    """The numbers of the images, in order."""
    return sorted(int(name.split(".")[1]) for name in os.listdir(STORE) if re.fullmatch(r"image[.](0|[1-9][0-9]*)", name))


def last_journal():
    """The path of the journal of the greatest number."""
    return "%s/journal.%d" % (STORE, max(int(name.split(".")[1]) for name in os.listdir(STORE) if name.startswith("journal.")))


def newest():
    """The number of the newest image, and how many bytes it has."""
    number = images()[-1]
    try:
        return number, os.path.getsize("%s/image.%d" % (STORE, number))
    except OSError:  # a newer one came meanwhile
        return number, 0


# ---- Syncs, when they were promised.
def intervals():
    """A sync at least every two seconds where one a second is asked for, and one at the end; not one for each write."""
    shutil.rmtree(STORE, ignore_errors=True)
    with serving("--sync", "interval", "--accept", "1", "--metrics", "figures") as server:
        with joined(server) as stream:
            stream.sendall(MAKE)
            good, writes, still, last = read_frame(stream) == OK, 0, 0, time.monotonic()
            ends = last + 3.3
            while last < ends or writes < 60:
                stream.sendall(write(b"%05d" % writes))
                good, writes = good and read_frame(stream) == OK, writes + 1
                time.sleep(0.02)
                # (for how long a loaded machine stood still)
                still, last = max(still, time.monotonic() - last), time.monotonic()
        count("a server under an interval ends", good and server.ends() == 0, server.process.returncode)
    of_journal = [(begun, ended, call) for begun, ended, call, name, _ in calls() if name == "journal.0"]
    puts = [begun for begun, _, call in of_journal if call == "write"][1:]
    syncs = [begun for begun, _, call in of_journal if call == "sync" and begun >= puts[0]]
    waited = [min([at for at in syncs if at >= put], default=1e9) - put for put in puts]
    count("each write is on the disk within two seconds", max(waited) < 2 + 2 * still, (max(waited), still, syncs))
    count("the last one too, at the end", of_journal[-1][2] == "sync" and syncs[-1] >= puts[-1], of_journal[-3:])
    count("the disk isn't asked for each of them", len(syncs) < writes / 5, (len(syncs), writes))
    with open("figures", encoding="ascii") as file:
        told = dict(line.split() for line in file if line[0] != "#")
    count("and what it was asked is counted", 0.7 * len(syncs) <= int(told["tabd_journal_syncs_total"]) <= len(syncs) + 1, (told["tabd_journal_syncs_total"], len(syncs)))
    reports = [ended for _, ended, call, name, _ in calls() if (call, name) == ("rename", "figures")]
    count("metrics are written each ten seconds, and at the end", 2 <= len(reports) <= 2 + reports[-1] / 9, reports)


def images_grow():
    """An image is made once the journal is longer than the last one, and than is asked for: the longer that is, the rarer."""
    shutil.rmtree(STORE, ignore_errors=True)
    with serving("--checkpoint", "1000", "--sync", "interval") as server, joined(server) as stream:
        stream.sendall(MAKE + b"".join(write(b"%04d" % row, 1000 * b"v") for row in range(200)))
        count("200 kB are written", read_exactly(stream, 201 * 5) == 201 * OK)
        count("an image is made of them", wait_for(lambda: newest()[1] > 200_000), newest())
        first, journal = newest(), last_journal()
        for row in range(40):
            stream.sendall(write(b"%04d" % row, 200 * b"w"))
            count("a write is answered", read_frame(stream) == OK)
            time.sleep(0.01)
        count("8 kB more make none", not wait_for(lambda: newest() != first or last_journal() != journal, 1.5), (first, newest(), journal))
        server.process.kill()


def long_syncs():
    """How long syncs take is counted."""
    shutil.rmtree(STORE, ignore_errors=True)
    with serving("--metrics", "long", "--accept", "1", rules="sync:journal.*:waits") as server:
        with joined(server) as stream:
            stream.sendall(MAKE)
            count("a table is made", read_frame(stream) == OK)
            let(ON, True)
            stream.sendall(write(b"r"))
            time.sleep(0.5)
            let(ON, False)
            count("a write is answered", read_frame(stream) == OK)
        count("the server ends", server.ends() == 0)
    with open("long", encoding="ascii") as file:
        told = dict(line.split() for line in file if line[0] != "#")
    count("the time of a sync that took long", 0.3 < float(told["tabd_journal_sync_seconds_total"]) < PATIENCE, told["tabd_journal_sync_seconds_total"])


def images_that_fail():
    """An image that can't be made is tried again a second later, into the same journal; why is told once, until one is made."""
    shutil.rmtree(STORE, ignore_errors=True)
    note = b"note: store: no image is made now, and it is tried again: "
    with serving("--checkpoint", "1000", "--metrics", "images", "--accept", "1", rules="sync:image.*:fails") as server:
        with joined(server) as stream:
            stream.sendall(MAKE)
            count("a table is made", read_frame(stream) == OK)
            for number in (1, 2):
                let(ON, True)
                before = len(calls())
                stream.sendall(write(b"r%d" % number, 5000 * number * b"v"))
                count("a write is answered", read_frame(stream) == OK)

                def tries():
                    return [begun for begun, _, call, name, _ in calls()[before:] if call == "open" and name == "image.%d.part" % number]

                count("%d: an image is tried again" % number, wait_for(lambda: len(tries()) > 2 - (number - 1)), tries())
                rests = [later - sooner for sooner, later in zip(tries(), tries()[1:])]
                count("%d: but not at once" % number, min(rests) > 0.9, rests)
                journals = sorted(name for name in os.listdir(STORE) if name.startswith("journal."))
                count("%d: into one journal" % number, journals == ["journal.%d" % (number - 1), "journal.%d" % number], journals)
                let(ON, False)
                count("%d: and made once it can be" % number, wait_for(lambda: images()[-1:] == [number] and not os.path.exists("%s/journal.%d" % (STORE, number - 1))), os.listdir(STORE))
        count("the server ends", server.ends() == 0)
        said = server.process.stderr.read()
        count("why there is no image is told, each time once", said.count(note) == said.count(b"\n") == 2, said)
    with open("images", encoding="ascii") as file:
        told = dict(line.split() for line in file if line[0] != "#")
    count("the new journal's length is counted", int(told["tabd_journal_bytes"]) == os.path.getsize(last_journal()) == 48, told["tabd_journal_bytes"])


def a_history_is_on_the_disk():
    """What is handed on of a history is synced, all of it, or nothing is left of it."""
    with Server("--history", "history", "--accept", "1", **environment()) as server:
        count("a history is asked for", server.shell(b"createtable t\ninsert t r f q \\e v\n").stdout == b"ok\nok\n" and server.ends() == 0)
    of_history = [call for _, _, call, name, _ in calls() if name == "history"]
    count("a history is synced behind its last write", of_history[-2:] == ["write", "sync"], of_history)
    with open("history", "rb") as file:
        before = file.read()
    with Server("--history", "history", "--accept", "1", **environment("sync:history:fails")) as server:
        let(ON, True)
        server.shell(b"createuser ann\n")
        count("a server without its history ends", server.ends() == 0)
        told = server.process.stderr.read()
    with open("history", "rb") as file:
        count("a part that isn't on the disk is taken back, and told", file.read() == before and told == b"fault: history: the history can't be written\n", told)


ROTATE = frame(b"\x17")


def losses_of_a_history():
    """Who waited for a lost part is cut off, and nobody else; each loss behind a part that is kept is told."""
    with Server("--history", "lost", **environment("sync:lost:fails")) as server, joined(server) as stream:
        stream.sendall(MAKE + ROTATE)
        count("a rotation is answered", read_exactly(stream, 10) == 2 * OK)
        for turn in range(2):
            let(ON, True)
            with joined(server) as other:
                other.sendall(ROTATE)
                count("%d: who waits for a part that is lost is cut off" % turn, read_exactly(other, 5) == b"")
            let(ON, False)
            with joined(server) as other:
                other.sendall(ROTATE)
                count("%d: who waits for the next one isn't" % turn, read_exactly(other, 5) == OK)
        stream.sendall(frame(b"\x13" + field(b"t")))
        count("nor who was answered before", read_frame(stream)[4:5] == b"\x87")
        server.process.kill()
        said = server.process.stderr.read()
        count("each loss is told", said == 2 * b"fault: lost: the history can't be written\n", said)


# ---- A disk that fails.
def a_failed_sync(mode):
    """It is told once, ends the server, and nothing is answered that isn't on the disk."""
    shutil.rmtree(STORE, ignore_errors=True)
    with serving("--sync", mode, rules="sync:journal.*:once") as server, joined(server) as idle:
        stream = joined(server)
        stream.sendall(MAKE + write(b"before"))
        count("%s: what comes before is answered" % mode, read_exactly(stream, 10) == 2 * OK)
        let(ON, True)
        stream.sendall(write(b"after"))
        told = read_exactly(stream, 5)
        if mode == "always":
            count("%s: what isn't on the disk isn't answered" % mode, told == b"", told)
        count("%s: a failed sync ends the server" % mode, server.ends() == 1, server.process.returncode)
        count("%s: and each connection" % mode, read_exactly(idle, 1) == b"" and read_exactly(stream, 1) == b"")
        said = server.process.stderr.read().decode()
        count("%s: it is told, once" % mode, said.startswith("fault: store: ") and said.count("\n") == 1, said)
        stream.close()
    count("%s: what was answered is kept" % mode, (found() or [])[-1:] in (["before"], ["after"]) or "before" in (found() or []))


def failed_syncs():
    for mode in ("always", "interval"):
        a_failed_sync(mode)


def a_failed_write():
    """Nothing of it is answered, by a server nor by a script; a later one that would go well changes nothing."""
    shutil.rmtree(STORE, ignore_errors=True)
    with serving(rules="write:journal.*:once") as server:
        with joined(server) as stream, joined(server) as other:
            stream.sendall(MAKE)
            count("a table is made", read_frame(stream) == OK)
            let(ON, True)
            stream.sendall(write(b"a"))
            count("a write that isn't kept isn't answered", read_exactly(stream, 5) == b"")
            try:
                other.sendall(write(b"b"))
                told = read_exactly(other, 5)
            except OSError:
                told = b""
            count("nor is anything behind it", told == b"", told)
        count("the server ends for it", server.ends() == 1 and server.process.stderr.read().startswith(b"fault: store: "))
    count("and nothing of it is kept", found() == [], found())
    running = Asked("write:journal.*:once")
    count("a script begins", running.ask("insert t r1 f q \\e 1") == ["ok"])
    let(ON, True)
    try:
        running.say("insert t r2 f q \\e 2\ninsert t r3 f q \\e 3\n")
    except BrokenPipeError:
        pass
    out, said = running.process.communicate(timeout=60)
    count("a script ends with what its journal couldn't take", (running.process.returncode, out) == (1, b"") and said.startswith(b"fault: store: "), (out, said))
    count("and keeps what it answered", found() == ["r1"], found())


def a_folder_that_fails():
    """Where a folder or an image can't be synced nothing begins, and what was kept stands."""
    for rules in ("sync:store:fails", "open:journal.*:fails", "sync:journal.*:fails", "sync:image.*.part:fails", "sync:image.*.sha256:fails", "open:image.*:fails",
                  "rename:image.*:fails"):
        is_begun = "image" not in rules
        anew("insert t r1 f q \\e 1")
        running = Asked()
        count("a run is killed", running.ask("insert t r2 f q \\e 2") == ["ok"])
        running.kill()
        again = environment(rules)
        let(ON, True)
        done = subprocess.run([PROGRAM, "script", "--store", STORE], input="insert t r3 f q \\e 3\n", capture_output=True, text=True, timeout=60, env={**os.environ, **again})
        count("%s: why is told, and nothing is answered of what didn't begin" % rules, (done.returncode, done.stdout) == (1, "" if is_begun else "ok\n") and
              done.stderr.splitlines()[-1].startswith("fault: store: ") and done.stderr.count("fault: ") == 1, done)
        count("%s: and no part is left" % rules, not [name for name in os.listdir(STORE) if name.endswith(".part")] and images() == [1], os.listdir(STORE))
        shown = found()
        count("%s: what was answered is kept" % rules, shown == ["r1", "r2", "r3"][:2 if is_begun else 3], shown)


def full_folders():
    """Where the folder of a new name can't be synced the name isn't taken for one that stands."""
    shutil.rmtree(STORE, ignore_errors=True)
    again = environment("sync:*:fails")
    let(ON, True)
    done = subprocess.run([PROGRAM, "script", "--store", STORE], input="createtable t\n", capture_output=True, text=True, timeout=60, env={**os.environ, **again})
    count("a new folder that isn't on the disk is told", (done.returncode, done.stdout) == (1, "") and done.stderr.startswith("fault: "), done)


# ---- A disk that lets one wait.
def held(mode):
    """While a write of the journal waits nothing is answered that rests on it, whoever asked; afterwards all is."""
    shutil.rmtree(STORE, ignore_errors=True)
    with serving("--sync", mode, rules="write:journal.*:waits") as server, joined(server) as one, joined(server) as two:
        one.sendall(MAKE)
        count("a table is made", read_frame(one) == OK)
        let(ON, True)
        one.sendall(write(b"r"))
        time.sleep(0.2)
        two.sendall(write(b"s") + frame(b"\x13" + field(b"t")))
        one.settimeout(0.4)
        two.settimeout(0.4)
        early = []
        for stream in (one, two):
            try:
                early.append(stream.recv(1))
            except OSError:
                pass
        count("%s: nothing is answered that isn't written" % mode, early == [], early)
        let(ON, False)
        one.settimeout(PATIENCE)
        two.settimeout(PATIENCE)
        told = read_exactly(one, 5), read_exactly(two, 5), read_frame(two)[4:5]
        count("%s: and all is then" % mode, told == (OK, OK, b"\x87"), told)
        server.process.kill()
    count("%s: both are kept" % mode, found() == ["r", "s"], found())


def held_writes():
    for mode in ("always", "interval"):
        held(mode)


def held_behind_others():
    """What waits for others' entries too, since it came between them, isn't answered before those are written."""
    shutil.rmtree(STORE, ignore_errors=True)
    hidden = b"".join(b"\1" + field(b"f") + field(b"%d" % place) + field(b"nobody") + b"\0" + field(b"v") for place in range(1000))
    with serving(rules="write:journal.*:waits") as server, joined(server) as one, joined(server) as two:
        one.sendall(MAKE + b"".join(frame(b"\x0a" + field(b"t") + field(b"h%d" % row) + struct.pack(">I", 1000) + hidden) for row in range(300)))
        count("300,000 cells that nobody sees", read_exactly(one, 301 * 5) == 301 * OK)
        def writes():
            return sum(call == "write" and name == "journal.0" for _, _, call, name, _ in calls())

        for turn in range(4):
            before = writes()
            # its write is done before the other's, and it has to look at all cells before it is answered
            one.sendall(write(b"r%d" % turn) + OPEN + frame(b"\x0c" + struct.pack(">II", turn, 1)))
            time.sleep(0.001 * turn)
            let(ON, True)
            two.sendall(write(b"s%d" % turn))
            one.settimeout(0.25)
            try:
                early = one.recv(1)
            except OSError:
                early = b""
            written = writes() > before
            let(ON, False)
            one.settimeout(PATIENCE)
            told = early + read_exactly(one, 5 - len(early)), read_frame(one)[4:5], read_frame(one)[4:5], read_frame(two)
            count("it waits for them", early == b"" or written, early)
            count("and is answered then", told[:1] + told[3:] == (OK, OK) and told[1] == b"\x84", told)
            if told[2] == b"\x82":
                read_frame(one)
        server.process.kill()


def many_unsettled():
    """More entries than are taken at once, which came while the journal waited: all are kept, whoever takes them: who wrote them, who hands the
    history on, or who makes an image."""
    for rotates, checkpoint in ((False, "67108864"), (True, "67108864"), (False, "1")):
        shutil.rmtree(STORE, ignore_errors=True)
        words = ("--sync", "interval", "--workers", "6", "--checkpoint", checkpoint)
        with serving(*words, rules="write:journal.*:waits") as server, joined(server) as one:
            others = [joined(server) for _ in range(4)]
            one.sendall(MAKE)
            good, asked = read_frame(one) == OK, []
            for turn in range(6 if rotates or checkpoint == "1" else 2):
                rows = [[b"%d-%d-%05d" % (turn, place, row) for row in range(900)] for place in range(len(others))]
                let(ON, True)
                one.sendall(write(b"%d" % turn))
                time.sleep(0.05)
                one.sendall(frame(b"\x17") if rotates else b"")
                for stream, its in zip(others, rows):
                    stream.sendall(b"".join(map(write, its)))
                time.sleep(0.15)
                let(ON, False)
                good = good and all(read_exactly(stream, 5 * len(its)) == len(its) * OK for stream, its in zip(others, rows))
                good = good and read_exactly(one, 5 + 5 * rotates) == (1 + rotates) * OK
                asked += [b"%d" % turn, *(row for its in rows for row in its)]
            rows = [b"x%05d" % row for row in range(12_000)]
            others[0].sendall(b"".join(map(write, rows)))
            good = good and read_exactly(others[0], 5 * len(rows)) == len(rows) * OK
            count("rotated %s, images %s: many writes are answered" % (rotates, checkpoint), good)
            count("rotated %s, images %s: and the server goes on" % (rotates, checkpoint), server.process.poll() is None)
            server.process.kill()
            for stream in others:
                stream.close()
        shown = found()
        count("rotated %s, images %s: all of them are kept, once" % (rotates, checkpoint), shown == sorted(row.decode() for row in asked + rows), (shown and len(shown), len(asked)))


def large_unsettled():
    """More bytes than one batch of a journal holds wait to be kept."""
    shutil.rmtree(STORE, ignore_errors=True)
    puts = b"".join(b"\1" + field(b"f") + field(b"%d" % place) + field(b"") + b"\0" + field(1_000_000 * b"v") for place in range(7))
    with serving("--workers", "6", rules="write:journal.*:waits") as server, joined(server) as one:
        others = [joined(server) for _ in range(4)]
        one.sendall(MAKE)
        count("a table is made", read_frame(one) == OK)
        let(ON, True)
        one.sendall(write(b"r"))
        time.sleep(0.05)
        sending = [threading.Thread(target=stream.sendall, args=(frame(b"\x0a" + field(b"t") + field(b"s%d" % place) + struct.pack(">I", 7) + puts),)) for place, stream in enumerate(others)]
        for thread in sending:
            thread.start()
        for thread in sending:
            thread.join()
        time.sleep(0.2)
        let(ON, False)
        told = [read_exactly(stream, 5) for stream in (one, *others)]
        count("28 MB at once are answered", told == 5 * [OK], told)
        server.process.kill()
        for stream in others:
            stream.close()
    count("and kept", found() == ["r", *("s%d" % place for place in range(4) for _ in range(7))])


# ---- What a start finds behind a kill.
def lines_that_do_not_end():
    """A line that was cut by a kill isn't done, though it would be one; the last line without a feed is, where it was answered."""
    anew()
    running = Asked()
    running.ask("insert t r1 f q \\e 1")
    running.say("insert t r2 f q \\e 2")
    wait_for(lambda: [name for _, _, call, name, _ in calls() if call == "write"].count("journal.2") >= 3, 1)
    running.kill()
    count("half a line isn't replayed", found() == ["r1"], found())
    for pieces in (["insert t r3 f q \\e 3"], ["insert t r3 f", " q \\e 3"]):
        anew()
        running = Asked("open:image.*:waits sync:image.*:waits")
        let(ON, True)
        for piece in pieces:
            running.say(piece)
            time.sleep(0.1)
        running.process.stdin.close()
        told = running.told(1)
        time.sleep(0.05)
        running.process.kill()
        running.process.wait()
        running.process.stdout.close()
        running.process.stderr.close()
        count("a last line without a feed is answered, and kept: %s" % pieces, told == ["ok"] and found() == ["r3"], (told, found()))


def a_tail_that_was_cut():
    """What was cut off is gone: the next run's journal has nothing behind its own."""
    anew()
    running = Asked()
    count("a long line", running.ask("insert t r1 f q \\e " + 5000 * "v") == ["ok"])
    running.kill()
    os.truncate(last_journal(), os.path.getsize(last_journal()) - 10)
    running = Asked()
    count("a start that cuts it off", running.ask("insert t r2 f q \\e 2") == ["ok"])
    running.kill()
    done = script("scan t \\0\n")
    count("has nothing more to cut off, by a script", done.returncode == 0 and rows_of(done.stdout) == ["r2"] and "cut" not in done.stderr, done)


def a_tail_of_a_server():
    """A server tells what was cut off, at the start that cuts it."""
    shutil.rmtree(STORE, ignore_errors=True)
    with serving() as server, joined(server) as stream:
        stream.sendall(MAKE)
        count("a table is made", read_frame(stream) == OK)
        server.process.kill()
    os.truncate(STORE + "/journal.0", os.path.getsize(STORE + "/journal.0") - 3)
    for wanted in (True, False):
        with serving() as server, joined(server):
            server.process.kill()
            said = server.process.communicate()[1].decode()
        count("what was cut off is told once", ("cut off" in said) == wanted, said)


def later_journals():
    """A folder in which an image was being made is no image alone: it isn't exported."""
    shutil.rmtree(STORE, ignore_errors=True)
    with serving("--checkpoint", "1", rules="open:image.*:waits") as server, joined(server) as stream:
        let(ON, True)
        stream.sendall(MAKE + write(b"a", 200 * b"v"))
        count("writes are answered", read_exactly(stream, 10) == 2 * OK)
        count("a next journal is begun", wait_for(lambda: os.path.exists(STORE + "/journal.1")))
        stream.sendall(write(b"b"))
        count("and written", read_frame(stream) == OK)
        server.process.kill()
    with open(STORE + "/journal.0", "rb+") as file:
        file.truncate(48)
    done = subprocess.run([PROGRAM, "export", STORE], capture_output=True, text=True, timeout=60)
    count("it isn't exported", (done.returncode, done.stdout) == (1, "") and done.stderr.startswith("fault: store: "), done)


def journals_of_others():
    """A journal that was begun on another image than its own is refused, and stays; so is the first one whose clock isn't the image's."""
    kept, places = {}, {}
    for name, lines in (("one", ""), ("rows", "insert t r1 f q \\e 1\n"), ("later", "at 5000\nrights -\n")):
        shutil.rmtree(STORE, ignore_errors=True)
        count("%s: a folder is made" % name, script("createtable t\n" + lines).returncode == 0)
        running = Asked()
        count("%s: and a run is killed" % name, running.ask("insert t r2 f q \\e 2") == ["ok"])
        running.kill()
        # (a journal behind the first one may begin at a later clock: what was refused before it has moved that, and left nothing)
        places[name] = "journal.1" if name == "later" else "journal.2"
        with open("%s/%s" % (STORE, places[name]), "rb") as file:
            kept[name] = file.read()
        if name == "one":
            shutil.copytree(STORE, "whole")
    for name in ("rows", "later"):
        journal = places[name]
        count("%s: its journal is another one" % name, kept[name] != kept["one"])
        shutil.rmtree(STORE)
        shutil.copytree("whole", STORE)
        with open("%s/%s" % (STORE, journal), "wb") as file:
            file.write(kept[name])
        done = script("scan t \\0\n")
        count("%s: a journal that doesn't follow is refused" % name, (done.returncode, done.stdout) == (1, "") and "doesn't follow" in done.stderr and journal in done.stderr, done)
        with open("%s/%s" % (STORE, journal), "rb") as file:
            count("%s: and stays" % name, file.read() == kept[name])
    shutil.rmtree("whole")


def loads():
    """What a load gave is kept, or the load isn't done; a replay that can't have it is refused."""
    anew("insert t r1 f q \\e 1", "save saved", "insert t r2 f q \\e 2")
    running = Asked("open:loaded.*:fails")
    let(ON, True)
    running.say("load saved\nscan t \\0\n")
    out, said = running.process.communicate(timeout=60)
    count("a load of which nothing can be kept ends the script", (running.process.returncode, out) == (1, b"") and said.startswith(b"fault: store: "), (out, said))
    count("and isn't done at the next start", found() == ["r1", "r2"], found())
    for rules in ("open:loaded.*.part:fails", "write:loaded.*:fails", "sync:loaded.*:fails", "rename:loaded.*:fails"):
        running = Asked(rules)
        let(ON, True)
        told = running.ask("load saved", "scan t \\0")
        cells = [told[1]] + running.told(2)
        running.kill()
        count("%s: a load that can't be kept isn't done" % rules, told[0].startswith("fault load") and [cell.split(" ")[0] for cell in cells] == ["r1", "r2", "end"], (told, cells))
        count("%s: nor at the next start" % rules, found() == ["r1", "r2"], found())
    running = Asked()
    told = running.ask("load saved", "insert t r4 f q \\e 4", "load none", "insert t r5 f q \\e 5")
    running.kill()
    count("a load that failed changes nothing", told == ["ok", "ok", "fault load io", "ok"], told)
    count("nor at the next start", found() == ["r1", "r4", "r5"], found())
    running = Asked()
    count("a load is done", running.ask("load saved", "insert t r3 f q \\e 3") == ["ok", "ok"])
    running.kill()
    shutil.rmtree("whole", ignore_errors=True)
    shutil.copytree(STORE, "whole")
    loaded = next(it for it in os.listdir(STORE) if it.startswith("loaded."))
    count("it is replayed", found() == ["r1", "r3"], found())
    size = os.path.getsize("whole/" + loaded)
    for length in (0, 7, size // 2, size - 1):
        shutil.rmtree(STORE)
        shutil.copytree("whole", STORE)
        os.truncate("%s/%s" % (STORE, loaded), length)
        done = script("scan t \\0\n")
        count("a loaded image that is cut at %d is refused" % length, (done.returncode, done.stdout) == (1, "") and done.stderr.startswith("fault: store: "), done)
        count("and all stays", sorted(os.listdir(STORE)) == sorted(os.listdir("whole")), os.listdir(STORE))


def what_goes_with_older_images():
    """What older images left is swept, whatever it is; what has no number of theirs stays."""
    anew("insert t r1 f q \\e 1")
    for name in ("image.0", "image.0.part", "journal.0", "loaded.0.0", "loaded.0.1.part", "image.00", "journal.x", "mine"):
        open("%s/%s" % (STORE, name), "w").close()
    count("a run over what older ones left", script("insert t r2 f q \\e 2\n").returncode == 0 and found() == ["r1", "r2"], found())
    number = newest()[0]
    theirs = ["image.%d" % number, "image.%d.sha256" % number, "journal.%d" % number]
    count("all of theirs is gone, and nothing else", sorted(os.listdir(STORE)) == sorted(["image.00", "journal.x", "lock", "mine", *theirs]), os.listdir(STORE))


def a_clock_that_goes_back():
    """What was stamped behind a refused event is stamped so behind a replay, though the machine's clock had gone back meanwhile."""
    shutil.rmtree(STORE, ignore_errors=True)
    if os.path.exists("history"):
        os.remove("history")
    with serving("--history", "history", BACK=os.path.abspath("back")) as server:
        count("a table is made", server.shell(b"createtable t\ninsert t r1 f q \\e 1\n").stdout == b"ok\nok\n")
        time.sleep(0.02)
        count("an event is refused", server.shell(b"insert none r f q \\e 2\n").stdout == b"refused 2 NoTable none\n")
        with open("back", "wb") as file:
            file.write(bytes(1000))
        server.shell(b"createuser ann\nrotate\n")
        shown = server.shell(b"insert t r2 f q \\e 2\ncreatetable s time=server\ninsert s r3 f q \\e 3\nscan t \\0\nscan s \\0\n").stdout
        server.shell(b"rotate\n")
        os.remove("back")
        wait_for(lambda: b"mutate s r3 " in open("history", "rb").read())
        server.process.kill()
    with open("history", "rb") as file:
        log = file.read()
    again = subprocess.run([PROGRAM, "script", "--store", STORE], input=b"scan t \\0\nscan s \\0\n", capture_output=True, timeout=60).stdout
    times = [int(line.split(b" ")[4]) for line in shown.splitlines() if line.count(b" ") == 5]
    count("the clock stands still where the machine's goes back", len(times) == 3 and times[1] >= times[0], times)
    count("and a replay stamps the same", shown == b"ok\nok\nok\n" + again, (shown, again))
    done = subprocess.run([PROGRAM, "script"], input=log + b"as root\nscan t \\0\nscan s \\0\n", capture_output=True, timeout=60).stdout
    moments = [int(line[3:]) for line in log.splitlines() if line.startswith(b"at ")]
    count("the history's clock doesn't go back either", moments == sorted(moments) and len(moments) > 6, moments)
    count("and its lines stamp the same", done.endswith(again), (done[-300:], again))


def saves_that_are_cut():
    """A save that is killed between its two names leaves the new image without a checksum, never with another one's."""
    for name in os.listdir("."):
        if name.startswith("saved"):
            os.remove(name)
    with open("saved.0.part", "w", encoding="ascii") as file:
        file.write("mine")
    shutil.rmtree(STORE, ignore_errors=True)
    done = script("createtable t\ninsert t r1 f q \\e 1\nsave saved\n")
    count("a save beside a file of somebody else's", done.stdout == "ok\nok\nok\n" and sorted(name for name in os.listdir(".") if name.startswith("saved")) ==
          ["saved", "saved.0.part", "saved.sha256"], (done, os.listdir(".")))
    with open("saved.0.part", encoding="ascii") as file:
        count("which stays as it is", file.read() == "mine")
    running = Asked("rename:saved.sha256:waits")
    let(ON, True)
    first = os.stat("saved").st_ino
    running.say("insert t r2 f q \\e 2\nsave saved\n")
    count("a save waits for its last name", wait_for(lambda: os.stat("saved").st_ino != first and not os.path.exists("saved.sha256")))
    running.kill()
    done = subprocess.run([PROGRAM, "script", "--image", "saved"], input="scan t \\0\n", capture_output=True, text=True, timeout=60)
    count("and is loaded after a kill", (done.returncode, rows_of(done.stdout)) == (0, ["r1", "r2"]), done)
    again = environment("rename:saved.sha256:fails")
    let(ON, True)
    done = subprocess.run([PROGRAM, "script", "--image", "saved"], input="save saved\n", capture_output=True, text=True, timeout=60, env={**os.environ, **again})
    left = sorted(name for name in os.listdir(".") if name.startswith("saved"))
    count("one whose checksum gets no name is saved without one", done.stdout == "ok\n" and left == ["saved", "saved.0.part"], (done, left))


# ---- Who may read what is kept.
def files_of_the_owner():
    """Whatever the umask lets others do, what is kept is its owner's alone; the metrics are for all to read."""
    shutil.rmtree(STORE, ignore_errors=True)

    def open_to_all():
        os.umask(0)

    socket = os.path.abspath("sock")
    for name in ("history", "saved", "saved.sha256", "figures"):
        if os.path.exists(name):
            os.remove(name)
    words = [PROGRAM, "serve", "--socket", socket, "--store", STORE, "--history", "history", "--metrics", "figures", "--accept", "1", "--checkpoint", "1"]
    with subprocess.Popen(words, stdout=subprocess.PIPE, stderr=subprocess.PIPE, env={**os.environ, **environment()}, preexec_fn=open_to_all) as server:
        count("a server at a socket file", server.stdout.readline() == b"listening %s\n" % socket.encode())
        modes = {"socket": os.stat(socket).st_mode & 0o777}
        subprocess.run([PROGRAM, "shell", "--socket", socket, "--user", "root"], input=b"createtable t\ninsert t r f q \\e v\n", capture_output=True, timeout=60)
        server.wait(PATIENCE)
        server.communicate()
    made = [(name, how) for _, _, call, name, how in calls() if call == "mkdir"]
    count("the folder in which a socket is made is its maker's alone", (".tabd0", 0o700) in made, made)
    done = script("save saved\n", preexec_fn=open_to_all)
    count("a script saves", done.stdout == "ok\n", done)
    running = subprocess.Popen([PROGRAM, "script", "--store", STORE], stdin=subprocess.PIPE, stdout=subprocess.PIPE, preexec_fn=open_to_all)
    running.stdin.write(b"load saved\n")
    running.stdin.flush()
    count("and loads", running.stdout.readline() == b"ok\n")
    kept = [STORE, *("%s/%s" % (STORE, name) for name in os.listdir(STORE)), "history", "saved", "saved.sha256"]
    wrong = {name: oct(os.stat(name).st_mode) for name in kept if os.stat(name).st_mode & 0o077}
    kinds = {name.split("/")[1].split(".")[0] for name in kept if "/" in name}
    running.kill()
    running.communicate()
    count("what is kept is its owner's alone", not wrong and kinds == {"image", "journal", "loaded", "lock"}, (wrong, kinds))
    modes["figures"] = stat.S_IMODE(os.stat("figures").st_mode)
    count("a socket has the mode that is asked for, and metrics are for all to read", modes == {"socket": 0o600, "figures": 0o644}, modes)


def build():
    subprocess.run([os.environ.get("CC", "cc"), "-shared", "-fPIC", "-O1", "-o", "calls.so", "%s/calls.c" % HERE, "-ldl"], check=True)


if __name__ == "__main__":
    run_parts(build, intervals, long_syncs, images_grow, images_that_fail, a_history_is_on_the_disk, losses_of_a_history, failed_syncs, a_failed_write, a_folder_that_fails, full_folders, held_writes, held_behind_others,
              many_unsettled, large_unsettled,
              lines_that_do_not_end, a_tail_that_was_cut, a_tail_of_a_server, later_journals, journals_of_others, loads, what_goes_with_older_images, a_clock_that_goes_back,
              saves_that_are_cut, files_of_the_owner)
