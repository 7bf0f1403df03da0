"""Each request for memory refused in turn, of programs that keep what they do in a folder: in events of a server, in its images, in starts that
find something in the journal, and at the end of a script; alone, and with all behind it.

An event is answered 17 or as always, or its connection ends, or the program does, with the status 1 and a line that says that memory lacked. A
start, an image and an end come about, or the program ends so. Whoever takes the folder up next finds all that was answered and all that was
shown, each event whole or not at all, and the next one finds the same.
Usage: store_memory.py PROGRAM [STEP]   (only each request of so many is refused, 13 by default)"""
import os
import re
import shutil
import socket
import subprocess
import sys
import tempfile
import threading
import time

from failing import NO_MEMORY, PATIENCE, Control, Counted, Script, Server, Silent, library, start

PROGRAM = sys.argv[1]
STEP = int(sys.argv[2]) if len(sys.argv) > 2 else 13
# the names of the parts that are run, all where there is none
PARTS = os.environ.get("PARTS", "").split()
counted = Counted()
BEFORE = ["createtable t versions=2", "setauths root A,B", "insert t b f q A 1 5", "insert t f f q \\e 2 5", "addsplit t c", "createuser u",
          "grant u READ t", *("insert t m%d f q A&B %d 5" % (at, at) for at in range(8))]
EVENTS = ["mutate t k put f q A 2 9 ; put f q2 B 3 9 ; del f q A&B 4", "addsplit t k", "createuser v"]
ASKED = ["scan t A,B", "splits t", "rights t"]
FAULT = re.compile(rb"fault: [^\n]*memory[^\n]*\n")


class Place:
    """A folder of the test with a store in it, which is taken from one that was prepared."""

    def __init__(self, work, preloaded):
        self.work, self.preloaded = work, preloaded
        self.store = work + "/store"

    def prepared(self, name):
        shutil.rmtree(self.store, ignore_errors=True)
        shutil.copytree(self.work + "/" + name, self.store)

    def prepare(self, name, program, *lines):
        """A store whose program was killed once these lines were answered."""
        shutil.rmtree(self.store, ignore_errors=True)
        asker = self.script() if program == "script" else self.server()
        told = (asker if program == "script" else asker.connect()).ask(*lines)
        counted.tell("it is prepared", told == [b"ok\n"] * len(lines), told)
        asker.close()
        shutil.copytree(self.store, self.work + "/" + name)

    def script(self):
        return Script(PROGRAM, self.work, self.preloaded, "--store", self.store)

    def server(self, *words):
        return Server(PROGRAM, self.work, self.preloaded, "--store", self.store, *words, workers=2)

    def found(self):
        """What is found in the store, by two starts one after another."""
        lines = "".join(each + "\n" for each in ASKED)
        one, two = [subprocess.run([PROGRAM, "script", "--store", self.store], input=lines, capture_output=True, text=True, timeout=PATIENCE) for _ in range(2)]
        if one.stdout != two.stdout or two.stderr or one.returncode or two.returncode:
            return "two starts differ: %s %s" % (one, two)
        facts = subprocess.run([PROGRAM, "inspect", self.store], capture_output=True, text=True, timeout=PATIENCE)
        return one.stdout, [line for line in facts.stdout.splitlines() if "user" in line]


def in_turn(name, step, least, once):
    """Calls for each request, alone and with all behind it, until two of them aren't met: whether one was, whether it ended, and what is wrong."""
    wrong, tries, ended = [], 0, 0
    for stays in (0, 1):
        at, spared = 1, 0
        while spared < 2:
            failed, has_ended, why = once(at, stays)
            tries, ended, spared = tries + 1, ended + has_ended, 0 if failed else spared + 1
            at += step
            if why:
                wrong.append((at - step, stays, why))
    counted.tell(name, not wrong and tries > least, wrong[:1] or tries)
    print(f"{name}: {tries} tries, behind {ended} of which the program ended", flush=True)


def is_lack(status, said):
    """Whether the program ended for want of memory, and said so in its last line."""
    return status == 1 and FAULT.fullmatch((said.splitlines(keepends=True) or [b""])[-1]) is not None


def has_ended(process, patience):
    """Whether the program ends, and what is wrong with how it does."""
    try:
        process.wait(patience)
    except subprocess.TimeoutExpired:
        return False, ""
    return True, "" if is_lack(process.returncode, said := process.stderr.read()) else (process.returncode, said)


# ---- Events of a server.
def events(place):
    for event in EVENTS:
        word = event.split()[0]
        shown, states = [], []
        for lines in ((), (event,)):
            place.prepared("events")
            server = place.server()
            server.connect().ask(*lines)
            shown.append(server.connect().ask(*ASKED))
            server.close()
            states.append(place.found())
        before, after = states
        counted.tell(f"{word} is found", before != after, after)

        def once(at, stays):
            place.prepared("events")
            server = place.server()
            client = server.connect()
            server.control.deny(at, stays)
            # what can't be kept is answered once it can be
            lifting = threading.Timer(0.2, server.control.lift)
            lifting.start()
            try:
                answer = client.ask(event)[0]
            except (Silent, OSError):
                answer = None
            lifting.join()
            failed = server.control.lift() > 0
            ended, why = has_ended(server.process, 0.3) if answer is None else (False, "")
            seen = server.connect().ask(*ASKED) if not ended else None
            server.close()
            found = place.found()
            good = {b"ok\n": [after], NO_MEMORY: [before]}.get(answer, [before, after])
            if seen in shown and shown[0] != shown[1]:
                good = [state for state in good if state is states[shown.index(seen)]]
            if found not in good or not failed and answer != b"ok\n" or seen not in [None, *shown]:
                why = why or (answer, seen, found)
            return failed, ended, why

        in_turn(f"{word}, of a server with a store", max(1, STEP // 3), 3, once)


# ---- Images while a server runs.
def images(place):
    more = ["insert t n%02d f q A x 5" % at for at in range(12)]
    place.prepared("events")
    server = place.server()
    server.connect().ask(*more)
    server.close()
    after = place.found()

    def newest():
        return max(int(name.split(".")[1]) for name in os.listdir(place.store) if re.fullmatch(r"image\.\d+", name))

    def once(at, stays):
        place.prepared("events")
        server = place.server("--checkpoint", "200")
        client, first, ended, why = server.connect(), newest(), False, ""
        answered = client.ask(*more[:-1]) == [b"ok\n"] * (len(more) - 1)
        server.control.deny(at, stays)
        ends = time.monotonic() + 0.4
        while newest() == first and time.monotonic() < ends and server.process.poll() is None:
            time.sleep(0.01)
        failed = server.control.lift() > 0
        try:
            answered = answered and client.ask(more[-1])[0] == b"ok\n"
        except (Silent, OSError):
            answered = False
            ended, why = has_ended(server.process, PATIENCE)
        server.close()
        found = place.found()
        rows = found[0].count(" f q A ") if answered else 0
        if answered and found != after or not answered and not ended:
            why = why or (answered, rows, found)
        return failed, ended, why

    in_turn("images of a server", STEP, 3, once)


# ---- Starts that find something, and ends of scripts.
def starts(place):
    for kind in ("events", "lines", "two"):
        place.prepared(kind)
        right = place.found()
        for words in (["serve", "--workers", "1", "--compactors", "0"], ["script"]):

            def once(at, stays):
                place.prepared(kind)
                control = Control(place.work)
                control.deny(at, stays)
                port = []
                if words[0] == "serve":
                    with socket.create_server(("127.0.0.1", 0)) as probe:
                        port = ["--port", str(probe.getsockname()[1])]
                process = start(PROGRAM, [*words, *port, "--store", place.store], place.work, place.preloaded, control)
                if words[0] == "serve":
                    line = process.stdout.readline()
                    failed = control.lift() > 0
                    if line:
                        process.kill()
                    said = process.communicate(timeout=PATIENCE)[1]
                else:
                    said, line = process.communicate(timeout=PATIENCE)[1], process.returncode == 0
                    failed = control.lift() > 0
                good = line or failed and is_lack(process.returncode, said)
                found = place.found()
                why = "" if good and found == right else (process.returncode, said, found)
                return failed, not line, why

            in_turn(f"{words[0]} begins over {kind}", 4 * STEP, 3, once)


def ends(place):
    """The image that a script leaves at its end; and lines of a script, the last one of which goes to its end."""
    place.prepared("lines")
    script = place.script()
    script.ask("insert t z f q A x 5")
    script.close()
    right = place.found()

    def once(at, stays):
        place.prepared("lines")
        script = place.script()
        told = script.ask("insert t z f q A x 5")
        script.control.deny(at, stays)
        script.process.stdin.close()
        script.process.wait(PATIENCE)
        failed = script.control.lift() > 0
        ended, why = has_ended(script.process, 0) if script.process.returncode else (False, "")
        found = place.found()
        return failed, ended, why if told == [b"ok\n"] and found == right else (told, why, found)

    in_turn("a script ends", max(1, STEP // 3), 3, once)


def main():
    with tempfile.TemporaryDirectory() as work:
        place = Place(work, library(work))
        place.prepare("events", "serve", *BEFORE)
        place.prepare("lines", "script", *BEFORE)
        # where an image was being made there are two journals
        place.prepared("events")
        server = place.server("--checkpoint", "100")
        client = server.connect()
        while not (os.path.exists(place.store + "/journal.2") and os.path.exists(place.store + "/image.2")):
            client.ask("insert t z f q A x 5")
            time.sleep(0.01)
        server.close()
        shutil.copytree(place.store, work + "/two")
        for part in (events, images, starts, ends):
            if part.__name__ in PARTS or not PARTS:
                part(place)
    counted.end()


if __name__ == "__main__":
    main()
