"""What a store's folder bears: files that are lost, cut, changed or added, loads whose disk fails, folders of version 0.17.7, little memory, few
descriptors and no room.

A folder in which a file is missing is refused by that file's name, and stays as it is. What a script was told of a load is what the next start finds.
A start goes on in the journal that it finds, under the memory under which the server ran, and where nothing can be written.
Usage: folder.py PROGRAM"""

import base64
import fcntl
import json
import os
import re
import resource
import shutil
import subprocess
import time
import zlib

from serving import HELLO, MAKE, OK, PATIENCE, PROGRAM, Server, count, field, frame, free_port, read_frame, run_parts

HERE = os.path.dirname(os.path.abspath(__file__))
STORE = "store"

# What 0.17.7 left: by a script that ended, by one that was killed behind two loads, and by a server that was killed.
OLD = json.loads(zlib.decompress(base64.b64decode(
    "eNrtU8tu3DAM/JXA5yIgKZKy+jd6UEWKdAO0TS/B/ntlx3F25X1kc+qhAmQTAsnhkJyXwXbFyvD17mV4+BG/2T02exBmZOLAhT0AEFw+2P3Zk1atnmvtPbj3Rc+HecbLCGtm"
    "rFdqcZ4cuPVVdcXb1rKNPsvUIQsbM+Gw/3I3PD7s7NdB9+AT3YOr3VvPit2gvz89/9zFxyPIKMT2ARqbI6OLiG4kdRTQRCJI8pLAB3GJukLe2uqLtjaraBuiSruopFmFoA01"
    "evf65qfv6F17XYgRtNZHDWqzD00v851HRqDabJy8CNzkmVscavNQa5apzNnR64y1WMpnc+KlnB+Ip208kxurcIipVApNQtM2PMUmpnv4L6KbRGR/bPf7H1QR3aqilMCguLah"
    "vrILhSAnLhiiluzVwmkVLVPA2HqdxGW0nsJb+rWio3n76Btrj40SpFK64esCQ9qh1NMok1TO4B/MfIwUklRMxQSyuGPMUBaG6RiT8HRm8hA3zLrde0e/soVtu8ZRUGOy4rOa"
    "xW4BLJ+pzt1cHX6iOoo1YE45JsJSotmw3/8Fee+dAA==")))


# ---- Folders, and what programs say of them.
def script(lines, *words, before=None):
    """What a script over the folder is answered, its status, and what it says on standard error."""
    done = subprocess.run([PROGRAM, "script", "--store", STORE, *words], input=lines, capture_output=True, text=True, timeout=60, preexec_fn=before)
    return done.stdout, done.returncode, done.stderr


def rows():
    """The rows that the folder keeps; none where it is refused."""
    out, status, told = script("scan t A\nscan t \\0\n")
    return (named(out) if status == 0 else None), told


def named(out):
    return list(dict.fromkeys(line.split()[0] for line in out.splitlines() if re.match("r[0-9]", line)))


def shell(server, *lines):
    """What a server answers to these lines."""
    return server.shell("".join(line + "\n" for line in lines).encode()).stdout.decode()


def serve(*words, **environment):
    return Server("--store", STORE, "--workers", "1", *words, **environment)


def killed(server):
    """Kills a server, and gives what it said on standard error."""
    server.process.kill()
    return server.process.communicate()[1].decode()


def files():
    """All files, by their names."""
    found = {}
    for name in sorted(os.listdir(STORE)):
        with open("%s/%s" % (STORE, name), "rb") as file:
            found[name] = file.read()
    return found


def make(found, mode=0o700):
    """The folder with these files."""
    shutil.rmtree(STORE, ignore_errors=True)
    os.mkdir(STORE)
    os.chmod(STORE, mode)
    for name, text in found.items():
        with open("%s/%s" % (STORE, name), "wb") as file:
            file.write(text)


def newest():
    return max([int(name.split(".")[1]) for name in os.listdir(STORE) if re.fullmatch("image[.][0-9]+", name)], default=-1)


def waits(what):
    """Whether that comes about in time."""
    ends = time.monotonic() + PATIENCE
    while not what() and time.monotonic() < ends:
        time.sleep(0.01)
    return what()


def write(row, value=b"v"):
    update = b"\x01" + field(b"f") + field(b"q") + field(b"") + b"\x00" + field(value)
    return frame(b"\x0a" + field(b"t") + field(row.encode()) + b"\x00\x00\x00\x01" + update)


def greeted(server):
    stream = server.connect()
    stream.sendall(HELLO)
    count("a client is greeted", read_frame(stream) == OK)
    return stream


def asked(stream, *requests):
    """How many of these requests are done."""
    done = 0
    for request in requests:
        stream.sendall(request)
        done += read_frame(stream) == OK
    return done


def hinder(full):
    """No file with this in its name can be written from now on, or each can."""
    with open("disk", "w", encoding="ascii") as file:
        file.write("0 0 %s\n" % full)


def disk():
    return {"LD_PRELOAD": os.path.abspath("disk.so"), "DISK": os.path.abspath("disk"), "NOTED": os.path.abspath("noted")}


# ---- Files that are lost, cut, changed or added.
def two_journals():
    """The files of a folder whose server was killed while it had two journals."""
    shutil.rmtree(STORE, ignore_errors=True)
    hinder("none")
    # the journal is that long once all is in it
    with serve("--checkpoint", "780", **disk()) as server:
        hinder("image.1")
        asked(greeted(server), MAKE, *(write("r%d" % number) for number in range(8)))
        count("there are two journals", waits(lambda: os.path.exists(STORE + "/journal.1") and os.path.getsize(STORE + "/journal.1") == 48))
        killed(server)
    hinder("none")
    # (it may have been killed while it tried to make an image)
    return without(files(), "image.1.part", "image.1.sha256")


def refused(name, found, told):
    """A folder with these files is refused so, by a server too, and stays as it is."""
    make(found)
    began = time.monotonic()
    out, status, said = script("createtable u\n")
    count("%s: it is refused" % name, (out, status, said) == ("", 1, "fault: %s: %s\n" % (STORE, told)), said)
    count("%s: at once" % name, time.monotonic() - began < PATIENCE)
    run = subprocess.run([PROGRAM, "serve", "--port", "1", "--store", STORE], capture_output=True, text=True, timeout=60)
    count("%s: by a server too" % name, (run.returncode, run.stderr) == (1, said), run.stderr)
    there = files()
    there.pop("lock", None)
    count("%s: it stays as it is" % name, there == {each: text for each, text in found.items() if each != "lock"}, sorted(there))


def without(found, *names):
    return {name: text for name, text in found.items() if name not in names}


def lost():
    found = two_journals()
    count("an image has its checksum", sorted(found) == ["image.0", "image.0.sha256", "journal.0", "journal.1", "lock"], sorted(found))
    every = ["r%d" % number for number in range(8)]
    make(found)
    subprocess.run(["sha256sum", "-c", "--quiet", "image.0.sha256"], cwd=STORE, check=True)
    count("the checksum is that of the image", True)
    refused("the first journal is lost", without(found, "journal.0"), "journal.0 is missing")
    refused("both journals are lost", without(found, "journal.0", "journal.1"), "journal.0 is missing")
    refused("the image is lost", without(found, "image.0"), "there is no image in it, but what goes with image.1")
    refused("the first journal is cut to nothing", {**found, "journal.0": b""}, "journal.0 is cut, and isn't the last one")
    refused("its end is cut", {**found, "journal.0": found["journal.0"][:-3]}, "journal.0 is cut, and isn't the last one")
    refused("a header is changed", {**found, "journal.0": b"t" + found["journal.0"][1:]}, "journal.0 is damaged at 0")
    one = without(found, "journal.1")
    refused("the only journal is cut to nothing", {**one, "journal.0": b""}, "journal.0 has no header")
    refused("its header is cut", {**one, "journal.0": found["journal.0"][:47]}, "journal.0 has no header")
    for place in (3, len(found["image.0"]) - 1):
        changed = bytearray(found["image.0"])
        changed[place] ^= 1
        refused("byte %d of the image is changed" % place, {**found, "image.0": bytes(changed)}, "image.0: differs from its checksum")
    refused("the image is cut", {**found, "image.0": found["image.0"][:-1]}, "image.0: differs from its checksum")
    refused("an image is added", {**found, "image.20261201": found["image.0"]}, "journal.20261201 is missing")
    refused("a journal is added", {**found, "journal.1000000": found["journal.1"]}, "journal.2 is missing")
    refused("one that leaves a gap", {**found, "journal.3": b""}, "journal.2 is missing")
    refused("what a load gave is added", {**found, "loaded.2.0": b""}, "journal.2 is missing")
    refused("a journal is another one's", {**found, "journal.1": found["journal.0"]}, "journal.1 doesn't follow on what is before it")
    make(without(found, "image.0.sha256"))
    count("an image without a checksum is taken", rows() == (every, "%s: 9 entries are replayed\n" % STORE), rows())
    make({**found, "image.0.part": b"TAB", "image.1.part": b"", "image.1.sha256": b"0", "image.x": b"", "journal.01": b"", "other": b""})
    count("parts and other files do no harm", rows() == (every, "%s: 9 entries are replayed\n" % STORE))
    kept = sorted(files())
    count("and parts go", kept == ["image.3", "image.3.sha256", "image.x", "journal.01", "journal.3", "lock", "other"], kept)
    refused("a script has ended, and the journal is lost", without(files(), "journal.3"), "journal.3 is missing")


def begun():
    """A folder that was begun and has no image yet is begun anew; one that has lost its image isn't."""
    shutil.rmtree(STORE, ignore_errors=True)
    script("createtable t\n")
    found = files()
    empty = found["journal.1"][:48]
    for front in (b"", empty[:20], empty):
        make({"image.0.part": b"TABIMG", "image.0.sha256": b"0", "journal.0": front})
        out, status, told = script("createtable t\n")
        count("a folder that was begun is begun anew", (out, status, told) == ("ok\n", 0, ""), told)
        count("and has no part left", sorted(files()) == ["image.1", "image.1.sha256", "journal.1", "lock"], sorted(files()))
    refused("the part is lost too", {"journal.0": empty}, "there is no image in it, but what goes with image.0")
    refused("the journal keeps something", {"image.0.part": b"", "journal.0": empty + b"0"}, "there is no image in it, but what goes with image.0")


def locks():
    """The lock is on the folder itself, and on the file in it."""
    shutil.rmtree(STORE, ignore_errors=True)
    with serve() as server:
        for names in ([], ["lock"]):
            for name in names:
                os.remove("%s/%s" % (STORE, name))
            count("a second program is kept out, without %s" % names, script("") == ("", 1, "fault: %s: another process has it\n" % STORE))
            look = subprocess.run([PROGRAM, "inspect", STORE], capture_output=True, text=True, timeout=60)
            count("and who looks", (look.returncode, look.stderr) == (1, "fault: %s: another process has it\n" % STORE), look)
        killed(server)
    with open(STORE + "/lock", "w", encoding="ascii") as file:
        fcntl.flock(file, fcntl.LOCK_EX)
        count("one that locks the file is seen too", script("") == ("", 1, "fault: %s: another process has it\n" % STORE))


def rights():
    """Who may use a folder."""
    shutil.rmtree(STORE, ignore_errors=True)
    script("createtable t\n")
    for mode in (0o750, 0o755, 0o711):
        os.chmod(STORE, mode)
        told = script("")[1:]
        count("others may look into it: %o" % mode, told == (0, "note: %s: others may look into it: its mode is %o\n" % (STORE, mode)), told)
    for mode in (0o770, 0o702, 0o777):
        os.chmod(STORE, mode)
        told = script("")[1:]
        count("others may change it: %o" % mode, told == (1, "fault: %s: others may change it: its mode is %o\n" % (STORE, mode)), told)
    os.chmod(STORE, 0o700)
    if os.geteuid() == 0:
        os.chown(STORE, 1, -1)
        told = script("")[1:]
        count("it is another's", told == (1, "fault: %s: it belongs to another user\n" % STORE), told)
    else:
        print("skipped: another's folder: only root can make one")


def disks_that_sync_no_names():
    """A file system that syncs no folder is told once, and is no fault. The folder's own name is synced though it was there."""
    shutil.rmtree(STORE, ignore_errors=True)
    os.mkdir(STORE, 0o700)
    env = {**os.environ, "LD_PRELOAD": os.path.abspath("killing.so"), "KILL_AT": "0", "HOW": "unable", "KILLED": os.path.abspath("killed")}
    done = subprocess.run([PROGRAM, "script", "--store", STORE], input="createtable t\nload none\n", capture_output=True, text=True, env=env, timeout=60)
    told = "note: %s: the names of its files may not be on the disk: Invalid argument (os error 22)\n" % STORE
    told += "fault: none: the image can't be read: No such file or directory (os error 2)\n"
    count("it is told once", (done.stdout, done.returncode, done.stderr) == ("ok\nfault load io\n", 0, told), done)
    with open("killed", encoding="ascii") as file:
        synced = file.read().split("\n")
    count("the folder's own name is synced too", {os.path.abspath(STORE), os.path.abspath(".")} <= set(synced), synced)


# ---- Folders of 0.17.7.
def older():
    for name, right, told in (
            ("ended", ["r00"], ""), ("lines", ["r00", "r02"], "%s: 125 bytes of lines are replayed\n" % STORE),
            ("events", ["r00", "r01"], "%s: 4 entries are replayed\n" % STORE)):
        make({each: bytes.fromhex(text) for each, text in OLD[name].items()})
        before = files()
        count("0.17.7, %s: a script takes it up" % name, rows() == (right, told), rows())
        count("0.17.7, %s: the next start finds the same" % name, rows() == (right, ""))
        make(before)
        with serve() as server:
            count("0.17.7, %s: a server takes it up" % name, named(shell(server, "insert t r99 f q A 1", "scan t A")) == [*right, "r99"])
            if told:
                image = max(int(each.split(".")[1]) for each in before if each.startswith("image."))
                count("0.17.7, %s: an image takes its place" % name, waits(lambda: newest() > image and not os.path.exists("%s/image.%d" % (STORE, image))))
                count("0.17.7, %s: with a checksum" % name, os.path.exists("%s/image.%d.sha256" % (STORE, newest())))
            said = killed(server)
        count("0.17.7, %s: which says so" % name, said == told, said)
        count("0.17.7, %s: and keeps it" % name, rows()[0] == [*right, "r99"])
    lone = {each: bytes.fromhex(text) for each, text in OLD["ended"].items()}
    make({**lone, "image.0": lone["image.1"], "journal.0": bytes.fromhex(OLD["events"]["journal.0"])})
    count("0.17.7: what an image took the place of may be there", rows() == (["r00"], ""))
    again = {each: bytes.fromhex(text) for each, text in OLD["lines"].items()}
    make(without(again, "loaded.0.1"))
    count("0.17.7: a load that is missing had failed", rows()[0] == ["r00", "r01", "r02"])
    refused("0.17.7: what a load gave is cut", {**again, "loaded.0.1": again["loaded.0.1"][:-1]}, "loaded.0.1: the image is cut short or damaged")


# ---- Loads.
LINES = ["createtable t\n", "setauths root A\n", "insert t r0 f q A 1\n", "save saved\n", "insert t r1 f q A 1\n", "load saved\n", "insert t r2 f q A 1\n",
         "load none\n", "insert t r3 f q A 1\n"]


def told_line_by_line(at, how):
    """What a script is answered, line by line, whose call of this number to the disk goes so, and its status and what it says."""
    env = {**os.environ, "LD_PRELOAD": os.path.abspath("killing.so"), "KILL_AT": str(at), "HOW": how, "KILLED": os.path.abspath("killed")}
    if os.path.exists("killed"):
        os.remove("killed")
    running = subprocess.Popen([PROGRAM, "script", "--store", STORE], stdin=subprocess.PIPE, stdout=subprocess.PIPE, stderr=subprocess.PIPE, text=True, env=env)
    answers = []
    try:
        for line in LINES:
            running.stdin.write(line)
            running.stdin.flush()
            answers.append(running.stdout.readline())
            if not answers[-1]:
                answers.pop()
                break
        running.stdin.close()
    except BrokenPipeError:
        pass
    running.wait()
    told = running.stderr.read()
    for stream in (running.stdin, running.stdout, running.stderr):
        try:
            stream.close()
        except BrokenPipeError:
            pass
    return answers, running.returncode, told


def may_be_found(answers):
    """The rows that may be found where the lines were answered so: those of the answered lines, or of one line more, which may be done or not."""
    found, saved = [], []
    for line, answer in zip(LINES, answers):
        word, *rest = line.split()
        if word == "insert":
            found = [*found, rest[1]]
        elif word == "save" and answer == "ok\n":
            saved = list(found)
        elif line == "load saved\n" and answer == "ok\n":
            found = list(saved)
    may, behind = [found], LINES[len(answers):]
    if behind and behind[0].startswith("insert"):
        may.append([*found, behind[0].split()[2]])
    if behind and behind[0] == "load saved\n" and answers[3] == "ok\n":
        may.append(saved)
    return may


def loads():
    """What a script was told of a load is what the next start finds, at whichever call the disk fails or the power goes."""
    for how in ("fails", "half"):
        at = 1
        while True:
            shutil.rmtree(STORE, ignore_errors=True)
            for name in ("saved", "saved.sha256"):
                if os.path.exists(name):
                    os.remove(name)
            answers, status, told = told_line_by_line(at, how)
            if not os.path.exists("killed"):
                count("%s %d: no call is met, and all is answered" % (how, at), answers == ["ok\n"] * 7 + ["fault load io\n", "ok\n"], answers)
                break
            count("%s %d: a script that isn't answered ends by a fault" % (how, at), len(answers) == len(LINES) or status == (1 if how == "fails" else -9), (status, told))
            found, _ = rows()
            may = may_be_found(answers)
            if len(answers) < 2:
                may.append(None if found is None else [])
            count("%s %d: the next start finds what was told" % (how, at), found in may, (answers, found, may, told))
            count("%s %d: and the one behind it" % (how, at), rows() == (found, ""))
            at += 1


def cut_loads():
    """A load that is cut off isn't done, nor is what was read with it behind it; one whose file is lost is refused by that name."""
    asked_first = ["createtable t\n", "setauths root A\n", "insert t r0 f q A 1\n", "save saved\n"]
    for place in range(1, 60):
        shutil.rmtree(STORE, ignore_errors=True)
        env = {**os.environ, "LD_PRELOAD": os.path.abspath("killing.so"), "KILL_AT": str(place), "HOW": "before", "KILLED": os.path.abspath("killed")}
        running = subprocess.Popen([PROGRAM, "script", "--store", STORE], stdin=subprocess.PIPE, stdout=subprocess.PIPE, stderr=subprocess.PIPE, text=True, env=env)
        try:
            running.stdin.write("".join(asked_first))
            running.stdin.flush()
            good = [running.stdout.readline() for _ in asked_first] == ["ok\n"] * 4
            running.stdin.write("insert t r1 f q A 1\nload saved\ninsert t r2 f q A 1\n")
            running.stdin.flush()
        except BrokenPipeError:
            good = False
        if not good:
            running.communicate()
            continue
        out = running.stdout.read()
        running.communicate()
        if out != "ok\n" or any(name.startswith("loaded") and not name.endswith((".part", ".sha256")) for name in os.listdir(STORE)):
            continue
        break
    last = [name for name in os.listdir(STORE) if name.startswith("journal.")]
    count("a load is cut off", out == "ok\n" and len(last) == 1, (place, out, last))
    found, told = rows()
    name = "loaded.%s.0" % last[0].split(".")[1]
    said = "%s: a load was cut off, so there is no %s: neither it nor what was read with it behind it is replayed\n" % (STORE, name)
    count("neither it nor what is behind it is done", found == ["r0", "r1"] and told.startswith(said), (found, told))
    shutil.rmtree(STORE, ignore_errors=True)
    running = subprocess.Popen([PROGRAM, "script", "--store", STORE], stdin=subprocess.PIPE, stdout=subprocess.PIPE, text=True)
    running.stdin.write("".join(asked_first) + "insert t r1 f q A 1\nload saved\nload none\n")
    running.stdin.flush()
    count("loads are answered", [running.stdout.readline() for _ in range(7)] == ["ok\n"] * 6 + ["fault load io\n"])
    running.kill()
    running.wait()
    running.stdin.close()
    running.stdout.close()
    found = files()
    names = sorted(name for name in found if name.startswith("loaded"))
    count("each has its file", names == ["loaded.0.0", "loaded.0.0.sha256", "loaded.0.1"] and found["loaded.0.1"] == b"", names)
    refused("what a load gave is lost", without(found, "loaded.0.0"), "loaded.0.0 is missing")
    refused("that a load failed is lost", without(found, "loaded.0.1"), "loaded.0.1 is missing")
    cut = found["loaded.0.0"][:-1]
    refused("what a load gave is cut", {**found, "loaded.0.0": cut}, "loaded.0.0: differs from its checksum")
    refused("and it is cut to nothing", {**found, "loaded.0.0": b""}, "loaded.0.0: differs from its checksum")
    refused("and has no checksum", without({**found, "loaded.0.0": cut}, "loaded.0.0.sha256"), "loaded.0.0: the image is cut short or damaged")
    make(found)
    count("else all is as it was", rows()[0] == ["r0"])


# ---- Starts.
def starts():
    """Starts one after another, of servers and scripts that are killed: each goes on where the last one was, and all journals are replayed in turn."""
    shutil.rmtree(STORE, ignore_errors=True)
    hinder("none")
    right = []
    with serve(**disk()) as server:
        count("a table is made", shell(server, "createtable t", "setauths root A") == "ok\nok\n")
        killed(server)
    hinder("image.")
    for number in range(8):
        row = "r%d" % number
        if number % 3 == 2:
            running = subprocess.Popen([PROGRAM, "script", "--store", STORE], stdin=subprocess.PIPE, stdout=subprocess.PIPE, stderr=subprocess.PIPE, text=True, env={**os.environ, **disk()})
            running.stdin.write("createuser u%d\nas u%d\ninsert t x f q A 1\nas root\ninsert t %s f q A 1\n" % (number, number, row))
            running.stdin.flush()
            answers = [running.stdout.readline() for _ in range(3)]
            count("%d: a script goes on" % number, answers[0] == "ok\n" and answers[2] == "ok\n", answers)
            running.kill()
            told = running.communicate()[1]
        else:
            with serve(**disk()) as server:
                count("%d: a server goes on" % number, shell(server, "insert t %s f q A 1" % row) == "ok\n")
                told = killed(server)
        right.append(row)
        count("%d: it tells what it replays" % number, "replayed" in told.split("\n")[0], told)
    hinder("none")
    found, told = rows()
    count("all of them are replayed", found == right and re.fullmatch("store: [0-9]+ bytes of lines and 8 entries are replayed\n", told), (found, told))
    count("and an image takes their place", len([name for name in os.listdir(STORE) if name.startswith("journal.")]) == 1)


def limited(space):
    def limit():
        resource.setrlimit(resource.RLIMIT_AS, (space, space))
    return limit


def peak(server):
    """How many bytes of address space a server has had at most."""
    with open("/proc/%d/status" % server.process.pid, encoding="ascii") as file:
        return int(re.search("VmPeak:\\s+([0-9]+) kB", file.read()).group(1)) * 1024


def memory():
    """A start takes no more memory than the server had that is started again, but for a batch: the journal isn't held."""
    shutil.rmtree(STORE, ignore_errors=True)
    value = bytes(1 << 20)
    with serve("--compactors", "0") as server:
        stream = greeted(server)
        stream.settimeout(60)
        count("rows are written", asked(stream, MAKE, *(write("r%02d" % number, value) for number in range(48))) == 49)
        most = peak(server)
        killed(server)
    count("they are in the journal", os.path.getsize(STORE + "/journal.0") > 48 << 20)
    port = free_port()
    process = subprocess.Popen([PROGRAM, "serve", "--port", str(port), "--store", STORE, "--workers", "1", "--compactors", "0"], stdin=subprocess.DEVNULL,
                               stdout=subprocess.PIPE, stderr=subprocess.PIPE, preexec_fn=limited(most + (16 << 20)))
    line = process.stdout.readline()
    process.kill()
    told = process.communicate()[1].decode()
    count("it starts under the memory under which it served", line.startswith(b"listening") and told.startswith("%s: 49 entries are replayed\n" % STORE), told)


def no_room():
    """A server starts where nothing can be written, reads, and goes on once there is room."""
    shutil.rmtree(STORE, ignore_errors=True)
    hinder("none")
    with serve(**disk()) as server:
        count("rows are written", asked(greeted(server), MAKE, *(write("r%d" % number) for number in range(5))) == 6)
        killed(server)
    hinder(STORE)
    with serve(**disk()) as server:
        count("it starts where there is no room", server.said.startswith(b"listening"), server.said)
        count("and reads", len(named(shell(server, "scan t \\0"))) == 5)
        time.sleep(0.3)
        count("and makes no image", newest() == 0)
        hinder("none")
        count("it writes once there is room", shell(server, "insert t r5 f q \\e 1") == "ok\n")
        count("and makes the image", waits(lambda: newest() == 1), os.listdir(STORE))
        told = killed(server)
    count("it says so once", told.count("\n") == 2 and told.count("note: %s: no image is made now, and it is tried again: " % STORE) == 1, told)
    found, told = rows()
    count("all is kept", found == ["r%d" % number for number in range(6)], found)


def descriptors():
    """Where there is no descriptor left no image is made and no journal begun; the server goes on, and so does its sync."""
    shutil.rmtree(STORE, ignore_errors=True)
    with serve("--checkpoint", "400", "--sync", "interval", "--compactors", "0") as server:
        stream = greeted(server)
        count("a table is made", asked(stream, MAKE) == 1)
        had = len(os.listdir("/proc/%d/fd" % server.process.pid))
        resource.prlimit(server.process.pid, resource.RLIMIT_NOFILE, (had, 4096))
        count("rows are written", asked(stream, *(write("r%d" % number) for number in range(9))) == 9)
        time.sleep(1.5)
        count("it goes on", asked(stream, write("r9")) == 1 and server.process.poll() is None)
        count("without an image", newest() == 0 and not os.path.exists(STORE + "/journal.1"))
        resource.prlimit(server.process.pid, resource.RLIMIT_NOFILE, (4096, 4096))
        count("one is made once there are descriptors", waits(lambda: newest() >= 1))
        told = killed(server)
        count("it says so once", told == "note: %s: no image is made now, and it is tried again: the folder can't be used: Too many open files (os error 24)\n" % STORE, told)
    count("all is kept", rows()[0] == ["r%d" % number for number in range(10)])


def build():
    for name in ("killing", "disk"):
        subprocess.run([os.environ.get("CC", "cc"), "-shared", "-fPIC", "-O1", "-o", name + ".so", "%s/%s.c" % (HERE, name), "-ldl"], check=True)


if __name__ == "__main__":
    os.umask(0o022)
    run_parts(build, lost, begun, locks, rights, disks_that_sync_no_names, older, loads, cut_loads, starts, memory, no_room, descriptors)
