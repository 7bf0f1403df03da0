"""Scripts with --store FOLDER.

One makes a table and writes a row a line. It is killed before, in and behind each call of the system that changes a file or a folder, in turn, or
that call fails; then it starts anew. All rows that were answered are there then, what is there is a beginning of what was asked, and the
next start finds the same. So it is where the start behind a kill is killed too. A journal with a byte that is turned is refused by its name, or
cut where the byte stands in its last batch, or in the sum before that. Two programs don't have one folder at once.
Usage: store.py PROGRAM"""
import os
import shutil
import subprocess
import sys
import tempfile

program = sys.argv[1]
here = os.path.dirname(os.path.abspath(__file__))
work = tempfile.mkdtemp()
store = f"{work}/store"
passed = failed = 0
ROWS = 24
CHUNK = 4


def count(name, good):
    global passed, failed
    if good:
        passed += 1
    else:
        failed += 1
        print(f"FAILED: {name}")


def environment(at=0, how="before"):
    if not at:
        return None
    killed = f"{work}/killed"
    if os.path.exists(killed):
        os.remove(killed)
    return dict(os.environ, LD_PRELOAD=f"{work}/killing.so", KILL_AT=str(at), HOW=how, KILLED=killed)


def was_met():
    return os.path.exists(f"{work}/killed")


def run(lines, *words, env=None):
    """What a script with these lines answers, its status and what it says on standard error."""
    done = subprocess.run([program, "script", "--store", store, *words], input=lines, capture_output=True, text=True, env=env)
    return done.stdout, done.returncode, done.stderr


def rows():
    """The rows that the folder keeps."""
    out, status, told = run("scan t A\n")
    if status != 0:
        return None, told
    return named(out), told


def named(out):
    """The rows of these cells."""
    return [line.split()[0] for line in out.splitlines() if line[0] == "r" and line[1:3].isdigit()]


def write_rows(env):
    """Asks for the rows, some lines at a time, each time once the last ones are answered, and gives how many were answered, and the status."""
    lines = ["createtable t\n", "setauths root A\n"] + [f"insert t r{i:02} f q A {i}\n" for i in range(ROWS)]
    running = subprocess.Popen([program, "script", "--store", store], stdin=subprocess.PIPE, stdout=subprocess.PIPE, stderr=subprocess.DEVNULL, text=True, env=env)
    answered = 0
    try:
        for at in range(0, len(lines), CHUNK):
            chunk = lines[at:at + CHUNK]
            running.stdin.write("".join(chunk))
            running.stdin.flush()
            for _ in chunk:
                if running.stdout.readline() != "ok\n":
                    raise BrokenPipeError
                answered += 1
    except BrokenPipeError:
        pass
    try:
        running.stdin.close()
    except BrokenPipeError:
        pass
    running.stdout.close()
    return max(0, answered - 2), running.wait()


asked = [f"r{i:02}" for i in range(ROWS)]


def is_kept(answered):
    """Whether the folder keeps a beginning of what was asked, with all that was answered, and keeps it still."""
    first, _ = rows()
    again, told = rows()
    return first is not None and first == asked[:len(first)] and len(first) >= answered and first == again and told == ""


def copied(name):
    shutil.rmtree(f"{work}/{name}", ignore_errors=True)
    if os.path.exists(store):
        shutil.copytree(store, f"{work}/{name}")


def put_back(name):
    shutil.rmtree(store, ignore_errors=True)
    if os.path.exists(f"{work}/{name}"):
        shutil.copytree(f"{work}/{name}", store)


def kills():
    """A kill at each call of a run, and at each call of the start behind some of them."""
    for how in ("before", "half", "behind", "fails"):
        at = 1
        while True:
            shutil.rmtree(store, ignore_errors=True)
            answered, status = write_rows(environment(at, how))
            if not was_met():
                count(f"{how} {at}: no call is met, and all is answered", status == 0 and answered == ROWS)
                break
            count(f"{how} {at}: the status is that of a kill or a fault", status == (1 if how == "fails" else -9) or (how == "fails" and answered == ROWS))
            copied("lost")
            count(f"{how} {at}: what was answered is kept", is_kept(answered))
            if at % 9 == 1 and how != "fails":
                starts(how, at, answered)
            at += 1


def short_writes():
    """Each write takes half of its bytes, in turn, and the rest is written behind it."""
    at, met = 1, True
    while met:
        shutil.rmtree(store, ignore_errors=True)
        answered, status = write_rows(environment(at, "short"))
        met = was_met()
        count(f"short {at}: all is answered, and kept", status == 0 and answered == ROWS and rows()[0] == asked)
        at += 1


def watched():
    """A strict run keeps no line behind the one at which it stops, and of a quiet one what was counted is kept, whichever call fails."""
    lines = ["createtable t\n", "setauths root A\n"] + [f"insert t {row} f q A 1\n" for row in asked]
    for words in ["--strict"], ["--strict", "--quiet"]:
        for how in "before", "fails":
            at, met = 1, True
            while met:
                shutil.rmtree(store, ignore_errors=True)
                out, status, _ = run("".join([*lines[:7], "scan u \\0\n", *lines[7:]]), *words, env=environment(at, how))
                met, found = was_met(), rows()[0]
                count(f"{words}, {how} {at}: no more is kept than was done", found == asked[:len(found)] and len(found) <= 5)
                count(f"{words}, {how} {at}: what was answered is kept", "refused" not in out or len(found) == 5)
                at += 1
            count(f"{words}: it stops", status == 3 and len(found) == 5)
    at, met = 1, True
    while met:
        shutil.rmtree(store, ignore_errors=True)
        _, status, told = run("".join(lines), "--quiet", env=environment(at, "fails"))
        met, found = was_met(), rows()[0]
        count(f"quiet, fails {at}: what was counted is kept", f"{len(lines)} ok" not in told or found == asked)
        at += 1
    count("quiet: all is counted", status == 0 and f"{len(lines)} ok" in told)


def starts(how, at, answered):
    again = 1
    while True:
        put_back("lost")
        run("", env=environment(again, how))
        met = was_met()
        count(f"{how} {at}, and {again} of the start: what was answered is kept", is_kept(answered))
        if not met:
            return
        again += 1


def killed_folder():
    """A folder whose run was killed once all was answered, before its end."""
    shutil.rmtree(store, ignore_errors=True)
    at = 1
    while True:
        shutil.rmtree(store, ignore_errors=True)
        answered, _ = write_rows(environment(at, "before"))
        if answered == ROWS:
            return
        at += 1


def turned():
    """Each byte of a journal turned, in turn."""
    killed_folder()
    journal = [name for name in os.listdir(store) if name.startswith("journal.")][0]
    copied("whole")
    with open(f"{store}/{journal}", "rb") as file:
        bytes_are = file.read()
    fine, cut, refused = True, 0, 0
    for place in range(0, len(bytes_are), 7):
        put_back("whole")
        with open(f"{store}/{journal}", "wb") as file:
            file.write(bytes_are[:place] + bytes([bytes_are[place] ^ 0x40]) + bytes_are[place + 1:])
        found, told = rows()
        if found is None:
            refused += 1
            fine = fine and f"{journal} is damaged" in told
        else:
            cut += 1
            fine = fine and "are cut off" in told and found == asked[:len(found)] and len(found) >= ROWS - 2 * CHUNK
    count("a journal with a byte that is turned is refused or cut", fine and cut > 0 and refused > 0)
    fine = True
    for length in range(0, len(bytes_are), 5):
        put_back("whole")
        os.truncate(f"{store}/{journal}", length)
        out, status, told = run("scan t A\n")
        if length < 48:
            fine = fine and (status, told) == (1, f"fault: {store}: {journal} has no header\n")
        else:
            fine = fine and status == 0 and named(out) == asked[:len(named(out))]
    count("each beginning of a journal keeps a beginning of its lines", fine)


def plain():
    shutil.rmtree(store, ignore_errors=True)
    out, status, told = run("createtable t\nsetauths root A\ninsert t r00 f q A 1")
    count("a script that ends keeps what it did", (out, status, told) == ("ok\nok\nok\n", 0, "") and rows()[0] == ["r00"])
    count("no more is left than an image, its checksum, an empty journal and a lock", sorted(os.listdir(store)) == ["image.3", "image.3.sha256", "journal.3", "lock"])
    count("the folder is its owner's alone", os.stat(store).st_mode & 0o077 == 0)
    saved_image = f"{store}/{next(name for name in os.listdir(store) if name.startswith('image.') and name[6:].isdigit())}"
    out, status, told = run("", "--image", f"{store}/lock")
    count("an image is for an empty folder", status == 1 and "keeps something already" in told)
    for words in (["script"], ["serve", "--port", "1"]):
        for image, why in ((f"{store}/lock", "this is no image"), (f"{work}/gone", "the image can't be read: No such file or directory (os error 2)")):
            for place in f"{work}/unmade", f"{work}/empty":
                os.makedirs(f"{work}/empty", exist_ok=True)
                done = subprocess.run([program, *words, "--store", place, "--image", image], stdin=subprocess.DEVNULL, capture_output=True, text=True)
                count(f"{words[0]}: an image that can't be loaded is told", (done.returncode, done.stdout, done.stderr) == (1, "", f"fault: {image}: {why}\n"))
                count("and nothing is left", not os.path.lexists(f"{work}/unmade") and os.listdir(f"{work}/empty") == [])
    for name in "journal.7", "loaded.7.0":
        lone = f"{work}/lone"
        os.mkdir(lone, 0o700)
        with open(f"{lone}/{name}", "w") as file:
            file.write("kept")
        for words in (["script"], ["serve", "--port", "1"], ["script", "--image", saved_image]):
            done = subprocess.run([program, *words, "--store", lone], stdin=subprocess.DEVNULL, capture_output=True, text=True)
            told = f"fault: {lone}: there is no image in it, but what goes with image.7\n"
            count(f"{words}: a folder that has lost its image is refused", (done.returncode, done.stdout, done.stderr) == (1, "", told))
            with open(f"{lone}/{name}") as file:
                count("and keeps the rest", file.read() == "kept" and sorted(os.listdir(lone)) == sorted([name, "lock"]))
        shutil.rmtree(lone)
    os.mkdir(lone, 0o700)
    open(f"{lone}/image.0.part", "w").close()
    done = subprocess.run([program, "script", "--store", lone], input="createtable t\n", capture_output=True, text=True)
    count("a part of the first image is none", (done.returncode, done.stdout, done.stderr) == (0, "ok\n", "") and not os.path.lexists(f"{lone}/image.0.part"))
    copied("good")
    os.remove(f"{saved_image}.sha256")
    os.truncate(saved_image, 9)
    out, status, told = run("")
    count("a bad image is told by its name", status == 1 and told == f"fault: {store}: {os.path.basename(saved_image)}: the image is cut short or damaged\n")
    put_back("good")
    first = subprocess.Popen([program, "script", "--store", store], stdin=subprocess.PIPE, stdout=subprocess.PIPE, text=True)
    first.stdin.write("insert t r01 f q A 1\n")
    first.stdin.flush()
    first.stdout.readline()
    out, status, told = run("")
    count("a folder that is taken is refused", status == 1 and told == f"fault: {store}: another process has it\n")
    first.kill()
    first.wait()
    found, told = rows()
    count("a script that is killed has kept what it answered, and the next start says so", found == ["r00", "r01"] and told == f"{store}: 21 bytes of lines are replayed\n")
    saved = f"{work}/saved"
    loading = subprocess.Popen([program, "script", "--store", store], stdin=subprocess.PIPE, stdout=subprocess.PIPE, text=True)
    loading.stdin.write(f"load {work}/none\nsave {saved}\ninsert t r02 f q A 1\nload {saved}\ninsert t r03 f q A 1\n")
    loading.stdin.flush()
    told = [loading.stdout.readline() for _ in range(5)]
    loading.kill()
    loading.wait()
    with open(saved, "w") as file:
        file.write("another")
    count("a load is replayed as it was done", told == ["fault load io\n", "ok\n", "ok\n", "ok\n", "ok\n"] and rows()[0] == ["r00", "r01", "r03"])
    with open(saved) as file:
        count("a save isn't replayed", file.read() == "another")
    many = "".join(f"insert t s{i:06} f q A {i:064}\n" for i in range(20000))
    out, status, told = run(many)
    count("many lines are kept", status == 0 and out == "ok\n" * 20000)
    out, status, told = run("scan t A\n")
    count("and found again", len(out.splitlines()) == 20004)


try:
    subprocess.run([os.environ.get("CC", "cc"), "-shared", "-fPIC", "-O1", "-o", f"{work}/killing.so", f"{here}/killing.c", "-ldl"], check=True)
    plain()
    kills()
    watched()
    short_writes()
    turned()
finally:
    shutil.rmtree(work, ignore_errors=True)
print(f"{passed} passed, {failed} failed")
sys.exit(failed > 0)
