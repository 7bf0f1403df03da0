"""Each fenced block of each page is run by a test. Here: `sh` blocks, one after another in one shell in a new folder like a checkout, print the
plain or `text` block behind them, or nothing where there is none; each line behind `> ` of the `console` blocks is answered as stands below it,
before the next one is typed; what an `antt` block says stands in the sources; units are verified, and counts that rules name are there. A word
behind the language says why a block isn't run, or what it needs: kit, root, cluster, jdk.

The folders of the machine (/etc, /run, /usr/local, /var/lib), the home and the port 9997 are replaced by some of a folder of the page's own,
where stand_in.py takes the place of systemctl. Numbers that differ from run to run (moments, ports of peers, seconds, counts) are compared as such.

Usage: pages.py PROGRAM [--list] [PAGE ..]   (--list: says of each block which test runs it)"""
import glob
import os
import queue
import re
import shutil
import signal
import socket
import subprocess
import sys
import tempfile
import threading
import time
from pathlib import Path

TOP = Path(__file__).resolve().parent.parent
PROGRAM = Path(sys.argv[1]).resolve()
PAGES = ["README.md", "CONTRIBUTING.md", "CHANGELOG.md", "bench/README.md"]
PAGES += sorted(str(Path(it).relative_to(TOP)) for place in ("docs/*.md", "clients/*/README.md", "examples/*.md", "packaging/*.md") for it in glob.glob(f"{TOP}/{place}"))
# Blocks that other tests run, by page and language.
ELSEWHERE = {
    ("clients/java/README.md", "java"): "tests/clients/programs.py",
    ("clients/python/README.md", "python"): "clients/python/tests/test_documents.py",
    ("docs/PROTOCOL.md", "frames"): "tests/frames.py",
    ("docs/THEOREM.md", ""): "tests/theorem.py",
}
NEWCOMERS = ("README.md", "docs/DATA_MODEL.md", "docs/QUICKSTART.md")
SKIPPED = {"kit": "wants the prover's kit", "root": "changes the machine", "cluster": "wants a cluster of Apache Accumulo"}
OVER = "the block is over"
# Numbers that differ from run to run.
NUMBERS = [
    (r"\b1\d{12}\b", "MOMENT"),
    (r"\b(time|seconds)=\d+\.\d+", r"\1=N"),
    (r"127\.0\.0\.1:\d+", "PEER"),
    (r"(?m)^(tabd_\w+(?:\{.*\})?) [\d.e+-]+$", r"\1 N"),
    (r"(?m)^ *\d+%$", "N%"),
]
passed = failed = skipped = 0


def count(name, good, told=""):
    global passed, failed
    if good:
        passed += 1
    else:
        failed += 1
        print(f"FAILED: {name}\n{told}"[:3000], flush=True)


def skip(name, why):
    global skipped
    skipped += 1
    print(f"skipped: {name} ({why})")


class Block:
    def __init__(self, page, number, words, text):
        self.page, self.text = page, text
        self.language, self.word = (words.split() + ["", ""])[:2]
        self.name = f"{page}, block {number}"


def blocks_of(page):
    """Returns a page's fenced blocks."""
    found = re.findall(r"^```(.*)\n((?:.*\n)*?)```$", (TOP / page).read_text(encoding="utf-8"), re.M)
    return [Block(page, number, *it) for number, it in enumerate(found, 1)]


def who_runs(block, before):
    """Returns which test runs a block, which stands behind another one."""
    if block.word in SKIPPED:
        return f"none: {SKIPPED[block.word]}"
    if (block.page, block.language) in ELSEWHERE:
        return ELSEWHERE[block.page, block.language]
    if block.language in ("sh", "console", "antt", "ini", "yaml"):
        return "tests/pages.py"
    if block.language in ("", "text") and before and before.language not in ("", "text"):
        return who_runs(before, None)
    return None


def alike(text):
    for number, name in NUMBERS:
        text = re.sub(number, name, text)
    return text


def differ(wanted, told):
    with tempfile.TemporaryDirectory() as folder:
        for name, text in ("wanted", wanted), ("told", told):
            Path(folder, name).write_text(text, encoding="utf-8")
        return subprocess.run(["diff", "wanted", "told"], cwd=folder, capture_output=True, text=True).stdout


class Peer:
    """A program whose lines are read as they come."""

    def __init__(self, *words, **options):
        self.process = subprocess.Popen(words, stdin=subprocess.PIPE, stdout=subprocess.PIPE, stderr=subprocess.STDOUT, text=True, encoding="utf-8", **options)
        self.lines = queue.Queue()
        threading.Thread(target=self.read, daemon=True).start()

    def read(self):
        for line in self.process.stdout:
            self.lines.put(line)

    def say(self, text):
        self.process.stdin.write(text)
        self.process.stdin.flush()

    def next(self, until):
        """Returns the next line, or none where there isn't one in time."""
        try:
            return self.lines.get(timeout=max(until - time.monotonic(), 0))
        except queue.Empty:
            return None


class Page:
    """A page's own folder, shell and script."""

    def __init__(self, page, folder):
        self.root = Path(folder)
        self.home, self.here = self.root / "root", self.root / "checkout"
        for it in (self.home, self.here, self.root / "bin", *(self.root / it for it in ("etc/default", "etc/systemd/system", "run", "usr/local", "var/lib"))):
            it.mkdir(parents=True)
        with socket.create_server(("127.0.0.1", 0)) as free:
            self.port = str(free.getsockname()[1])
        for name in ("systemctl", "journalctl", "loginctl"):
            (self.root / "bin" / name).symlink_to(TOP / "tests/stand_in.py")
        for place in (self.here, self.root / "bin"):
            (place / "tabd").symlink_to(PROGRAM)
        (self.here / "packaging").symlink_to(TOP / "packaging")
        (self.here / "examples").symlink_to(TOP / "examples")
        shutil.copytree(TOP / "clients", self.here / "clients", ignore=shutil.ignore_patterns("__pycache__"))
        self.lies_there = sorted(os.listdir(self.here))
        self.options = {"cwd": self.here, "start_new_session": True}
        self.options["env"] = {
            **os.environ, "HOME": str(self.home), "ROOT": str(self.root), "PORT": self.port, "TABD": str(PROGRAM), "PYTHONDONTWRITEBYTECODE": "1",
            "PATH": f"{self.root}/usr/local/bin:{self.root}/bin:{os.environ['PATH']}",
            # pip changes nothing of the machine, and says nothing
            "PIP_TARGET": str(self.root / "pip"), "PIP_QUIET": "1", "PIP_NO_INDEX": "1", "PIP_DISABLE_PIP_VERSION_CHECK": "1", "PIP_ROOT_USER_ACTION": "ignore",
        }
        self.shell = Peer("bash", **self.options)
        self.script = None

    def inside(self, text):
        """Returns a block's text with this page's folders and port."""
        text = re.sub(r"(?<![\w./~-])/(etc|run|usr/local|var/lib|root)\b", rf"{self.root}/\1", text)
        return text.replace("9997", self.port)

    def run(self, block, wanted):
        """Runs a block in the shell, and returns what comes until it is over, and then, since a server may not have said yet that it listens,
        as many lines as are wanted."""
        self.shell.say(f"{self.inside(block)}echo {OVER}\n")
        told, over, until = [], False, time.monotonic() + 60
        while not over or len(told) < wanted.count("\n"):
            line = self.shell.next(until)
            if line is None:
                told.append("nothing more came\n")
                break
            if line == f"{OVER}\n":
                over = True
            elif not re.match(r"bash: line \d+: +\d+ (Killed|Terminated) ", line):
                told.append(line)
        return "".join(told)

    def type(self, block):
        """Types a block's lines into the script, and returns what is answered until the first line that isn't as it stands there."""
        self.script = self.script or Peer(PROGRAM, "script", **self.options)
        told = []
        for line in block.splitlines(keepends=True):
            if line.startswith("> "):
                self.script.say(line[2:])
                told.append(line)
            else:
                told.append(self.script.next(time.monotonic() + 60) or "no answer\n")
            if told[-1] != line:
                break
        return "".join(told)

    def units(self):
        """Returns the units that the page has written, each with what changes it, in files to be verified."""
        for unit in [*self.home.glob(".config/systemd/user/*.service"), *(self.root / "usr/local/lib/systemd/system").glob("*.service")]:
            more = sorted((self.root / f"etc/systemd/system/{unit.name}.d").glob("*.conf"))
            file = self.root / "units" / unit.parent.name / unit.name
            file.parent.mkdir(parents=True, exist_ok=True)
            file.write_text("\n".join(it.read_text() for it in (unit, *more)).replace("%h", str(self.home)))
            yield file

    def end(self):
        """Ends what is left running, and returns it."""
        told = self.run("jobs -r; jobs -p | xargs -r kill\n", "")
        for file in self.root.glob("*.pid"):
            pid = file.read_text()
            words = Path(f"/proc/{pid}/cmdline")
            if words.exists() and str(self.root).encode() in words.read_bytes():
                told += f"{file.name} is left running\n"
                os.kill(int(pid), signal.SIGTERM)
        for peer in (self.shell, self.script):
            if peer:
                peer.process.stdin.close()
                peer.process.wait(60)
        return told


def in_sources():
    """Returns the definitions of all sources, a line each, without their spaces."""
    texts = (Path(it).read_text(encoding="utf-8") for it in glob.glob(f"{TOP}/crates/*/specs/*.antt"))
    return re.sub(r"\s+", "", "".join(re.sub(r"^\s*--.*$", "", it, flags=re.M) for it in texts))


def check(page):
    """Runs a page's blocks."""
    blocks = blocks_of(page)
    for before, block in zip([None, *blocks], blocks):
        count(f"{block.name} is run by a test", who_runs(block, before), block.text)
    with tempfile.TemporaryDirectory() as folder:
        here = Page(page, folder)
        for block, behind in zip(blocks, [*blocks[1:], None]):
            if block.word in SKIPPED:
                skip(block.name, SKIPPED[block.word])
            elif (page, block.language) in ELSEWHERE:
                pass
            elif block.word == "jdk" and not shutil.which("javac"):
                skip(block.name, "there is no JDK")
            elif block.language == "sh":
                wanted = here.inside(behind.text) if behind and behind.language in ("", "text") else ""
                told = here.run(block.text, wanted)
                count(f"{block.name} prints what it says", alike(told) == alike(wanted), differ(alike(wanted), alike(told)))
            elif block.language == "console":
                told = here.type(block.text)
                count(f"{block.name} is answered as it says", told == block.text, differ(block.text, told))
            elif block.language == "antt":
                sources = in_sources()
                lost = [line for line in block.text.split("\n\n") if re.sub(r"\s+", "", line) not in sources and any(re.sub(r"\s+", "", it) not in sources for it in line.splitlines())]
                count(f"{block.name} stands in the sources", not lost, "\n".join(lost))
            elif block.language == "yaml":
                names = set(re.findall(r"\btabd_\w+", block.text))
                counts = here.run("cat /run/tabd/tabd.prom\n", "")
                count(f"{block.name} names counts that are there", names and all(re.search(rf"^{it}\b", counts, re.M) for it in names), counts)
        for unit in here.units():
            if shutil.which("systemd-analyze"):
                told = subprocess.run(["systemd-analyze", "verify", "--man=no", unit], capture_output=True, text=True)
                count(f"{page}: {unit.parent.name} unit {unit.name} is verified", told.returncode == 0 and "tabd" not in told.stderr, told.stderr)
            else:
                skip(f"{page}: {unit.name}", "there is no systemd-analyze")
        told = here.end()
        count(f"{page}: nothing is left running", told == "", told)
        if here.script:
            count(f"{page}: and nothing else is answered", here.script.lines.empty())
        if page in NEWCOMERS:
            lies_there = sorted(os.listdir(here.here))
            count(f"{page}: nothing is left lying in the folder", lies_there == here.lies_there, lies_there)


def main():
    wanted = [it for it in sys.argv[2:] if not it.startswith("--")] or PAGES
    if "--list" in sys.argv:
        for page in wanted:
            blocks = blocks_of(page)
            for before, block in zip([None, *blocks], blocks):
                print(f"{block.name} ({block.language or 'plain'}): {who_runs(block, before)}")
        return 0
    for page in wanted:
        check(page)
    left = f", {skipped} skipped" if skipped else ""
    print(f"{passed} passed, {failed} failed{left}")
    return failed > 0


sys.exit(main())
