"""Programs for Accumulo, moved over to the client in Java by the two replacements that docs/ACCUMULO.md says, and properties that name a
server: three of its manual, and those of clients/java/examples: the loader has to leave a server's table as the one that was exported, and
report what fails, and the copier has to leave it as the one that was copied; and the example of the client's README, as that runs it.
Usage: programs.py PROGRAM CLASSES   (the folder or jar of the client)"""
import os
import re
import subprocess
import sys
import tempfile
from pathlib import Path

sys.dont_write_bytecode = True
from reference import Server  # noqa: E402

HERE = Path(__file__).resolve().parent
EXAMPLES = HERE.parent.parent / "clients/java/examples"
README = EXAMPLES.parent / "README.md"
README_CLIENT = ('Tabd.client("127.0.0.1", 9997, "root")', 'Tabd.client(java.nio.file.Path.of(args[0]), "root")')
REPLACEMENTS = (("org.apache.accumulo.", "org.tabd.accumulo."), ("org.apache.hadoop.io.", "org.tabd.hadoop.io."))
MAKES = b"createtable t versions=3\ncreatetable u\nsetauths root A,B\n"
SCANS = b"scan t A,B\nscan u \\0\n"
CELLS = b"""\
insert t a f q A&B one 5
insert t a f q A&B two 6
insert t \\x00\\xff "\\x22\\x20 \\e A|"B"|A \\x0a 7
insert t -row - -- \\e \\\\x41 8
delete t a f r \\e 9
insert u a f q \\e v 10
addsplit t m
"""
# labels that can't be said to Accumulo's shell
LEFT_OUT = b'insert t z f q "A" v 11\ndelete t z f q "A" 10\n'
ONE_VERSION = b"createtable u -prop table.iterator.scan.vers.opt.maxVersions=1,table.iterator.minc.vers.opt.maxVersions=1\n"
FAILING = ONE_VERSION + b"""\
insert -l "" -ts 5 -- "r1" "f" "q" "first"
insert r1 f q v -l a
delete -l "" -ts 5 -- "r1" "f" "q" "value"
insert -l "" -ts soon -- "r1" "f" "q" "v"
insert -l "" -ts 5 -- "r\\xg0" "f" "q" "v"
insert -l "" -ts 5 -- "r1" "f" "q" "v
insert -l "" -ts 5 -- "r2" "f" "q" "second"
insert -l "a&" -ts 5 -- "r3" "f" "q" "v"
insert -l "" -ts 5 -- "r4" "f" "q" "third"
notable
insert -l "" -ts 5 -- "r5" "f" "q" "v"
table none
insert -l "" -ts 5 -- "r5" "f" "q" "v"
table t
insert -l "" -ts 5 -- "r6" "f" "q" "fourth"
insert -l "" -ts 5 -- "r7" "f" "q" "fifth"
insert -l "a&" -ts 5 -- "r8" "f" "q" "v"
insert -l "" -ts 5 -- "r9" "f" "q" "sixth"
"""
REPORTED = re.compile(r"""(?x)
    line\ 3:\ not\ insert\ -l\ LABEL\ -ts\ TIME\ --\ ROW\ FAMILY\ QUALIFIER\ VALUE:\ insert\ r1\ f\ q\ v\ -l\ a\n
    line\ 4:\ not\ delete\ -l\ LABEL\ -ts\ TIME\ --\ ROW\ FAMILY\ QUALIFIER:\ delete\ .*\n
    line\ 5:\ not\ a\ time:\ soon:\ insert\ .*\n
    line\ 6:\ behind\ \\x\ two\ digits\ are\ missing:\ insert\ .*\n
    line\ 7:\ a\ quote\ isn't\ closed:\ insert\ .*\n
    line\ 9:\ .*MalformedVisibility.*:\ insert\ -l\ "a&"\ -ts\ 5\ --\ "r3"\ "f"\ "q"\ "v"\n
    line\ 12:\ no\ table\ stands\ before\ this\ line:\ insert\ .*\n
    line\ 13:\ .*none.*:\ table\ none\n
    line\ 14:\ no\ table\ stands\ before\ this\ line:\ insert\ .*\n
    lines\ 17\ to\ 18\ are\ written\ in\ part:\ .*MalformedVisibility.*\n""")
LOADED = b"u r1 first\nu r2 second\nu r4 third\nt r6 fourth\nt r7 fifth\nt r9 sixth\n"


def moved(source, folder):
    """The program, moved over."""
    text = source.read_text(encoding="utf-8")
    for old, new in REPLACEMENTS:
        text = text.replace(old, new)
    assert "org.apache." not in text, source
    (Path(folder) / source.name).write_text(text, encoding="utf-8")
    return str(Path(folder) / source.name)


def main(program, classes):
    passed = failed = 0

    def count(good, name, told):
        nonlocal passed, failed
        passed, failed = passed + bool(good), failed + (not good)
        if not good:
            print(f"FAILED: {name}: {str(told)[:1500]}")

    manual, examples = sorted((HERE / "manual").glob("*.java")), sorted(EXAMPLES.glob("*.java"))
    with tempfile.TemporaryDirectory() as folder, tempfile.TemporaryDirectory() as elsewhere:
        sources = [moved(it, folder) for it in (*manual, *examples)]
        subprocess.run(["javac", "-J-XX:TieredStopAtLevel=1", "-Xlint:all", "-Werror", "-cp", classes, "-d", folder, *sources], check=True)
        properties = Path(folder) / "accumulo-client.properties"

        def java(words, lines=b"", classpath=classes):
            words = ["java", "-XX:+UseSerialGC", "-XX:TieredStopAtLevel=1", "-cp", classpath, *words]
            return subprocess.run(words, input=lines, stdout=subprocess.PIPE, stderr=subprocess.PIPE, timeout=120)

        def run(name, server, *words, lines=b""):
            properties.write_text(f"instance.name=tabd\ninstance.zookeepers={server.place}\nauth.principal=root\n", encoding="utf-8")
            return java([name, str(properties), *words], lines, f"{classes}:{folder}")

        def shell(server, lines):
            words = [program, "shell", "--socket", server.place, "--user", "root"]
            return subprocess.run(words, input=lines, stdout=subprocess.PIPE).stdout.splitlines(True)

        for it in manual:
            with Server(program, folder) as server:
                ran = run(it.stem, server)
                count(ran.stdout == it.with_suffix(".out").read_bytes() and not ran.stderr, it.stem, ran)
        example, wanted = re.findall(r"^```(?:java|text)\n(.*?)^```$", README.read_text(encoding="utf-8"), re.MULTILINE | re.DOTALL)
        (Path(elsewhere) / "Ward.java").write_text(example.replace(*README_CLIENT), encoding="utf-8")
        with Server(program, folder) as server:
            ran = java([str(Path(elsewhere) / "Ward.java"), server.place])
            count(ran.stdout == wanted.encode() and not ran.stderr, "the example of clients/java/README.md", ran)
        image = os.path.join(folder, "image")
        ran = subprocess.run([program, "script"], input=MAKES + CELLS + LEFT_OUT + SCANS + b"save " + image.encode() + b"\n", stdout=subprocess.PIPE)
        scanned = [line for line in ran.stdout.splitlines(True) if line != b"ok\n"]
        exported = subprocess.run([program, "export", "--accumulo", image], stdout=subprocess.PIPE, stderr=subprocess.PIPE)
        with Server(program, folder) as server, Server(program, elsewhere) as other:
            shell(server, MAKES)
            ran = run("LoadTable", server, lines=exported.stdout)
            count(ran.stdout.startswith(b"8 cells and deletes are written, ") and ran.returncode == 0, "the loader", (ran, exported))
            found = shell(server, SCANS)
            count(len(scanned) > 7 and found == scanned, "what the loader leaves, also of labels that are left out", (found, scanned))
            shell(other, MAKES)
            for table in ("t", "u"):
                ran = run("CopyTable", server, table, other.place, "root")
                count(re.fullmatch(rb"[1-9] cells are copied\n", ran.stdout), "the copier", ran)
            copied = shell(other, SCANS)
            count(copied == found, "what the copier leaves", (copied, found))
        with Server(program, folder) as server:
            shell(server, MAKES)
            ran = run("LoadTable", server, lines=FAILING)
            count(REPORTED.fullmatch(ran.stderr.decode()), "lines that fail are reported", ran)
            count(ran.stdout.startswith(b"5 cells and deletes are written, ") and ran.returncode == 1, "and the others are written", ran)
            rows = [line.split() for line in shell(server, b"scan u \\0\nscan t \\0\n")]
            loaded = [(words[0], words[5]) for words in rows if len(words) == 6]
            count(loaded == [tuple(line.split()[1:]) for line in LOADED.splitlines()], "as a scan shows", (loaded, ran))
    print(f"{passed} passed, {failed} failed")
    sys.exit(1 if failed else 0)


main(*sys.argv[1:])
