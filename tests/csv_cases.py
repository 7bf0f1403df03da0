"""What tests/csv.sh tests. Its last line counts what passed and failed.

Usage: csv_cases.py PROGRAM"""

import csv
import io
import os
import random
import re
import subprocess
import sys
import tempfile

import images

PROGRAM = sys.argv[1]
TOP = os.path.dirname(os.path.dirname(os.path.abspath(__file__)))
NAMES = [b"table", b"row", b"family", b"qualifier", b"label", b"timestamp", b"kind", b"value"]
passed = failed = 0


def count(name, good, told=""):
    global passed, failed
    if good:
        passed += 1
    else:
        failed += 1
        print("FAILED: %s %s" % (name, str(told)[:600]), flush=True)


def run(words, lines=b""):
    return subprocess.run([PROGRAM, *words], input=lines, stdout=subprocess.PIPE, stderr=subprocess.PIPE, timeout=300)


def saved(name, lines):
    """The image that is there behind these lines, all of which are done."""
    ran = run(["script", "--strict"], lines + b"as root\nsave " + name.encode() + b"\n")
    assert ran.returncode == 0, (name, ran.stdout[-200:], ran.stderr[-200:])
    with open(name, "rb") as file:
        return images.read(file.read())


def word(data):
    return b"".join(bytes([b]) if 0x21 <= b <= 0x7E and b != 0x5C else b"\\x%02x" % b for b in data) or b"\\e"


def quoted(field):
    return b'"' + field.replace(b'"', b'""') + b'"' if any(b in b',"\r\n' for b in field) else field


def text(rows):
    return b"".join(b",".join(map(quoted, row)) + b"\n" for row in rows)



def rows_of(image):
    """The rows of an image: those of one key with the older one first."""
    rows = [NAMES]
    for table in image["tables"]:
        records, begin = table["records"], 0
        for end in range(1, len(records) + 1):
            if end == len(records) or records[end]["key"] != records[begin]["key"]:
                for record in reversed(records[begin:end]):
                    row, family, qualifier, label, time = record["key"]
                    kind = b"put" if record["kind"] == 1 else b"delete"
                    rows.append([table["name"], row, family, qualifier, label, b"%d" % time, kind, record["value"]])
                begin = end
    return rows


def any_bytes(pick, limit):
    return bytes(pick.choice([pick.randrange(256), 44, 34, 13, 10, 32]) for _ in range(pick.randrange(limit)))


LABELS = [b"", b"A", b"A&B", b"A|(B&C)", b'" ,\\""', b'"\xff\n"', b"x/y"]


def filled(seed):
    """Lines that fill two tables: records of few columns, many of one key, and such of any bytes."""
    pick = random.Random(seed)
    lines = [b"createtable t versions=9", b"createtable u-.x", b"flush t"]
    for _ in range(pick.choice([0, 1, 40, 400])):
        if pick.randrange(2):
            parts = [pick.choice([b"a", b"b", b""]), b"f", b"", pick.choice(LABELS[:2])]
            time = b" %d" % pick.choice([-1, 0, 1])
        else:
            parts = [any_bytes(pick, 9), any_bytes(pick, 9), any_bytes(pick, 9), pick.choice(LABELS)]
            time = pick.choice([b"", b" %d" % pick.choice([-(2**63), 2**63 - 1, 7])])
        if pick.randrange(3):
            value = bytes(range(256)) if pick.randrange(20) == 0 else any_bytes(pick, 20)
            line = [b"insert", pick.choice([b"t", b"u-.x"]), *map(word, parts), word(value)]
        else:
            line = [b"delete", pick.choice([b"t", b"u-.x"]), *map(word, parts)]
        lines.append(b" ".join(line) + time)
        if pick.randrange(30) == 0:
            lines.append(b"at %d" % pick.randrange(9))
    return b"\n".join(lines) + b"\n"


def goes_round(seed):
    """The CSV of an image is as it is defined, others read it so, and the lines that are made of it make the image's records again."""
    image = saved("image", filled(seed))
    told = run(["export", "--csv", "image"])
    rows = rows_of(image)
    count("export %d" % seed, (told.returncode, told.stderr, told.stdout) == (0, b"", text(rows)), told)
    read = list(csv.reader(io.StringIO(told.stdout.decode("latin-1"), newline=""), strict=True))
    count("python reads %d" % seed, [[field.encode("latin-1") for field in row] for row in read] == rows)
    with open("image.csv", "wb") as file:
        file.write(told.stdout)
    lines = run(["import", "image.csv"])
    count("import %d" % seed, (lines.returncode, lines.stderr) == (0, b""), lines)
    count("lines %d" % seed, lines.stdout.count(b"\n") == len(rows) - 1 and not re.search(rb"[^!-~ \n]", lines.stdout))
    again = saved("again", b"createtable t versions=9\ncreatetable u-.x\n" + lines.stdout)
    records = [[images.unnumbered(it)["tables"][at]["records"] for at in (0, 1)] for it in (image, again)]
    count("again %d" % seed, records[0] == records[1])
    # with \r\n, in another order of columns, and read from standard input
    order = random.Random(seed).sample(range(8), 8)
    other = text([[row[at] for at in order] for row in rows]).split(b"\n") if seed % 2 else None
    if other is not None and not any(b"\n" in field or b"\r" in field for row in rows for field in row):
        count("other lines %d" % seed, run(["import", "-"], b"\r\n".join(other)).stdout == lines.stdout)


def one_by_one():
    """Each byte as a value, alone and within others, by itself in a file."""
    rows = [[b"t", b"r%d" % at, b"f", b"q", b"", b"%d" % at, b"put", value]
            for at, value in enumerate([b""] + [bytes([b]) for b in range(256)] + [b"a" + bytes([b]) + b"z" for b in range(256)])]
    with open("bytes.csv", "wb") as file:
        file.write(text([NAMES] + rows))
    lines = run(["import", "bytes.csv"])
    wanted = b"".join(b"insert t %s f q \\e %s %s\n" % (row[1], word(row[7]).replace(b"\\x5c", b"\\\\"), row[5]) for row in rows)
    count("each byte", lines.stdout == wanted and lines.returncode == 0, lines)
    saved("bytes", b"createtable t\n" + lines.stdout)
    told = run(["export", "--csv", "bytes"]).stdout
    count("each byte, again", sorted((told + b"t,").split(b"\nt,")[1:]) == sorted((text([NAMES] + rows) + b"t,").split(b"\nt,")[1:]))


def imported(name, data, words, status, out, err):
    with open("x.csv", "wb") as file:
        file.write(data)
    told = run(["import", *words, "x.csv"])
    count(name, (told.returncode, told.stdout, told.stderr) == (status, out, err), told)
    told = run(["import", *words, "--check", "x.csv"])
    count(name + ", checked", (told.returncode, told.stdout, told.stderr) == (status, b"", err), told)


def faults():
    """What means nothing is told by its line, and left out; a first line that names no columns ends it."""
    imported("defaults", b"value,row\nv,r\n", ["--table", "t"], 0, b"insert t r \\e \\e \\e v\n", b"")
    imported("no lines", b"row,value\n", ["--table", "t"], 0, b"", b"")
    bad = [
        (b"r", b"1 fields, where the first line has 8"),
        (b"t,r,,,,,,v,w", b"9 fields, where the first line has 8"),
        (b"t!,r,,,,,,v", b"the table's name isn't 1 to 128 bytes of a-z A-Z 0-9 _ - ."),
        (b"%s,r,,,,,,v" % (b"t" * 129), b"the table's name isn't 1 to 128 bytes of a-z A-Z 0-9 _ - ."),
        (b"t,r,,,A&,,,v", b"the label is malformed at 2"),
        (b't,r,,,"A\n ",,,v', b"the label is malformed at 1"),
        (b"t,r,,,,1.0,,v", b"the timestamp isn't a whole number of 64 bits"),
        (b"t,r,,,,9223372036854775808,,v", b"the timestamp isn't a whole number of 64 bits"),
        (b"t,r,,,,,PUT,v", b"the kind is neither put nor delete"),
        (b"t,r,,,,,delete,v", b"a delete has no value"),
    ]
    for at, name in [(1, "row"), (2, "family"), (3, "qualifier"), (4, "label"), (7, "value")]:
        row = [b"t", b"", b"", b"", b"", b"", b"", b""]
        row[at] = b"x" * 1048577
        bad.append((b",".join(row), b"the %s has over 1,048,576 bytes" % name.encode()))
    for line, why in bad:
        last = 3 + line.count(b"\n")
        imported(why.decode(), b",".join(NAMES) + b"\nt,r,,,,,,v\n" + line + b"\nt,s,,,,7,delete,\n", [], 3,
                 b"insert t r \\e \\e \\e v\ndelete t s \\e \\e \\e 7\n", b"x.csv:3: %s\nx.csv: 1 bad, 2 good\n" % why)
        imported(why.decode() + ", behind \\r", b"\r\n" + b",".join(NAMES) + b"\r\n\r\nt,r,,,,,,v\r\n" + line + b"\r\n" + line, [], 3,
                 b"insert t r \\e \\e \\e v\n", b"x.csv:5: %s\nx.csv:%d: %s\nx.csv: 2 bad, 1 good\n" % (why, last + 3, why))
    with open("x.csv", "wb") as file:
        file.write(b'row,value\nr,v\n\ns,"v\nt,v\n')
    for words, out in ((["x.csv"], b"insert t r \\e \\e \\e v\n"), (["--check", "x.csv"], b"")):
        told = run(["import", "--table", "t", *words])
        count("an open quote", (told.returncode, told.stdout) == (3, out) and told.stderr.endswith(b": a quote isn't closed\nx.csv: 1 bad, 1 good\n"), told)
    none = b"fault: x.csv: "
    imported("nothing", b"", ["--table", "t"], 1, b"", none + b"there is no first line that names the columns\n")
    imported("an unknown column", b"row,value,Label\nr,v,A\n", ["--table", "t"], 1, b"", none +
             b"column 3 of the first line is none of table, row, family, qualifier, label, timestamp, kind, value\n")
    imported("a column twice", b"row,value,row\nr,v,r\n", ["--table", "t"], 1, b"", none + b"the first line names the column row twice\n")
    imported("no row", b"value\nv\n", ["--table", "t"], 1, b"", none + b"the first line names no column row\n")
    imported("no value", b"row\nr\n", ["--table", "t"], 1, b"", none + b"the first line names no column value\n")
    imported("no table", b"row,value\nr,v\n", [], 1, b"", none + b"the first line names no column table: --table T would say which one it is\n")
    imported("two tables", b"row,value,table\nr,v,t\n", ["--table", "t"], 1, b"", none +
             b"the first line names a column table, so --table can't say which one it is\n")
    imported("a first line with an open quote", b'row,"value\nr,v\n', ["--table", "t"], 1, b"", none + b"a quote in the first line isn't closed\n")


def words():
    """Command lines and streams."""
    for asked in (["import"], ["import", "--table", "t!", "x.csv"], ["import", "a", "b"], ["export", "--csv"], ["export", "--csv", "--accumulo", "image"]):
        told = run(asked)
        count("refused: " + " ".join(asked), told.returncode == 2 and told.stdout == b"" and told.stderr != b"", told)
    told = run(["import", "gone.csv"])
    count("no file", (told.returncode, told.stderr) == (1, b"fault: gone.csv: the input can't be read: No such file or directory (os error 2)\n"), told)
    told = run(["import", "."])
    count("a folder", told.returncode == 1 and told.stderr.startswith(b"fault: .: the input can't be read: "), told)
    told = run(["export", "--csv", "gone"])
    count("no image", told.returncode == 1 and told.stdout == b"" and told.stderr.startswith(b"fault: gone: "), told)
    for asked in (["import", "--table", "t", "large.csv"], ["export", "--csv", "bytes"]):
        with open("large.csv", "wb") as file:
            file.write(b"row,value\n" + b"r,v\n" * 100000)
        told = subprocess.run([PROGRAM, *asked], stdout=open("/dev/full", "wb"), stderr=subprocess.PIPE, timeout=300)
        wanted = b"fault: the output can't be written: No space left on device (os error 28)\n"
        count("a full device: " + asked[0], (told.returncode, told.stderr) == (1, wanted), told)
    with open("two\nlines.csv", "wb") as file:
        file.write(b"row,value\nr\n")
    told = run(["import", "--table", "t", "two\nlines.csv"])
    count("a name is escaped", told.stderr == b"two\\nlines.csv:2: 1 fields, where the first line has 2\ntwo\\nlines.csv: 1 bad, 0 good\n", told)


def memory():
    """A file of many lines takes no memory, one of a long line that of the line."""
    def most(data, times):
        process = subprocess.Popen([PROGRAM, "import", "--check", "--table", "t", "-"], stdin=subprocess.PIPE)
        process.stdin.write(b"row,value\n")
        for _ in range(times):
            process.stdin.write(data)
        process.stdin.close()
        _, status, used = os.wait4(process.pid, 0)
        process.returncode = status
        return status, used.ru_maxrss
    few, many = most(b"r,v\n" * 1000, 1), most(b"row,some value\n" * 100000, 40)
    count("memory by the longest line", few[0] == many[0] == 0 and many[1] < few[1] + 2000, (few, many))


def progress():
    """Once a second it is said how far it has come."""
    for flags in ([], ["--progress"]):
        process = subprocess.Popen([PROGRAM, "import", *flags, "--table", "t", "-"], stdin=subprocess.PIPE, stdout=subprocess.PIPE, stderr=subprocess.PIPE)
        process.stdin.write(b"row,value\n")
        process.stdin.flush()
        try:
            process.wait(1.3)
        except subprocess.TimeoutExpired:
            pass
        out, err = process.communicate(b"r,v\n", timeout=60)
        count("progress %s" % flags, (b"reading 0 MB" in err) == bool(flags) and out == b"insert t r \\e \\e \\e v\n", err)


def document():
    """The example of docs/OPERATING.md does what stands there."""
    with open(TOP + "/docs/OPERATING.md", encoding="utf-8") as file:
        part = re.search(r"(?ms)^## CSV\n(.*?)(?=^## |\Z)", file.read())[1]
    block, told = re.search(r"(?ms)^```sh\n(.*?)^```$.*?^```\n(.*?)^```$", part).groups()
    os.mkdir("example")
    os.symlink(PROGRAM, "example/tabd")
    ran = subprocess.run(["bash", "-c", block], cwd="example", env={**os.environ, "PATH": os.getcwd() + "/example:" + os.environ["PATH"]},
                         stdout=subprocess.PIPE, stderr=subprocess.STDOUT, timeout=60)
    # (two programs of a pipe write side by side)
    count("the example of OPERATING", sorted(ran.stdout.decode().splitlines()) == sorted(told.splitlines()), ran.stdout)


with tempfile.TemporaryDirectory() as work:
    os.chdir(work)
    for seed in range(30):
        goes_round(seed)
    one_by_one()
    faults()
    words()
    memory()
    progress()
    document()
print("%d passed, %d failed" % (passed, failed))
sys.exit(failed != 0)
