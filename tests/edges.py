"""Labels at the limit of their length, and images that are nearly ones: each is told what tests/strict.py foresees, and here once more by hand.

Usage: edges.py PROGRAM [--all]   (all lengths of an image and all numbers of versions, or a sample)"""
import os
import socket
import struct
import subprocess
import sys
import tempfile
from pathlib import Path

import strict

PROGRAM, ALL = sys.argv[1], "--all" in sys.argv[2:]
LIMIT = 1_048_576
LEAST = -(2**63)
passed = failed = 0


def tell(name, holds, why=""):
    global passed, failed
    passed, failed = passed + bool(holds), failed + (not holds)
    if not holds:
        print(f"FAILED: {name} {str(why)[:300]}", flush=True)


def script(lines, folder, *words):
    done = subprocess.run([PROGRAM, "script", *words], input=lines, stdout=subprocess.PIPE, stderr=subprocess.PIPE, cwd=folder, timeout=300)
    return done.stdout if (done.returncode, done.stderr) == (0, b"") else b"status %d: %s" % (done.returncode, done.stderr)


# ---- Labels.
def malformed(offset):
    return b"refused 5 MalformedVisibility 0 %d\n" % offset, struct.pack(">BBII", 0x81, 5, 0, offset)


TOO_LARGE = (b"refused 9 TooLarge label\n", b"\x81\x09\x05")
ACCEPTED = (b"ok\n", b"\x80")
LABELS = [
    ("open parentheses", b"(" * LIMIT, malformed(64)),
    ("one open parenthesis more", b"(" * (LIMIT + 1), TOO_LARGE),
    ("64 parentheses around the longest term", b"(" * 64 + b"a" * (LIMIT - 128) + b")" * 64, ACCEPTED),
    ("65 parentheses around one", b"(" * 65 + b"a" * (LIMIT - 130) + b")" * 65, malformed(64)),
    ("64 parentheses that don't close", b"(" * 64 + b"a" * (LIMIT - 64), malformed(LIMIT)),
    ("parentheses side by side", b"(a)&" * (LIMIT // 4 - 1) + b"(aa)", ACCEPTED),
    ("parentheses side by side, and a joiner", b"(a)&" * (LIMIT // 4), malformed(LIMIT)),
    ("closing parentheses", b")" * LIMIT, malformed(0)),
    ("quotes", b'"' * LIMIT, malformed(1)),
    ("a quote that doesn't close", b'"' + b"x" * (LIMIT - 1), malformed(LIMIT)),
    ("escapes in quotes", b'"' + b'\\"' * (LIMIT // 2 - 1) + b'"', ACCEPTED),
    ("a wrong escape at the end", b'"' + b"\\\\" * (LIMIT // 2 - 2) + b"\\x\"", malformed(LIMIT - 2)),
    ("joiners", b"&" * LIMIT, malformed(0)),
    ("a mixed joiner at the end", b"a&" * (LIMIT // 2 - 2) + b"a|a", malformed(LIMIT - 3)),
]


def labels(folder):
    for name, label, (line, _) in LABELS:
        offset = strict.label_fault(label)
        foreseen = TOO_LARGE[0] if len(label) > LIMIT else ACCEPTED[0] if offset is None else malformed(offset)[0]
        tell(f"strict.py foresees {name}", foreseen == line, foreseen)
        word = label.replace(b"\\", b"\\\\")
        said = script(b"createtable t\ninsert t r f q %s v 5\ndelete t r f q %s 5\nstatus t\n" % (word, word), folder)
        records = b"tablets 1 sources 0 records %d\n" % (2 if line == b"ok\n" else 0)
        tell(f"a line with {name}", said == b"ok\n" + 2 * line + records, said[-200:])


def field(text):
    return struct.pack(">I", len(text)) + text


def frames(folder):
    """These labels in frames, over one connection."""
    for _ in range(3):
        with socket.create_server(("127.0.0.1", 0)) as probe:
            port = probe.getsockname()[1]
        server = subprocess.Popen([PROGRAM, "serve", "--port", str(port), "--workers", "1"], stdin=subprocess.DEVNULL, stdout=subprocess.PIPE, stderr=subprocess.PIPE)
        if server.stdout.readline():
            break
    try:
        with socket.create_connection(("127.0.0.1", port), timeout=300) as link:
            begin = field(b"\1" + field(b"root")) + field(b"\2" + field(b"t") + b"\0" + struct.pack(">I", 1))
            link.sendall(begin)
            told, wanted, sent = b"", 2 * field(b"\x80"), begin
            for _, label, (_, frame) in LABELS:
                body = b"\x0a" + field(b"t") + field(b"r") + struct.pack(">I", 1) + b"\0" + field(b"f") + field(b"q") + field(label) + b"\0"
                link.sendall(field(body))
                sent, wanted = sent + field(body), wanted + field(frame)
            link.shutdown(socket.SHUT_WR)
            while more := link.recv(1 << 16):
                told += more
        tell("frames with such labels", told == wanted, told.hex())
        tell("strict.py takes what is told", strict.judge(sent, told) == 2 + len(LABELS))
    finally:
        server.kill()
        server.communicate()


# ---- Images.
def listed(parts, form="I"):
    return struct.pack(">" + form, len(parts)) + b"".join(parts)


def user(name, bits=0, auths=()):
    return field(name) + bytes([bits]) + listed([field(auth) for auth in auths])


def record(row, label=b"", time=5, kind=1, number=0, at=0, value=b"v"):
    return b"".join(map(field, (row, b"f", b"q", label))) + struct.pack(">qBQI", time, kind, number, at) + field(value if kind else b"")


def table(version, name, rights=(), ends=(), records=(), time=0, versions=1, bits=0, horizon=LEAST):
    settings = struct.pack(">BIB", time, versions, bits) + (struct.pack(">q", horizon) if version == 2 else b"")
    return field(name) + settings + listed([field(who) + bytes([held]) for who, held in rights]) + listed([field(end) for end in ends]) + listed(records, "Q")


ROOT = user(b"root", 255)
ANN, BOB = user(b"ann", 2, [b"A", b"B"]), user(b"bob")
RECORDS = [record(b"a"), record(b"b", b"A", 7), record(b"b", b"A", 6, 0, 3), record(b"b", b"A", 6, 1, 4, 1), record(b"b", b"A", 6, 1, 4, 0), record(b"b", b"A", 6, 1, 2), record(b"c")]


def image(version=2, users=(ANN, BOB, ROOT), tables=None, following=9):
    tables = tables if tables is not None else [whole_table(version), table(version, b"u", time=1)]
    return b"TABIMG" + struct.pack(">HqQ", version, 3, following) + listed(list(users)) + listed(tables) + b"END!"


def whole_table(version, **other):
    parts = dict(rights=[(b"ann", 1), (b"root", 31)], ends=[b"b", b"bb"], records=RECORDS)
    return table(version, b"t", **{**parts, **other})


def swapped(parts):
    """Two neighbours in the place of each other, at each place; and one of them twice."""
    for at in range(len(parts) - 1):
        yield [*parts[:at], parts[at + 1], parts[at], *parts[at + 2 :]]
    for at in range(len(parts)):
        yield [*parts[: at + 1], *parts[at:]]


def near_images(version):
    """What isn't an image by one thing alone: its name, and its bytes."""
    def of_table(**other):
        return image(version, tables=[whole_table(version, **other)])

    for users in swapped([ANN, BOB, ROOT]):
        yield "users that don't rise", image(version, users)
    for auths in swapped([b"A", b"AB", b"B"]):
        yield "authorizations that don't rise", image(version, [user(b"ann", 2, auths), BOB, ROOT])
    for tables in swapped([table(version, name) for name in (b"t", b"tt", b"u")]):
        yield "tables that don't rise", image(version, tables=tables)
    for rights in swapped([(b"ann", 1), (b"bob", 2), (b"root", 4)]):
        yield "rights that don't rise", of_table(rights=rights)
    for ends in swapped([b"", b"b", b"b\0", b"c"]):
        yield "end rows that don't rise", of_table(ends=ends)
    for records in swapped(RECORDS):
        yield "records that don't rise", of_table(records=records)
    yield "no root", image(version, [ANN, BOB], [table(version, b"t")])
    yield "root without a permission", image(version, [ANN, BOB, user(b"root", 127)])
    yield "another user with GRANT", image(version, [user(b"ann", 1), BOB, ROOT])
    yield "too many authorizations", image(version, [user(b"ann", 0, [b"%04d" % at for at in range(1025)]), BOB, ROOT])
    yield "an authorization that is too long", image(version, [user(b"ann", 0, [b"a" * 1025]), BOB, ROOT])
    yield "no name", image(version, [user(b""), *(ANN, BOB, ROOT)])
    yield "a name that is too long", image(version, [ANN, user(b"b" * 129), ROOT])
    yield "a name with a space", image(version, [user(b"a b"), ANN, BOB, ROOT])
    yield "rights of nobody", of_table(rights=[(b"eve", 1)])
    yield "rights that are none", of_table(rights=[(b"ann", 0)])
    yield "a right that isn't there", of_table(rights=[(b"ann", 32)])
    yield "a time that isn't there", of_table(time=2)
    yield "no version", of_table(versions=0)
    yield "too many versions", of_table(versions=1001)
    yield "a constraint that isn't there", of_table(bits=16)
    yield "an end row that is too long", of_table(ends=[b"e" * (LIMIT + 1)])
    if version == 2:
        yield "a horizon where the table gives the times", of_table(time=1, horizon=LEAST + 1)
    for name, other in (("a number that wasn't given", dict(number=9)), ("a place over the limit", dict(at=1000)), ("a kind that isn't there", dict(kind=2)),
                        ("no label", dict(label=b"A&")), ("a label of open parentheses", dict(label=b"(" * LIMIT)),
                        ("a label that is too long", dict(label=b"a" * (LIMIT + 1))), ("a value that is too long", dict(value=b"v" * (LIMIT + 1))),
                        ("a row that is too long", dict(row=b"r" * (LIMIT + 1)))):
        yield name, of_table(records=[record(**{"row": b"r", **other})])
    marker = record(b"r", kind=0)
    yield "a marker with a value", of_table(records=[marker[:-4] + field(b"v")])
    for behind in (b"\0", b"!", b"END!", image(version), bytes(70_000)):
        yield "%d bytes behind" % len(behind), image(version) + behind
    yield "another end", image(version)[:-1] + b"?"


def right_images(version):
    """What is at a limit, and an image."""
    yield "an image", image(version)
    yield "the smallest one", image(version, [ROOT], [], 0)
    yield "parts at their limits", image(version, [user(b"a" * 128, 0, [b"%04d" % at for at in range(1023)] + [b"z" * 1024]), ROOT], [table(version, b"t", versions=1000, bits=15, ends=[b"e" * LIMIT], records=[
        record(b"r" * LIMIT, b"(" * 64 + b"a" * (LIMIT - 128) + b")" * 64, 2**63 - 1, 1, 2**64 - 2, 999, b"v" * LIMIT)])], 2**64 - 1)


def load(folder, images):
    """What a script says of each image, and of the store behind it; the store is another one each time."""
    for at, text in enumerate(images):
        Path(folder, f"i{at}").write_bytes(text)
    lines = b"".join(b"createtable mine\nload i%d\nstatus mine\n" % at for at in range(len(images)))
    told = script(lines, folder).split(b"\n")
    return [(told[at + 1], told[at + 2]) for at in range(0, len(told) - 1, 3)]


def images(folder):
    def judged(name, these):
        said = load(folder, [text for _, text, _ in these])
        wrong = len(said) != len(these)
        for (which, text, fault), answer in zip(these, said):
            right = (b"fault load " + fault.encode(), b"tablets 1 sources 0 records 0") if fault else (b"ok", b"refused 2 NoTable mine")
            if answer != right or strict.image_fault(text) != fault:
                wrong = True
                print(f"{which}: {answer}, strict.py says {strict.image_fault(text)}")
        tell(f"{len(these)} images: {name}", not wrong)

    for version in (1, 2):
        judged(f"right ones of version {version}", [(name, text, None) for name, text in right_images(version)])
        judged(f"near ones of version {version}", [(name, text, "bad") for name, text in near_images(version)])
        whole = image(version)
        step = 1 if ALL else 3
        judged(f"cut ones of version {version}", [(f"{length} bytes", whole[:length], "bad") for length in range(version % step, len(whole), step)])
        few = [*range(24), *(2**bit + more for bit in range(4, 16) for more in (-1, 0, 1)), 65534, 65535]
        numbers = sorted({number for number in (range(65536) if ALL else few) if number not in (1, 2)})
        for low in range(0, len(numbers), 8192):
            some = numbers[low : low + 8192]
            judged(f"version {version} under other numbers, from {some[0]} on", [(f"number {n}", whole[:6] + struct.pack(">H", n) + whole[8 : 8 if n % 2 else None], f"version {n}") for n in some])
    judged("one version under the other's number", [("1 as 2", image(1)[:7] + b"\2" + image(1)[8:], "bad"), ("2 as 1", image(2)[:7] + b"\1" + image(2)[8:], "bad")])


with tempfile.TemporaryDirectory(dir="/dev/shm" if os.access("/dev/shm", os.W_OK) else None) as work:
    labels(work)
    frames(work)
    images(work)
print(f"{passed} passed, {failed} failed")
sys.exit(failed != 0)
