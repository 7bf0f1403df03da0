"""What a connection is told, frame by frame: the examples of docs/PROTOCOL.md and of tests/frames, each sent whole, frame by frame with each
reply awaited, and byte by byte; replies behind which a part of a frame has come; sizes past blocks and at limits; each request for memory that fails in turn; an output that fails.
In a file of frames a line `> HEX` is a frame that is sent, `< HEX` one that is told, a title that begins with `# ` begins the next connection."""
import os
import re
import select
import struct
import subprocess
import sys
import tempfile

TOP = os.path.dirname(os.path.dirname(os.path.abspath(__file__)))
PROGRAM = f"{TOP}/crates/frames/out/frames"
passed = failed = 0


def tell(name, holds):
    """Counts one test."""
    global passed, failed
    if holds:
        passed += 1
    else:
        failed += 1
        print(f"FAILED: {name}")


def run(sent, **more):
    """What the program tells of these bytes, and its status."""
    done = subprocess.run([PROGRAM], input=sent, stdout=subprocess.PIPE, stderr=subprocess.DEVNULL, timeout=120, **more)
    return done.stdout, done.returncode


def field(text):
    return struct.pack(">I", len(text)) + text


def frame(body):
    return field(body)


def frames_in(told):
    """The bodies of the frames."""
    at, found = 0, []
    while at < len(told):
        (length,) = struct.unpack_from(">I", told, at)
        found.append(told[at + 4 : at + 4 + length])
        at += 4 + length
    return found


def connections():
    """Each connection that is written down: its name, and its frames in order, those sent with True."""
    with open(f"{TOP}/docs/PROTOCOL.md", encoding="utf-8") as page:
        texts = [(f"docs/PROTOCOL.md, example {n}", text) for n, text in enumerate(re.findall(r"```frames\n(.*?)```", page.read(), re.S), 1)]
    folder = f"{TOP}/tests/frames"
    for name in sorted(os.listdir(folder)):
        with open(f"{folder}/{name}", encoding="utf-8") as file:
            texts += [(f"{name}: {part.splitlines()[0]}", part) for part in re.split(r"^# ", file.read(), flags=re.M)[1:]]
    for name, text in texts:
        yield name, [(line[0] == ">", bytes.fromhex(line[2:])) for line in text.splitlines() if line[:2] in ("> ", "< ")]


def in_turn(frames):
    """Whether each reply comes before the next frame is sent."""
    with subprocess.Popen([PROGRAM], stdin=subprocess.PIPE, stdout=subprocess.PIPE, bufsize=0) as program:
        for sent, text in frames:
            if sent:
                program.stdin.write(text)
                if len(text) < 4 + struct.unpack(">I", text.ljust(4, b"\0")[:4])[0] or len(text) < 4:
                    program.stdin.close()
            else:
                told = b""
                while len(told) < len(text) and (more := program.stdout.read(len(text) - len(told))):
                    told += more
                if told != text:
                    program.kill()
                    return False
        if not program.stdin.closed:
            program.stdin.close()
        return program.stdout.read() == b"" and program.wait() == 0


def byte_by_byte(frames):
    """What is told where each byte is sent by itself."""
    with subprocess.Popen([PROGRAM], stdin=subprocess.PIPE, stdout=subprocess.PIPE, bufsize=0) as program:
        for sent, text in frames:
            if sent:
                for byte in text:
                    program.stdin.write(bytes([byte]))
        program.stdin.close()
        told = b""
        while more := program.stdout.read(65536):
            told += more
        program.wait()
        return told


def written_down():
    for name, frames in connections():
        sent = b"".join(text for is_sent, text in frames if is_sent)
        wanted = b"".join(text for is_sent, text in frames if not is_sent)
        tell(f"{name}, whole", run(sent) == (wanted, 0))
        tell(f"{name}, in turn", in_turn(frames))
        tell(f"{name}, byte by byte", byte_by_byte(frames) == wanted)


HELLO = frame(b"\x01" + field(b"root"))
TABLE = frame(b"\x02" + field(b"t") + b"\0" + struct.pack(">I", 1))
OPEN = frame(b"\x0b" + field(b"t") + b"\0\0" + struct.pack(">II", 0, 0))
OK = b"\x80"


def put(row, value=b"v"):
    return b"\x01" + field(b"f") + field(b"q") + field(b"") + b"\0" + field(value)


def write(row, updates):
    return frame(b"\x0a" + field(b"t") + field(row) + struct.pack(">I", len(updates)) + b"".join(updates))


def next_cells(session, count):
    return frame(b"\x0c" + struct.pack(">II", session, count))


def refused(number, *more):
    return bytes([0x81, number, *more])


def sizes():
    long = b"x" * 1048576
    told, _ = run(HELLO + TABLE + write(b"r", [put(b"r", long)]) + OPEN + next_cells(0, 1))
    cell = frames_in(told)[4]
    tell("a value of 1 MiB", frames_in(told)[:3] == [OK] * 3 and cell[0] == 0x82 and cell.endswith(field(long)))
    told, _ = run(HELLO + TABLE + write(b"r", [put(b"r", long + b"x")]) + OPEN + next_cells(0, 1))
    tell("a value over 1 MiB", frames_in(told)[2:] == [refused(9, 6), b"\x84" + bytes(4), b"\x83\x01"])
    whole = frame(b"\x7f" + bytes(8388607))
    tell("a frame of the greatest length", frames_in(run(HELLO + whole + TABLE)[0]) == [OK, refused(16, 4), OK])
    tell("a frame over it", run(HELLO + struct.pack(">I", 8388609) + TABLE) == (frame(OK) + frame(refused(16, 2)), 0))
    rows = [b"%06d" % n for n in range(20000)]
    told, _ = run(HELLO + TABLE + b"".join(write(row, [put(row)]) for row in rows) + OPEN + next_cells(0, 20000) + next_cells(0, 1))
    found = frames_in(told)
    tell("20,000 requests in one piece", found[: 20002] == [OK] * 20002 and [cell[5:11] for cell in found[20003:40003]] == rows and found[40003:] == [b"\x83\0", b"\x83\x01"])
    told, _ = run(HELLO + TABLE + OPEN * 65537 + frame(b"\x0e" + bytes(4)) + OPEN + frame(b"\x0c" + bytes(8)))
    found = frames_in(told)
    tell("65,536 sessions", found[2:65538] == [b"\x84" + struct.pack(">I", n) for n in range(65536)])
    tell("one session more", found[65538:] == [refused(9, 10), OK, b"\x84" + struct.pack(">I", 65536), refused(15, 0, 0, 0, 0)])
    many = frame(b"\x0d" + struct.pack(">II", 0, 1000) + b"\0\0" * 1000)
    over = frame(b"\x0d" + struct.pack(">II", 0, 1001) + b"\0\0" * 1001)
    found = frames_in(run(HELLO + TABLE + OPEN + many + over)[0])
    tell("1,000 ranges, and one more", found[3:] == [b"\x86"] * 1000 + [b"\x83\x01", refused(9, 9)])


def heads_in_part():
    """Whether a reply comes before the rest of the next frame, of which so many bytes came with the request."""
    for count in range(8):
        with subprocess.Popen([PROGRAM], stdin=subprocess.PIPE, stdout=subprocess.PIPE, bufsize=0) as program:
            program.stdin.write(HELLO + TABLE[:count])
            told = program.stdout.read(5) if select.select([program.stdout], [], [], 60)[0] else b""
            program.stdin.write(TABLE[count:])
            program.stdin.close()
            tell(f"a reply before {count} bytes of the next frame go on", told == frame(OK) and program.stdout.read() == frame(OK))


def failing_memory():
    """Each request for memory that fails leads to what is always told, to one request that is refused for memory, or to an end before Hello."""
    with tempfile.TemporaryDirectory() as work:
        source = re.search(r"<<'C'\n(.*?)\nC\n", open(f"{TOP}/tests/allocations.sh", encoding="utf-8").read(), re.S)[1]
        with open(f"{work}/failing.c", "w", encoding="utf-8") as file:
            file.write(source)
        subprocess.run([os.environ.get("CC", "cc"), "-shared", "-fPIC", "-O1", "-o", f"{work}/failing.so", f"{work}/failing.c", "-ldl"], check=True)
        requests = [HELLO, TABLE, write(b"a", [put(b"a")]), write(b"b", [put(b"b")] * 3), OPEN, next_cells(0, 9), write(b"c", [put(b"c", b"w" * 5000)])]
        wanted = [frames_in(run(b"".join(requests[:n]))[0]) for n in range(len(requests) + 1)]
        without = [frames_in(run(b"".join(requests[:n] + requests[n + 1 :]))[0]) for n in range(len(requests))]
        at, wrong, fails = 0, [], True
        while fails and at < 2000:
            at += 1
            log = f"{work}/log{at}"
            told, status = run(b"".join(requests), env={**os.environ, "LD_PRELOAD": f"{work}/failing.so", "FAIL_AT": str(at), "FAIL_LOG": log})
            fails = os.path.exists(log)
            found = frames_in(told)
            ones = [wanted[n] + [refused(17)] + without[n][len(wanted[n]) :] for n in range(len(requests))]
            if found != wanted[-1] and found not in ones and (told, status) != (b"", 1):
                wrong.append(at)
        tell(f"each of {at - 1} requests for memory that fails", not wrong and at > 20)


def failing_output():
    with open("/dev/full", "wb") as full:
        done = subprocess.run([PROGRAM], input=HELLO + TABLE, stdout=full, stderr=subprocess.PIPE)
    tell("an output that fails", done.returncode == 1 and done.stderr.startswith(b"fault: ") and done.stderr.count(b"\n") == 1)


written_down()
sizes()
heads_in_part()
failing_memory()
failing_output()
print(f"{passed} passed, {failed} failed")
sys.exit(failed != 0)
