"""What tests/theorem.sh tests. Its last line counts what passed and failed."""

import os
import re
import shutil
import struct

from serving import Server, count, field, frame, read_exactly, run, run_parts

PAGE = os.path.dirname(os.path.dirname(os.path.abspath(__file__))) + "/docs/THEOREM.md"
with open(PAGE, encoding="utf-8") as file:
    TEXT = file.read()
LINES = re.search(r"^```\n(.*?)^```$", TEXT, re.MULTILINE | re.DOTALL)[1].encode().splitlines(keepends=True)
WORLDS = {"h": LINES, "k": [line for line in LINES if b" lee" not in line and b" finding " not in line]}
KIM = b"ann record diagnosis medical 2 asthma\nann record room \\e 1 12\nend\n"
LEE = KIM.replace(b"ann record room", b"ann record finding medical&doctor 3 tumour\nann record room")


def shown(lines, *asked):
    told = run("script", stdin=b"".join([b"at 10\n", *lines, b"at 20\n", *asked])).stdout
    return re.sub(rb"^ok\n", b"", told, flags=re.MULTILINE)


# ---- Two readers, two worlds.
def readers():
    for name, lines in WORLDS.items():
        count("kim, in world " + name, shown(lines, b"as kim\nscan ward medical\n") == KIM)
    count("lee", shown(LINES, b"as lee\nscan ward doctor,medical\n") == LEE)
    count("kim under doctor", shown(LINES, b"as kim\nscan ward doctor,medical\n") == b"refused 4 BadAuthorizations doctor\n")


# ---- What a connection of kim's is sent, and what is left of a session where the row is deleted in between.
def connection():
    opens = b"\x0b" + field(b"ward") + bytes(6) + struct.pack(">I", 1) + field(b"medical")
    two = frame(b"\x0c" + struct.pack(">II", 0, 2))
    told = {}
    for name, lines in WORLDS.items():
        with Server() as server, server.connect() as stream:
            server.shell(b"".join(lines))
            stream.sendall(frame(b"\x01" + field(b"kim")) + frame(opens) + two)
            told[name] = read_exactly(stream, 132)
            server.shell(b"delete ward ann record diagnosis medical\ndelete ward ann record room \\e\n")
            stream.sendall(two)
            told[name] += read_exactly(stream, 6)
    of_h = told["h"]
    count("in both worlds the same", of_h == told["k"], told)
    count("132 bytes", [of_h[:5].hex(), of_h[5:14].hex(), of_h[126:132].hex()] == ["0000000180", "000000058400000000", "000000028300"], of_h.hex())
    count("of two cells", [of_h[14:18].hex(), of_h[78:82].hex()] == ["0000003c", "0000002c"], of_h.hex())
    count("and then none", of_h[132:].hex() == "000000028301", of_h[132:].hex())


# ---- What a crash leaves.
def crash():
    with Server("--store", "ward") as server:
        ok = server.shell(b"".join(LINES)).stdout
    count("all is answered", ok == 10 * b"ok\n", ok)
    with open("ward/journal.0", "rb") as file:
        journal = file.read()
    count("734 bytes, and a batch of 28 and 99", len(journal) == 734 + 28 + 99, len(journal))
    scans = b"setauths root doctor,medical\ngrant root READ ward\nscan ward medical\nscan ward doctor,medical\n"
    for left, entries, more, lees in ((126, 9, ", 126 bytes at the end of the journal are cut off", KIM), (127, 10, "", LEE)):
        with open("ward/journal.0", "wb") as file:
            file.write(journal[: 734 + left])
        folder = shutil.copytree("ward", "ward%d" % left)
        with Server("--store", folder) as server:
            told = server.shell(scans).stdout
            server.process.kill()
            said = server.process.stderr.read().decode()
        count("with %d of the last batch a start reads %d entries" % (left, entries), said == "%s: %d entries are replayed%s\n" % (folder, entries, more), said)
        count("and kim and lee are shown so", told == b"ok\nok\n" + KIM + lees, told)


run_parts(readers, connection, crash)
