"""What tests/client.sh tests. Its last line counts what passed and failed."""
import io
import os
import socket
import struct
import sys
import threading

from serving import OK, count, field, frame, run_parts

sys.path.insert(0, os.path.join(os.path.dirname(os.path.abspath(__file__)), "../clients/python"))
import tabd  # noqa: E402

HELLO = frame(b"\1" + field(b"root"))


def u32(number):
    return struct.pack(">I", number)


class Kept(io.BytesIO):
    """What was written stays behind the end."""

    def close(self):
        self.text = self.getvalue()
        super().close()


def client(*replies):
    """A client that is told these frames behind Hello's, and what it writes."""
    out = Kept()
    return tabd.Client(io.BytesIO(OK + b"".join(map(frame, replies))), out, "root"), out


def sent(ask, *replies):
    """The requests that are sent for this."""
    asker, out = client(*replies)
    ask(asker)
    asker.close()
    text, found = out.text[len(HELLO):], []
    while text:
        length = struct.unpack(">I", text[:4])[0]
        found.append(text[4 : 4 + length])
        text = text[4 + length :]
    return found


def raised(does):
    """The class of the error."""
    try:
        does()
    except Exception as error:
        return type(error)
    return None


def cell(row):
    return b"\x82" + b"".join(map(field, (row, b"f", b"q", b""))) + struct.pack(">q", 5) + field(b"v")


DONE, MORE, END, OPENED = b"\x80", b"\x83\0", b"\x83\1", b"\x84" + u32(7)


# ---- What is sent.
def requests():
    put = tabd.Put("f", "q", value="v", timestamp=0)
    wanted = b"\x0a" + field(b"t") + field("水".encode()) + u32(1) + b"\1" + field(b"f") + field(b"q") + field(b"") + b"\1" + bytes(8) + field(b"v")
    count("the time 0, and letters of any kind", sent(lambda it: it.write("t", "水", [put]), DONE) == [wanted])
    count("constraints that are given twice", sent(lambda it: it.set_constraints("t", ["keysize", "keysize", "numeric"]), DONE) == [b"\x09" + field(b"t") + b"\5"])
    asked = sent(lambda it: it.scan("t", ["a"], tabd.Range("a", "b", with_high=False), [("f", ""), "g"]), OPENED)[0]
    wanted = b"\x0b" + field(b"t") + b"\1" + field(b"a") + b"\2" + field(b"b") + u32(2) + field(b"f") + b"\1" + field(b"") + field(b"g") + b"\0" + u32(1) + field(b"a")
    count("a range's bounds, and a column without a qualifier", asked == wanted, asked)
    asked = sent(lambda it: list(it.scan("t", batch=3)), OPENED, cell(b"1"), cell(b"2"), cell(b"3"), MORE, cell(b"4"), END)
    count("as many cells as are asked for", asked[1:] == 2 * [b"\x0c" + u32(7) + u32(3)], asked)


def what_is_not_sent():
    """Wrong arguments raise their errors, and nothing goes out."""
    for name, kind, does in (
            ("a permission on a table without a name", ValueError, lambda it: it.grant("ann", "GRANT", "")),
            ("and to take one", ValueError, lambda it: it.revoke("ann", "GRANT", b"")),
            ("too many versions", tabd.OutOfRange, lambda it: it.create_table("t", versions=1001)),
            ("a horizon of 65 bits", tabd.OutOfRange, lambda it: it.set_horizon("t", 1 << 63)),
            ("a timestamp of 65 bits", tabd.OutOfRange, lambda it: it.write("t", "r", [tabd.Delete("f", "q", timestamp=1 << 63)])),
            ("a batch of 33 bits", tabd.OutOfRange, lambda it: it.scan("t", batch=1 << 32))):
        asker, out = client()
        found = raised(lambda: does(asker))
        asker.close()
        count(name, found is kind and out.text == HELLO, found)


# ---- What is told.
def answers():
    told = []
    count("what a table consists of", sent(lambda it: told.append(it.status("t")), b"\x87" + struct.pack(">QQQ", 1, 2, 3)) and told == [tabd.Status(1, 2, 3)], told)
    for why, kind in ((b"\0" + bytes(8), tabd.HorizonLowered), (b"\1" + u32(0), tabd.BelowHorizon), (b"\2", tabd.ServerTime)):
        asker, _ = client(b"\x81\x16" + why)
        count("a refusal that has to do with a horizon: %s" % kind.__name__, raised(lambda: asker.set_horizon("t", 1)) is kind)
    asker, _ = client(OPENED, cell(b"1"), MORE)
    count("a list that isn't whole", raised(lambda: asker.scan("t").fetch(5)) is tabd.ProtocolError and asker.closed)


def iterations():
    """One goes on where the one before it was left."""
    asker, _ = client(OPENED, *(cell(b"%d" % row) for row in range(5)), END)
    session = asker.scan("t")
    rows = []
    for take in (2, 1, 9):
        for row in session:
            rows.append(row.row)
            take -= 1
            if not take:
                break
    count("each cell is given once", rows == [b"0", b"1", b"2", b"3", b"4"], rows)


def exceptions():
    asker, out = client()

    def does():
        with asker:
            raise KeyError

    count("what is raised in a client's with is seen behind it", raised(does) is KeyError and out.text == HELLO)


# ---- Whom it connects to.
def hosts():
    with socket.create_server(("127.0.0.2", 0)) as listener:
        port = listener.getsockname()[1]

        def serve():
            with listener.accept()[0] as link:
                link.recv(100)
                link.sendall(OK)
                link.recv(1)

        thread = threading.Thread(target=serve, daemon=True)
        thread.start()
        found = raised(lambda: tabd.connect(port, "root", host="127.0.0.2", timeout=20).close())
        count("the host that is named", found is None, found)
        thread.join(0 if found else 20)


def what_is_not_connected():
    with socket.create_server(("127.0.0.1", 0)) as listener:
        listener.settimeout(0)
        port = listener.getsockname()[1]
        for name, kind, does in (
                ("a user who is no name", ValueError, lambda: tabd.connect(port, "no name")),
                ("a timeout of 0", ValueError, lambda: tabd.connect(port, "root", timeout=0)),
                ("one below 0", ValueError, lambda: tabd.connect(port, "root", timeout=-1.0)),
                ("one that is no number", ValueError, lambda: tabd.connect(port, "root", timeout=float("nan")))):
            found = raised(does)
            count("%s: no connection is made" % name, found is kind and raised(listener.accept) is BlockingIOError, found)


def threads():
    """A second thread is told that the client is in use, and the first one goes on."""
    here, there = socket.socketpair()
    with there:
        there.sendall(OK)
        asker = tabd.Client(here.makefile("rb"), here.makefile("wb"), "root")
        told = []
        first = threading.Thread(target=lambda: told.append(raised(lambda: asker.create_table("t"))), daemon=True)
        second = threading.Thread(target=lambda: told.append(raised(lambda: asker.create_table("u"))), daemon=True)
        first.start()
        asked = len(HELLO) + len(frame(b"\2" + field(b"t") + b"\0" + u32(1)))
        while asked:
            asked -= len(there.recv(asked))
        second.start()
        second.join(20)
        count("a second thread is told so at once", told == [tabd.InUse], told)
        there.sendall(OK)
        first.join(20)
        count("and the first one gets its answer", told == [tabd.InUse, None], told)
    here.close()


if __name__ == "__main__":
    run_parts(requests, what_is_not_sent, answers, iterations, exceptions, hosts, what_is_not_connected, threads)
