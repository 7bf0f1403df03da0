"""A server that tells what is wrong, cuts what it tells, is slow, or says nothing. Each experiment is a connection of a user of its own: the
lines that a client is asked, what the server does behind Hello, and the texts that may be printed. Right replies are listed here with their
texts; wrong ones are made of them, each in one place."""
import itertools
import socket
import struct
import threading
import time

from reference import Ended, read_exactly, read_frame

BORDER = b"line fault\n"  # what the line behind each experiment prints
CLOSED, PROTOCOL, TIMEOUT = b"fault closed\n", b"fault protocol\n", b"fault timeout\n"


def u32(number):
    return struct.pack(">I", number)


def framed(body):
    return u32(len(body)) + body


# ---- Frames as pieces: what is a byte of a known range, a length, a count, or anything.
def text(content):
    return [("length", u32(len(content))), ("text", content)]


def byte(value, below, least=0):
    return [("byte", bytes([value]), least, below)]


def cell(row, value):
    return [("opcode", b"\x82"), *text(row), *text(b"f"), *text(b"q"), *text(b""), ("text", struct.pack(">q", 5)), *text(value)]


OK = [("opcode", b"\x80")]
END, MORE = [("opcode", b"\x83"), *byte(1, 2)], [("opcode", b"\x83"), *byte(0, 2)]
OPENED = [("opcode", b"\x84"), ("text", u32(0))]
RANGE_END = [("opcode", b"\x86")]
COUNTS = [("opcode", b"\x87"), ("text", struct.pack(">QQQ", 1, 2, 3))]
RIGHTS = [("opcode", b"\x88"), ("text", b"\xff"), ("byte", b"\x1f", 0, 32), ("length", u32(1)), *text(b"A")]
A, B, C = cell(b"a", b"v"), cell(b"b", b"w"), cell(b"c", b"x")
A_TEXT, B_TEXT, C_TEXT = b"a f q \\e 5 v\n", b"b f q \\e 5 w\n", b"c f q \\e 5 x\n"


def row(content):
    return [("opcode", b"\x85"), *text(content)]


def refused(number, *pieces):
    return [("opcode", b"\x81"), ("byte", bytes([number]), 1, 23), *(piece for part in pieces for piece in part)]


def bare(content):
    return [("text", content)]


def body(pieces):
    return b"".join(piece[1] for piece in pieces)


def frame(pieces):
    return framed(body(pieces))


# A line, what is told of each of its requests, and what is printed.
TALKS = [
    ("droptable t", [[OK]], b"ok\n"),
    ("insert t r f q \\e v 5", [[OK]], b"ok\n"),
    ("open t \\0", [[OPENED]], b"session 0\n"),
    ("next 0 2", [[A, B, MORE]], A_TEXT + B_TEXT + b"more\n"),
    ("next 0 5", [[A, B, END]], A_TEXT + B_TEXT + b"end\n"),
    ("many 0 [a [a (a \\0", [[A, RANGE_END, B, C, RANGE_END, END]], A_TEXT + b"range\n" + B_TEXT + C_TEXT + b"range\n"),
    ("splits t", [[row(b"m"), row(b"z"), END]], b"m\nz\nend\n"),
    ("status t", [[COUNTS]], b"tablets 1 sources 2 records 3\n"),
    ("rights t", [[RIGHTS]], b"system GRANT CREATE_TABLE DROP_TABLE ALTER_TABLE CREATE_USER DROP_USER ALTER_USER SYSTEM\n"
     b"table READ WRITE ALTER_TABLE GRANT DROP_TABLE\nauth A\nend\n"),
    ("scan t \\0", [[OPENED], [A, B, END]], A_TEXT + B_TEXT + b"end\n"),
]
REFUSALS = [
    (refused(1, text(b"bob")), b"1 UnknownUser bob"), (refused(2, text(b"t")), b"2 NoTable t"),
    (refused(3, byte(0, 2), byte(1, 8)), b"3 PermissionDenied System.CREATE_TABLE"),
    (refused(3, byte(1, 2), byte(4, 5), text(b"t")), b"3 PermissionDenied Table.DROP_TABLE t"),
    (refused(4, text(b"A b")), b"4 BadAuthorizations A\\x20b"), (refused(5, bare(u32(1) + u32(7))), b"5 MalformedVisibility 1 7"),
    (refused(6, [("length", u32(2))], byte(1, 5, 1), bare(b"\x01" + u32(0)), byte(4, 5, 1), bare(b"\x02" + u32(9))), b"6 ConstraintViolation 1:1:0 4:2:9"),
    (refused(7, bare(u32(3))), b"7 TimestampNotAllowed 3"), (refused(8), b"8 EmptyMutation"), (refused(9, byte(1, 12, 1)), b"9 TooLarge updates"),
    (refused(9, byte(11, 12, 1)), b"9 TooLarge numbers"), (refused(10, text(b"t")), b"10 TableExists t"), (refused(11, text(b"u")), b"11 UserExists u"),
    (refused(12, text(b"u")), b"12 NoUser u"), (refused(13), b"13 BadRange"), (refused(15, bare(u32(2**32 - 1))), b"15 NoSession 4294967295"),
    (refused(16, byte(5, 7, 1)), b"16 BadFrame field"), (refused(17), b"17 NoMemory"), (refused(18), b"18 RootFixed"), (refused(19), b"19 GrantInvalid"),
    (refused(20, byte(2, 3)), b"20 BadSplit onerow"), (refused(21, bare(u32(1000))), b"21 VersionsRaised 1000"),
    (refused(22, byte(0, 3), bare(struct.pack(">q", -7))), b"22 HorizonLowered -7"), (refused(22, byte(1, 3), bare(u32(4))), b"22 BelowHorizon 4"),
    (refused(22, byte(2, 3)), b"22 ServerTime"),
]


# ---- Experiments.
class Experiment:
    def __init__(self, title, lines, act, *wanted):
        self.title, self.lines, self.act, self.wanted = title, lines, act, wanted


def telling(told, ends=True):
    """Answers each request by the next of these bytes, and then says nothing, or ends the connection."""
    def act(stream):
        stream.sendall(frame(OK))
        for bytes_ in told:
            read_frame(stream)
            stream.sendall(bytes_)
        if ends:
            stream.shutdown(socket.SHUT_WR)
        hear_out(stream)
    return act


def hear_out(stream):
    """Reads to the end of what the client says."""
    while stream.recv(1 << 16):
        pass


def reset(stream):
    """Lets the connection end by a reset."""
    stream.setsockopt(socket.SOL_SOCKET, socket.SO_LINGER, struct.pack("ii", 1, 0))


def forged(pieces):
    """The bodies of a frame, each wrong in one piece."""
    yield "a byte more", body(pieces) + b"\0"
    if len(body(pieces)) > 1:
        yield "a byte less", body(pieces)[:-1]
    for at, piece in enumerate(pieces):
        def put(value):
            return body(pieces[:at]) + value + body(pieces[at + 1 :])
        if piece[0] == "opcode":
            for value in (0, 1, 0x7F, 0x89, 0xFF):
                yield f"the opcode {value}", put(bytes([value]))
        elif piece[0] == "byte":
            for value in {piece[2] - 1, piece[3], 255} - {-1}:
                yield f"the byte {value} at {at}", put(bytes([value]))
        elif piece[0] == "length":
            number = struct.unpack(">I", piece[1])[0]
            for value in {number - 1, number + 1, 2**31, 2**32 - 1} - {-1}:
                yield f"a length of {value} at {at}", put(u32(value))


ANY = {"Ok": OK, "End": END, "Opened": OPENED, "Row": row(b"m"), "RangeEnd": RANGE_END, "Status": COUNTS, "Rights": RIGHTS, "Cell": A,
       "Refused": refused(17)}
FITS = {"next": {"Cell", "End", "Refused"}, "many": {"Cell", "RangeEnd", "End", "Refused"}, "splits": {"Row", "End", "Refused"},
        "open": {"Opened", "Refused"}, "status": {"Status", "Refused"}, "rights": {"Rights", "Refused"}}


def wrong_frames():
    """One frame of a reply is wrong: the whole reply is given up."""
    for line, replies, _ in TALKS:
        for reply, frames in enumerate(replies):
            before = [b"".join(map(frame, it)) for it in replies[:reply]]
            for at, pieces in enumerate(frames):
                front, title = b"".join(map(frame, frames[:at])), f"{line}: frame {reply}.{at}"
                for why, bytes_ in forged(pieces):
                    yield Experiment(f"{title} has {why}", [line], telling([*before, front + framed(bytes_)]), PROTOCOL)
                for why, bytes_ in (("no length", u32(0)), ("over 8 MiB", u32(8_388_609)), ("4 GiB", b"\xff\xff\xff\xff")):
                    yield Experiment(f"{title} is {why}", [line], telling([*before, front + bytes_]), PROTOCOL)
                asked = line.split(" ")[0] if line.split(" ")[0] != "scan" else ("open", "next")[reply]
                for kind, other in ANY.items():
                    if kind not in FITS.get(asked, {"Ok", "Refused"}) or kind == "Refused" and at > 0:
                        yield Experiment(f"{title} is {kind}", [line], telling([*before, front + frame(other)]), PROTOCOL)
    for pieces, said in REFUSALS:
        yield Experiment(f"refused {said.decode()}", ["droptable t"], telling([frame(pieces)]), b"refused " + said + b"\n")
        for why, bytes_ in forged(pieces):
            yield Experiment(f"refused {said.decode()}: {why}", ["droptable t"], telling([framed(bytes_)]), PROTOCOL)


def wrong_lists():
    """Each frame is right, and the list is not."""
    def told(line, *frames):
        return [line], telling([b"".join(map(frame, frames))])
    yield Experiment("a cell more than asked for", *told("next 0 1", A, B, MORE), PROTOCOL)
    yield Experiment("the end told where there are as many as asked for", *told("next 0 1", A, END), PROTOCOL)
    yield Experiment("more told where there are fewer than asked for", *told("next 0 2", A, MORE), PROTOCOL)
    yield Experiment("a range more than asked for", *told("many 0 [a [a", A, RANGE_END, RANGE_END, END), PROTOCOL)
    yield Experiment("a range less than asked for", *told("many 0 [a [a [b [b", A, RANGE_END, END), PROTOCOL)
    yield Experiment("a cell behind the last range", *told("many 0 [a [a", A, RANGE_END, B, END), PROTOCOL)
    yield Experiment("an Ok too many", ["droptable t", "rights t"], telling([frame(OK) + frame(OK), frame(RIGHTS)]), b"ok\n" + PROTOCOL)
    for kind in ("Cell", "End", "Opened", "Rights"):
        yield Experiment(f"{kind} behind Hello", ["rights t"], at_once(frame(ANY[kind])), PROTOCOL)
    yield Experiment("a text behind Hello", ["rights t"], at_once(b"HTTP/1.1 400 Bad Request\r\n"), PROTOCOL)


def at_once(bytes_):
    """Tells this of Hello."""
    def act(stream):
        stream.sendall(bytes_)
        stream.shutdown(socket.SHUT_WR)
        hear_out(stream)
    return act


def cuts():
    """What is told ends in each place, by an end or by a reset; and it comes byte by byte."""
    for line, replies, printed in TALKS:
        told = [b"".join(map(frame, frames)) for frames in replies]
        yield Experiment(f"{line}, byte by byte", [line], trickling(told), printed)
        for at in range(sum(map(len, told))):
            for is_reset in (False, True):
                yield Experiment(f"{line}: {'reset' if is_reset else 'ended'} behind {at} bytes", [line], cut(told, at, is_reset), CLOSED)


def answered():
    """What is answered is given, whatever comes behind it at once: the end or a reset, many times; also where the request isn't read before."""
    for line, replies, printed in TALKS:
        told = [b"".join(map(frame, frames)) for frames in replies]
        # (whoever closes a scan's session may be told that the connection has ended)
        wanted = (printed, printed + CLOSED) if line.startswith("scan") else (printed,)
        for is_reset in (False, True):
            for _ in range(8):
                yield Experiment(f"{line}: {'reset' if is_reset else 'ended'} behind the answer", [line], cut(told, sum(map(len, told)), is_reset), *wanted)
    for is_reset in (False, True):
        for _ in range(2):
            yield Experiment(f"{'reset' if is_reset else 'ended'} behind an answer to what isn't read", ["insert t r f q \\e " + "v" * 4_000_000],
                             hasty(is_reset), b"refused 17 NoMemory\n")


def hasty(is_reset):
    """Answers a request of which the most isn't read yet."""
    def act(stream):
        stream.sendall(frame(OK))
        read_exactly(stream, 100_000)
        stream.sendall(frame(refused(17)))
        if is_reset:
            reset(stream)
        else:
            stream.shutdown(socket.SHUT_WR)
            hear_out(stream)
    return act


def cut(told, left, is_reset):
    """Answers by so many of these bytes, and ends the connection."""
    def act(stream):
        stream.sendall(frame(OK))
        count = left
        for bytes_ in told:
            read_frame(stream)
            stream.sendall(bytes_[:count])
            count -= len(bytes_)
            if count < 0:
                break
        if is_reset:
            reset(stream)
        else:
            stream.shutdown(socket.SHUT_WR)
            hear_out(stream)
    return act


def trickling(told):
    def act(stream):
        for reply, bytes_ in enumerate([frame(OK), *told]):
            if reply > 0:
                read_frame(stream)
            for at in range(len(bytes_)):
                stream.sendall(bytes_[at : at + 1])
                time.sleep(0.0003)
        while True:  # a scan's session is closed
            read_frame(stream)
            stream.sendall(frame(OK))
    return act


def unheard():
    """What is asked isn't read to its end: behind each byte of a request the connection is reset."""
    line, length = "insert t row family qualifier label value 5", 4 + 1 + 5 + 7 + 4 + 1 + 10 + 13 + 9 + 1 + 8 + 9
    for at in range(length):
        def act(stream, at=at):
            stream.sendall(frame(OK))
            read_exactly(stream, at)
            reset(stream)
        yield Experiment(f"reset behind {at} bytes of a request", [line], act, CLOSED)

    def act(stream):
        stream.sendall(frame(OK))
        read_exactly(stream, 100_000)
        reset(stream)
    yield Experiment("reset in a long request", ["insert t r f q \\e " + "v" * 4_000_000], act, CLOSED)
    yield Experiment("a request over 8 MiB isn't sent", ["insert t r f q \\e " + "v" * 8_388_600, "droptable t"], telling([frame(OK)]),
                     b"refused 16 BadFrame toolong\nok\n")


def great():
    """A frame of 8 MiB, in pieces."""
    value = b"v" * (8_388_608 - 37)
    told = frame(cell(b"a", value)) + frame(MORE)

    def act(stream):
        stream.sendall(frame(OK))
        read_frame(stream)
        for at in range(0, len(told), 50_001):
            stream.sendall(told[at : at + 50_001])
        hear_out(stream)
    yield Experiment("a frame of 8 MiB", ["next 0 1"], act, b"a f q \\e 5 " + value + b"\nmore\n")


def silent():
    """Nothing is told, or not all, and the connection stays."""
    yield Experiment("no answer to Hello", ["rights t"], hear_out, TIMEOUT)
    yield Experiment("no answer", ["rights t"], telling([], ends=False), TIMEOUT)
    yield Experiment("half an answer", ["rights t"], telling([frame(RIGHTS)[:9]], ends=False), TIMEOUT)
    yield Experiment("a scan that stops", ["scan t \\0"], telling([frame(OPENED), frame(A)], ends=False), TIMEOUT, A_TEXT + TIMEOUT)

    def act(stream):
        stream.sendall(frame(OK))
        time.sleep(4)
    yield Experiment("a long request that isn't read", ["insert t r f q \\e " + "v" * 8_000_000], act, TIMEOUT)


def groups():
    """All experiments, with the seconds that a client is to wait in each group."""
    yield 20, list(itertools.chain(wrong_frames(), wrong_lists(), cuts(), answered(), unheard(), great()))
    yield 1, list(silent())


# ---- The server.
class FalseServer:
    """Does in each connection what the experiment of its user does. Users are named e0, e1, .."""

    def __init__(self, experiments):
        self.experiments = experiments

    def lines(self):
        """What a driver is asked."""
        return [line for number, it in enumerate(self.experiments)
                for line in [b"as e%d" % number, *(line.encode() for line in it.lines), b"hangup", b"border"]]

    def __enter__(self):
        self.listener = socket.create_server(("127.0.0.1", 0), backlog=64)
        self.port = self.listener.getsockname()[1]
        threading.Thread(target=self.accept, daemon=True).start()
        return self

    def __exit__(self, *_):
        self.listener.shutdown(2)
        self.listener.close()

    def accept(self):
        while True:
            try:
                stream, _ = self.listener.accept()
            except OSError:
                return
            threading.Thread(target=self.serve, args=(stream,), daemon=True).start()

    def serve(self, stream):
        with stream:
            try:
                stream.setsockopt(socket.IPPROTO_TCP, socket.TCP_NODELAY, 1)
                hello = read_frame(stream)
                self.experiments[int(hello[10:])].act(stream)
            except (Ended, OSError):
                pass
