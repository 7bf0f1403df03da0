"""What breaks into a client, and what is left of it then: interrupts, errors inside a pipeline, refusals, servers that say nothing."""
import gc
import inspect
import io
import socket
import struct
import sys
import tempfile
import threading
import unittest
import unittest.mock
import warnings
import weakref
from contextlib import suppress
from typing import Any, List

from running import Case, tabd
from tabd import Put

OK = b"\0\0\0\1\x80"


def framed(*bodies: bytes) -> bytes:
    return b"".join(struct.pack(">I", len(body)) + body for body in bodies)


def cell(row: bytes) -> bytes:
    return b"\x82" + b"".join(struct.pack(">I", len(part)) + part for part in (row, b"f", b"q", b"")) + bytes(8) + struct.pack(">I", 0)


def told(*bodies: bytes) -> tabd.Client:
    """A client whose server answers its Hello, and says these frames then."""
    return tabd.Client(io.BytesIO(OK + framed(*bodies)), io.BytesIO(), "root")


class Interrupted(io.BytesIO):
    """Says what it has, and is interrupted where that ends."""

    def read(self, count: Any = -1) -> bytes:
        if self.tell() == len(self.getvalue()):
            raise KeyboardInterrupt
        return super().read(count)


class Ends(unittest.TestCase):
    def test_an_interrupt_closes_the_client(self) -> None:
        client = tabd.Client(Interrupted(OK), io.BytesIO(), "root")
        with self.assertRaises(KeyboardInterrupt):
            client.status("t")
        self.assertTrue(client.closed)
        self.assertRaises(tabd.ConnectionClosed, client.flush, "t")

    def test_an_interrupt_wherever_it_comes_leaves_no_client_in_use(self) -> None:
        """The handler of a signal raises its exception behind some call; here behind each in its turn."""

        def interrupt(frame: Any, event: str, argument: Any) -> None:
            nonlocal left
            # (a generator that yields isn't behind a call)
            if event == "c_return" or event == "return" and not frame.f_code.co_flags & inspect.CO_GENERATOR:
                left -= 1
                if not left:
                    raise KeyboardInterrupt

        def writes(client: tabd.Client) -> None:
            with client.pipeline():
                client.write("t", "r", [Put("f", "q", value="v")])

        for ask in (tabd.Client.rotate, writes):
            for at in range(1, 1000):
                client, left = told(*[b"\x80"] * 4), at
                sys.setprofile(interrupt)
                try:
                    ask(client)
                except KeyboardInterrupt:
                    pass
                finally:
                    sys.setprofile(None)
                if left > 0:
                    break
                with suppress(tabd.ConnectionClosed):
                    client.rotate()
                    writes(client)
            self.assertGreater(at, 5)

    def test_a_client_breaks_off_before_it_writes_what_is_left(self) -> None:
        ends: List[str] = []

        class Noting(io.BytesIO):
            def __init__(self, name: str, text: bytes = b"") -> None:
                super().__init__(text)
                self.name = name

            def close(self) -> None:
                if not self.closed:
                    ends.append(self.name)
                super().close()

        client = tabd.Client(Noting("reader", OK), Noting("writer"), "root", break_off=lambda: ends.append("break off"))
        client.close()
        self.assertEqual(ends, ["break off", "writer", "reader"])
        self.assertRaises(tabd.ConnectionClosed, client.status, "t")

    def test_a_hello_that_is_refused_leaves_nothing_open(self) -> None:
        reader, writer, ended = io.BytesIO(framed(b"\x81\x11")), io.BytesIO(), []
        self.assertRaises(tabd.NoMemory, tabd.Client, reader, writer, "root", break_off=lambda: ended.append(True))
        self.assertEqual((reader.closed, writer.closed, ended), (True, True, [True]))

    def test_a_socket_file_that_says_nothing(self) -> None:
        def hold(listener: socket.socket) -> None:
            with listener.accept()[0]:
                given_up.wait(5)

        given_up = threading.Event()
        with tempfile.TemporaryDirectory() as folder, socket.socket(socket.AF_UNIX) as listener:
            listener.bind(f"{folder}/silent")
            listener.listen()
            holding = threading.Thread(target=hold, args=(listener,))
            holding.start()
            self.assertRaises(tabd.TimedOut, tabd.connect, f"{folder}/silent", "root", timeout=0.1)
            given_up.set()
            holding.join()

    def test_a_socket_that_can_not_connect_is_closed(self) -> None:
        with tempfile.TemporaryDirectory() as folder, warnings.catch_warnings(record=True) as warned:
            warnings.simplefilter("always")
            self.assertRaises(FileNotFoundError, tabd.connect, f"{folder}/none", "root")
            with socket.socket(socket.AF_UNIX) as dead:
                dead.bind(f"{folder}/dead")
            self.assertRaises(ConnectionRefusedError, tabd.connect, f"{folder}/dead", "root")
            gc.collect()
        self.assertEqual([str(it.message) for it in warned], [])


class Answered(unittest.TestCase):
    """What was answered is given, whatever breaks behind it."""

    def ended(self, answers: bytes) -> tabd.Client:
        """A client whose server answers so, and has ended by then."""
        near, far = socket.socketpair()
        far.sendall(OK)
        client = tabd.Client(near.makefile("rb"), near.makefile("wb"), "root", break_off=lambda: near.shutdown(socket.SHUT_RDWR))
        near.close()
        self.addCleanup(client.close)
        far.recv(100)
        far.sendall(answers)
        far.close()
        return client

    def test_an_answer_to_what_could_not_be_sent(self) -> None:
        client = self.ended(framed(b"\x81\x11"))
        self.assertRaises(tabd.NoMemory, client.flush, "t")
        self.assertTrue(client.closed)
        self.assertRaises(tabd.ConnectionClosed, client.flush, "t")

    def test_the_answers_before_the_end(self) -> None:
        client = self.ended(framed(b"\x80", b"\x81\x11"))
        with self.assertRaises(tabd.ConnectionClosed), client.pipeline() as refused:
            for _ in range(3):
                client.write("t", "r", [Put("f", "q", value="v")])
        self.assertEqual({place: type(refusal) for place, refusal in refused.items()}, {1: tabd.NoMemory})

    def test_cells_that_an_interrupt_keeps_from_being_taken(self) -> None:
        class Interrupting(type):
            def __instancecheck__(cls, instance: Any) -> bool:
                raise KeyboardInterrupt

        client = told(b"\x84\0\0\0\0", cell(b"a"), b"\x83\0", cell(b"b"), b"\x83\0")
        session = client.scan("t", batch=1)
        with unittest.mock.patch("tabd.session.Cell", Interrupting("Cell", (), {})), self.assertRaises(KeyboardInterrupt):
            next(iter(session))
        # nothing is passed over: no cell comes any more
        self.assertRaises(tabd.ConnectionClosed, session.fetch, 1)


class Answers(unittest.TestCase):
    def test_what_is_not_of_the_protocol(self) -> None:
        for frame, ask in (
            (b"\x88\0\x20\0\0\0\0", lambda client: client.rights("t")),
            (b"\x88\0\x3f\0\0\0\0", lambda client: client.rights("t")),
            (b"\x81\x09\0", lambda client: client.flush("t")),
            (b"\x81\x10\0", lambda client: client.flush("t")),
            (b"\x81\x06\0\0\0\1\0\1\0\0\0\0", lambda client: client.flush("t")),
        ):
            client = told(frame)
            with self.assertRaises(tabd.ProtocolError, msg=frame.hex()):
                ask(client)
            self.assertTrue(client.closed)

    def test_what_is_left_of_an_iteration(self) -> None:
        """One fetches it bit by bit, for as long as there may be more."""
        rows = [b"a", b"b", b"c", b"d"]
        session = told(b"\x84\0\0\0\0", *map(cell, rows), b"\x83\1").scan("t")
        found, more = [next(iter(session)).row], True
        while more:
            cells, more = session.fetch(1)
            found += [one.row for one in cells]
        self.assertEqual(found, rows)

    def test_what_was_ahead_of_a_fetch_that_is_refused(self) -> None:
        session = told(b"\x84\0\0\0\0", cell(b"a"), cell(b"b"), b"\x83\0", b"\x81\x11", cell(b"c"), b"\x83\0").scan("t", batch=2)
        self.assertEqual(next(iter(session)).row, b"a")
        self.assertRaises(tabd.NoMemory, session.fetch, 2)
        self.assertEqual([one.row for one in session.fetch(2)[0]], [b"b", b"c"])


class Windows(unittest.TestCase):
    def test_a_large_write_is_sent_at_once(self) -> None:
        sent = io.BytesIO()
        client = tabd.Client(io.BytesIO(OK + framed(b"\x80", b"\x80")), sent, "root")
        with client.pipeline():
            client.write("t", "r", [Put("f", "q", value=bytes(100_000))])
            length = len(sent.getvalue())
            self.assertGreater(length, 100_000)
            client.write("t", "r", [Put("f", "q", value="v")])
            self.assertEqual(len(sent.getvalue()), length)
        self.assertGreater(len(sent.getvalue()), length)


class Pipelines(Case):
    def rows(self) -> List[bytes]:
        """What is there, as another client sees it: so nothing that waits is sent for it."""
        return [found.row for found in self.other.scan("t")]

    def setUp(self) -> None:
        super().setUp()
        self.other = self.client("root")

    def put(self, row: str, label: str = "") -> None:
        self.root.write("t", row, [Put("f", "q", value="v", label=label)])

    def test_the_first_of_two_refusals(self) -> None:
        with self.refused(tabd.MalformedVisibility, 0, 2):
            with self.root.pipeline() as refused:
                self.put("a")
                self.put("b", "a&")
                self.put("c", "((((")
        self.assertEqual({place: refusal.args for place, refusal in refused.items()}, {1: (0, 2), 2: (0, 4)})
        self.assertEqual(self.rows(), [b"a"])

    def test_an_error_sends_what_waits(self) -> None:
        with self.assertRaises(ZeroDivisionError):
            with self.root.pipeline():
                self.put("a")
                print(1 / 0)
        self.assertEqual(self.rows(), [b"a"])
        self.put("b")
        self.assertEqual(self.rows(), [b"a", b"b"])

    def test_one_at_a_time(self) -> None:
        with self.root.pipeline():
            self.put("a")
            with self.assertRaises(ValueError), self.root.pipeline():
                pass
            self.put("b")
        self.assertEqual(self.rows(), [b"a", b"b"])


class Leaks(Case):
    def test_a_refusal_keeps_nothing_of_its_caller(self) -> None:
        def asks() -> "weakref.ref[tabd.Session]":
            session = self.root.scan("t")
            seen.append(weakref.ref(session))
            self.root.flush("none")
            return seen[0]

        seen: List["weakref.ref[tabd.Session]"] = []
        gc.disable()
        try:
            for _ in range(3):
                try:  # (assertRaises would clear what the refusal's traceback holds)
                    asks()
                except tabd.NoTable:
                    pass
            self.assertEqual([session() for session in seen], [None] * 3)
        finally:
            gc.enable()

    def test_sessions_that_are_given_up_make_room(self) -> None:
        for _ in range(1100):
            self.root.scan("t")
            self.assertEqual(list(self.root.scan("t")), [])
