"""More than one connection to one store, and the ends of connections."""
import inspect
import socket
import threading
import time
import unittest
from functools import partial
from typing import Optional

from running import Case, tabd
from tabd import Put
from tabd.places import Place


class Clients(Case):
    def setUp(self) -> None:
        super().setUp()
        for user, held in (("nurse", ["ward"]), ("doctor", ["ward", "lab"])):
            self.root.create_user(user)
            self.root.set_authorizations(user, held)
            self.root.grant(user, "READ", "t")

    def test_two_with_different_authorizations(self) -> None:
        labels = {"all": "", "both": "ward&lab", "any": "ward|lab"}
        self.root.write("t", "r", [Put("f", "q", label, value, 5) for value, label in labels.items()])
        nurse, doctor = self.client("nurse"), self.client("doctor")
        self.assertEqual([found.value for found in nurse.scan("t", ["ward"])], [b"all", b"any"])
        self.assertEqual([found.value for found in doctor.scan("t", ["ward", "lab"])], [b"all", b"both", b"any"])
        with self.refused(tabd.BadAuthorizations, b"lab"):
            nurse.scan("t", ["ward", "lab"])
        self.assertEqual(nurse.rights("t"), tabd.Rights((), ("READ",), (b"ward",)))

    def test_rights_of_others(self) -> None:
        nurse = self.client("nurse")
        with self.refused(tabd.PermissionDenied, tabd.Permission("WRITE", "t")):
            nurse.write("t", "r", [Put("f", "q", value="v")])
        with self.refused(tabd.PermissionDenied, tabd.Permission("CREATE_TABLE")):
            nurse.create_table("u")
        self.root.grant("nurse", "CREATE_TABLE")
        nurse.create_table("u")
        session = nurse.scan("u", batch=1)
        self.root.drop_user("nurse")
        self.assertEqual(list(session), [])
        with self.refused(tabd.UnknownUser, "nurse"):
            nurse.scan("u")

    def test_a_user_who_is_not_known(self) -> None:
        with self.refused(tabd.UnknownUser, "eve"):
            self.client("eve").scan("t")

    def test_sessions_are_the_connection_s(self) -> None:
        first, second = self.client("nurse"), self.client("nurse")
        self.assertEqual((first.scan("t").number, second.scan("t").number), (0, 0))

    def test_writers_at_once(self) -> None:
        def write(client: tabd.Client, letter: int) -> None:
            with client.pipeline():
                for at in range(500):
                    client.write("t", b"%c%03d" % (letter, at), [Put("f", "q", value="v", timestamp=5)])

        writers = [threading.Thread(target=write, args=(self.client("root"), letter)) for letter in b"wxyz"]
        for writer in writers:
            writer.start()
        for writer in writers:
            writer.join()
        self.assertEqual([found.row for found in self.root.scan("t")], [b"%c%03d" % (letter, at) for letter in b"wxyz" for at in range(500)])


class Ends(Case):
    def test_a_client_that_was_closed(self) -> None:
        self.root.close()
        for request in (lambda: self.root.scan("t"), lambda: self.root.write("t", "r", [Put("f", "q", value="v")])):
            self.assertRaises(tabd.ConnectionClosed, request)

    def test_a_server_that_goes_away(self) -> None:
        session = self.root.scan("t")
        self.server.kill()
        self.server.wait()
        self.assertRaises(tabd.ConnectionClosed, self.root.status, "t")
        self.assertTrue(self.root.closed)
        session.close()
        self.assertRaises(tabd.ConnectionClosed, self.root.status, "t")

    def test_a_server_that_goes_away_in_a_pipeline(self) -> None:
        with self.assertRaises(tabd.ConnectionClosed):
            with self.root.pipeline():
                for at in range(1000):
                    self.root.write("t", "r", [Put("f", "q", value="v")])
                    if at == 500:
                        self.server.kill()
                        self.server.wait()


class Timeouts(unittest.TestCase):
    """A server that lets its client wait, in place of which stands a socket that nobody answers at."""

    def silent(self, at: Optional[Place] = None) -> tabd.Client:
        """A client whose Hello alone is answered."""
        ours, theirs = socket.socketpair()
        self.addCleanup(theirs.close)
        theirs.sendall(b"\0\0\0\1\x80")
        ours.settimeout(0.1)
        with ours:
            break_off = partial(ours.shutdown, socket.SHUT_RDWR)
            client = tabd.Client(ours.makefile("rb"), ours.makefile("wb"), "root", break_off=break_off, at=at)
        self.addCleanup(client.close)
        return client

    def test_a_hello_that_is_not_answered(self) -> None:
        with socket.create_server(("127.0.0.1", 0)) as listener:
            port = listener.getsockname()[1]
            with self.assertRaises(tabd.TimedOut) as caught:
                tabd.connect(port, "root", timeout=0.1)
        said = f"the server at 127.0.0.1:{port} didn't answer within 0.1 s"
        self.assertEqual(str(caught.exception), f"{said}; all its workers may be busy (serve --workers)")

    def test_where_a_request_is_not_answered(self) -> None:
        for at, said in (
            (Place(9997, "root", "127.0.0.1", 5, 0), "the server at 127.0.0.1:9997 didn't answer within 5 s"),
            (Place("/run/sock", "root", "", 0.5, 0), "the server at /run/sock didn't answer within 0.5 s"),
            (None, "the server took longer than the timeout"),
        ):
            with self.assertRaises(tabd.TimedOut) as caught:
                self.silent(at).status("t")
            self.assertEqual(str(caught.exception), said)

    def test_a_request_that_is_not_answered(self) -> None:
        client = self.silent()
        with self.assertRaises(TimeoutError) as caught:
            client.status("t")
        self.assertIsInstance(caught.exception, tabd.ConnectionClosed)
        self.assertTrue(client.closed)
        with self.assertRaisesRegex(tabd.ConnectionClosed, "the client is closed"):
            client.status("t")

    def test_a_request_that_is_not_read(self) -> None:
        client, began = self.silent(), time.monotonic()
        with self.assertRaises(tabd.TimedOut):
            client.write("t", "r", [Put("f", str(at), value=bytes(1 << 20)) for at in range(7)])
        self.assertTrue(client.closed)
        self.assertLess(time.monotonic() - began, 5)

    def test_closes_are_sent_a_window_at_a_time(self) -> None:
        ours, theirs = socket.socketpair()
        with ours, theirs:
            theirs.settimeout(5)
            theirs.sendall(b"\0\0\0\1\x80")
            ours.settimeout(0.1)
            client = tabd.Client(ours.makefile("rb"), ours.makefile("wb"), "root")
            for number in range(1000):
                tabd.Session(client._connection, number, 1).close()
            self.assertRaises(tabd.TimedOut, client.status, "t")
            ours.shutdown(socket.SHUT_WR)
            sent = theirs.makefile("rb").read()
        self.assertEqual(len(sent), len(b"\0\0\0\x09\1\0\0\0\4root") + 9 * tabd.WINDOW)

    def test_what_is_waited_unless_told_otherwise(self) -> None:
        self.assertEqual(inspect.signature(tabd.connect).parameters["timeout"].default, tabd.TIMEOUT)
        self.assertEqual(tabd.TIMEOUT, 60)

    def test_what_is_no_timeout(self) -> None:
        for timeout in (0, -1, float("nan"), float("inf"), 1e20):
            with self.assertRaises(ValueError):
                tabd.connect(1, "root", timeout=timeout)
