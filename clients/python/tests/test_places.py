"""URLs in place of a port or a path, and servers that don't listen yet."""
import errno
import os
import socket
import tempfile
import threading
import unittest
from pathlib import Path
from typing import Any, Callable, Iterator, List
from unittest import mock

from running import ServerCase, tabd
from tabd.places import pauses, place

OK = b"\0\0\0\1\x80"
DEFAULTS = ("127.0.0.1", tabd.TIMEOUT, 0)


def read(url: Any, user: Any = None, host: str = "127.0.0.1", timeout: Any = tabd.TIMEOUT, wait: float = 0) -> tuple:
    return tuple(place(url, user, host, timeout, wait))


class Urls(unittest.TestCase):
    def test_ports(self) -> None:
        for url, said in (
            ("tabd://ann@127.0.0.1:9997", (9997, "ann", "127.0.0.1", 60.0, 0)),
            ("tabd://localhost:1/", (1, None, "localhost", 60.0, 0)),
            ("TABD://ann@[::1]:9997?timeout=5", (9997, "ann", "::1", 5.0, 0)),
            ("tabd://a%6en@h%6Fst:07?wait=0.5&timeout=2.25", (7, "ann", "host", 2.25, 0.5)),
            ("tabd://ann@h:1?", (1, "ann", "h", 60.0, 0)),
            ("tabd://ann@h:1?time%6fut=%35", (1, "ann", "h", 5.0, 0)),
        ):
            self.assertEqual(read(url), said, url)

    def test_socket_files(self) -> None:
        for url, said in (
            ("tabd+unix://ann@/run/tabd.sock", ("/run/tabd.sock", "ann", *DEFAULTS)),
            ("tabd+unix:///run/a%20b%3f%25%2F+c", ("/run/a b?%/+c", None, *DEFAULTS)),
            ("tabd+UNIX://ann@/z%C3%BCrich@x:1", (os.fsdecode("/zürich@x:1".encode()), "ann", *DEFAULTS)),
            ("tabd+unix://ann@/%ff?timeout=1", (os.fsdecode(b"/\xff"), "ann", "127.0.0.1", 1.0, 0)),
        ):
            self.assertEqual(read(url), said, url)

    def test_what_is_no_url_stays_as_it_is(self) -> None:
        for port in (9997, "/run/tabd.sock", "tabd.sock", "tabd:/x", "./h:1", "/run/a:1", "h:1x", "/x?timeout=5", "a%20b", "a1", ""):
            self.assertEqual(read(port, b"kim", "h", None, 3), (port, b"kim", "h", None, 3))
        for path in ("/run/tabd.sock", "h:1", "9997"):
            self.assertEqual(read(Path(path), "kim"), (path, "kim", *DEFAULTS))

    def test_what_was_meant_for_a_url(self) -> None:
        for given, shown in (
            ("127.0.0.1:9997", None), ("root@h:1", None), ("[::1]:9997", None), ("http://ann@h:1", None), ("./tabd://x", None),
            ("postgres://ann:word@h:1/x", "postgres://ann:..@h:1/x"), ("ann:word@h:1", "ann:..@h:1"),
        ):
            for user in ((), ("root",)):
                said = str(self.raised(given, *user))
                self.assertEqual(said, f"{shown or given!r} is not a URL of tabd: tabd://ann@127.0.0.1:9997 is meant")
        error = self.raised("9997", "root")
        self.assertEqual((type(error), str(error)), (TypeError, "port: a number is meant, and '9997' is a text"))

    def test_why_it_is_no_url(self) -> None:
        meant = "is not a URL of tabd: tabd://ann@127.0.0.1:9997 is meant, or tabd+unix://ann@/run/tabd.sock"
        for url, shown, why in (
            ("tabd://ann@h:x", None, "; the port 'x' is not a number"),
            ("tabd://ann@[::1]:x/y", None, "; the port 'x' is not a number"),
            ("tabd://ann:word@h:1", "tabd://ann:..@h:1", "; tabd has no passwords"),
            ("tabd+unix://ann:word@/run", "tabd+unix://ann:..@/run", "; tabd has no passwords"),
            ("tabd://a@b@h:1", None, ""),
        ):
            self.assertEqual(str(self.raised(url)), f"{shown or url!r} {meant}{why}")

    def test_what_is_a_wrong_url(self) -> None:
        for url in (
            "tabd://", "tabd://ann@h", "tabd://ann@:1", "tabd://ann@h:", "tabd://ann@h:x", "tabd://ann@h:1/x", "tabd://ann@h:1#x",
            "tabd://a@b@h:1", "tabd://ann:word@h:1", "tabd://ann@::1:9997", "tabd://ann@h:1?timeout=%zz", "tabd://ann@h:1?timeout=5%",
            "tabd://ü@h:1",
            "tabd+unix://ann@", "tabd+unix://ann@h/run", "tabd+unix://ann@run", "tabd+unix://ann@:1/run", "tabd+unix://ann@/a b",
            "tabd+unix://ann@/a\n",
        ):
            with self.assertRaisesRegex(ValueError, "tabd(://|\\+unix://)", msg=url):
                tabd.connect(url)
        self.assertNotIn(":word", str(self.raised("tabd://ann:word@h:1")))

    def raised(self, url: str, *arguments: Any, **named: Any) -> Exception:
        """What it comes to before anything is asked of the network."""
        with mock.patch("socket.socket.connect", side_effect=AssertionError), self.assertRaises((TypeError, ValueError)) as caught:
            tabd.connect(url, *arguments, **named)
        return caught.exception

    def test_wrong_words(self) -> None:
        for query, said in (
            ("time=5", "a URL of tabd doesn't know 'time'; it knows timeout, wait"),
            ("timeout=5&", "a URL of tabd doesn't know ''; it knows timeout, wait"),
            ("Timeout=5", "a URL of tabd doesn't know 'Timeout'; it knows timeout, wait"),
            ("wait=+5", "wait: one number of seconds is meant, as in ?wait=5"),
            *(
                (f"timeout={wrong}", "timeout: one number of seconds is meant, as in ?timeout=5")
                for wrong in ("", "x", "-1", "nan", "1e3", "5&timeout=5")
            ),
        ):
            self.assertEqual(str(self.raised(f"tabd://ann@h:1?{query}")), said)
        for query in ("timeout=0", "timeout=" + "9" * 400, "wait=1000000001"):
            self.assertRegex(str(self.raised(f"tabd://ann@h:1?{query}")), f"^{query.partition('=')[0]}: ")
        self.assertIsInstance(self.raised("tabd://ann@h:65536"), tabd.OutOfRange)

    def test_users(self) -> None:
        url = "tabd://ann@h:1"
        for user in ("ann", b"ann", None):
            self.assertEqual(read(url, user)[1], "ann")
        for user in ("bob", b"bob", "Ann"):
            self.assertEqual(str(self.raised(url, user)), f"user: the URL says 'ann', and the argument {os.fsdecode(user)!r}")
        for wrong in ("tabd://@h:1", "tabd://a%20b@h:1", "tabd://%ff@h:1", "tabd://%40@h:1"):
            self.assertRegex(str(self.raised(wrong)), "is no name")
        for missing in ("tabd://h:1", "tabd+unix:///run/tabd.sock", "/run/tabd.sock"):
            self.assertIsInstance(self.raised(missing), TypeError)

    def test_other_arguments_that_differ(self) -> None:
        url = "tabd://ann@h:1?timeout=5&wait=2"
        self.assertEqual(read(url, None, "h", 5, 2), read(url))
        for what, named in (("host", {"host": "g"}), ("timeout", {"timeout": 6}), ("timeout", {"timeout": None}), ("wait", {"wait": 3})):
            self.assertRegex(str(self.raised(url, **named)), f"^{what}: the URL says .*, and the argument ")
        self.assertEqual(read("tabd://ann@h:1", None, timeout=None, wait=3), (1, "ann", "h", None, 3))

    def test_seconds_that_are_no_number(self) -> None:
        for what in ("timeout", "wait"):
            for wrong in ("5", b"5", True, [5]):
                error = self.raised(1, "root", **{what: wrong})
                said = f"{what}: a number of seconds is meant, not {type(wrong).__name__}"
                self.assertEqual((type(error), str(error)), (TypeError, said))

    def test_what_is_no_wait(self) -> None:
        for wait in (-1, float("nan"), float("inf"), 1_000_000_001):
            self.assertRegex(str(self.raised("/none", "root", wait=wait)), "^wait: ")


class Servers(ServerCase):
    def test_a_client_of_a_url(self) -> None:
        with tabd.connect(f"tabd://root@127.0.0.1:{self.port}?timeout=600") as root:
            root.create_table("t")
        with tabd.connect(f"tabd://127.0.0.1:{self.port}", "root") as root:
            self.assertEqual(root.status("t").records, 0)


class Waits(unittest.TestCase):
    """Each pause between two tries is taken by the test, in place of time."""

    def setUp(self) -> None:
        folder = tempfile.TemporaryDirectory()
        self.addCleanup(folder.cleanup)
        self.path = f"{folder.name}/sock"
        self.pauses: List[float] = []

    def connect(self, place: Any, pauses: "Iterator[Callable[[], object]]", wait: float = 600) -> tabd.Client:
        def pause(seconds: float) -> None:
            self.pauses.append(seconds)
            next(pauses)()

        with mock.patch("tabd.client.sleep", pause):
            client = tabd.connect(place, "root", wait=wait)
        self.addCleanup(client.close)
        return client

    def listen(self, listener: socket.socket) -> None:
        def serve() -> None:
            with listener.accept()[0] as link:
                link.recv(100)
                link.sendall(OK)
                ended.wait()

        ended = threading.Event()
        listener.listen()
        serving = threading.Thread(target=serve)
        serving.start()
        self.addCleanup(serving.join)
        self.addCleanup(ended.set)

    def test_a_socket_file_that_comes_late(self) -> None:
        with socket.socket(socket.AF_UNIX) as listener:
            steps = iter([lambda: None, lambda: listener.bind(self.path), lambda: None, lambda: self.listen(listener)])
            self.assertFalse(self.connect(self.path, steps).closed)
        self.assertEqual(self.pauses, [0.01, 0.02, 0.04, 0.08])

    def test_a_port_that_comes_late(self) -> None:
        with socket.socket() as listener:
            listener.bind(("127.0.0.1", 0))
            self.connect(f"tabd://root@127.0.0.1:{listener.getsockname()[1]}", iter([lambda: None, lambda: self.listen(listener)]))
        self.assertEqual(len(self.pauses), 2)

    def test_seconds_that_are_over(self) -> None:
        now = [0.0]

        def pass_by() -> None:
            now[0] += self.pauses[-1]

        with mock.patch("tabd.places.monotonic", lambda: now[0]), self.assertRaises(FileNotFoundError) as caught:
            self.connect(self.path, iter([pass_by] * 100), wait=1)
        self.assertEqual(caught.exception.filename, self.path)
        self.assertEqual((round(now[0], 9), self.pauses[:6], max(self.pauses)), (1, [0.01, 0.02, 0.04, 0.08, 0.16, 0.25], 0.25))
        with socket.socket(socket.AF_UNIX) as dead:
            dead.bind(self.path)
        with mock.patch("tabd.places.monotonic", lambda: now[0]):
            self.assertRaises(ConnectionRefusedError, self.connect, self.path, iter([pass_by] * 100), 1)

    def test_the_last_try_is_behind_the_seconds(self) -> None:
        now = [0.0]

        def pass_by() -> None:
            now[0] = 5
            listener.bind(self.path)
            self.listen(listener)

        with socket.socket(socket.AF_UNIX) as listener, mock.patch("tabd.places.monotonic", lambda: now[0]):
            self.assertFalse(self.connect(self.path, iter([pass_by]), wait=3).closed)

    def test_nothing_is_waited_for_unless_told(self) -> None:
        self.assertEqual(list(pauses(0)), [])
        self.assertRaises(FileNotFoundError, self.connect, self.path, iter([]), 0)

    def test_other_errors_come_at_once(self) -> None:
        self.assertRaises(OSError, self.connect, "n" * 200, iter([]))
        Path(self.path).touch()
        self.assertRaises(NotADirectoryError, self.connect, self.path + "/none", iter([]))
        self.assertRaises(tabd.OutOfRange, self.connect, 65536, iter([]))
        self.assertEqual(self.pauses, [])

    def test_it_says_where_nobody_listens(self) -> None:
        with socket.socket() as listener, socket.socket(socket.AF_UNIX) as dead:
            listener.bind(("127.0.0.1", 0))
            dead.bind(self.path)
            port = listener.getsockname()[1]
            for place, said in ((port, f"127.0.0.1:{port}: nobody listens there"), (self.path, f"nobody listens there: {self.path!r}")):
                with self.assertRaises(ConnectionRefusedError) as caught:
                    tabd.connect(place, "root")
                self.assertEqual(str(caught.exception), f"[Errno {errno.ECONNREFUSED}] {said}")
                self.assertEqual(caught.exception.errno, errno.ECONNREFUSED)

    def test_other_errors_say_where(self) -> None:
        for raised, said in (
            (socket.timeout("timed out"), "h:1: no connection within 5 s"),
            (socket.gaierror(-2, "Name or service not known"), "[Errno -2] h:1: Name or service not known"),
            (OSError("odd"), "h:1: odd"),
        ):
            with mock.patch("socket.create_connection", side_effect=raised), self.assertRaises(type(raised)) as caught:
                tabd.connect(1, "root", "h", 5)
            self.assertEqual((str(caught.exception), caught.exception.errno), (said, raised.errno))
        with self.assertRaisesRegex(OSError, "^n{200}: "):
            tabd.connect("n" * 200, "root")
