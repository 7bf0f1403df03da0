"""A client that several threads use at once."""
import socket
import struct
import threading
import unittest
from contextlib import suppress
from typing import Callable, List

from running import Case, tabd
from tabd import Put

THREADS = 4


def failure(work: Callable[[], object]) -> "List[BaseException]":
    """What it raises."""
    try:
        work()
    except BaseException as error:
        return [error]
    return []


def at_once(work: Callable[[int], None]) -> "List[BaseException]":
    """Has several threads do this, with their numbers, and gives what they raised."""
    raised: List[BaseException] = []
    begin = threading.Barrier(THREADS)

    def one(number: int) -> None:
        begin.wait()
        try:
            work(number)
        except BaseException as error:
            raised.append(error)

    threads = [threading.Thread(target=one, args=[number]) for number in range(THREADS)]
    for thread in threads:
        thread.start()
    for thread in threads:
        thread.join()
    return raised


class Threads(Case):
    def test_each_request_is_done_or_says_that_another_is_under_way(self) -> None:
        done: List[str] = []

        def asks(number: int) -> None:
            for turn in range(100):
                row = f"{number} {turn}"
                try:
                    if number % 2:
                        self.root.write("t", row, [Put("f", "q", value=row, timestamp=5)])
                        done.append(row)
                    else:
                        self.assertEqual((self.root.status("t").tablets, self.root.rights("t").authorizations), (1, ()))
                except tabd.InUse as error:
                    self.assertEqual(str(error), "another request of this client is under way: one thread uses a client at a time")

        self.assertEqual(at_once(asks), [])
        self.assertFalse(self.root.closed)
        self.assertEqual(sorted(done), [cell.row.decode() for cell in self.root.scan("t")])

    def test_a_pipeline_is_of_the_thread_that_opens_it(self) -> None:
        def asks(number: int) -> None:
            for turn in range(100):
                for ask in (
                    lambda: self.root.write("t", f"{number} {turn}", [Put("f", "q", value="v")]), lambda: self.root.status("t"),
                    lambda: self.root.pipeline().__enter__(),
                ):
                    with self.assertRaisesRegex(tabd.InUse, "^another thread has a pipeline of this client: "):
                        ask()

        with self.root.pipeline() as refused:
            self.root.write("t", "a", [Put("f", "q", value="v")])
            self.assertEqual(at_once(asks), [])
            self.root.write("t", "b", [Put("f", "q", "a&", "v")])
            self.assertEqual((self.root.status("t").records, list(refused)), (1, [1]))
            refused.clear()
        self.assertEqual([cell.row for cell in self.root.scan("t")], [b"a"])

    def test_a_thread_may_ask_once_the_pipeline_of_another_has_ended(self) -> None:
        for error in (None, ZeroDivisionError):
            with suppress(ZeroDivisionError), self.root.pipeline():
                if error:
                    raise error
            raised: List[BaseException] = []
            thread = threading.Thread(target=lambda: raised.extend(failure(self.root.rotate)))
            thread.start()
            thread.join()
            self.assertEqual(raised, [])

    def test_a_session_gives_each_cell_once(self) -> None:
        with self.root.pipeline():
            for row in range(400):
                self.root.write("t", f"{row:04}", [Put("f", "q", value="v", timestamp=5)])
        given: List[bytes] = []
        session = self.root.scan("t", batch=7)

        def reads(number: int) -> None:
            more = True
            while more:
                try:
                    if number % 2:
                        cells, more = session.fetch(5)
                        given.extend(cell.row for cell in cells)
                    else:
                        cell = next(iter(session), None)
                        more = cell is not None
                        given.extend([cell.row] if cell else [])
                except (tabd.InUse, tabd.NoSession) as error:
                    more = isinstance(error, tabd.InUse)

        self.assertEqual(at_once(reads), [])
        self.assertLessEqual(len(given), len(set(given)))
        self.assertFalse(self.root.closed)
        self.root.status("t")


class Waiting(unittest.TestCase):
    """A server that answers Hello, and then nothing."""

    def setUp(self) -> None:
        listener = socket.create_server(("127.0.0.1", 0))
        self.addCleanup(listener.close)
        told = threading.Thread(target=self.serve, args=[listener])
        told.start()
        self.client = tabd.connect(listener.getsockname()[1], "root")
        told.join()
        self.addCleanup(self.link.close)
        self.raised: List[BaseException] = []
        self.waiting = threading.Thread(target=self.wait)
        self.waiting.start()
        # the request is there, so its answer is waited for
        self.link.recv(1)

    def serve(self, listener: socket.socket) -> None:
        self.link = listener.accept()[0]
        self.link.recv(100)
        self.link.sendall(struct.pack(">IB", 1, 0x80))

    def wait(self) -> None:
        try:
            self.client.status("t")
        except BaseException as error:
            self.raised.append(error)

    def test_another_request_is_told_so(self) -> None:
        for ask in (self.client.rotate, lambda: self.client.scan("t")):
            self.assertRaises(tabd.InUse, ask)
        self.assertFalse(self.client.closed)
        self.client.close()
        self.waiting.join(20)

    def test_a_close_ends_the_wait(self) -> None:
        self.client.close()
        self.waiting.join(20)
        self.assertFalse(self.waiting.is_alive())
        self.assertEqual([(type(error), str(error)) for error in self.raised], [(tabd.ConnectionClosed, "the client was closed meanwhile")])
        with self.assertRaisesRegex(tabd.ConnectionClosed, "^the client is closed$"):
            self.client.rotate()
        # both streams are closed: the server hears the end
        self.link.settimeout(20)
        while self.link.recv(100):
            pass
