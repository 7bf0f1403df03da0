"""Batch writers: what is sent when, who waits, and what is told of it."""
import copy
import os
import pickle
import select
import subprocess
import sys
import threading
from typing import Any, Callable, List
from unittest import mock

from answering import OK, AnsweringCase, Link, beside
from running import CLIENT, Case, tabd
from tabd import Put, Write

NEVER = 1_000_000
"""Seconds of a latency that no test waits for."""


def put(value: Any = "v", label: str = "") -> Put:
    return Put("f", "q", label, value, 5)


class Writes(Case):
    def writer(self, **named: Any) -> tabd.BatchWriter:
        return tabd.BatchWriter(self.port, "root", **{"latency": NEVER, **named})

    def rows(self) -> List[bytes]:
        return [found.row for found in self.root.scan("t")]

    def test_writes_of_many_threads(self) -> None:
        def work(number: int) -> None:
            for at in range(500):
                writer.write("t", f"{number} {at:03}", [put()])
                if at % 100 == 99:
                    writer.flush()

        with self.writer(max_bytes=2000) as writer:
            for thread, result in [beside(lambda number=number: work(number)) for number in range(4)]:
                thread.join()
                self.assertEqual(result, [None])
        self.assertEqual(self.rows(), [b"%d %03d" % (number, at) for number in range(4) for at in range(500)])

    def test_the_later_of_two_writes_is_the_newer(self) -> None:
        with self.writer() as writer:
            for at in range(1000):
                writer.write("t", "r", [put(str(at))])
        self.assertEqual(self.root.get("t", "r", "f", "q"), b"999")

    def test_a_flush_and_a_latency(self) -> None:
        with self.writer() as writer:
            writer.write("t", "a", [put()])
            self.assertEqual(self.rows(), [])
            writer.flush()
            self.assertEqual(self.rows(), [b"a"])
            writer.flush()
        with self.writer(latency=0) as writer:
            writer.write("t", "b", [put()])
            while self.rows() != [b"a", b"b"]:
                pass

    def test_refusals_are_told_by_a_flush(self) -> None:
        with self.writer() as writer:
            writer.write("t", "a", [put()])
            writer.write("none", "b", iter([put("x"), put("y")]))
            writer.write("t", "c", [put(label="a&")])
            writer.write("t", "d", [put()])
            with self.assertRaises(tabd.WritesFailed) as caught:
                writer.flush()
            writer.flush()
            writer.write("t", "e", [put()])
        error = caught.exception
        wanted = [Write("none", "b", (put("x"), put("y"))), Write("t", "c", (put(label="a&"),))]
        self.assertEqual([write for write, _ in error.refused], wanted)
        self.assertEqual([type(refusal) for _, refusal in error.refused], [tabd.NoTable, tabd.MalformedVisibility])
        self.assertEqual((error.unknown, error.__cause__), ((), None))
        self.assertEqual(str(error), "2 refused (the first: row 'b' of table 'none': NoTable: there is no table 'none')")
        self.assertEqual(self.rows(), [b"a", b"d", b"e"])
        for other in (copy.copy(error), pickle.loads(pickle.dumps(error))):
            self.assertEqual((str(other), len(other.refused)), (str(error), 2))

    def test_refusals_are_told_by_a_close(self) -> None:
        with self.assertRaises(tabd.WritesFailed), self.writer() as writer:
            writer.write("none", "a", [put()])
        writer.close()
        writer.flush()
        with self.assertRaises(ZeroDivisionError), self.writer() as writer:
            writer.write("none", "a", [put()])
            writer.write("t", "b", [put()])
            print(1 / 0)
        self.assertEqual(self.rows(), [b"b"])
        self.assertRaises(tabd.WritesFailed, writer.flush)

    def test_who_is_told_of_refusals(self) -> None:
        def hear(write: Write, refusal: tabd.Refused) -> None:
            heard.append((write.row, type(refusal)))
            if write.row == "b":
                raise KeyError("b")
            if write.row == "c":
                writer.write("t", "c again", [put(bytes(2000))])
            for wait in (writer.flush, writer.close):
                self.assertRaises(ValueError, wait)

        heard: List[Any] = []
        with self.writer(on_refused=hear, max_bytes=1000) as writer:
            for row in "abc":
                writer.write("none", row, [put(bytes(300))])
            with self.assertRaises(tabd.WritesFailed) as caught:
                writer.flush()
        self.assertEqual(heard, [(row, tabd.NoTable) for row in "abc"])
        (write, refusal), = caught.exception.refused
        self.assertEqual((write.row, type(refusal.__cause__)), ("b", KeyError))
        self.assertEqual(self.rows(), [b"c again"])

    def test_a_writer_that_was_closed(self) -> None:
        writer = self.writer()
        self.assertEqual(repr(writer), "<BatchWriter of 'root'>")
        writer.close()
        self.assertEqual(repr(writer), "<BatchWriter of 'root', closed>")
        with self.assertRaisesRegex(tabd.ConnectionClosed, "^the batch writer is closed$"):
            writer.write("t", "r", [put()])
        self.assertFalse(writer._thread.is_alive())
        self.assertTrue(writer._client.closed)

    def test_arguments(self) -> None:
        with self.writer() as writer:
            for wrong, kind in (
                (("t", "r", put()), TypeError), (("t", "r", [5]), TypeError), (("a b", "r", [put()]), ValueError),
                (("t", None, [put()]), TypeError), (("t", "r", [put(bytes(1 << 20))] * 8), ValueError),
            ):
                self.assertRaises(kind, writer.write, *wrong)
            self.assertEqual(writer._given, 0)
        for words in ({"max_bytes": 0}, {"latency": -1}, {"latency": float("nan")}, {"timeout": 0}):
            self.assertRaises(ValueError, self.writer, **words)
        self.assertRaises(TypeError, self.writer, latency="1")
        with tabd.BatchWriter(f"tabd://root@127.0.0.1:{self.port}") as writer:
            writer.write("t", "r", [put()])
        self.assertEqual(self.rows(), [b"r"])

    def test_a_write_larger_than_the_bound(self) -> None:
        with self.writer(max_bytes=1) as writer:
            for row in "abc":
                writer.write("t", row, [put(bytes(1 << 20))])
        self.assertEqual(self.rows(), [b"a", b"b", b"c"])


class Answers(AnsweringCase):
    """A server that answers Hello, and each further request once the test lets it."""

    said = OK

    def setUp(self) -> None:
        self.let, self.came = threading.Semaphore(0), threading.Semaphore(0)
        self.requests: List[bytes] = []
        self.serve = self.hold
        super().setUp()

    def hold(self, link: Link) -> None:
        for number, request in enumerate(link.requests()):
            if number:
                self.requests.append(request)
                self.came.release()
                self.let.acquire()
            link.say(self.said if number else OK)

    def writer(self, **named: Any) -> tabd.BatchWriter:
        return tabd.BatchWriter(self.port, "root", **{"latency": NEVER, **named})

    def test_nothing_is_said_to_be_done_before_it_is_answered(self) -> None:
        writer = self.writer()
        for row in "ab":
            writer.write("t", row, [put()])
        for ends in (writer.flush, writer.close):
            waiting, result = beside(ends)
            self.came.acquire()
            self.let.release()
            # the answer to the second is missing
            self.came.acquire()
            self.assertEqual((waiting.is_alive(), result), (True, []))
            self.let.release()
            waiting.join()
            self.assertEqual(result, [None])
            if ends == writer.flush:
                for row in "cd":
                    writer.write("t", row, [put()])

    def test_a_latency(self) -> None:
        writer = self.writer(latency=0.001)
        writer.write("t", "r", [put()])
        self.came.acquire()
        self.let.release()
        writer.close()
        self.assertEqual(len(self.requests), 1)

    def test_the_moment_when_a_write_is_due(self) -> None:
        now, waits = [100.0], []

        class Timed(threading.Condition):
            """Notes for how long the writer's thread waits, and lets time go by so long."""

            def wait(self, timeout: Any = None) -> bool:
                if timeout is None:
                    return super().wait()
                waits.append(timeout)
                if len(waits) == 1:
                    now[0] += timeout / 2
                    return True
                now[0] += timeout
                return False

        with mock.patch("tabd.batch_writer.Condition", Timed), mock.patch("tabd.batch_writer.monotonic", lambda: now[0]):
            writer = self.writer(latency=8)
            writer.write("t", "r", [put()])
            self.came.acquire()
            self.let.release()
            writer.close()
        self.assertEqual(waits, [8, 4])

    def test_a_writer_that_would_pass_the_bound_waits(self) -> None:
        writer, waits = self.writer(max_bytes=1000), threading.Event()
        writer.write("t", "a", [put(bytes(600))])
        with mock.patch.object(writer, "_has_room", side_effect=self.noting(writer._has_room, waits)):
            waiting, result = beside(lambda: writer.write("t", "b", [put(bytes(600))]))
            waits.wait()
            # what it waits for is sent at once
            self.came.acquire()
            self.assertEqual((waiting.is_alive(), len(self.requests), writer._given), (True, 1, 1))
            self.let.release()
            waiting.join()
        self.assertEqual((result, writer._given), ([None], 2))
        self.let.release()
        writer.close()

    @staticmethod
    def noting(ask: Callable[..., bool], refused: threading.Event) -> Callable[..., bool]:
        def has_room(size: int) -> bool:
            room = ask(size)
            if not room:
                refused.set()
            return room

        return has_room

    def test_a_close_ends_who_waits_for_room(self) -> None:
        writer, waits = self.writer(max_bytes=1000), threading.Event()
        writer.write("t", "a", [put(bytes(600))])
        with mock.patch.object(writer, "_has_room", side_effect=self.noting(writer._has_room, waits)):
            waiting, result = beside(lambda: writer.write("t", "b", [put(bytes(600))]))
            waits.wait()
            closing, closed = beside(writer.close)
            waiting.join()
            self.let.release()
            closing.join()
        self.assertEqual(([type(it) for it in result], closed, len(self.requests)), ([tabd.ConnectionClosed], [None], 1))

    def test_several_flushes_are_told_the_same(self) -> None:
        self.said, writer = b"\x81\x11", self.writer()
        writer.write("t", "a", [put()])
        threads = [beside(writer.flush) for _ in range(2)]
        with writer._changed:
            writer._changed.wait_for(lambda: writer._flushing == 2)
        self.let.release()
        for thread, _ in threads:
            thread.join()
        self.assertEqual([len(result[0].refused) for _, result in threads], [1, 1])
        writer.close()


class Breaks(AnsweringCase):
    def writer(self, answers: int, **named: Any) -> tabd.BatchWriter:
        """A writer whose server answers so many requests of each connection, Hello among them, and ends it at the next one."""

        def serve(link: Link) -> None:
            for number, _ in enumerate(link.requests()):
                if number == answers:
                    break
                link.say(b"\x81\x11" if number == 2 else OK)

        self.serve = serve
        return tabd.BatchWriter(self.port, "root", **{"latency": NEVER, **named})

    def test_what_has_no_answer_is_unknown(self) -> None:
        writer = self.writer(4)
        for row in "abcdef":
            writer.write("t", row, [put()])
        with self.assertRaises(tabd.WritesFailed) as caught:
            writer.flush()
        error = caught.exception
        self.assertEqual([(write.row, type(refusal)) for write, refusal in error.refused], [("b", tabd.NoMemory)])
        self.assertEqual(error.unknown, tuple(Write("t", row, (put(),)) for row in "def"))
        self.assertIsInstance(error.__cause__, tabd.ConnectionClosed)
        self.assertRegex(str(error), r"^1 refused \(the first: row 'b' of table 't': NoMemory: .*\), 3 without an answer$")
        with self.assertRaisesRegex(tabd.ConnectionClosed, "^the batch writer's connection broke$"):
            writer.write("t", "g", [put()])
        writer.flush()
        writer.close()
        self.assertFalse(writer._thread.is_alive())

    def test_who_waits_for_room_is_told(self) -> None:
        writer = self.writer(1, max_bytes=100)
        writer.write("t", "a", [put()])
        with self.assertRaises(tabd.ConnectionClosed):
            while True:
                writer.write("t", "b", [put(bytes(90))])
        with self.assertRaises(tabd.WritesFailed) as caught:
            writer.close()
        self.assertEqual([write.row for write in caught.exception.unknown], ["a"])

    def test_an_end_while_nothing_is_asked(self) -> None:
        writer = self.writer(9)
        for row in "abc":
            writer.write("t", row, [put()])
            writer.flush()
            self.links[-1].end()
            # the end is there
            select.select([writer._client._connection._reader], [], [])
        writer.close()
        self.assertEqual(len(self.links), 3)

    def test_a_server_that_is_gone(self) -> None:
        writer = self.writer(9)
        self.stop()
        writer.write("t", "a", [put()])
        with self.assertRaises(tabd.WritesFailed) as caught:
            writer.close()
        self.assertEqual((len(caught.exception.unknown), type(caught.exception.__cause__)), (1, ConnectionRefusedError))

    def test_the_end_of_a_with_says_what_is_unknown(self) -> None:
        with self.assertRaises(tabd.WritesFailed) as caught, self.writer(1, latency=0) as writer:
            writer.write("t", "a", [put()])
            while True:
                writer.write("t", "b", [put()])
        self.assertEqual({write.row for write in caught.exception.unknown} - {"b"}, {"a"})
        self.assertIsInstance(caught.exception.__context__, tabd.ConnectionClosed)
        self.assertIs(caught.exception.__cause__, writer._broken)
        with self.assertRaises(ZeroDivisionError), self.writer(1, latency=0) as writer:
            writer.write("t", "a", [put()])
            writer._thread.join()
            print(1 / 0)
        self.assertRaises(tabd.WritesFailed, writer.flush)


class AtTheEnd(Case):
    def test_what_waits_is_lost_with_a_warning(self) -> None:
        """One that has nothing to lose says nothing."""
        writes = "writer.write('t', 'r', [tabd.Put('f', 'q', value='v')])"
        lost = r"ResourceWarning: <BatchWriter of 'root'> wasn't closed: 1 without an answer\n"
        for then, said in ((writes, lost), (f"{writes}; writer.flush()", ""), (f"{writes}; writer.close()", "")):
            program = f"import tabd; writer = tabd.BatchWriter({self.port}, 'root', latency={NEVER}); {then}"
            words = [sys.executable, "-B", "-W", "always::ResourceWarning", "-c", program]
            done = subprocess.run(words, capture_output=True, text=True, timeout=60, env={**os.environ, "PYTHONPATH": str(CLIENT)})
            self.assertEqual(done.returncode, 0)
            self.assertRegex(done.stderr, f"{said}" if said else "^$")
