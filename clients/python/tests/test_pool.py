"""Pools: who has a client, when there is none, and which are replaced."""
import inspect
import queue
import select
import threading
import time
from contextlib import ExitStack
from typing import Any, Callable, Set
from unittest import mock

from answering import OK, AnsweringCase, Link, agree, beside
from running import Case, tabd
from tabd import Put


class Lent(Case):
    def pool(self, **named: Any) -> tabd.Pool:
        pool = tabd.Pool(self.port, "root", **named)
        self.addCleanup(pool.close)
        return pool

    def test_one_thread_has_a_client_at_a_time(self) -> None:
        pool, lock, now, most, seen, rows = self.pool(size=3), threading.Lock(), [], [], set(), []

        def work(number: int) -> None:
            for turn in range(40):
                with pool.client() as client:
                    with lock:
                        self.assertNotIn(client, now)
                        now.append(client)
                        most.append(len(now))
                        seen.add(client)
                    client.write("t", f"{number} {turn}", [Put("f", "q", value="v")])
                    rows.append(f"{number} {turn}")
                    with lock:
                        now.remove(client)

        threads = [beside(lambda number=number: work(number)) for number in range(8)]
        for thread, result in threads:
            thread.join()
            self.assertEqual(result, [None])
        self.assertLessEqual(max(most + [len(seen)]), 3)
        self.assertEqual(sorted(rows), [cell.row.decode() for cell in self.root.scan("t")])

    def test_clients_are_made_as_they_are_needed(self) -> None:
        with mock.patch("tabd.pool.connect", mock.Mock(wraps=tabd.connect)) as connecting:
            pool = self.pool(size=2)
            self.assertEqual(connecting.call_count, 0)
            for _ in range(3):
                with pool.client() as client:
                    client.status("t")
            self.assertEqual(connecting.call_count, 1)
            with pool.client() as one, pool.client() as other:
                self.assertIn(client, (one, other))
                self.assertIsNot(one, other)
            self.assertEqual(connecting.call_count, 2)

    def test_a_refusal_leaves_a_client_as_it_is(self) -> None:
        pool = self.pool(size=1)
        with self.refused(tabd.NoTable, "none"), pool.client() as client:
            client.flush("none")
        with pool.client() as again:
            self.assertIs(again, client)
        self.assertEqual(repr(pool), "<Pool of 'root', size 1>")

    def test_a_url(self) -> None:
        with tabd.Pool(f"tabd://root@127.0.0.1:{self.port}", client_timeout=60) as pool, pool.client() as client:
            self.assertEqual(client.status("t").records, 0)
        self.assertTrue(client.closed)

    def test_arguments(self) -> None:
        for words, kind in (
            ({"size": 0}, ValueError), ({"size": 1.5}, TypeError), ({"timeout": -1}, ValueError), ({"client_timeout": 0}, ValueError),
            ({"wait": -1}, ValueError), ({"idle": -1}, ValueError), ({"idle": "5"}, TypeError), ({"timeout": "5"}, TypeError),
        ):
            self.assertRaises(kind, tabd.Pool, self.port, "root", **words)
        self.assertRaises(TypeError, tabd.Pool, self.port)
        self.assertRaises(ValueError, tabd.Pool, "tabd://ann@h:1", "bob")


class Waits(AnsweringCase):
    def pool(self, **named: Any) -> tabd.Pool:
        pool = tabd.Pool(self.port, "root", **named)
        self.addCleanup(pool.close)
        return pool

    def test_a_timeout(self) -> None:
        pool = self.pool(size=2, timeout=0.01)
        with ExitStack() as stack:
            clients = {stack.enter_context(pool.client()) for _ in range(2)}
            with self.assertRaises(tabd.PoolExhausted) as caught:
                stack.enter_context(pool.client())
        self.assertEqual(str(caught.exception), "all clients of the pool (2) stayed lent for 0.01 seconds")
        self.assertTrue(isinstance(caught.exception, TimeoutError) and isinstance(caught.exception, tabd.TabdError))
        with pool.client() as client:
            self.assertIn(client, clients)
        with self.pool(size=1, timeout=0).client():
            pass

    def test_one_that_comes_back_is_lent_to_who_waits(self) -> None:
        def take() -> tabd.Client:
            with pool.client() as client:
                return client

        pool, waits = self.pool(size=1, timeout=None), threading.Event()
        with mock.patch.object(pool, "_changed", Noting(waits, pool._lock)):
            with pool.client() as client:
                thread, result = beside(take)
                waits.wait()
            thread.join()
        self.assertEqual(result, [client])

    def test_a_close_ends_all(self) -> None:
        def asks() -> None:
            with pool.client() as client:
                lent.append(client)
                client.rotate()

        def takes() -> None:
            with pool.client():
                pass

        asked, lent = threading.Event(), []

        def silent(link: Link) -> None:
            for number, _ in enumerate(link.requests()):
                if number:
                    asked.set()
                else:
                    link.say(OK)

        self.serve = silent
        pool, waits = self.pool(size=2, timeout=None), threading.Event()
        with mock.patch.object(pool, "_changed", Noting(waits, pool._lock)):
            with pool.client() as idle:
                asking, asking_result = beside(asks)
                asked.wait()
                waiting, waiting_result = beside(takes)
                waits.wait()
                pool.close()
                asking.join()
                waiting.join()
        self.assertEqual([type(it) for it in asking_result + waiting_result], [tabd.ConnectionClosed, tabd.PoolClosed])
        self.assertTrue(pool.closed and idle.closed and lent[0].closed)
        with self.assertRaisesRegex(tabd.PoolClosed, "^the pool is closed$"):
            takes()
        self.assertEqual(repr(pool), "<Pool of 'root', size 2, closed>")
        pool.close()

    def test_a_close_while_a_client_is_made(self) -> None:
        made: "queue.Queue[tabd.Client]" = queue.Queue()

        def connecting(*words: Any, **named: Any) -> tabd.Client:
            pool.close()
            client = tabd.connect(*words, **named)
            made.put(client)
            return client

        with mock.patch("tabd.pool.connect", connecting):
            pool = self.pool()
            with self.assertRaises(tabd.PoolClosed), pool.client():
                pass
        client = made.get()
        until(lambda: client.closed)

    def test_who_waits_for_a_new_client_takes_one_that_comes_back(self) -> None:
        """The server has one worker, which the first client holds; what connects further isn't answered."""

        def take() -> tabd.Client:
            with pool.client() as client:
                return client

        def one_at_a_time(link: Link) -> None:
            with worker:
                agree(link)

        worker, self.serve = threading.Lock(), one_at_a_time
        pool = self.pool(size=3)
        with pool.client() as client:
            threads = [beside(take) for _ in range(2)]
            until(lambda: len(self.links) == 3)
            self.assertEqual([thread.is_alive() for thread, _ in threads], [True, True])
        for thread, result in threads:
            thread.join()
            self.assertEqual(result, [client])
        self.assertFalse(client.closed)

    def test_one_that_was_made_for_nobody_is_lent_later(self) -> None:
        def hold(link: Link) -> None:
            for _ in link.requests():
                if len(self.links) > 1:
                    let.wait()
                link.say(OK)

        let, self.serve = threading.Event(), hold
        self.addCleanup(let.set)
        pool = self.pool(size=2)
        with ExitStack() as stack:
            with pool.client() as client:
                waiting, result = beside(lambda: stack.enter_context(pool.client()))
                until(lambda: len(self.links) == 2)
            waiting.join()
            self.assertEqual(result, [client])
            let.set()
            until(lambda: len(pool._free) == 1)
            with pool.client() as other:
                self.assertIsNot(other, client)
        self.assertEqual(len(self.links), 2)

    def test_one_that_nobody_has_is_closed(self) -> None:
        pool = self.pool(size=2, idle=0.05)
        for _ in range(2):
            with pool.client() as one, pool.client() as other:
                pass
            until(lambda: one.closed and other.closed)
        self.assertEqual((len(self.links), pool._free), (4, []))
        until(lambda: not pool._is_closing_idle)
        with self.pool(idle=None) as pool:
            with pool.client() as client:
                pass
            self.assertFalse(client.closed or pool._is_closing_idle)

    def test_one_that_somebody_has_stays(self) -> None:
        with self.pool(idle=0.01).client() as client:
            threading.Event().wait(0.1)
            client.rotate()

    def test_a_close_ends_who_closes_idle_clients(self) -> None:
        pool = self.pool(idle=1000)
        with pool.client():
            pass
        self.assertTrue(pool._is_closing_idle)
        pool.close()
        until(lambda: not pool._is_closing_idle)

    def test_unless_told_otherwise(self) -> None:
        named = {name: it.default for name, it in inspect.signature(tabd.Pool).parameters.items()}
        self.assertEqual((named["size"], named["idle"], named["timeout"]), (4, 10, 60))


def until(happens: "Callable[[], object]") -> None:
    """Waits until it does."""
    end = time.monotonic() + 20
    while not happens():
        assert time.monotonic() < end, "it doesn't happen"
        time.sleep(0.001)


class Noting(threading.Condition):
    """Tells that a thread waits."""

    def __init__(self, waits: threading.Event, lock: Any) -> None:
        super().__init__(lock)
        self._waits = waits

    def wait(self, timeout: Any = None) -> bool:
        self._waits.set()
        return super().wait(timeout)


class Replaced(AnsweringCase):
    def setUp(self) -> None:
        super().setUp()
        self.pool = tabd.Pool(self.port, "root", size=1, timeout=0)
        self.addCleanup(self.pool.close)
        self.seen: Set[tabd.Client] = set()

    def take(self) -> tabd.Client:
        """A client that wasn't lent before."""
        with self.pool.client() as client:
            self.assertNotIn(client, self.seen)
            self.seen.add(client)
            client.rotate()
        return client

    def test_one_that_was_closed(self) -> None:
        self.take().close()
        self.take()
        with self.pool.client() as client:
            client.close()
        self.take()

    def test_one_that_broke(self) -> None:
        def breaks(link: Link) -> None:
            for number, _ in enumerate(link.requests()):
                if number == 2:
                    break
                link.say(OK)

        self.serve = breaks
        for _ in range(3):
            self.take()
            with self.assertRaises(tabd.ConnectionClosed), self.pool.client() as client:
                self.seen.add(client)
                client.rotate()

    def test_one_that_the_server_ended_while_nobody_had_it(self) -> None:
        for turn in range(3):
            client = self.take()
            self.links[turn].end()
            # the end is there
            select.select([client._connection._reader], [], [])
        self.assertTrue(all(client.closed for client in self.seen - {client}))

    def test_one_that_could_not_be_made(self) -> None:
        self.stop()
        for _ in range(3):
            self.assertRaises(ConnectionRefusedError, self.take)
