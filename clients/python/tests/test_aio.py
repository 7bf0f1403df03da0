"""The client for asyncio."""
import asyncio
import gc
import inspect
import sys
import tempfile
import threading
import types
from pathlib import Path
from typing import Any, Awaitable, Callable, List
from unittest import mock

from answering import OK, AnsweringCase, Link
from running import PROGRAM, Case, cell, tabd
import tabd.aio  # noqa: E402
from tabd import Delete, Put, Range, TextCell

Work = Callable[[tabd.aio.Client], Awaitable[Any]]


def put(value: Any = "v", label: str = "") -> Put:
    return Put("f", "q", label, value, 5)


class Requests(Case):
    def run_as(self, user: str, work: Work) -> Any:
        async def run() -> Any:
            async with tabd.aio.connect(self.port, user) as client:
                return await work(client)

        return asyncio.run(run())

    def test_all_that_can_be_asked(self) -> None:
        async def asks(root: tabd.aio.Client) -> None:
            await root.create_table("u", versions=2, server_time=True)
            await root.set_versions("u", 1)
            await root.drop_table("u")
            await root.set_constraints("t", ["numeric"])
            await root.set_constraints("t", [])
            await root.set_horizon("t", 1)
            await root.create_user("kim")
            await root.create_user("ann")
            await root.drop_user("ann")
            await root.set_authorizations("kim", ["care"])
            await root.grant("kim", "READ", "t")
            await root.grant("kim", "CREATE_TABLE")
            await root.revoke("kim", "CREATE_TABLE")
            await root.write("t", b"a", [put("1"), Put("f", "r", "care", "2", 7), Delete("g", "q")])
            await root.flush("t")
            await root.add_split("t", "m")
            await root.compact("t")
            await root.compact("t", full=True)
            self.assertEqual((await root.splits("t"), (await root.status("t")).tablets), ([b"m"], 2))
            await root.rotate()

        async def reads(kim: tabd.aio.Client) -> None:
            self.assertEqual(await kim.rights("t"), tabd.Rights((), ("READ",), (b"care",)))
            self.assertEqual([found.value async for found in kim.scan("t", ["care"])], [b"1", b"2"])
            self.assertEqual((await kim.get("t", "a", "f", "r", ["care"]), await kim.get("t", "a", "f", "r")), (b"2", None))
            with self.refused(tabd.PermissionDenied, tabd.Permission("WRITE", "t")):
                await kim.write("t", "b", [put()])
            with self.refused(tabd.BadAuthorizations, b"x"):
                await kim.scan("t", ["x"])
            self.assertRaises(TypeError, kim.scan, "t", "care")
            self.assertEqual((repr(kim), kim.closed), (f"<Client of 'kim' at 127.0.0.1:{self.port}>", False))
            scan = kim.scan("t")
            self.assertEqual(repr(scan), "<tabd.aio.Scan of table 't'>")
            self.assertRegex(repr(await scan), "^<Session [0-9]+ of table 't'>$")

        self.run_as("root", asks)
        self.run_as("kim", reads)

    def test_it_has_all_that_the_other_client_has(self) -> None:
        for here, there in ((tabd.aio.Client, tabd.Client), (tabd.aio.Session, tabd.Session), (tabd.aio.TextSession, tabd.TextSession)):
            for name, method in inspect.getmembers(there, callable):
                if name.startswith("_"):
                    continue
                words = [inspect.signature(getattr(kind, name)).parameters for kind in (here, there)]
                self.assertEqual(list(words[0].values()), list(words[1].values()), name)
                self.assertTrue(getattr(here, name).__doc__, name)
        words = [inspect.signature(connect).parameters for connect in (tabd.aio.connect, tabd.connect)]
        self.assertEqual(list(words[0].values()), list(words[1].values()))

    def test_scans(self) -> None:
        rows = [b"%03d" % at for at in range(100)]

        async def asks(root: tabd.aio.Client) -> None:
            async with root.pipeline() as refused:
                for row in rows:
                    await root.write("t", row, [put()])
            self.assertEqual(refused, {})
            for batch in (1, 7, 100, 1000):
                self.assertEqual([found.row async for found in root.scan("t", batch=batch)], rows)
            self.assertEqual([found async for found in root.scan("t", limit=1, text=True)], [TextCell("000", "f", "q", "", 5, "v")])
            self.assertEqual([found async for found in root.scan("t", rows=Range.row("005"), newest=True)], [cell(b"005", b"v")])
            async with root.scan("t", batch=2) as session:
                async for found in session:
                    break
                cells, more = await session.fetch(2)
                self.assertEqual(([found.row, *[it.row for it in cells]], more), (rows[:3], True))
                self.assertEqual([len(cells) for cells in await session.ranges([Range("09"), Range.prefix("00")])], [10, 10])
                self.assertEqual([found.row async for found in session], rows[3:])
            self.assertTrue(session.closed)
            session = await root.scan("t", limit=3)
            self.assertEqual((await session.fetch(0), len((await session.fetch(9))[0]), session.closed), (([], True), 3, True))
            with self.refused(tabd.NoSession, session.number):
                await session.ranges([])
            await session.close()

        self.run_as("root", asks)

    def test_a_session_that_was_closed_is_not_empty(self) -> None:
        async def asks(root: tabd.aio.Client) -> None:
            async with root.scan("t") as session:
                cells = session.__aiter__()
                self.assertEqual((await cells.__anext__()).row, b"a")
            again = session.__aiter__()
            for ask in (cells.__anext__, again.__anext__, lambda: session.fetch(1), lambda: session.ranges([])):
                with self.refused(tabd.NoSession, session.number):
                    await ask()
            async with root.scan("t", batch=2) as session:
                self.assertEqual([found.row async for found in session], [b"a", b"b"])
                self.assertEqual([found.row async for found in session], [])
            self.assertEqual([found.row async for found in session], [])

        for row in "ab":
            self.root.write("t", row, [put()])
        self.run_as("root", asks)

    def test_an_awaited_client_closes_at_the_end_of_its_with(self) -> None:
        async def asks() -> None:
            async with await tabd.aio.connect(self.port, "root") as root:
                await root.rights("t")
            self.assertTrue(root.closed)

        asyncio.run(asks())

    def test_its_public_names(self) -> None:
        names = {name for name in vars(tabd.aio) if name in tabd.aio.__all__}
        self.assertEqual(names, set(tabd.aio.__all__))
        self.assertLessEqual({"Client", "Scan", "Session", "TextSession", "connect"}, names)

    def test_sessions_that_are_given_up(self) -> None:
        async def asks(root: tabd.aio.Client) -> None:
            async for _ in root.scan("t", batch=1):
                break
            gc.collect()
            await asyncio.sleep(0)
            session = await root.scan("t")
            del session
            with self.refused(tabd.NoSession, 1):
                await tabd.aio.Session(root._connection, 1, 1, None, False).fetch(1)

        for row in "ab":
            self.root.write("t", row, [put()])
        self.run_as("root", asks)

    def test_what_is_no_text(self) -> None:
        async def asks(root: tabd.aio.Client) -> None:
            async with root.scan("t", text=True) as session:
                for again in (lambda: session.fetch(1), lambda: session.ranges([Range()])):
                    with self.assertRaises(tabd.NotText):
                        await again()
                with self.assertRaises(tabd.NotText):
                    async for _ in session:
                        pass
                with self.assertRaises(tabd.NotText):
                    await session.fetch(1)

        self.root.write("t", "a", [put(b"\xff")])
        self.run_as("root", asks)

    def test_a_data_frame(self) -> None:
        class DataFrame:
            def __init__(self, columns: dict) -> None:
                self.columns = columns

            def astype(self, kinds: dict) -> dict:
                return self.columns

        async def asks(root: tabd.aio.Client) -> Any:
            return await root.scan("t", to="pandas", text=True)

        self.root.write("t", "a", [put()])
        with mock.patch.dict(sys.modules, pandas=types.SimpleNamespace(DataFrame=DataFrame)):
            self.assertEqual(self.run_as("root", asks)["value"], ["v"])

    def test_pipelines(self) -> None:
        async def asks(root: tabd.aio.Client) -> None:
            with self.refused(tabd.MalformedVisibility, 0, 2):
                async with root.pipeline() as refused:
                    for at in range(1000):
                        await root.write("t", f"{at:03}", [put(label="a&" if at % 400 == 399 else "")])
                        if at == 500:
                            self.assertEqual((await root.status("t")).records, 500)
            self.assertEqual(list(refused), [399, 799])
            with self.assertRaises(ZeroDivisionError):
                async with root.pipeline():
                    await root.write("t", "x", [put()])
                    with self.assertRaises(ValueError):
                        async with root.pipeline():
                            pass
                    print(1 / 0)
            self.assertEqual((await root.status("t")).records, 999)

        self.run_as("root", asks)

    def test_a_pipeline_takes_the_writes_of_its_own_task(self) -> None:
        """What another task is told is of its own writes, once they are answered."""

        async def asks(root: tabd.aio.Client) -> None:
            async def others(label: str) -> None:
                session = await root.scan("t", columns=["g"])
                await root.write("t", f"other {label}", [Put("g", "q", value="v", label=label)])
                self.assertEqual((await session.fetch(1))[0], [])
                self.assertIsNotNone(await root.get("t", f"other {label}", "g", "q"))

            async with root.pipeline() as refused:
                await root.write("t", "a", [put()])
                await root.write("t", "b", [put(label="a&")])
                await asyncio.ensure_future(others(""))
                # what its own task wrote waits yet
                self.assertEqual(([found.row for found in self.root.scan("t", columns=["f"])], refused), ([], {}))
                with self.refused(tabd.MalformedVisibility, 0, 2):
                    await asyncio.ensure_future(others("x&"))
                self.assertEqual((await root.status("t")).records, 2)
                self.assertEqual(list(refused), [1])
                refused.clear()
                await root.write("t", "c", [put()])
            self.assertEqual([found.row async for found in root.scan("t", columns=["f"])], [b"a", b"c"])

        self.run_as("root", asks)

    def test_each_task_may_have_a_pipeline(self) -> None:
        async def asks(root: tabd.aio.Client) -> None:
            async def work(number: int) -> "list[int]":
                try:
                    async with root.pipeline() as refused:
                        for at in range(250):
                            await root.write("t", f"{number} {at:03}", [put(label="a&" if at == number else "")])
                            if at % 50 == 0:
                                await asyncio.sleep(0)
                except tabd.MalformedVisibility:
                    pass
                return list(refused)

            self.assertEqual(await asyncio.gather(*map(work, range(4))), [[0], [1], [2], [3]])
            self.assertEqual((await root.status("t")).records, 4 * 249)
            self.assertEqual(root._connection.pipelines, {})

        self.run_as("root", asks)

    def test_large_values(self) -> None:
        async def asks(root: tabd.aio.Client) -> None:
            async with root.pipeline():
                for at in range(12):
                    await root.write("t", str(at % 3), [Put("f", "q", value=bytes([at]) * (1 << 20), timestamp=at)])
            self.assertEqual([found.value[:1] async for found in root.scan("t")], [b"\x09", b"\x0a", b"\x0b"])

        self.run_as("root", asks)

    def test_tasks_share_a_client(self) -> None:
        async def asks(root: tabd.aio.Client) -> None:
            async def work(number: int) -> None:
                for turn in range(20):
                    await root.write("t", f"{number} {turn:02}", [put()])
                    self.assertEqual(await root.get("t", f"{number} {turn:02}", "f", "q"), b"v")

            await asyncio.gather(*map(work, range(10)))
            self.assertEqual(len([found async for found in root.scan("t")]), 200)

        self.run_as("root", asks)

    def test_a_socket_file_and_a_url(self) -> None:
        async def asks(place: Any, *user: str) -> None:
            client = await tabd.aio.connect(place, *user)
            try:
                await client.rights("t")
            finally:
                await client.close()
            self.assertTrue(client.closed)
            with self.assertRaisesRegex(tabd.ConnectionClosed, "^the client is closed$"):
                await client.rights("t")

        asyncio.run(asks(f"tabd://root@127.0.0.1:{self.port}"))
        with tempfile.TemporaryDirectory() as folder:
            words = [PROGRAM, "serve", "--socket", f"{folder}/sock"]
            server = self.started(words)
            self.assertTrue(server.stdout and server.stdout.readline().startswith(b"listening"))
            for place in (f"{folder}/sock", Path(folder, "sock"), f"tabd+unix://root@{folder}/sock"):
                with self.assertRaises(tabd.NoTable):
                    asyncio.run(asks(place, "root"))


class Breaks(AnsweringCase):
    def run_over(self, work: Work, **named: Any) -> None:
        async def run() -> None:
            async with tabd.aio.connect(self.port, "root", **named) as client:
                await work(client)

        asyncio.run(run())

    def hold(self, link: Link) -> None:
        """Answers Hello alone."""
        for number, _ in enumerate(link.requests()):
            if number:
                self.asked.set()
            else:
                link.say(OK)

    def setUp(self) -> None:
        self.asked = threading.Event()
        super().setUp()

    def came(self) -> "asyncio.Future[bool]":
        """Comes once the server has the request."""
        return asyncio.get_running_loop().run_in_executor(None, self.asked.wait)

    def test_a_timeout(self) -> None:
        async def asks(client: tabd.aio.Client) -> None:
            client._connection._timeout = 0.01
            with self.assertRaises(tabd.TimedOut) as caught:
                await client.rotate()
            self.assertTrue(isinstance(caught.exception, TimeoutError) and client.closed)

        self.serve = self.hold
        self.run_over(asks)

    def test_what_is_waited_for_an_answer(self) -> None:
        async def asks(client: tabd.aio.Client) -> None:
            self.assertEqual(client._connection._timeout, 77)

        self.run_over(asks, timeout=77)

    def test_a_request_that_is_not_read(self) -> None:
        async def asks(client: tabd.aio.Client) -> None:
            client._connection._timeout = 0.01
            with self.assertRaises(tabd.TimedOut):
                await client.write("t", "r", [Put("f", str(at), value=bytes(1 << 20)) for at in range(7)])
            self.assertTrue(client.closed)
            self.asked.set()

        self.serve = lambda link: next(link.requests()) and link.say(OK) or self.asked.wait()
        self.addCleanup(self.asked.set)
        self.run_over(asks)

    def test_an_end(self) -> None:
        async def asks(client: tabd.aio.Client) -> None:
            with self.assertRaisesRegex(tabd.ConnectionClosed, "^the server ended the connection$"):
                await client.rotate()
            self.assertTrue(client.closed)

        self.serve = lambda link: [link.say(OK) for _ in zip(range(1), link.requests())] and next(link.requests())
        self.run_over(asks)

    def test_what_is_not_of_the_protocol(self) -> None:
        async def asks(client: tabd.aio.Client) -> None:
            with self.assertRaises(tabd.ProtocolError):
                await client.rotate()
            self.assertTrue(client.closed)

        self.serve = lambda link: [link.say(b"\x7f" if number else OK) for number, _ in enumerate(link.requests())]
        self.run_over(asks)

    def test_a_hello_that_is_refused(self) -> None:
        self.serve = lambda link: [link.say(b"\x81\x11") for _ in link.requests()]
        self.assertRaises(tabd.NoMemory, self.run_over, None)

    def test_a_task_that_is_cancelled_under_way(self) -> None:
        async def asks(client: tabd.aio.Client) -> None:
            asking = asyncio.ensure_future(client.rotate())
            waiting = asyncio.ensure_future(client.rotate())
            await self.came()
            asking.cancel()
            with self.assertRaises(asyncio.CancelledError):
                await asking
            with self.assertRaises(tabd.ConnectionClosed):
                await waiting

        self.serve = self.hold
        self.run_over(asks)

    def test_a_task_that_is_cancelled_before_its_turn(self) -> None:
        async def asks(client: tabd.aio.Client) -> None:
            asking = asyncio.ensure_future(client.rotate())
            waiting = asyncio.ensure_future(client.rotate())
            await self.came()
            waiting.cancel()
            with self.assertRaises(asyncio.CancelledError):
                await waiting
            self.assertFalse(client.closed or asking.done())
            await client.close()
            with self.assertRaisesRegex(tabd.ConnectionClosed, "^the client was closed meanwhile$"):
                await asking

        self.serve = self.hold
        self.run_over(asks)

    def test_a_server_that_does_not_listen(self) -> None:
        async def asks() -> None:
            with self.assertRaises(ConnectionRefusedError):
                await tabd.aio.connect(self.port, "root")
            with tempfile.TemporaryDirectory() as folder:
                with self.assertRaises(FileNotFoundError) as caught:
                    await tabd.aio.connect(f"{folder}/none", "root", wait=0.001)
                self.assertEqual(caught.exception.filename, f"{folder}/none")

        self.stop()
        asyncio.run(asks())

    def test_a_server_that_comes_late(self) -> None:
        async def asks() -> None:
            tries: List[Any] = []

            def link_to(*words: Any) -> Any:
                tries.append(words)
                if len(tries) < 3:
                    raise ConnectionRefusedError
                return there(*words)

            there = tabd.aio.link_to
            with mock.patch("tabd.aio.link_to", link_to):
                async with tabd.aio.connect(self.port, "root", wait=600) as client:
                    await client.rotate()
            self.assertEqual(len(tries), 3)

        asyncio.run(asks())

    def test_wrong_arguments(self) -> None:
        for words, kind in (((self.port,), TypeError), (("tabd://ann@h:1", "bob"), ValueError), ((self.port, "a b"), ValueError)):
            self.assertRaises(kind, tabd.aio.connect, *words)
