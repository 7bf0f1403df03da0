"""What a process and its child, made by a fork, have of one client, pool or batch writer."""
import asyncio
import os
import unittest
from typing import Callable

from running import Case, tabd
import tabd.aio  # noqa: E402
from tabd import Put

NEVER = 1_000_000


def in_a_child(work: Callable[[], object]) -> str:
    """What comes of this in a child of this process."""
    reads, writes = os.pipe()
    child = os.fork()
    if not child:
        try:
            said = repr(work())
        except BaseException as error:
            said = f"{type(error).__name__}: {error}"
        os.write(writes, said.encode())
        os._exit(0)
    os.close(writes)
    with open(reads, encoding="utf-8") as pipe:
        said = pipe.read()
    os.waitpid(child, 0)
    return said


@unittest.skipUnless(hasattr(os, "fork"), "forks (there are none)")
class Forks(Case):
    OF_A_CLIENT = "InUse: this client was made in another process: make clients after a fork"

    def put(self, row: str) -> None:
        self.root.write("t", row, [Put("f", "q", value="v")])

    def test_a_client(self) -> None:
        self.put("a")
        session = self.root.scan("t", batch=1)
        pipeline = self.root.pipeline()
        for ask in (self.root.rotate, lambda: self.put("b"), lambda: session.fetch(1), lambda: list(session), pipeline.__enter__):
            self.assertEqual(in_a_child(ask), self.OF_A_CLIENT)
        self.assertEqual([cell.row for cell in session], [b"a"])

    def test_one_that_the_child_closes(self) -> None:
        def closes() -> object:
            with self.root:
                pass
            return self.root.closed

        self.assertEqual(in_a_child(closes), "True")
        self.put("a")

    def test_a_client_that_the_child_makes(self) -> None:
        self.assertEqual(in_a_child(lambda: tabd.connect(self.port, "root").status("t").records), "0")

    def test_a_client_of_asyncio(self) -> None:
        async def asks() -> None:
            async with tabd.aio.connect(self.port, "root") as root:
                def close() -> bool:
                    root._connection.close()
                    return root.closed

                self.assertEqual(in_a_child(lambda: root.rotate().send(None)), self.OF_A_CLIENT)
                self.assertEqual(in_a_child(close), "True")
                await root.rotate()

        asyncio.run(asks())

    def test_a_pool(self) -> None:
        def takes() -> object:
            with pool.client() as client, pool.client() as other:
                return client in (lent, free) or other in (lent, free), client.status("t").records, len(pool._lent)

        def takes_back() -> object:
            stack.__exit__(None, None, None)
            return pool._free, lent.closed

        with tabd.Pool(self.port, "root", size=2) as pool:
            with pool.client() as free:
                stack = pool.client()
                lent = stack.__enter__()
            self.assertEqual(in_a_child(takes), "(False, 0, 2)")
            self.assertEqual(in_a_child(takes_back), "([], False)")
            self.assertEqual(in_a_child(pool.close), "None")
            lent.rotate()
            stack.__exit__(None, None, None)
            for _ in range(3):
                with pool.client() as one, pool.client() as other:
                    self.assertEqual({one, other}, {lent, free})
                    one.rotate()
                    other.rotate()

    def test_a_batch_writer(self) -> None:
        said = "InUse: this batch writer was made in another process: make writers after a fork"
        with tabd.BatchWriter(self.port, "root", latency=NEVER) as writer:
            writer.write("t", "a", [Put("f", "q", value="v")])
            self.assertEqual(in_a_child(lambda: writer.write("t", "b", [Put("f", "q", value="v")])), said)
            self.assertEqual(in_a_child(writer.flush), said)
            with writer._lock:
                self.assertEqual(in_a_child(writer.close), "None")
        self.assertEqual([cell.row for cell in self.root.scan("t")], [b"a"])
