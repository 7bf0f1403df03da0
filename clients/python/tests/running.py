"""A server for each test, of the program that TABD names, or else of release/program."""
from __future__ import annotations

import os
import socket
import subprocess
import sys
import unittest
from contextlib import contextmanager
from pathlib import Path
from typing import Any, Iterator

CLIENT = Path(__file__).resolve().parent.parent
TOP = CLIENT.parent.parent
sys.path.insert(0, str(CLIENT))
sys.dont_write_bytecode = True
import tabd  # noqa: E402

PROGRAM = os.environ.get("TABD") or subprocess.check_output([TOP / "release/program"], text=True).strip()
MIB = 1 << 20


def free_port() -> int:
    with socket.create_server(("127.0.0.1", 0)) as listener:
        return int(listener.getsockname()[1])


def cell(row: bytes, value: bytes, label: bytes = b"", timestamp: int = 5, family: bytes = b"f", qualifier: bytes = b"q") -> tabd.Cell:
    return tabd.Cell(row, family, qualifier, label, timestamp, value)


class ServerCase(unittest.TestCase):
    """A new server."""

    def setUp(self) -> None:
        for _ in range(5):
            self.port = free_port()
            words = [PROGRAM, "serve", "--port", str(self.port), "--workers", "8"]
            self.server = self.started(words)
            assert self.server.stdout
            if self.server.stdout.readline() == b"listening %d\n" % self.port:
                return
            # another process took the port meanwhile
        self.fail(f"{PROGRAM} doesn't listen")

    def started(self, words: "list[str]") -> "subprocess.Popen[bytes]":
        server = subprocess.Popen(words, stdin=subprocess.DEVNULL, stdout=subprocess.PIPE, stderr=subprocess.DEVNULL)
        self.addCleanup(self.end, server)
        return server

    @staticmethod
    def end(server: "subprocess.Popen[bytes]") -> None:
        server.kill()
        server.communicate()

    def client(self, user: str) -> tabd.Client:
        client = tabd.connect(self.port, user)
        self.addCleanup(client.close)
        return client


class Case(ServerCase):
    """A new store with a table `t` that root made, and root's connection to it."""

    def setUp(self) -> None:
        super().setUp()
        self.root = self.client("root")
        self.root.create_table("t")

    @contextmanager
    def refused(self, kind: type[tabd.Refused], *fields: Any) -> Iterator[None]:
        """Inside, that refusal comes, with these attributes in their order."""
        with self.assertRaises(tabd.Refused) as caught:
            yield
        self.assertEqual((type(caught.exception), caught.exception.args), (kind, fields))

    def is_open(self, number: int) -> bool:
        """Whether root's connection has this session, asked of the server."""
        session = tabd.Session(self.root._connection, number, 1)
        try:
            session.fetch(0)
        except tabd.NoSession:
            return False
        finally:
            session.closed = True  # it isn't closed by this one
        return True
