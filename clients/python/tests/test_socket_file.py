"""A server at a socket file, in place of a port."""
import subprocess
import tempfile
import unittest
from pathlib import Path

from running import MIB, PROGRAM, ServerCase, tabd
from tabd import Put


class SocketFile(unittest.TestCase):
    def setUp(self) -> None:
        folder = tempfile.TemporaryDirectory()
        self.addCleanup(folder.cleanup)
        self.path = f"{folder.name}/tabd.sock"

    def serve(self) -> None:
        words = [PROGRAM, "serve", "--socket", self.path, "--accept", "2"]
        self.server = subprocess.Popen(words, stdin=subprocess.DEVNULL, stdout=subprocess.PIPE, stderr=subprocess.DEVNULL)
        self.addCleanup(ServerCase.end, self.server)
        assert self.server.stdout
        self.assertEqual(self.server.stdout.readline(), f"listening {self.path}\n".encode())

    def test_a_client_at_a_file(self) -> None:
        self.serve()
        value = bytes(range(256)) * (MIB // 256)
        with tabd.connect(Path(self.path), "root") as root, tabd.connect(self.path, "root", timeout=None) as other:
            root.create_table("t")
            root.write("t", "r", [Put("f", "q", value=value)])
            self.assertEqual([found.value for found in other.scan("t")], [value])
        self.assertEqual(self.server.wait(timeout=60), 0)
        with self.assertRaises(FileNotFoundError) as caught:
            tabd.connect(self.path, "root")
        self.assertEqual(caught.exception.filename, self.path)

    def test_many_closes_at_once(self) -> None:
        self.serve()
        with tabd.connect(self.path, "root", timeout=5) as root:
            root.create_table("t")
            kept = root.scan("t")
            for number in range(1, 65_536):
                # of one that isn't open, which costs no Open and is answered as well
                tabd.Session(root._connection, number, 1).close()
            self.assertEqual(root.status("t").records, 0)
            self.assertEqual(list(kept), [])

    def test_a_dead_server(self) -> None:
        self.serve()
        with tabd.connect(self.path, "root") as root:
            self.server.kill()
            self.server.wait()
            self.assertRaises(tabd.ConnectionClosed, root.status, "t")
        self.assertRaises(ConnectionRefusedError, tabd.connect, self.path, "root")

    def test_what_is_no_path(self) -> None:
        for place in (b"/run/tabd.sock", None, 1.5):
            with self.subTest(place), self.assertRaises(TypeError):
                tabd.connect(place, "root")  # type: ignore[arg-type]
        with self.assertRaises(OSError):
            tabd.connect("n" * 108, "root")
