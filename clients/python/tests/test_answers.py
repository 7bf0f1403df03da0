"""What no server says: bytes in place of one."""
import io
import pickle
import struct
import unittest

from running import tabd


class Answers(unittest.TestCase):
    def told(self, *frames: bytes, cut: int = 0) -> tabd.Client:
        """A client whose server answers its Hello, and says these frames then."""
        said = b"".join(struct.pack(">I", len(frame)) + frame for frame in (b"\x80", *frames))
        self.sent = io.BytesIO()
        return tabd.Client(io.BytesIO(said[: len(said) - cut]), self.sent, "root")

    def test_what_is_not_of_the_protocol(self) -> None:
        for frame in (
            b"", b"\x7f", b"\x80x", b"\x83\1", b"\x81\x00", b"\x81\x0e", b"\x81\x02\0\0\0\5t", b"\x81\x09\x0c", b"\x81\x03\0\x08",
            b"\x81\x02\0\0\0\1\xff", b"\x81\x06\xff\xff\xff\xff", b"\x81\x15\0\0\1", b"\x81\x16", b"\x81\x16\0\0\0\0\1", b"\x81\x16\1" + bytes(8),
            b"\x81\x16\2\0", b"\x81\x16\3",
        ):
            client = self.told(frame)
            self.assertRaises(tabd.ProtocolError, client.flush, "t")
            self.assertTrue(client.closed)
        client = tabd.Client(io.BytesIO(b"\0\0\0\1\x80\0\x80\0\1"), io.BytesIO(), "root")
        self.assertRaises(tabd.ProtocolError, client.flush, "t")

    def test_frames_out_of_place(self) -> None:
        cell = b"\x82" + bytes(16) + bytes(8) + bytes(4)
        for frames, ask in (
            ([b"\x84\0\0\0\0"], lambda client: client.flush("t")),
            ([b"\x80"], lambda client: client.status("t")),
            ([cell, b"\x83\1"], lambda client: client.splits("t")),
            ([b"\x85\0\0\0\0", b"\x81\x11"], lambda client: client.splits("t")),
            ([b"\x84\0\0\0\0", cell, b"\x86", b"\x83\1"], lambda client: client.scan("t").fetch(1)),
        ):
            client = self.told(*frames)
            with self.assertRaises(tabd.ProtocolError):
                ask(client)
            self.assertTrue(client.closed)

    def test_an_end_inside_an_answer(self) -> None:
        for cut in range(1, 6):
            self.assertRaises(tabd.ConnectionClosed, self.told(b"\x80", cut=cut).flush, "t")

    def test_a_session_is_closed_with_the_next_request(self) -> None:
        client = self.told(b"\x84\0\0\0\7", b"\x80", b"\x81\x02\0\0\0\1t")
        client.scan("t").close()
        sent = self.sent.tell()
        self.assertRaises(tabd.NoTable, client.flush, "t")
        self.assertEqual(self.sent.getvalue()[sent:], b"\0\0\0\5\x0e\0\0\0\7" + b"\0\0\0\6\x0f\0\0\0\1t")

    def test_the_bytes_of_requests(self) -> None:
        for ask, sent in (
            (lambda client: client.set_versions("t", 1000), b"\x15\0\0\0\1t\0\0\3\xe8"),
            (lambda client: client.set_horizon("t", 5), b"\x16\0\0\0\1t\0\0\0\0\0\0\0\5"),
            (lambda client: client.set_horizon(table="t", horizon=-1), b"\x16\0\0\0\1t" + b"\xff" * 8),
            (lambda client: client.rotate(), b"\x17"),
        ):
            client = self.told(b"\x80")
            hello = self.sent.tell()
            self.assertIsNone(ask(client))
            self.assertEqual(self.sent.getvalue()[hello:], struct.pack(">I", len(sent)) + sent)

    def test_refusals_that_are_hard_to_provoke(self) -> None:
        for frame, kind, fields in (
            (b"\x81\x11", tabd.NoMemory, ()),
            (b"\x81\x09\x0a", tabd.TooLarge, ("sessions",)),
            (b"\x81\x09\x0b", tabd.TooLarge, ("numbers",)),
            (b"\x81\x14\1", tabd.BadSplit, ("small",)),
            (b"\x81\x14\2", tabd.BadSplit, ("onerow",)),
            (b"\x81\x0e" + bytes(7) + b"\3", tabd.Stale, (3,)),
            (b"\x81\x10\6", tabd.BadFrame, ("order",)),
            (b"\x81\x15\0\0\3\xe8", tabd.VersionsRaised, (1000,)),
            (b"\x81\x16\0\x80" + bytes(7), tabd.HorizonLowered, (-(1 << 63),)),
            (b"\x81\x16\1\0\0\3\xe7", tabd.BelowHorizon, (999,)),
            (b"\x81\x16\2", tabd.ServerTime, ()),
        ):
            with self.assertRaises(kind) as caught:
                self.told(frame).flush("t")
            self.assertEqual((type(caught.exception), caught.exception.args), (kind, fields))

    def test_who_is_no_server_of_tabd(self) -> None:
        with self.assertRaises(tabd.ProtocolError) as caught:
            tabd.Client(io.BytesIO(b"HTTP/1.1 400 Bad Request"), io.BytesIO(), "root")
        self.assertEqual(str(caught.exception), "a reply of 1213486160 bytes: is a tabd server there?")

    def test_what_a_refusal_means_for_its_request(self) -> None:
        put = tabd.Put("f", "q", label="x" * 81, value="v")
        for frame, updates, said in (
            (b"\0\0\0\1\0\0\0\2", [put, tabd.Put("f", "q", "a&", "v", 5)], "label 'a&' of update 1 goes wrong at offset 2"),
            (b"\0\0\0\1\0\0\0\2", [put, tabd.Delete("f", "q", b"a\xff")], r"label 'a\\xff' of update 1 goes wrong at offset 2"),
            (b"\0\0\0\0\0\0\0\0", [put], f"label {'x' * 60!r}.. (81 letters) of update 0 goes wrong at offset 0"),
            (b"\0\0\0\7\0\0\0\0", [put], "label of update 7 goes wrong at offset 0"),
        ):
            with self.assertRaises(tabd.MalformedVisibility) as caught:
                self.told(b"\x81\5" + frame).write("t", "r", updates)
            self.assertEqual(str(caught.exception), f"the {said}")
            self.assertEqual(str(pickle.loads(pickle.dumps(caught.exception))), f"the {said}")
        with self.assertRaises(tabd.MalformedVisibility) as caught:
            self.told(b"\x81\5" + bytes(8)).flush("t")
        self.assertIsNone(caught.exception.label)
