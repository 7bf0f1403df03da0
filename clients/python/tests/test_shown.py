"""What is shown of objects at a prompt: `repr`."""
import inspect
import io
import unittest

from running import cell, tabd
from tabd import Delete, Put, Range, TextCell
from tabd.places import Place

ANSWERED = b"\0\0\0\1\x80" + b"\0\0\0\5\x84\0\0\0\7"


def client(user: object) -> tabd.Client:
    return tabd.Client(io.BytesIO(ANSWERED), io.BytesIO(), user)


class Shown(unittest.TestCase):
    def test_values_are_shown_as_the_calls_that_make_them(self) -> None:
        for value, shown in (
            (Range(), "Range()"),
            (Range("a"), "Range('a')"),
            (Range(b"a", "b\xff"), "Range(b'a', 'bÿ')"),
            (Range(high="b", with_high=False), "Range(high='b', with_high=False)"),
            (Range("a", "b", False), "Range('a', 'b', False)"),
            (Range("a", with_low=False), "Range('a', with_low=False)"),
            (Range.prefix("a"), "Range(b'a', b'b', with_high=False)"),
            (Range.row("a"), "Range('a', 'a')"),
            (Put("f", "q", value="v"), "Put('f', 'q', value='v')"),
            (Put("f", b"q", "a&b", b"\xff", 5), r"Put('f', b'q', 'a&b', b'\xff', 5)"),
            (Put("f", "q", value="v", timestamp=0), "Put('f', 'q', value='v', timestamp=0)"),
            (Delete("f", "q"), "Delete('f', 'q')"),
            (Delete("f", "q", timestamp=-1), "Delete('f', 'q', timestamp=-1)"),
            (Delete("f", "q", b"a", 5), "Delete('f', 'q', b'a', 5)"),
            (cell(b"r\n", b"\0v"), r"Cell(b'r\n', b'f', b'q', b'', 5, b'\x00v')"),
            (TextCell("ü", "f", "q", "", 5, "é"), "TextCell('ü', 'f', 'q', '', 5, 'é')"),
        ):
            self.assertEqual(repr(value), shown)
            self.assertEqual(eval(shown, vars(tabd)), value)

    def test_clients_and_sessions(self) -> None:
        for user, shown in (("root", "<Client of 'root'"), (b"kim", "<Client of b'kim'")):
            asker = client(user)
            session = asker.scan("t")
            self.assertEqual((repr(asker), repr(session)), (f"{shown}>", "<Session 7 of table 't'>"))
            session.close()
            asker.close()
            self.assertEqual((repr(asker), repr(session)), (f"{shown}, closed>", "<Session 7 of table 't', closed>"))
        self.assertEqual(repr(client("root").scan("t", text=True)), "<TextSession 7 of table 't'>")

    def test_where_a_client_is(self) -> None:
        for place, shown in (((9997, "h"), "h:9997"), ((9997, "::1"), "[::1]:9997"), (("/run/sock", "h"), "/run/sock")):
            at = Place(place[0], "root", place[1], 5, 0)
            there = tabd.Client(io.BytesIO(ANSWERED), io.BytesIO(), "root", at=at)
            self.assertEqual(repr(there), f"<Client of 'root' at {shown}>")

    def test_long_parts_of_cells_are_shortened(self) -> None:
        for value, shown in ((b"v" * 80, repr(b"v" * 80)), (b"v" * 81, f"{b'v' * 60!r}.. (81 bytes)")):
            self.assertEqual(repr(cell(b"r", value)), f"Cell(b'r', b'f', b'q', b'', 5, {shown})")
        long = cell(b"r" * 1000, b"\xff" * 1000)
        error = tabd.NotText(long, "value")
        for said in (repr(long), repr(error), str(error), repr(TextCell("r", "f", "q", "", 5, "é" * 1000))):
            self.assertLess(len(said), 500)
        self.assertIn("(1000 letters)", said)

    def test_help_shows_no_function(self) -> None:
        for kind in (tabd.Client, tabd.Pool, tabd.BatchWriter, tabd.connect):
            self.assertNotIn("<function", str(inspect.signature(kind)))
        self.assertNotIn(inspect.signature(tabd.Client.scan).return_annotation, ("Any", inspect.Signature.empty))

    def test_what_never_began(self) -> None:
        asker = tabd.Client.__new__(tabd.Client)
        with self.assertRaises(tabd.ConnectionClosed) as caught:
            asker.__init__(io.BytesIO(), io.BytesIO(), "root")
        self.assertEqual((type(caught.exception), repr(asker)), (tabd.ConnectionClosed, "<Client of 'root', closed>"))
