"""What is wrong with the arguments of a call is told before anything is sent."""
import io
import unittest

from running import MIB, tabd
from tabd import Delete, Put, Range


class Arguments(unittest.TestCase):
    """A client whose server has answered its Hello, and would say nothing more: whoever asks it anything finds the connection ended."""

    def setUp(self) -> None:
        self.sent = io.BytesIO()
        self.client = tabd.Client(io.BytesIO(b"\0\0\0\1\x80"), self.sent, "root")
        self.hello = self.sent.tell()

    def tearDown(self) -> None:
        self.assertEqual(self.sent.tell(), self.hello)
        self.assertFalse(self.client.closed)

    def test_a_text_in_place_of_a_list(self) -> None:
        session = tabd.Session(self.client._connection, 0, 1)
        session.closed = True
        for what, ask in (
            ("authorizations", lambda text: self.client.set_authorizations("kim", text)),
            ("authorizations", lambda text: self.client.scan("t", text)),
            ("columns", lambda text: self.client.scan("t", columns=text)),
            ("constraints", lambda text: self.client.set_constraints("t", text)),
            ("updates", lambda text: self.client.write("t", "r", text)),
            ("ranges", lambda text: session.ranges(text)),
        ):
            for text in ("care", b"care", bytearray(b"care"), ""):
                with self.assertRaises(TypeError) as caught:
                    ask(text)
                self.assertEqual(str(caught.exception), f"{what}: a list is meant, and {text!r} is one text. Say [{text!r}]")

    def test_other_things_in_place_of_a_list(self) -> None:
        for ask in (
            lambda: self.client.set_authorizations("kim", None),
            lambda: self.client.write("t", "r", Put("f", "q", value="v")),
            lambda: self.client.scan("t", 5),
            lambda: self.client.scan("t", [5]),
            lambda: self.client.scan("t", [None]),
            lambda: self.client.scan("t", columns=[("f", "q", "x")]),
            lambda: self.client.scan("t", columns=[("f", 5)]),
            lambda: self.client.scan("t", columns=[["f", "q"]]),
            lambda: self.client.scan("t", rows="a"),
            lambda: self.client.scan("t", rows=[Range()]),
            lambda: self.client.scan("t", rows=Range("a", with_low="no")),
            lambda: self.client.write("t", "r", ["v"]),
            lambda: self.client.write("t", "r", [("f", "q", "", "v")]),
        ):
            self.assertRaises(TypeError, ask)

    def test_what_is_no_column(self) -> None:
        for column, found in ((["f", "q"], "list"), (("f", "q", "x"), "3 texts"), (5, "int"), (None, "NoneType")):
            with self.assertRaises(TypeError) as caught:
                self.client.scan("t", columns=["f", column])
            said = f"columns[1]: a family, or a tuple of family and qualifier, is meant, not {found}"
            self.assertEqual(str(caught.exception), said)

    def test_label_and_value(self) -> None:
        put = Put("f", "q", "label", "value", 5)
        self.assertEqual(put, Put(family="f", qualifier="q", timestamp=5, value="value", label="label"))
        self.assertEqual((put.label, put.value, put.timestamp), ("label", "value", 5))
        self.assertEqual(Put("f", "q", value="v"), Put("f", "q", b"", "v"))
        for words, named in ((("f", "q", "v"), {}), (("f", "q"), {}), (("f", "q", "v"), {"timestamp": 5}), (("f", "q"), {"label": "a"})):
            with self.assertRaisesRegex(TypeError, "the value is missing"):
                Put(*words, **named)
        self.assertEqual(Delete("f", "q", "a", 5), Delete("f", "q", timestamp=5, label="a"))
        for update in (put, Delete("f", "q")):
            with self.assertRaises(AttributeError):
                update.label = "other"

    def test_texts_that_are_none(self) -> None:
        for updates in (
            [Put("f", "q", value=5)], [Put(None, "q", value="")], [Put("f", 1.5, value="")], [Put("f", "q", [], "")], [Delete("f", None)],
        ):
            with self.assertRaisesRegex(TypeError, r"^updates\[0\]\.[a-z]+: a str or bytes is meant, not "):
                self.client.write("t", "r", updates)
        self.assertRaises(TypeError, self.client.write, "t", 5, [])
        self.assertRaises(TypeError, self.client.add_split, "t", None)
        self.assertRaises(UnicodeEncodeError, self.client.add_split, "t", "\ud800")

    def test_names(self) -> None:
        for name in ("", "a b", "x" * 129, "ü", b"a\n", "a\n", b"\xff"):
            for ask in (
                self.client.create_table, self.client.drop_user, self.client.scan, lambda name: self.client.grant("kim", "READ", name),
                lambda name: tabd.connect(1, name), lambda name: self.client.set_authorizations(name, []),
            ):
                with self.assertRaisesRegex(ValueError, "is no name"):
                    ask(name)
        self.assertRaises(TypeError, self.client.create_table, None)

    def test_words(self) -> None:
        for ask in (
            lambda: self.client.grant("kim", "READS", "t"),
            lambda: self.client.grant("kim", "read", "t"),
            lambda: self.client.grant("kim", b"READ", "t"),
            lambda: self.client.grant("kim", "READ"),
            lambda: self.client.revoke("kim", "SYSTEM", "t"),
            lambda: self.client.set_constraints("t", ["numeric", "none"]),
            lambda: self.client.scan("t", to="list"),
        ):
            with self.assertRaisesRegex(ValueError, " is none of "):
                ask()

    def test_times(self) -> None:
        for time in (1 << 63, -(1 << 63) - 1):
            for ask in (
                lambda: self.client.write("t", "r", [Put("f", "q", value="v", timestamp=time)]),
                lambda: self.client.write("t", "r", [Delete("f", "q", timestamp=time)]),
                lambda: self.client.set_horizon("t", time),
            ):
                self.assertRaises(ValueError, ask)
                self.assertRaises(OverflowError, ask)
        for time in (1.5, "5", True, b"5"):
            with self.assertRaisesRegex(TypeError, "a whole number is meant"):
                self.client.write("t", "r", [Put("f", "q", value="v", timestamp=time)])
            with self.assertRaisesRegex(TypeError, "a whole number is meant"):
                self.client.set_horizon("t", time)
        self.assertRaises(TypeError, self.client.set_horizon, "t", None)

    def test_numbers(self) -> None:
        for versions in (0, 1001, -1, 1 << 32):
            self.assertRaises(tabd.OutOfRange, self.client.set_versions, "t", versions)
            self.assertRaises(tabd.OutOfRange, self.client.create_table, "t", versions=versions)
        for batch in (0, 1 << 32):
            self.assertRaises(tabd.OutOfRange, self.client.scan, "t", batch=batch)
        for port in (0, 65536):
            self.assertRaises(tabd.OutOfRange, tabd.connect, port, "root")

    def test_true_and_false(self) -> None:
        self.assertRaises(TypeError, self.client.create_table, "t", server_time="any")
        self.assertRaises(TypeError, self.client.compact, "t", full="partial")
        self.assertRaises(TypeError, self.client.create_table, "t", True)

    def test_a_request_over_the_limit_of_frames(self) -> None:
        with self.assertRaisesRegex(ValueError, "at most 8388608 can be sent"):
            self.client.write("t", "r", [Put("f", str(at), value=b"x" * MIB) for at in range(8)])
