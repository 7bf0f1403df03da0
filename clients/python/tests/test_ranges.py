"""Ranges by a row and by what rows begin with."""
import unittest

from running import Case
from tabd import Put, Range


class Ends(unittest.TestCase):
    def test_a_row(self) -> None:
        self.assertEqual(Range.row("ann"), Range("ann", "ann"))
        self.assertEqual(Range.row(b""), Range(b"", b""))

    def test_a_prefix(self) -> None:
        for prefix, end in (
            (b"a", b"b"), ("ann", b"ano"), ("ü", b"\xc3\xbd"), (b"\0", b"\1"), (b"a\xff", b"b"), (b"a\xff\xff", b"b"),
            (b"\xfe\xff", b"\xff"), (b"\xff\xfe", b"\xff\xff"), (b"\xff\0\xff", b"\xff\1"),
        ):
            low = prefix.encode() if isinstance(prefix, str) else prefix
            self.assertEqual(Range.prefix(prefix), Range(low, end, True, False))
        for prefix in (b"", "", b"\xff", b"\xff\xff"):
            self.assertEqual(Range.prefix(prefix), Range(prefix or b"", None))

    def test_what_is_no_text(self) -> None:
        for wrong in (None, 5, ["a"]):
            with self.assertRaisesRegex(TypeError, "^row: a str or bytes is meant, not "):
                Range.row(wrong)
            with self.assertRaisesRegex(TypeError, "^prefix: a str or bytes is meant, not "):
                Range.prefix(wrong)


class Rows(Case):
    def test_each_prefix_shows_the_rows_that_begin_with_it(self) -> None:
        low = [b"", b"a", b"a\0", b"a\xff", b"a\xff\xff\1", b"b", b"b\0"]
        rows = [*low, b"\xfe", b"\xfe\xff", b"\xff", b"\xff\0", b"\xff\xff", b"\xff\xff\1"]
        with self.root.pipeline():
            for row in rows:
                self.root.write("t", row, [Put("f", "q", value="v", timestamp=5)])
        prefixes = [*rows, b"c", b"a\xff\xff", b"\xff\xff\xff"]
        with self.root.scan("t") as session:
            by_prefix = session.ranges(map(Range.prefix, prefixes))
            by_row = session.ranges(map(Range.row, prefixes))
        for prefix, begun, same in zip(prefixes, by_prefix, by_row):
            self.assertEqual([found.row for found in begun], [row for row in rows if row.startswith(prefix)], prefix)
            self.assertEqual([found.row for found in same], [row for row in rows if row == prefix], prefix)
        self.assertEqual([found.row for found in self.root.scan("t", rows=Range.prefix("b"))], [b"b", b"b\0"])
        self.assertEqual(len(list(self.root.scan("t", rows=Range.prefix("")))), len(rows))
