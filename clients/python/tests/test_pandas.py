"""Scans to data frames of pandas."""
import importlib.util
import sys
import types
import unittest
from unittest import mock

from running import Case, tabd
from tabd import Put, Range

NAMES = ["row", "family", "qualifier", "label", "timestamp", "value"]


class Frames(Case):
    def setUp(self) -> None:
        super().setUp()
        for row in "abc":
            self.root.write("t", row, [Put("f", "q", value="v" + row, timestamp=5)])

    @unittest.skipUnless(importlib.util.find_spec("pandas"), "a scan to a data frame (there is no pandas)")
    def test_a_data_frame(self) -> None:
        frame = self.root.scan("t", rows=Range("b"), batch=1, to="pandas")
        self.assertEqual(list(frame.columns), NAMES)
        self.assertEqual([tuple(row) for row in frame.itertuples(index=False)], [(row, b"f", b"q", b"", 5, b"v" + row) for row in (b"b", b"c")])
        empty = self.root.scan("t", rows=Range("x"), to="pandas")
        self.assertEqual((list(empty.columns), len(empty)), (NAMES, 0))
        self.assertEqual((frame["timestamp"].dtype, empty["timestamp"].dtype), ("int64", "int64"))

    def test_what_pandas_is_given(self) -> None:
        class DataFrame:
            def __init__(self, columns: dict) -> None:
                self.columns = columns

            def astype(self, types: dict) -> tuple:
                return self.columns, types

        with mock.patch.dict(sys.modules, pandas=types.SimpleNamespace(DataFrame=DataFrame)):
            columns, kinds = self.root.scan("t", to="pandas", batch=2)
        self.assertEqual((list(columns), kinds), (NAMES, {"timestamp": "int64"}))
        self.assertEqual((columns["row"], columns["timestamp"], columns["value"]), ([b"a", b"b", b"c"], [5] * 3, [b"va", b"vb", b"vc"]))
        self.root.status("t")
        with self.refused(tabd.NoSession, 0):
            tabd.Session(self.root._connection, 0, 1).fetch(0)

    def test_where_there_is_no_pandas(self) -> None:
        with mock.patch.dict(sys.modules, pandas=None), self.assertRaisesRegex(ImportError, "wants pandas"):
            self.root.scan("t", to="pandas")
        self.assertEqual(self.root.scan("t").number, 0)
