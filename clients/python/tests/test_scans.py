"""One value; and scans with a limit, of newest versions, and of text."""
import copy
import pickle
import sys
import types
from typing import List
from unittest import mock

from running import Case, cell, tabd
from tabd import Delete, Put, Range, TextCell
from tabd.requests import Opcode


class Scans(Case):
    """A table `v` of up to three versions: rows a, b and c have the columns p and q, and of each column the values 2, 1 and 0."""

    def setUp(self) -> None:
        super().setUp()
        self.root.create_table("v", versions=3)
        with self.root.pipeline():
            for row in "abc":
                self.root.write("v", row, [Put("f", column, value=str(at), timestamp=at) for column in "pq" for at in range(3)])

    def asked(self) -> List[int]:
        """Notes from now on of how many cells the server is asked each time."""
        counts: List[int] = []
        ask = self.root._connection.ask

        def noting(request: bytes, *hear: object) -> object:
            if request[0] == Opcode.NEXT:
                counts.append(int.from_bytes(request[5:9], "big"))
            return ask(request, *hear)

        patch = mock.patch.object(self.root._connection, "ask", noting)
        patch.start()
        self.addCleanup(patch.stop)
        return counts


class Values(Scans):
    def test_the_newest_value(self) -> None:
        self.assertEqual(self.root.get("v", "a", "f", "p"), b"2")
        self.assertEqual(self.root.get("v", b"c", b"f", b"q"), b"2")
        for row, family, qualifier in (("d", "f", "p"), ("a", "g", "p"), ("a", "f", "r"), ("", "f", "p"), ("a", "f", ""), ("aa", "f", "p")):
            self.assertIsNone(self.root.get("v", row, family, qualifier))
        self.root.write("v", "a", [Delete("f", "p", timestamp=1)])
        self.assertEqual(self.root.get("v", "a", "f", "p"), b"2")
        self.root.write("v", "a", [Delete("f", "p", timestamp=2)])
        self.assertIsNone(self.root.get("v", "a", "f", "p"))
        self.root.write("v", "e", [Put("f", "p", value="")])
        self.assertEqual(self.root.get("v", "e", "f", "p"), b"")

    def test_of_the_labels_that_hold(self) -> None:
        self.root.set_authorizations("root", ["x", "y"])
        times = {"": 5, "x": 7, "y": 9, "x&y": 9, "z": 11}
        self.root.write("v", "a", [Put("f", "l", label, "v" + label, at) for label, at in times.items()])
        for held, value in (([], b"v"), (["x"], b"vx"), (["y"], b"vy"), (["x", "y"], b"vx&y")):
            self.assertEqual(self.root.get("v", "a", "f", "l", held), value)
        with self.refused(tabd.BadAuthorizations, b"z"):
            self.root.get("v", "a", "f", "l", ["z"])

    def test_its_session_is_closed(self) -> None:
        self.root.get("v", "a", "f", "p")
        self.root.get("v", "none", "f", "p")
        self.assertFalse(self.is_open(0) or self.is_open(1))
        self.assertRaisesRegex(TypeError, "^qualifier: ", self.root.get, "v", "a", "f", 5)
        self.assertRaisesRegex(TypeError, "^row: ", self.root.get, "v", None, "f", "p")


class Limits(Scans):
    def test_no_more_is_given_nor_asked_for(self) -> None:
        everything, counts = list(self.root.scan("v")), self.asked()
        for limit, batch, wanted in (
            (1, 1000, [1]), (7, 1000, [7]), (7, 3, [3, 3, 1]), (6, 3, [3, 3]), (18, 1000, [18]), (19, 1000, [19]), (0, 5, []),
        ):
            counts.clear()
            session = self.root.scan("v", batch=batch, limit=limit)
            self.assertEqual((list(session), counts, session.closed), (everything[:limit], wanted, True))
            self.assertFalse(self.is_open(session.number))

    def test_it_closes_with_the_last_cell(self) -> None:
        session = self.root.scan("v", limit=2)
        cells = iter(session)
        next(cells)
        self.assertFalse(session.closed)
        next(cells)
        self.assertTrue(session.closed)
        self.assertFalse(self.is_open(session.number))
        self.assertEqual((list(cells), list(session), session.fetch(3)), ([], [], ([], False)))
        with self.refused(tabd.NoSession, session.number):
            session.ranges([Range()])

    def test_fetches_count_too(self) -> None:
        everything, counts = list(self.root.scan("v")), self.asked()
        session = self.root.scan("v", limit=5, batch=2)
        self.assertEqual(session.fetch(0), ([], True))
        self.assertEqual((next(iter(session)), session.fetch(2)), (everything[0], (everything[1:3], True)))
        self.assertEqual(len(session.ranges([Range()])[0]), 18)
        self.assertEqual((session.fetch(9), session.closed), ((everything[3:5], False), True))
        self.assertEqual(counts, [0, 2, 1, 2])
        session = self.root.scan("v", limit=20)
        self.assertEqual((session.fetch(19), session.closed), ((everything, False), False))

    def test_two_iterations_at_once(self) -> None:
        session = self.root.scan("v", limit=4, batch=1)
        one, two = iter(session), iter(session)
        self.assertEqual([next(one), next(two), next(one), next(two)], list(self.root.scan("v"))[:4])
        self.assertEqual((list(one), list(two)), ([], []))

    def test_what_is_no_limit(self) -> None:
        counts = self.asked()
        for limit in (-1, sys.maxsize + 1):
            self.assertRaises(tabd.OutOfRange, self.root.scan, "v", limit=limit)
        for words in ({"limit": 1.5}, {"limit": True}, {"newest": 1}, {"text": "utf-8"}):
            self.assertRaises(TypeError, self.root.scan, "v", **words)
        self.assertEqual((self.root.scan("v", limit=sys.maxsize).number, counts), (0, []))


class Newest(Scans):
    def test_each_column_once(self) -> None:
        wanted = [cell(row, b"2", timestamp=2, qualifier=column) for row in (b"a", b"b", b"c") for column in (b"p", b"q")]
        for batch in (1, 2, 3, 4, 5, 1000):
            self.assertEqual(list(self.root.scan("v", newest=True, batch=batch)), wanted)
            session, found, more = self.root.scan("v", newest=True, batch=batch), [], True
            while more:
                cells, more = session.fetch(2)
                found += cells
            self.assertEqual(found, wanted)
        session = self.root.scan("v", newest=True, batch=4)
        self.assertEqual([next(iter(session)), *session.fetch(3)[0], *session], wanted)

    def test_labels_are_columns_of_their_own(self) -> None:
        self.root.set_authorizations("root", ["x"])
        self.root.write("v", "a", [Put("f", "p", "x", "labelled", 1), Put("g", "p", value="family", timestamp=1)])
        found = self.root.scan("v", ["x"], Range.row("a"), newest=True)
        self.assertEqual([one.value for one in found], [b"2", b"labelled", b"2", b"family"])

    def test_of_equal_times_the_later(self) -> None:
        self.root.write("v", "a", [Put("f", "r", value=value, timestamp=5) for value in "xyz"])
        self.assertEqual([one.value for one in self.root.scan("v", columns=[("f", "r")], newest=True)], [b"z"])

    def test_in_ranges(self) -> None:
        session = self.root.scan("v", newest=True)
        session.fetch(3)
        found = session.ranges([Range.row("a"), Range.row("a"), Range("x"), Range("b")])
        wanted = [[b"ap", b"aq"], [b"ap", b"aq"], [], [b"bp", b"bq", b"cp", b"cq"]]
        self.assertEqual([[one.row + one.qualifier for one in cells] for cells in found], wanted)

    def test_with_a_limit(self) -> None:
        counts = self.asked()
        session = self.root.scan("v", newest=True, limit=1)
        self.assertEqual(([one.row for one in session], counts, session.closed), ([b"a"], [1], True))
        session = self.root.scan("v", newest=True, limit=3)
        self.assertEqual([one.row + one.qualifier for one in session], [b"ap", b"aq", b"bp"])
        self.assertTrue(max(counts) <= 3 and session.closed)


class Texts(Scans):
    def setUp(self) -> None:
        super().setUp()
        self.root.write("t", "ü", [Put("f", "q", value="é", timestamp=5)])

    def test_all_parts_are_text(self) -> None:
        wanted = [TextCell("ü", "f", "q", "", 5, "é")]
        session = self.root.scan("t", text=True)
        self.assertEqual((session.ranges([Range()]), session.fetch(9)), ([wanted], (wanted, False)))
        with self.root.scan("t", text=True) as session:
            self.assertEqual(list(session), wanted)
        self.assertIsInstance(session, tabd.TextSession)
        self.assertEqual([one.value for one in self.root.scan("v", text=True, newest=True, limit=2)], ["2", "2"])

    def test_what_is_no_text(self) -> None:
        bad = b"\xff"
        for part, row, put in (
            ("row", bad, Put("f", "q", value="v")), ("family", "r", Put(bad, "q", value="v")), ("qualifier", "r", Put("f", bad, value=bad)),
            ("value", "r", Put("f", "q", value=bad)), ("label", "r", Put("f", "q", '"\udcff"'.encode(errors="surrogateescape"), "v")),
        ):
            self.root.drop_table("t")
            self.root.create_table("t")
            self.root.set_authorizations("root", [bad])
            self.root.write("t", row, [put])
            with self.assertRaises(tabd.NotText) as caught:
                list(self.root.scan("t", [bad], text=True))
            found = next(iter(self.root.scan("t", [bad])))
            self.assertEqual((caught.exception.part, caught.exception.cell), (part, found))
            self.assertTrue(isinstance(caught.exception, ValueError) and isinstance(caught.exception, tabd.TabdError))
            for other in (copy.copy(caught.exception), pickle.loads(pickle.dumps(caught.exception))):
                self.assertEqual((str(other), other.cell), (str(caught.exception), found))

    def test_it_says_which_cell(self) -> None:
        error = tabd.NotText(cell(b"r", b"\xff"), "value")
        self.assertEqual(str(error), "the value isn't UTF-8: row b'r', column b'f' b'q', label b'', time 5")

    def test_no_cell_is_passed_over(self) -> None:
        with self.root.pipeline():
            for row, value in ((b"a", b"1"), (b"b", b"\xff"), (b"c", b"3")):
                self.root.write("t", row, [Put("f", "q", value=value, timestamp=5)])
        for batch, limit in ((1, None), (2, None), (1000, None), (1000, 2)):
            session = self.root.scan("t", text=True, batch=batch, limit=limit)
            self.assertRaises(tabd.NotText, session.fetch, 3)
            self.assertEqual([one.row for one in session.fetch(1)[0]], ["a"])
            for again in (lambda: list(session), lambda: session.fetch(1), lambda: session.ranges([Range()])):
                self.assertRaises(tabd.NotText, again)
            self.assertFalse(session.closed)
            session.close()


class Frames(Scans):
    """What pandas is given, in place of which stands a class."""

    def test_limit_newest_and_text(self) -> None:
        class DataFrame:
            def __init__(self, columns: dict) -> None:
                self.columns = columns

            def astype(self, kinds: dict) -> dict:
                return self.columns

        with mock.patch.dict(sys.modules, pandas=types.SimpleNamespace(DataFrame=DataFrame)):
            columns = self.root.scan("v", newest=True, text=True, limit=3, to="pandas")
            self.root.write("v", "a", [Put("f", "p", value=b"\xff")])
            self.assertRaises(tabd.NotText, self.root.scan, "v", text=True, to="pandas")
        self.assertEqual((columns["row"], columns["qualifier"], columns["timestamp"]), (["a", "a", "b"], ["p", "q", "p"], [2, 2, 2]))
        self.assertEqual(columns["value"], ["2"] * 3)
        self.assertFalse(self.is_open(0) or self.is_open(1))
