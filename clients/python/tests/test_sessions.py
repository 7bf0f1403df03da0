"""Sessions: what stands, and when they are closed."""
from running import Case, tabd
from tabd import Delete, Put, Range


class Sessions(Case):
    def setUp(self) -> None:
        super().setUp()
        for row in "abcd":
            self.root.write("t", row, [Put("f", "q", value="v", timestamp=5)])

    def test_an_answer_stands(self) -> None:
        session = self.root.scan("t", batch=1)
        rows = iter(session)
        self.assertEqual(next(rows).row, b"a")
        self.root.write("t", "b", [Delete("f", "q", timestamp=9)])
        self.root.drop_table("t")
        self.assertEqual([found.row for found in rows], [b"b", b"c", b"d"])

    def test_batches_by_hand(self) -> None:
        with self.root.scan("t") as session:
            self.assertEqual(session.fetch(0), ([], True))
            self.assertEqual([found.row for found in session.fetch(4)[0]], [b"a", b"b", b"c", b"d"])
            self.assertEqual(session.fetch(4), ([], False))
            self.assertEqual(session.fetch(4), ([], False))
            self.assertEqual(len(session.ranges([Range()])[0]), 4)

    def test_an_iteration_goes_on(self) -> None:
        with self.root.scan("t", batch=3) as session:
            self.assertEqual(next(iter(session)).row, b"a")
            self.assertEqual(([found.row for found in session.fetch(1)[0]], session.fetch(0)), ([b"b"], ([], True)))
            self.assertEqual([found.row for found in session], [b"c", b"d"])
        with self.root.scan("t", batch=4) as session:
            self.assertEqual(next(iter(session)).row, b"a")
            found, more = session.fetch(9)
            self.assertEqual(([cell.row for cell in found], more), ([b"b", b"c", b"d"], False))
        session = self.root.scan("t", batch=2)
        cells = iter(session)
        next(cells)
        session.close()
        self.assertRaises(tabd.NoSession, session.fetch, 1)
        # an iteration that was under way says that it isn't the end, and gives nothing that was fetched before
        self.assertRaises(tabd.NoSession, list, cells)

    def test_one_that_was_closed_is_not_empty(self) -> None:
        for text in (False, True):
            with self.root.scan("t", text=text) as session:
                pass
            session.close()
            for ask in (lambda: list(session), lambda: session.fetch(1), lambda: session.ranges([])):
                with self.refused(tabd.NoSession, session.number):
                    ask()
        with self.root.scan("t") as session:
            next(iter(session))
        self.assertRaises(tabd.NoSession, list, session)

    def test_one_that_is_exhausted_is_empty(self) -> None:
        for limit in (None, 2, 0):
            with self.root.scan("t", limit=limit) as session:
                self.assertEqual(len(list(session)), 4 if limit is None else limit)
                self.assertEqual(list(session), [])
            self.assertEqual(list(session), [])
        with self.root.scan("t") as session:
            self.assertEqual((len(session.fetch(5)[0]), list(session)), (4, []))
        self.assertEqual(list(session), [])

    def test_it_closes_behind_the_last_cell(self) -> None:
        session = self.root.scan("t", batch=3)
        self.assertEqual((session.number, len(list(session))), (0, 4))
        self.assertTrue(session.closed)
        self.assertFalse(self.is_open(0))

    def test_it_closes_where_it_is_left_early(self) -> None:
        for found in self.root.scan("t", batch=2):
            self.assertEqual(found.row, b"a")
            break
        self.root.status("t")
        self.assertFalse(self.is_open(0))
        with self.root.scan("t") as session:
            self.assertTrue(self.is_open(session.number))
        self.assertFalse(self.is_open(session.number))
        session.close()
        with self.assertRaises(ZeroDivisionError), self.root.scan("t") as session:
            print(1 / 0)
        self.assertFalse(self.is_open(session.number))

    def test_two_at_once(self) -> None:
        for one, two in zip(self.root.scan("t", batch=1), self.root.scan("t", batch=3)):
            self.assertEqual(one, two)
