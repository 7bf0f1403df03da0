"""What is asked and told, over a server."""
from running import Case, cell, tabd
from tabd import Delete, Put, Range


class Requests(Case):
    def test_writes_and_scans(self) -> None:
        self.root.write("t", "b", [Put("f", "q", value="w", timestamp=5), Put("g", "q", value="x", timestamp=-1)])
        self.root.write("t", b"a\0\xff", [Put(b"f", b"q", value=b"\0\n", timestamp=5)])
        first, second, third = cell(b"a\0\xff", b"\0\n"), cell(b"b", b"w"), cell(b"b", b"x", family=b"g", timestamp=-1)
        self.assertEqual(list(self.root.scan("t")), [first, second, third])
        self.assertEqual(list(self.root.scan("t", rows=Range("b"))), [second, third])
        self.assertEqual(list(self.root.scan("t", rows=Range(high="b", with_high=False))), [first])
        self.assertEqual(list(self.root.scan("t", rows=Range("b", with_low=False))), [])
        self.assertEqual(list(self.root.scan("t", columns=["g"])), [third])
        self.assertEqual(list(self.root.scan("t", columns=[("f", "q"), ("g", "no")])), [first, second])

    def test_text_is_utf_8(self) -> None:
        self.root.write("t", "zürich", [Put("f", "q", value="é", timestamp=5)])
        self.assertEqual(list(self.root.scan("t")), [cell("zürich".encode(), "é".encode())])

    def test_deletes(self) -> None:
        self.root.write("t", "r", [Put("f", "q", value="old", timestamp=4), Put("f", "q", value="new", timestamp=6), Delete("f", "q", timestamp=5)])
        self.assertEqual(list(self.root.scan("t")), [cell(b"r", b"new", timestamp=6)])
        self.root.write("t", "r", [Delete("f", "q", timestamp=6)])
        self.assertEqual(list(self.root.scan("t")), [])

    def test_versions_and_server_time(self) -> None:
        self.root.create_table("u", versions=2, server_time=True)
        for value in "xyz":
            self.root.write("u", "r", [Put("f", "q", value=value)])
        self.assertEqual([found.value for found in self.root.scan("u")], [b"z", b"y"])
        with self.refused(tabd.TimestampNotAllowed, 1):
            self.root.write("u", "r", [Put("f", "q", value="v"), Put("f", "q", value="v", timestamp=1)])

    def test_versions_that_become_fewer(self) -> None:
        self.root.create_table("u", versions=3)
        self.root.write("u", "r", [Put("f", "q", value=value, timestamp=at) for at, value in enumerate("wxyz")])
        before = self.root.scan("u")
        self.root.set_versions("u", 2)
        self.assertEqual([found.value for found in self.root.scan("u")], [b"z", b"y"])
        self.assertEqual([found.value for found in before], [b"z", b"y", b"x"])
        with self.refused(tabd.VersionsRaised, 2):
            self.root.set_versions("u", 3)
        self.root.set_versions("u", 2)
        self.root.set_versions("u", 1)
        self.assertEqual([found.value for found in self.root.scan("u")], [b"z"])

    def test_horizons(self) -> None:
        self.root.set_horizon("t", -3)
        self.root.set_horizon("t", -3)
        self.root.write("t", "r", [Put("f", "q", value="v", timestamp=-3)])
        with self.refused(tabd.BelowHorizon, 1):
            self.root.write("t", "r", [Put("f", "q", value="w", timestamp=-3), Put("f", "q", value="x", timestamp=-4)])
        with self.refused(tabd.BelowHorizon, 0):
            self.root.write("t", "r", [Delete("f", "q", timestamp=-4)])
        self.assertEqual(list(self.root.scan("t")), [cell(b"r", b"v", timestamp=-3)])
        with self.refused(tabd.HorizonLowered, -3):
            self.root.set_horizon("t", -(1 << 63))
        self.root.set_horizon("t", (1 << 63) - 1)
        with self.refused(tabd.BelowHorizon, 0):
            self.root.write("t", "r", [Put("f", "q", value="w")])
        self.root.create_table("u", server_time=True)
        with self.refused(tabd.ServerTime):
            self.root.set_horizon("u", 5)

    def test_labels_and_authorizations(self) -> None:
        self.root.set_authorizations("root", ["a", "b", "c d"])
        labels = ["", "a", "a&b", "a|x", "x", 'a&(x|"c d")']
        self.root.write("t", "r", [Put("f", str(at), label, "v", 5) for at, label in enumerate(labels)])
        for held, seen in (([], [0]), (["a"], [0, 1, 3]), (["b"], [0]), (["b", "a"], [0, 1, 2, 3]), (["a", "c d"], [0, 1, 3, 5])):
            self.assertEqual([int(found.qualifier) for found in self.root.scan("t", held)], seen)

    def test_tables_splits_and_compactions(self) -> None:
        self.root.write("t", "a", [Put("f", "q", value="v", timestamp=5)])
        self.assertEqual(self.root.status("t"), tabd.Status(1, 0, 1))
        self.root.flush("t")
        self.assertEqual(self.root.status("t"), tabd.Status(1, 1, 1))
        self.root.add_split("t", "m")
        self.root.add_split("t", b"c\xff")
        self.assertEqual(self.root.splits("t"), [b"c\xff", b"m"])
        self.root.compact("t")
        self.root.compact("t", full=True)
        self.assertEqual(self.root.status("t").tablets, 3)
        self.assertEqual(list(self.root.scan("t")), [cell(b"a", b"v")])
        self.root.drop_table("t")
        self.root.create_table("t")
        self.assertEqual((list(self.root.scan("t")), self.root.splits("t")), ([], []))

    def test_rights(self) -> None:
        self.root.set_authorizations("root", ["b", "a", "b"])
        self.assertEqual(self.root.rights("t"), tabd.Rights(tabd.SYSTEM_PERMISSIONS, tabd.TABLE_PERMISSIONS, (b"a", b"b")))
        self.root.revoke("root", "DROP_TABLE", "t")
        self.root.revoke("root", "READ", "t")
        self.assertEqual(self.root.rights("t").table, ("WRITE", "ALTER_TABLE", "GRANT"))
        self.root.grant("root", "READ", "t")
        self.assertEqual(self.root.rights("t").table, ("READ", "WRITE", "ALTER_TABLE", "GRANT"))

    def test_ranges(self) -> None:
        for row in "abcd":
            self.root.write("t", row, [Put("f", "q", value="v", timestamp=5)])
        with self.root.scan("t") as session:
            self.assertEqual(session.ranges([]), [])
            found = session.ranges([Range("a", "a"), Range("a", "c", False, False), Range(), Range("x"), Range(high="b")])
            self.assertEqual([[one.row for one in rows] for rows in found], [[b"a"], [b"b"], [b"a", b"b", b"c", b"d"], [], [b"a", b"b"]])
            with self.refused(tabd.BadRange):
                session.ranges([Range("b", "a")])
            with self.refused(tabd.TooLarge, "ranges"):
                session.ranges([Range()] * 1001)
            self.assertEqual(len(session.ranges([Range("a", "a")] * 1000)), 1000)

    def test_a_history_begun_anew(self) -> None:
        self.root.write("t", "r", [Put("f", "q", value="v", timestamp=5)])
        try:
            self.root.rotate()
        except tabd.BadFrame as refusal:
            self.assertEqual(refusal.reason, "opcode")
            self.skipTest("rotate (the server doesn't know it)")
        self.assertEqual(list(self.root.scan("t")), [cell(b"r", b"v")])
        self.root.create_user("bob")
        with self.refused(tabd.PermissionDenied, tabd.Permission("SYSTEM")):
            self.client("bob").rotate()
