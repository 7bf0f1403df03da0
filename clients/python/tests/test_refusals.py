"""Each refusal that a request can provoke, with what goes with it."""
from running import MIB, Case, tabd
from tabd import Put, Range


class Refusals(Case):
    """Each refusal that a request can provoke, with what goes with it."""

    def test_of_names(self) -> None:
        self.root.create_user("bob")
        with self.refused(tabd.NoTable, "no"):
            self.root.scan("no")
        with self.refused(tabd.TableExists, "t"):
            self.root.create_table("t")
        with self.refused(tabd.UserExists, "bob"):
            self.root.create_user("bob")
        with self.refused(tabd.NoUser, "eve"):
            self.root.drop_user("eve")
        self.root.create_table("x" * 128)

    def test_of_permissions(self) -> None:
        self.root.revoke("root", "READ", "t")
        with self.refused(tabd.PermissionDenied, tabd.Permission("READ", "t")):
            self.root.scan("t")
        with self.refused(tabd.RootFixed):
            self.root.drop_user("root")
        with self.refused(tabd.RootFixed):
            self.root.revoke("root", "SYSTEM")
        with self.refused(tabd.GrantInvalid):
            self.root.grant("root", "GRANT")

    def test_of_permissions_that_would_do(self) -> None:
        """Of those that are named each one by itself does."""
        self.root.create_user("kim")
        kim, table, system = self.client("kim"), "on table 't'", "on the system"
        alter = f"ALTER_TABLE {table} or ALTER_TABLE {system}"
        for ask, said in (
            (lambda: kim.scan("t"), f"READ {table}"), (lambda: kim.write("t", "r", [Put("f", "q", value="v")]), f"WRITE {table}"),
            (lambda: kim.flush("t"), f"WRITE {table}, {alter}"), (lambda: kim.compact("t"), f"WRITE {table}, {alter}"),
            (lambda: kim.splits("t"), alter), (lambda: kim.status("t"), alter), (lambda: kim.set_constraints("t", []), alter),
            (lambda: kim.set_versions("t", 1), alter), (lambda: kim.set_horizon("t", -(1 << 63)), alter),
            (lambda: kim.grant("kim", "READ", "t"), f"GRANT {table} or ALTER_TABLE {system}"),
            (lambda: kim.revoke("kim", "READ", "t"), f"GRANT {table} or ALTER_TABLE {system}"),
            (lambda: kim.create_user("eve"), f"CREATE_USER {system}"), (lambda: kim.grant("kim", "SYSTEM"), f"GRANT {system}"),
            (lambda: kim.drop_table("t"), f"DROP_TABLE {table} or DROP_TABLE {system}"),
        ):
            with self.assertRaises(tabd.PermissionDenied) as caught:
                ask()
            self.assertEqual(str(caught.exception), f"'kim' needs {said}")
            for permission in caught.exception.instead:
                self.root.grant("kim", permission.name, permission.table)
                ask()
                if permission.name != "DROP_TABLE":
                    self.root.revoke("kim", permission.name, permission.table)

    def test_of_scans(self) -> None:
        self.root.set_authorizations("root", ["a"])
        with self.refused(tabd.BadAuthorizations, b"b"):
            self.root.scan("t", ["c", "b", "a"])
        with self.refused(tabd.BadRange):
            self.root.scan("t", rows=Range("a", "a", True, False))
        with self.refused(tabd.TooLarge, "columns"):
            self.root.scan("t", columns=["f"] * 1001)
        with self.refused(tabd.TooLarge, "authorizations"):
            self.root.scan("t", [str(at) for at in range(1025)])
        with self.refused(tabd.TooLarge, "authorizations"):
            self.root.set_authorizations("root", ["x" * 1025])
        session = self.root.scan("t")
        session.close()
        with self.refused(tabd.NoSession, session.number):
            session.fetch(1)
        with self.refused(tabd.NoSession, session.number):
            session.ranges([])

    def test_of_writes(self) -> None:
        with self.refused(tabd.EmptyMutation):
            self.root.write("t", "r", [])
        for label, offset in (("a&", 2), ("a|b&c", 3), ("()", 1), ("(" * 65, 64), ('"a', 2)):
            with self.refused(tabd.MalformedVisibility, 1, offset):
                self.root.write("t", "r", [Put("f", "q", value="v"), Put("f", "q", value="v", label=label)])
        long = b"x" * (MIB + 1)
        for part, row, put in (
            ("row", long, Put("f", "q", value="v")),
            ("family", "r", Put(long, "q", value="v")),
            ("qualifier", "r", Put("f", long, value="v")),
            ("label", "r", Put("f", "q", value="v", label=long)),
            ("value", "r", Put("f", "q", value=long)),
        ):
            with self.refused(tabd.TooLarge, part):
                self.root.write("t", row, [put])
        self.assertEqual(list(self.root.scan("t")), [])

    def test_of_constraints(self) -> None:
        self.root.set_constraints("t", ["alphanum", "numeric", "visibility"])
        wanted = (("alphanum", 1, 0), ("alphanum", 2, 1), ("numeric", 1, 0), ("visibility", 2, 1))
        with self.refused(tabd.ConstraintViolation, tuple(tabd.Violation(*one) for one in wanted)):
            self.root.write("t", "r-1", [Put("f", "q", value="x"), Put("f!", "q", value="7", label="secret")])
        self.root.set_constraints("t", ["keysize"])
        with self.refused(tabd.ConstraintViolation, (tabd.Violation("keysize", 1, 0),)):
            self.root.write("t", b"x" * MIB, [Put("f", "q", value="v")])
        self.root.set_constraints("t", [])
        self.root.write("t", "r-1", [Put("f!", "q", value="x", label="secret")])

    def test_of_splits(self) -> None:
        self.root.add_split("t", "m")
        with self.refused(tabd.BadSplit, "present"):
            self.root.add_split("t", "m")
        with self.refused(tabd.TooLarge, "row"):
            self.root.add_split("t", b"x" * (MIB + 1))
