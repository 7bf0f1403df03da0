"""What Accumulo's own tests and its manual say of labels, scans, deletes and writers, by the client in Python, as far as it has it; with a
command behind the program, a server for that command: PORT and accumulo.txt are added to it.
Usage: accumulo_cases.py PROGRAM [COMMAND..]"""
import re
import subprocess
import sys
import tempfile
from pathlib import Path

sys.dont_write_bytecode = True
HERE = Path(__file__).resolve().parent
sys.path.insert(0, str(HERE.parent.parent / "clients/python"))
import tabd  # noqa: E402
from tabd import Delete, Put, Range  # noqa: E402

from reference import Server  # noqa: E402

LABELS = re.compile(r"(\w+) \|(.*?)\|(?: \|(.*)\|)?")
passed = failed = number = 0


def same(name, told, wanted):
    global passed, failed
    if told == wanted:
        passed += 1
    else:
        failed += 1
        print(f"FAILED: {name}: {told} and not {wanted}")


def refused(name, kind, ask):
    try:
        same(name, ask(), kind)
    except (tabd.Refused, ValueError) as error:
        same(name, type(error), kind)


class Cases:
    def __init__(self, root):
        self.root = root

    def table(self, **how):
        global number
        number += 1
        self.root.create_table(f"case{number}", **how)
        return f"case{number}"

    def write(self, table, *rows):
        """Writes cells and markers, each given as row and update."""
        for row, update in rows:
            self.root.write(table, row, [update])

    def values(self, table, *words, **named):
        return [cell.value for cell in self.root.scan(table, *words, **named)]

    def labels(self):
        self.root.set_authorizations("root", ["one", "two", "three", "four"])
        table = self.table()
        for line in (HERE / "accumulo.txt").read_text().splitlines():
            said, label, _ = (LABELS.fullmatch(line) or LABELS.fullmatch("none ||")).groups()
            if said in ("accepted", "refused"):
                refused(line, None if said == "accepted" else tabd.MalformedVisibility, lambda: self.write(table, ("r", Put("f", "q", label, "v", 1))))
            elif said in ("shown", "hidden"):
                own = self.table()
                self.write(own, ("r", Put("f", "q", label, "v", 1)))
                same(line, self.values(own, ["one", "two", "three", "four"]), [b"v"] if said == "shown" else [])

    def versions(self):
        table = self.table()
        self.write(table, ("r", Put("f", "q", value="old", timestamp=5)), ("r", Put("f", "q", value="new", timestamp=6)))
        same("two puts of a column", self.values(table), [b"new"])
        self.write(table, ("r", Delete("f", "q", timestamp=5)))
        same("a delete below a put", self.values(table), [b"new"])
        self.write(table, ("r", Delete("f", "q", timestamp=6)), ("r", Put("f", "q", value="late", timestamp=6)))
        same("a put at a delete, later", self.values(table), [])
        self.root.compact(table, full=True)
        self.write(table, ("r", Put("f", "q", value="later", timestamp=6)))
        same("and behind a full compaction, which Accumulo would show", self.values(table), [])
        self.root.set_authorizations("root", ["A", "B"])
        labels = self.table()
        self.write(labels, ("r", Put("f", "q", "B", "kept", 5)), ("r", Delete("f", "q", "A", 5)))
        same("a label is part of the column", self.values(labels, ["A", "B"]), [b"kept"])

    def scans(self):
        table = self.table()
        self.write(table, *((row, Put(family, "q", value=row, timestamp=1)) for row, family in ((b"a", "f"), (b"b", "g"), (b"B", "f"), (b"c", "h"),
                                                                                                (b"\x80", "z"), (b"\x7f", "z"))))
        same("bytes are unsigned", self.values(table), [b"B", b"a", b"b", b"c", b"\x7f", b"\x80"])
        same("a to c, both with", self.values(table, rows=Range("a", "c")), [b"a", b"b", b"c"])
        refused("c to a", tabd.BadRange, lambda: self.root.scan(table, rows=Range("c", "a")))
        same("a family and a column", self.values(table, columns=["g", ("h", "q")]), [b"b", b"c"])

    def authorizations(self):
        table = self.table()
        self.root.set_authorizations("root", [])
        self.write(table, *(("r", Put("f", label, label, label, 1)) for label in ("A", "B", "")))
        same("root holds none at first", self.values(table), [b""])
        refused("an authorization that isn't held", tabd.BadAuthorizations, lambda: self.root.scan(table, ["A"]))
        self.root.set_authorizations("root", ["A", "B"])
        same("a part of those held", self.values(table, ["A"]), [b"", b"A"])

    def writers(self):
        table = self.table()
        try:
            with self.root.pipeline() as wrong:
                for row in range(10):
                    self.root.write(table, f"r{row}", [Put("f", "q", "a&" if row == 5 else "", "v", 1)])
        except tabd.MalformedVisibility:
            same("one bad mutation of ten", list(wrong), [5])
        same("nine are applied", len(self.values(table)), 9)
        self.write(table, ("unseen", Put("f", "q", "never&held", "v", 1)))
        self.root.set_constraints(table, ["visibility"])
        try:
            self.write(table, ("r", Put("f", "q", "never", "v", 1)))
        except tabd.ConstraintViolation as error:
            same("a label that the writer can't read", [(it.constraint, it.code) for it in error.violations], [("visibility", 2)])
        refused("an empty mutation", tabd.EmptyMutation, lambda: self.root.write(table, "r", []))

    def users(self, client):
        self.root.create_user("ann")
        self.root.grant("ann", "CREATE_TABLE")
        with client("ann") as ann:
            ann.create_table("hers")
            same("the maker has all permissions", ann.rights("hers").table, tabd.TABLE_PERMISSIONS)
            refused("no READ on the table", tabd.PermissionDenied, lambda: ann.scan("case1"))
            self.root.drop_user("ann")
            self.root.create_user("ann")
            same("made again, without old rights", ann.rights("hers").table, ())
        same("a split twice", self.root.add_split("hers", "m"), None)
        refused("is refused here", tabd.BadSplit, lambda: self.root.add_split("hers", "m"))

    def moments(self):
        table = self.table()
        self.write(table, ("a", Put("f", "q", value="1", timestamp=1)))
        session = self.root.scan(table)
        self.write(table, ("a", Put("f", "q", value="2", timestamp=2)))
        same("a scan is of the moment at which it began", [cell.value for cell in session], [b"1"])


def main(program, *command):
    with tempfile.TemporaryDirectory() as folder, Server(program, folder, port=True) as server:
        if command:
            sys.exit(subprocess.run([*command, server.place, str(HERE / "accumulo.txt")], stderr=subprocess.STDOUT, timeout=240).returncode)
        with tabd.connect(int(server.place), "root") as root:
            cases = Cases(root)
            for part in (cases.labels, cases.versions, cases.scans, cases.authorizations, cases.writers, cases.moments):
                part()
            cases.users(lambda user: tabd.connect(int(server.place), user))
    print(f"{passed} passed, {failed} failed")
    sys.exit(1 if failed else 0)


main(*sys.argv[1:])
