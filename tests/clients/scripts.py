"""The scripts by which clients are judged: those of tests/cases, and random ones."""
import random
import re
from pathlib import Path

CASES = Path(__file__).resolve().parent.parent / "cases"
NO_SHELL = re.compile(rb" *(at|save|load|splitsize|begin|merge|install)( |$)")


class Case:
    """A script of tests/cases: its lines, and what `tabd script` prints."""

    def __init__(self, title):
        self.title, self.lines, self.wanted = title, [], b""

    @property
    def is_a_scripts(self):
        """Whether a server can't print the same: moments, jobs and files are a script's alone, and so are a clock that stands, and scans that
        take no number."""
        words = {line.split(b" ")[0] for line in self.lines}
        return {b"scan", b"open"} <= words or any(NO_SHELL.match(line) or takes_the_clock(line) for line in self.lines)


def takes_the_clock(line):
    """Whether a cell gets the clock, which is the machine's at a server."""
    words = line.split()
    at = {b"insert": 7, b"delete": 6}.get(words[0] if words else b"")
    return b"time=server" in words or len(words) == at or words[:1] == [b"mutate"] and b"-" in words


def hides_by_the_clock(line):
    """Whether a marker gets the clock."""
    return takes_the_clock(line) and (line.split()[0] == b"delete" or b"del" in line.split())


def cases():
    """All scripts of tests/cases."""
    for file in sorted(CASES.glob("*.txt")):
        found = []
        for line in file.read_bytes().split(b"\n"):
            if line.startswith(b"# "):
                found.append(Case(f"{file.name}: {line[2:].decode('latin-1')}"))
            elif line.startswith(b">"):
                found[-1].lines.append(line[2:])
            elif line:
                found[-1].wanted += line + b"\n"
        yield from found


# ---- Random scripts.
USERS, TABLES = [b"root", b"root", b"root", b"bob", b"eve", b"ghost"], [b"t", b"t", b"t", b"u", b"none"]
ROWS = [b"a", b"b", b"c", b"c\\x00", b"\\xff", b"\\e", b"Z", b"row\\x20with\\x0a"]
FAMILIES, QUALIFIERS = [b"f", b"g", b"f\\x3a", b"\\e"], [b"q", b"r", b"\\e", b"q\\x2c"]
LABELS = [b"\\e"] * 4 + [b"A", b"B", b"A&B", b"A|B", b"(A|B)&C", b'"x\\x20y"|A', b"a&", b"A&B|C", b"(", b'"', b"\\x00"]
AUTHS = [b"\\0", b"\\0", b"A", b"A,B", b"B,A,C", b"C", b"A,A", b"\\e", b"x\\x20y,A"]
VALUES = [b"v", b"7", b"\\e", b"\\x00\\xff", b"-12", b"v" * 300, b"\\\\x", b"word"]
TIMES = [b"5", b"6", b"7", b"-3", b"0", b"007", b"9223372036854775807", b"-9223372036854775808"]
SYSTEM = [b"GRANT", b"CREATE_TABLE", b"DROP_TABLE", b"ALTER_TABLE", b"CREATE_USER", b"DROP_USER", b"ALTER_USER", b"SYSTEM"]
OF_TABLE = [b"READ", b"WRITE", b"ALTER_TABLE", b"GRANT", b"DROP_TABLE"]
STRAYS = [b"", b"  ", b"# said", b"at 5", b"as", b"scan t", b"scan t \\0 [a", b"insert t r\\q f q l v", b"next 0 -1", b"many 0 [a", b"SCAN t \\0",
          b"insert t r f q \\e v +5", b"mutate t r ;", b"compact t minor", b"grant root READ", b"setauths root a,,b", b"\xff\xfe", b"save x", b"versions t 1001"]
BEGINNINGS = [[b"createtable t versions=3", b"setauths root A,B"], [b"createtable t", b"createtable u time=server versions=2", b"setauths root A,B,C"],
              [b"createtable t versions=1000", b"createuser bob", b"grant bob READ t", b"grant bob WRITE t", b"setauths bob A"], []]


class Maker:
    """A random script by a seed: the same lines for the same seed, whatever the client."""

    def __init__(self, seed):
        self.r = random.Random(seed)

    def lines(self):
        """A script that begins in one of some ways, each line of any kind."""
        kinds = [self.insert] * 8 + [self.mutate] * 3 + [self.delete] * 2 + [self.scan] * 5 + [self.open] * 2 + [self.next] * 4 + [self.many] * 2
        kinds += [self.close, self.asker, self.asker, self.setting, self.setting, self.tablets, self.tablets, self.user, self.right, self.stray]
        return self.r.choice(BEGINNINGS) + [self.r.choice(kinds)() for _ in range(self.r.randrange(4, 24))]

    def one(self, of):
        return self.r.choice(of)

    def join(self, *words):
        return b" ".join(words)

    def stamp(self, otherwise=b""):
        return self.one(TIMES) if self.r.randrange(6) else otherwise

    def insert(self):
        words = (b"insert", self.one(TABLES), self.one(ROWS), self.one(FAMILIES), self.one(QUALIFIERS), self.one(LABELS), self.one(VALUES))
        return self.join(*words, self.stamp()).rstrip()

    def delete(self):
        return self.join(b"delete", self.one(TABLES), self.one(ROWS), self.one(FAMILIES), self.one(QUALIFIERS), self.one(LABELS), self.one(TIMES))

    def update(self):
        column = self.join(self.one(FAMILIES), self.one(QUALIFIERS), self.one(LABELS))
        if self.r.randrange(4):
            return self.join(b"put", column, self.one(VALUES), self.stamp(b"-"))
        return self.join(b"del", column, self.one(TIMES))

    def mutate(self):
        updates = b" ; ".join(self.update() for _ in range(self.r.choice([0, 1, 2, 2, 3, 5])))
        return self.join(b"mutate", self.one(TABLES), self.one(ROWS), updates).rstrip()

    def bound(self):
        return self.one([b"\\0", b"[" + self.one(ROWS), b"(" + self.one(ROWS)])

    def column(self):
        return self.one(FAMILIES) + (b":" + self.one(QUALIFIERS) if self.r.randrange(2) else b"")

    def scanned(self):
        words = [self.one(TABLES), self.one(AUTHS)]
        if self.r.randrange(2):
            words += [self.bound(), self.bound()]
            if self.r.randrange(2):
                words.append(b",".join(self.column() for _ in range(self.r.randrange(1, 4))))
        return self.join(*words)

    def scan(self):
        return self.join(b"scan", self.scanned())

    def open(self):
        return self.join(b"open", self.scanned())

    def key(self):
        return b"%d" % self.r.choice([0, 0, 0, 1, 1, 2, 3, 9])

    def next(self):
        return self.join(b"next", self.key(), b"%d" % self.r.choice([0, 1, 1, 2, 5, 1000, 2**32 - 1]))

    def many(self):
        return self.join(b"many", self.key(), *(self.bound() for _ in range(2 * self.r.randrange(4))))

    def close(self):
        return self.join(b"close", self.key())

    def asker(self):
        return self.join(b"as", self.one(USERS))

    def setting(self):
        table = self.one(TABLES)
        return self.one([
            self.join(b"constraints", table, self.one([b"\\0", b"keysize", b"alphanum,numeric", b"visibility", b"numeric"])),
            self.join(b"versions", table, self.one([b"1", b"2", b"3", b"1000"])),
            self.join(b"horizon", table, self.one(TIMES)),
            self.join(b"createtable", table, self.one([b"", b"time=any", b"versions=2", b"time=server versions=007"])).rstrip(),
            self.join(b"rights", table),
            self.join(b"droptable", table),
        ])

    def tablets(self):
        table = self.one(TABLES)
        return self.one([
            self.join(b"flush", table),
            self.join(b"compact", table, self.one([b"partial", b"full"])),
            self.join(b"addsplit", table, self.one(ROWS)),
            self.join(b"splits", table),
            self.join(b"status", table),
            b"rotate",
        ])

    def user(self):
        user = self.one(USERS)
        return self.one([self.join(b"createuser", user), self.join(b"dropuser", user), self.join(b"setauths", user, self.one(AUTHS))])

    def right(self):
        verb, user = self.one([b"grant", b"grant", b"revoke"]), self.one(USERS)
        if self.r.randrange(3):
            return self.join(verb, user, self.one(OF_TABLE), self.one(TABLES))
        return self.join(verb, user, self.one(SYSTEM))

    def stray(self):
        return self.one(STRAYS)


TIDY = [b"as root", b"setauths root \\0"]


def tidied(lines):
    """The lines, and behind them what leaves the server as if nothing had been asked but for the clock."""
    tables = sorted({words[1] for words in map(bytes.split, lines) if len(words) > 1 and words[0] == b"createtable"})
    users = sorted({words[1] for words in map(bytes.split, lines) if len(words) > 1 and words[0] == b"createuser"})
    return lines + TIDY + [b"droptable " + table for table in tables] + [b"dropuser " + user for user in users]
