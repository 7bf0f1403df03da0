"""The driver of the client in Python: see suite.py. Usage: driver.py PLACE USER [SECONDS]"""
import inspect
import re
import sys
from pathlib import Path

sys.dont_write_bytecode = True
sys.path.insert(0, str(Path(__file__).resolve().parent.parent.parent / "clients/python"))
import tabd  # noqa: E402

BYTES = re.compile(rb"(?:[!-\[\]-~]|\\\\|\\x[0-9a-f]{2})+")
ESCAPED = re.compile(rb"\\(?:\\|x(..))")
NAME = re.compile(rb"[a-zA-Z0-9_.-]{1,128}")


class LineFault(Exception):
    """The line is of no form."""


# ---- Words.
def byte_word(word):
    if word == rb"\e":
        return b""
    if not BYTES.fullmatch(word):
        raise LineFault
    return ESCAPED.sub(lambda found: bytes([int(found[1], 16)]) if found[1] else b"\\", word)


def spelled(text):
    if not text:
        return b"\\e"
    return b"".join(b"\\\\" if byte == 92 else bytes([byte]) if 33 <= byte <= 126 else b"\\x%02x" % byte for byte in text)


def name(word):
    found = byte_word(word)
    if not NAME.fullmatch(found):
        raise LineFault
    return found.decode("ascii")


def members(word):
    return [] if word == rb"\0" else word.split(b",")


def authorizations(word):
    return sorted({byte_word(member) for member in members(word)})


def one_of(word, words):
    if word.decode("latin-1") not in words:
        raise LineFault
    return word.decode("ascii")


def number(word, least, greatest):
    if not re.fullmatch(rb"-?[0-9]+", word) or re.fullmatch(rb"-0+", word) or not least <= int(word) <= greatest:
        raise LineFault
    return int(word)


def whole(word):
    return number(word if word[:1] != b"-" else b"", 0, 2**32 - 1)


def time(word):
    return number(word, -(2**63), 2**63 - 1)


def bound(word):
    if word == rb"\0":
        return None, True
    if word[:1] not in (b"[", b"("):
        raise LineFault
    return byte_word(word[1:]), word[:1] == b"["


def range_of(low, high):
    (row, with_low), (to, with_high) = bound(low), bound(high)
    return tabd.Range(row, to, with_low, with_high)


def column(word):
    family, colon, qualifier = word.partition(b":")
    return (byte_word(family), byte_word(qualifier)) if colon else byte_word(family)


def scan_words(words):
    if len(words) not in (2, 4, 5):
        raise LineFault
    rows = range_of(*words[2:4]) if len(words) > 2 else tabd.Range()
    columns = [column(word) for word in members(words[4])] if len(words) > 4 else []
    return name(words[0]), authorizations(words[1]), rows, columns


def updates(words):
    found, stamp = [], lambda word: None if word == b"-" else time(word)
    while words:
        if words[0] == b"put" and len(words) >= 6:
            found.append(tabd.Put(*map(byte_word, words[1:5]), stamp(words[5])))
            words = words[6:]
        elif words[0] == b"del" and len(words) >= 5:
            found.append(tabd.Delete(*map(byte_word, words[1:4]), stamp(words[4])))
            words = words[5:]
        else:
            raise LineFault
        if words[:1] == [b";"] and len(words) > 1:
            words = words[1:]
        elif words:
            raise LineFault
    return found


# ---- Texts of replies.
def put(*words):
    sys.stdout.buffer.write(b" ".join(words) + b"\n")


def put_cells(cells):
    for it in cells:
        put(spelled(it.row), spelled(it.family), spelled(it.qualifier), spelled(it.label), b"%d" % it.timestamp, spelled(it.value))


def put_refused(error):
    told = []
    for part in error.args:
        if isinstance(part, tabd.Permission):
            told += [("System." if part.table is None else "Table.") + part.name] + ([part.table] if part.table is not None else [])
        elif isinstance(part, tuple):
            told += ["%d:%d:%d" % (tabd.CONSTRAINTS.index(it.constraint) + 1, it.code, it.update) for it in part]
        else:
            told.append(spelled(part).decode("ascii") if isinstance(part, bytes) else str(part))
    put(("refused %d %s" % (error.number, type(error).__name__)).encode(), *(word.encode() for word in told))


class Driver:
    def __init__(self, place, user, seconds):
        self.place = int(place) if place.isdigit() else place
        self.first, self.seconds = user, seconds
        self.user, self.clients, self.sessions = user, {}, {}
        self.forms = {word[3:].encode(): inspect.signature(getattr(self, word)) for word in dir(self) if word.startswith("do_")}

    @property
    def client(self):
        """The user's connection, made where there is none: only once all words of a line are read."""
        if self.user not in self.clients:
            self.clients[self.user] = tabd.connect(self.place, self.user, timeout=self.seconds)
            self.sessions[self.user] = {}
        return self.clients[self.user]

    def session(self, key):
        """The session of this number. One that isn't open is asked for all the same, and isn't closed when it is forgotten."""
        client = self.client
        found = self.sessions[self.user].get(key)
        if found is None:
            found = tabd.Session(client._connection, key, 1000)
            found.closed = True
        return found

    def do(self, words):
        if words[0] not in self.forms:
            raise LineFault
        try:
            self.forms[words[0]].bind(*words[1:])
        except TypeError:
            raise LineFault from None
        getattr(self, "do_" + words[0].decode("ascii"))(*words[1:])

    def answer(self, line):
        words = [] if line.startswith(b"#") else [word for word in line.split(b" ") if word]
        try:
            if words:
                self.do(words)
        except LineFault:
            put(b"line fault")
        except tabd.Refused as error:
            put_refused(error)
        except (tabd.TabdError, OSError) as error:
            self.clients.pop(self.user, None)
            kind = b"timeout" if isinstance(error, TimeoutError) else b"protocol" if isinstance(error, tabd.ProtocolError) else b"closed"
            put(b"fault", kind)
        except ValueError as error:
            if not str(error).startswith("a request of "):
                raise
            put(b"refused 16 BadFrame toolong")

    def done(self, method, *arguments, **named):
        getattr(self.client, method)(*arguments, **named)
        put(b"ok")

    # ---- Who asks.
    def do_as(self, user):
        self.user = name(user)

    def do_hangup(self):
        for client in self.clients.values():
            client.close()
        self.user, self.clients = self.first, {}

    # ---- Tables.
    def do_createtable(self, table, *words):
        form = re.fullmatch(rb"(?:time=(any|server) ?)?(?:versions=([0-9]+))?", b" ".join(words))
        if not form or form[0].endswith(b" "):
            raise LineFault
        versions = 1 if form[2] is None else number(form[2], 1, 1000)
        self.done("create_table", name(table), server_time=form[1] == b"server", versions=versions)

    def do_droptable(self, table):
        self.done("drop_table", name(table))

    def do_constraints(self, table, rules):
        self.done("set_constraints", name(table), [one_of(byte_word(word), tabd.CONSTRAINTS) for word in members(rules)])

    def do_versions(self, table, count):
        self.done("set_versions", name(table), number(count, 1, 1000))

    def do_horizon(self, table, horizon):
        self.done("set_horizon", name(table), time(horizon))

    def do_flush(self, table):
        self.done("flush", name(table))

    def do_compact(self, table, extent):
        self.done("compact", name(table), full=one_of(extent, ("partial", "full")) == "full")

    def do_addsplit(self, table, row):
        self.done("add_split", name(table), byte_word(row))

    def do_splits(self, table):
        table = name(table)
        for row in self.client.splits(table):
            put(spelled(row))
        put(b"end")

    def do_status(self, table):
        table = name(table)
        told = self.client.status(table)
        put(b"tablets %d sources %d records %d" % (told.tablets, told.sources, told.records))

    def do_rotate(self):
        self.done("rotate")

    # ---- Users.
    def do_createuser(self, user):
        self.done("create_user", name(user))

    def do_dropuser(self, user):
        self.done("drop_user", name(user))

    def do_setauths(self, user, auths):
        self.done("set_authorizations", name(user), authorizations(auths))

    def permit(self, method, user, permission, table):
        if table is None:
            self.done(method, name(user), one_of(permission, tabd.SYSTEM_PERMISSIONS))
        else:
            self.done(method, name(user), one_of(permission, tabd.TABLE_PERMISSIONS), name(table))

    def do_grant(self, user, permission, table=None):
        self.permit("grant", user, permission, table)

    def do_revoke(self, user, permission, table=None):
        self.permit("revoke", user, permission, table)

    def do_rights(self, table):
        table = name(table)
        told = self.client.rights(table)
        put(b"system", *(word.encode() for word in told.system))
        put(b"table", *(word.encode() for word in told.table))
        for auth in told.authorizations:
            put(b"auth", spelled(auth))
        put(b"end")

    # ---- Cells.
    def do_insert(self, table, row, family, qualifier, label, value, stamp=None):
        column = map(byte_word, (family, qualifier, label, value))
        self.done("write", name(table), byte_word(row), [tabd.Put(*column, None if stamp is None else time(stamp))])

    def do_delete(self, table, row, family, qualifier, label, stamp=None):
        column = map(byte_word, (family, qualifier, label))
        self.done("write", name(table), byte_word(row), [tabd.Delete(*column, None if stamp is None else time(stamp))])

    def do_mutate(self, table, row, *words):
        self.done("write", name(table), byte_word(row), updates(list(words)))

    def do_scan(self, *words):
        asked = scan_words(words)
        with self.client.scan(*asked) as session:
            put_cells(session)
        put(b"end")

    def do_open(self, *words):
        asked = scan_words(words)
        session = self.client.scan(*asked)
        self.sessions[self.user][session.number] = session
        put(b"session %d" % session.number)

    def do_next(self, key, count):
        key, count = whole(key), whole(count)
        cells, more = self.session(key).fetch(count)
        put_cells(cells)
        put(b"more" if more else b"end")

    def do_many(self, key, *words):
        if len(words) % 2:
            raise LineFault
        key, ranges = whole(key), [range_of(*pair) for pair in zip(words[::2], words[1::2])]
        for cells in self.session(key).ranges(ranges):
            put_cells(cells)
            put(b"range")

    def do_close(self, key):
        # (a session's own close goes with the next request, and its reply isn't heard)
        key = whole(key)
        self.client._ask(tabd.requests.close_session(key))
        session = self.sessions[self.user].pop(key, None)
        if session is not None:
            session.closed = True
        put(b"ok")


def main(place, user, seconds="60"):
    driver = Driver(place, user, float(seconds))
    for line in sys.stdin.buffer:
        driver.answer(line[:-1] if line.endswith(b"\n") else line)
        sys.stdout.buffer.flush()


main(*sys.argv[1:])
