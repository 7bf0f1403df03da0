"""A strict reader of what a connection was told, and of images, by docs/PROTOCOL.md and docs/SCRIPT.md alone: it parses every byte, and
whatever isn't the protocol's is a `Strange`. It knows what was sent, so of each frame it knows the reason for which it is bad, or what it
asks; and of the reply to that whether it is of the right kind, names what was asked for, and is the first refusal that doesn't depend on
what others did. Cells rise, lie in the rows and columns of their session, and are as many as their End says.

    judge(sent, told)           # the whole answer to a connection that sent these bytes and no more
    judge(sent, told, False)    # a beginning of it
    image_fault(text)           # None where the bytes are an image, else what a load says of them
"""
import struct

MAX_FRAME, MAX_PART, MAX_UPDATES = 8_388_608, 1_048_576, 1_000
MAX_AUTHS, MAX_AUTH = 1_024, 1_024
NAME_BYTES = frozenset(b"abcdefghijklmnopqrstuvwxyzABCDEFGHIJKLMNOPQRSTUVWXYZ0123456789_-.")
TERM_BYTES = frozenset(b"abcdefghijklmnopqrstuvwxyzABCDEFGHIJKLMNOPQRSTUVWXYZ0123456789_-:./")
EMPTY, TOO_LONG, CUT, OPCODE, FIELD, ORDER = range(1, 7)
HELLO, CREATE_TABLE, DROP_TABLE, CREATE_USER, DROP_USER, SET_AUTHS, GRANT, REVOKE, SET_CONSTRAINTS, WRITE, OPEN = range(1, 12)
NEXT, MANY, CLOSE, FLUSH, COMPACT, ADD_SPLIT, SPLITS, STATUS, RIGHTS, SET_VERSIONS, SET_HORIZON, ROTATE = range(12, 24)
OK, REFUSED, CELL, END, OPENED, ROW, RANGE_END, COUNTS, TOLD_RIGHTS = range(0x80, 0x89)
SYSTEM = {CREATE_TABLE: 1, DROP_TABLE: 2, CREATE_USER: 4, DROP_USER: 5, SET_AUTHS: 6, ROTATE: 7}  # the first permission that would do
SYSTEM.update(dict.fromkeys((SET_CONSTRAINTS, SET_VERSIONS, SET_HORIZON, FLUSH, COMPACT, ADD_SPLIT, SPLITS, STATUS), 3))
CODES = {1: (1,), 2: (1, 2, 3), 3: (1,), 4: (2,)}  # of each constraint


class Strange(Exception):
    """What was told isn't of the protocol."""


class Short(Exception):
    """The bytes aren't of the form."""


def demand(holds, *why):
    if not holds:
        raise Strange(" ".join(map(str, why)))


# ---- Labels.
def label_fault(text):
    """None for a label, else the length of its longest front that begins one."""
    state, joiners = "operand", [None]
    for at, byte in enumerate(text):
        if state in ("quoted", "quote"):
            if byte == 34 and state == "quote":
                return at
            state = "closed" if byte == 34 else "escape" if byte == 92 else "quoted"
        elif state == "escape":
            if byte not in b'"\\':
                return at
            state = "quoted"
        elif byte in TERM_BYTES and state != "closed":
            state = "term"
        elif state == "operand":
            if byte == 34:
                state = "quote"
            elif byte == 40 and len(joiners) <= 64:
                joiners.append(None)
            else:
                return at
        elif byte in b"&|" and joiners[-1] in (None, byte):
            joiners[-1], state = byte, "operand"
        elif byte == 41 and len(joiners) > 1:
            joiners.pop()
            state = "closed"
        else:
            return at
    return None if not text or state in ("term", "closed") and len(joiners) == 1 else len(text)


# ---- Bytes from left to right.
class Bytes:
    def __init__(self, text, at=0):
        self.text, self.at = text, at

    def take(self, count):
        if count > len(self.text) - self.at:
            raise Short
        self.at += count
        return self.text[self.at - count : self.at]

    def number(self, form):
        return struct.unpack(">" + form, self.take(struct.calcsize(form)))[0]

    def u8(self, below=256):
        return self.within(self.take(1)[0], 0, below - 1)

    def u32(self):
        return self.number("I")

    def within(self, number, least, most):
        if not least <= number <= most:
            raise Short
        return number

    def field(self):
        return self.take(self.u32())

    def name(self):
        text = self.field()
        self.within(len(text), 1, 128)
        if not NAME_BYTES.issuperset(text):
            raise Short
        return text

    def counted(self, least, part, form="I"):
        count = self.number(form)
        if count * least > len(self.text) - self.at:
            raise Short
        return [part() for _ in range(count)]

    def fields(self):
        return self.counted(4, self.field)

    def bound(self):
        kind = self.u8(3)
        return (kind, self.field() if kind else None)

    def bounds(self):
        return (self.bound(), self.bound())

    def column(self):
        return (self.field(), self.field() if self.u8(2) else None)

    def permission(self):
        return (0, self.u8(8), None) if self.u8(2) == 0 else (1, self.u8(5), self.name())

    def update(self):
        kind = self.u8(2)
        key = (self.field(), self.field(), self.field())
        time = self.number("q") if self.u8(2) else None
        return (kind, key, time, self.field() if kind else b"")

    def ends(self):
        if self.at != len(self.text):
            raise Short


# ---- What a frame asks.
def fields_of(opcode, r):
    """What stands behind the opcode, as a tuple whose first part is the name or the session, if there is one."""
    if opcode == ROTATE:
        asked = []
    elif opcode in (NEXT, CLOSE, MANY):
        asked = [r.u32()]
    else:
        asked = [r.name()]
    if opcode == CREATE_TABLE:
        asked += [r.u8(2), r.within(r.u32(), 1, 1000)]
    elif opcode == SET_AUTHS:
        asked += [set(r.fields())]
    elif opcode in (GRANT, REVOKE):
        asked += [r.permission()]
    elif opcode == SET_CONSTRAINTS:
        asked += [r.u8(16)]
    elif opcode == WRITE:
        asked += [r.field(), r.counted(14, r.update)]
    elif opcode == OPEN:
        asked += [r.bounds(), r.counted(5, r.column), set(r.fields())]
    elif opcode == NEXT:
        asked += [r.u32()]
    elif opcode == MANY:
        asked += [r.counted(2, r.bounds)]
    elif opcode == COMPACT:
        asked += [r.u8(2)]
    elif opcode == ADD_SPLIT:
        asked += [r.field()]
    elif opcode == SET_VERSIONS:
        asked += [r.within(r.u32(), 1, 1000)]
    elif opcode == SET_HORIZON:
        asked += [r.number("q")]
    r.ends()
    return asked


def request(greeted, body):
    """What the body of a frame asks: its opcode, and the fields; or 0 and the reason why it is bad."""
    opcode = body[0]
    if not HELLO <= opcode <= ROTATE:
        return 0, OPCODE
    if greeted == (opcode == HELLO):
        return 0, ORDER
    try:
        return opcode, fields_of(opcode, Bytes(body, 1))
    except Short:
        return 0, FIELD


def requests(sent):
    """Each request of the bytes in turn, the reason that ends the connection last, if there is one."""
    at, greeted = 0, False
    while at < len(sent):
        if at + 4 > len(sent):
            yield 0, CUT
            return
        (length,) = struct.unpack_from(">I", sent, at)
        if length == 0 or length > MAX_FRAME or at + 4 + length > len(sent):
            yield 0, EMPTY if length == 0 else TOO_LONG if length > MAX_FRAME else CUT
            return
        asked = request(greeted, sent[at + 4 : at + 4 + length])
        greeted = greeted or asked[0] == HELLO
        at += 4 + length
        yield asked


# ---- What a frame tells.
def refusal(r):
    number = r.u8()
    if number in (1, 2, 10, 11, 12):
        return number, r.name()
    if number == 3:
        return number, r.permission()
    if number == 4:
        return number, r.field()
    if number == 5:
        return number, r.u32(), r.u32()
    if number == 6:
        return number, r.counted(6, lambda: (r.u8(), r.u8(), r.u32()))
    if number in (7, 15, 21):
        return number, r.u32()
    if number == 9:
        return number, r.within(r.u8(), 1, 11)
    if number == 16:
        return number, r.within(r.u8(), 1, 6)
    if number == 20:
        return number, r.u8(3)
    if number == 22:
        kind = r.u8(3)
        return (number, kind) if kind == 2 else (number, kind, r.u32() if kind else r.number("q"))
    if number in (8, 13, 17, 18, 19):
        return (number,)
    raise Short


def reply(body):
    """What the body of a frame tells: its opcode, and its fields."""
    r = Bytes(body, 1)
    try:
        if body[0] == REFUSED:
            told = refusal(r)
        elif body[0] == CELL:
            told = (*(r.field() for _ in range(4)), r.number("q"), r.field())
        elif body[0] == END:
            told = r.u8(2)
        elif body[0] == OPENED:
            told = r.u32()
        elif body[0] == ROW:
            told = r.field()
        elif body[0] == COUNTS:
            told = (r.number("Q"), r.number("Q"), r.number("Q"))
        elif body[0] == TOLD_RIGHTS:
            told = (r.u8(), r.u8(32), r.fields())
        elif body[0] in (OK, RANGE_END):
            told = None
        else:
            raise Strange("no such reply: %s" % body[:20].hex())
        r.ends()
    except Short:
        raise Strange("no form of a reply: %s" % body[:40].hex()) from None
    return body[0], told


class Beginning(Exception):
    """The bytes told end here."""


class Replies:
    """The frames that were told, one by one."""

    def __init__(self, told):
        self.told, self.at = told, 0

    def next(self):
        head = self.told[self.at : self.at + 4]
        if len(head) < 4:
            raise Beginning
        (length,) = struct.unpack(">I", head)
        demand(1 <= length <= MAX_FRAME, "a reply of", length, "bytes")
        body = self.told[self.at + 4 : self.at + 4 + length]
        if len(body) < length:
            raise Beginning
        self.at += 4 + length
        return reply(body)


# ---- Which reply is one to a request.
def is_bad_range(bounds):
    (low, from_row), (high, to_row) = bounds
    return bool(low and high and (from_row > to_row or from_row == to_row and 2 in (low, high)))


def is_in(row, bounds):
    (low, from_row), (high, to_row) = bounds
    above = not low or row > from_row or low == 1 and row == from_row
    return above and (not high or row < to_row or high == 1 and row == to_row)


def are_too_many(auths):
    return len(auths) > MAX_AUTHS or any(len(auth) > MAX_AUTH for auth in auths)


def shape_fault(row, updates):
    """The refusal of a mutation by itself, or None."""
    if not updates:
        return (8,)
    if len(updates) > MAX_UPDATES:
        return 9, 1
    if len(row) > MAX_PART:
        return 9, 2
    for _, key, _, _ in updates:
        for part, text in enumerate(key, 3):
            if len(text) > MAX_PART:
                return 9, part
    if any(len(value) > MAX_PART for _, _, _, value in updates):
        return 9, 6
    for number, (_, (_, _, label), _, _) in enumerate(updates):
        offset = label_fault(label)
        if offset is not None:
            return 5, number, offset
    return None


class Session:
    def __init__(self, bounds, columns):
        self.bounds, self.columns, self.last, self.is_done = bounds, columns, None, False

    def holds(self, cell, bounds):
        demand(is_in(cell[0], self.bounds) and is_in(cell[0], bounds), "a row out of range:", cell[:4])
        demand(not self.columns or any(f == cell[1] and q in (None, cell[2]) for f, q in self.columns), "no such column:", cell[:4])
        demand(all(len(part) <= MAX_PART for part in (*cell[:4], cell[5])), "a part that is too long")
        demand(label_fault(cell[3]) is None, "no label:", cell[3])


def place(cell):
    return (*cell[:4], -cell[4])


class Talk:
    """One connection: what was asked so far, and its sessions. With `is_denied` a request may be refused for want of memory."""

    def __init__(self, told, is_denied=False):
        self.replies, self.is_denied = Replies(told), is_denied
        self.user, self.sessions, self.opened = None, {}, 0

    def refused(self, told, *wanted):
        demand(told in wanted or self.is_denied and told == (17,), "refused", told, "where it can be", wanted)

    def answer(self, opcode, asked):
        """Reads the answer to one request."""
        if opcode == 0:
            demand(self.replies.next() == (REFUSED, (16, asked)), "a bad frame, of which the reason isn't", asked)
        elif opcode == HELLO:
            kind, told = self.replies.next()
            if kind == REFUSED:
                self.refused(told)
            else:
                demand(kind == OK, "Hello is answered by", kind)
            self.user = asked[0]
        elif opcode in (NEXT, MANY, CLOSE):
            self.of_session(opcode, asked)
        else:
            self.event(opcode, asked)

    def event(self, opcode, asked):
        kind, told = self.replies.next()
        if kind == REFUSED:
            if not self.is_policy(opcode, asked, told):
                self.refused(told, *self.own(opcode, asked, told))
            return
        fault = self.certain(opcode, asked)
        demand(fault is None, "accepted where", fault, "comes first")
        if opcode == OPEN:
            demand((kind, told) == (OPENED, self.opened), "opened as", kind, told)
            self.sessions[told] = Session(*asked[1:3])
            self.opened += 1
        elif opcode == SPLITS:
            last = None
            while kind == ROW:
                demand((last is None or last < told) and len(told) <= MAX_PART, "end rows don't rise:", told[:40])
                last, (kind, told) = told, self.replies.next()
            demand((kind, told) == (END, 1), "splits end by", kind, told)
        elif opcode == STATUS:
            demand(kind == COUNTS and told[0] >= 1, "a status is", kind, told)
        elif opcode == RIGHTS:
            demand(kind == TOLD_RIGHTS and told[2] == sorted(set(told[2])) and not are_too_many(told[2]), "rights are", kind, told)
            demand(not told[0] & 1 or self.user == b"root", "who isn't root has GRANT")
        else:
            demand(kind == OK, "answered by", kind)

    def is_policy(self, opcode, asked, told):
        """Whether it is a refusal that comes before the event's own."""
        if told[0] == 1:
            return told[1] == self.user
        if told[0] == 2 and opcode != ROTATE:
            table = asked[1][2] if opcode in (GRANT, REVOKE) else asked[0]
            return told[1] == table and opcode not in (CREATE_TABLE, CREATE_USER, DROP_USER, SET_AUTHS)
        if told[0] != 3:
            return False
        if opcode in (GRANT, REVOKE):
            return told[1] == ((0, 3, None) if asked[1][0] else (0, 0, None))
        if opcode in (OPEN, WRITE):
            return told[1] == (1, 0 if opcode == OPEN else 1, asked[0])
        return opcode in SYSTEM and told[1] == (0, SYSTEM[opcode], None) and self.user != b"root"

    def certain(self, opcode, asked):
        """The first refusal of the event's own that depends on nothing else, or None."""
        if opcode == WRITE:
            return shape_fault(*asked[1:])
        if opcode == OPEN:
            if len(asked[2]) > 1000:
                return 9, 7
            return (9, 8) if are_too_many(asked[3]) else (13,) if is_bad_range(asked[1]) else None
        if opcode == SET_AUTHS and are_too_many(asked[1]):
            return 9, 8
        if opcode == ADD_SPLIT and len(asked[1]) > MAX_PART:
            return 9, 2
        if opcode in (GRANT, REVOKE) and asked[1][:2] == (0, 0):
            return (19,)
        return (18,) if (opcode in (GRANT, REVOKE) and asked[1][0] == 0 or opcode == DROP_USER) and asked[0] == b"root" else None

    def own(self, opcode, asked, told):
        """The refusals of the event's own that are possible, of which `told` may be one."""
        fault = self.certain(opcode, asked)
        possible = [(9, 10)] if opcode == OPEN else []  # too many sessions come before all other checks
        if fault is not None:
            return [*possible, fault]
        number, rest = told[0], told[1:]
        if opcode == WRITE:
            updates = asked[2]
            stamped = [at for at, update in enumerate(updates) if update[2] is not None]
            right = (number == 7 and stamped and rest[0] == stamped[0] or number == 22 and rest[0] == 1 and rest[1] < len(updates)
                     or number == 6 and rest[0] and rest[0] == sorted(rest[0]) and len({pair[:2] for pair in rest[0]}) == len(rest[0])
                     and all(code in CODES.get(which, ()) and at < len(updates) for which, code, at in rest[0]) or told == (9, 11))
        elif opcode == OPEN:
            right = number == 4 and rest[0] in asked[3]
        elif opcode == CREATE_TABLE:
            right = told in ((10, asked[0]), (9, 11))
        elif opcode == CREATE_USER:
            right = told in ((11, asked[0]), (9, 11))
        elif opcode in (DROP_USER, SET_AUTHS, GRANT, REVOKE):
            right = told == (12, asked[0])
        elif opcode == ADD_SPLIT:
            right = told in ((20, 0), (20, 1), (20, 2), (9, 11))
        elif opcode == SET_VERSIONS:
            right = number == 21 and 1 <= rest[0] < asked[1]
        elif opcode == SET_HORIZON:
            right = told == (22, 2) or number == 22 and rest[0] == 0 and rest[1] > asked[1]
        else:
            right = False
        return possible + [told] * bool(right)

    # ---- sessions
    def of_session(self, opcode, asked):
        session = self.sessions.get(asked[0])
        kind, told = self.replies.next()
        if session is None:
            demand(kind == REFUSED, "there is no session", asked[0])
            self.refused(told, (15, asked[0]))
        elif opcode == CLOSE:
            demand(kind == OK, "a close is answered by", kind, told)
            del self.sessions[asked[0]]
        elif opcode == NEXT:
            self.batch(session, asked[1], kind, told)
        elif len(asked[1]) > 1000 or any(map(is_bad_range, asked[1])):
            demand(kind == REFUSED, "ranges that are none are answered by", kind)
            self.refused(told, (9, 9) if len(asked[1]) > 1000 else (13,))
        else:
            self.ranges(session, asked[1], kind, told)

    def batch(self, session, count, kind, told):
        got = 0
        while kind == CELL:
            got += 1
            demand(got <= count and not session.is_done, "more cells than", count)
            demand(session.last is None or session.last <= place(told), "cells don't rise:", told[:5])
            session.holds(told, session.bounds)
            session.last, (kind, told) = place(told), self.replies.next()
        if kind == REFUSED:
            demand(got == 0, "refused behind cells")
            self.refused(told)
            return
        demand((kind, told) == (END, 0 if got == count else 1), got, "of", count, "cells are ended by", kind, told)
        session.is_done = session.is_done or told == 1

    def ranges(self, session, ranges, kind, told):
        if kind == REFUSED:
            self.refused(told)
            return
        for bounds in ranges:
            last = None
            while kind == CELL:
                demand(last is None or last <= place(told), "cells of a range don't rise:", told[:5])
                session.holds(told, bounds)
                last, (kind, told) = place(told), self.replies.next()
            demand(kind == RANGE_END, "a range is ended by", kind, told)
            kind, told = self.replies.next()
        demand((kind, told) == (END, 1), "ranges are ended by", kind, told)


def judge(sent, told, is_whole=True, is_denied=False):
    """Sees that the bytes told answer those sent, wholly or in a beginning. Gives how many requests were answered whole."""
    talk, answered = Talk(told, is_denied), 0
    try:
        for opcode, asked in requests(sent):
            try:
                talk.answer(opcode, asked)
            except Strange as strange:
                raise Strange("request %d, opcode %d: %s" % (answered, opcode, strange)) from None
            answered += 1
    except Beginning:
        demand(not is_whole, "the answer ends behind", answered, "requests")
        return answered
    demand(talk.replies.at == len(told), len(told) - talk.replies.at, "bytes are told behind the last answer")
    return answered


# ---- Images.
def rises(texts):
    return all(low < high for low, high in zip(texts, texts[1:]))


def require(holds):
    if not holds:
        raise Short


def part(r):
    text = r.field()
    require(len(text) <= MAX_PART)
    return text


def record(r, following):
    """The place of a record in the order of records."""
    row, family, qualifier, label = part(r), part(r), part(r), part(r)
    time, kind, number, place_in_it, value = r.number("q"), r.u8(2), r.number("Q"), r.u32(), part(r)
    require(number < following and place_in_it < MAX_UPDATES and (kind or not value) and label_fault(label) is None)
    return row, family, qualifier, label, -time, kind, -number, -place_in_it


def table(r, version, users, following):
    name = r.name()
    is_server, _, _ = r.u8(2), r.within(r.u32(), 1, 1000), r.u8(16)
    horizon = r.number("q") if version == 2 else -(2**63)
    require(not is_server or horizon == -(2**63))
    rights = r.counted(6, lambda: (r.name(), r.within(r.u8(), 1, 31)))
    require(rises([user for user, _ in rights]) and users.issuperset(user for user, _ in rights))
    require(rises(r.counted(4, lambda: part(r))))
    require(rises(r.counted(45, lambda: record(r, following), "Q")))
    return name


def user(r):
    name, bits, auths = r.name(), r.u8(), r.fields()
    require(rises(auths) and not are_too_many(auths) and (bits == 255 if name == b"root" else not bits & 1))
    return name


def image_fault(text):
    """What a load says of these bytes behind `fault load `; None where they are an image."""
    if len(text) >= 8 and text[:6] == b"TABIMG" and text[6:8] not in (b"\0\1", b"\0\2"):
        return "version %d" % struct.unpack(">H", text[6:8])
    r = Bytes(text)
    try:
        require(r.take(6) == b"TABIMG")
        version, _, following = r.number("H"), r.number("q"), r.number("Q")
        users = r.counted(9, lambda: user(r))
        require(rises(users) and b"root" in users)
        require(rises(r.counted(30, lambda: table(r, version, set(users), following))))
        require(r.take(4) == b"END!")
        r.ends()
    except Short:
        return "bad"
    return None
