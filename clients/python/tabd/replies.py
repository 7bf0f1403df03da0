"""What the frames of a reply say (docs/PROTOCOL.md). A frame of another form is a ValueError here."""
from __future__ import annotations

from dataclasses import dataclass
from typing import Callable, Dict, Optional, Sequence, Tuple, Type, Union

from . import errors
from .data import CONSTRAINTS, SYSTEM_PERMISSIONS, TABLE_PERMISSIONS, Cell, Permission, Rights, Status, Violation
from .requests import Opcode

# ---- Frames that a caller doesn't see.


@dataclass(frozen=True)
class Ok:
    """It is done."""


@dataclass(frozen=True)
class End:
    """Behind cells and rows; `last` tells that no more will come."""

    last: bool


@dataclass(frozen=True)
class Opened:
    session: int


@dataclass(frozen=True)
class Row:
    row: bytes


@dataclass(frozen=True)
class RangeEnd:
    """Behind the cells of a range."""


Reply = Union[Ok, Cell, End, Opened, Row, RangeEnd, Status, Rights]
Answer = Union[Tuple[Reply, ...], errors.Refused]
"""All frames that answer a request, or its refusal."""

LAST: Dict[int, Type[Reply]] = {
    Opcode.OPEN: Opened,
    Opcode.NEXT: End,
    Opcode.MANY: End,
    Opcode.SPLITS: End,
    Opcode.STATUS: Status,
    Opcode.RIGHTS: Rights,
}
"""The frame that ends the answer to a request; Ok where none is named."""

BEFORE: Dict[int, Tuple[Type[Reply], ...]] = {
    Opcode.NEXT: (Cell,),
    Opcode.MANY: (Cell, RangeEnd),
    Opcode.SPLITS: (Row,),
}
"""The frames that may stand before it; none where none is named."""


def is_whole(request: bytes, replies: Sequence[Reply]) -> bool:
    """Whether there are the cells or ranges that the request asks for, and the end says so."""
    asked, end = Opcode(request[0]), replies[-1]
    if not isinstance(end, End):
        return True
    # behind opcode and session stands how many cells are taken at most, or in how many ranges
    count = int.from_bytes(request[5:9], "big")
    if asked == Opcode.NEXT:
        return len(replies) - 1 <= count and end.last == (len(replies) - 1 < count)
    if asked == Opcode.MANY:
        ranges = sum(isinstance(reply, RangeEnd) for reply in replies)
        return end.last and ranges == count and not any(isinstance(reply, Cell) for reply in replies[-2:])
    return end.last


class Fields:
    """The fields of a frame, taken one after the other."""

    def __init__(self, frame: bytes) -> None:
        self._frame, self._at = frame, 0

    def take(self, count: int) -> bytes:
        begin, self._at = self._at, self._at + count
        if self._at > len(self._frame):
            raise ValueError("the frame is cut")
        return self._frame[begin : self._at]

    def end(self) -> None:
        if self._at != len(self._frame):
            raise ValueError("bytes are left over")

    def u8(self) -> int:
        return self.take(1)[0]

    def u32(self) -> int:
        return int.from_bytes(self.take(4), "big")

    def u64(self) -> int:
        return int.from_bytes(self.take(8), "big")

    def i64(self) -> int:
        return int.from_bytes(self.take(8), "big", signed=True)

    def text(self) -> bytes:
        return self.take(self.u32())

    def name(self) -> str:
        return self.text().decode("ascii")

    def one_of(self, words: Sequence[str], first: int = 0) -> str:
        """A byte that is the place of a word, the first of which is counted as told."""
        place = self.u8() - first
        if not 0 <= place < len(words):
            raise ValueError("no word has this place")
        return words[place]

    def some_of(self, words: Sequence[str]) -> Tuple[str, ...]:
        """A byte with a bit for each word."""
        bits = self.u8()
        if bits >> len(words):
            raise ValueError("no word has this bit")
        return tuple(word for place, word in enumerate(words) if bits >> place & 1)

    def permission(self) -> Permission:
        if self.one_of(("system", "table")) == "system":
            return Permission(self.one_of(SYSTEM_PERMISSIONS))
        name = self.one_of(TABLE_PERMISSIONS)
        return Permission(name, self.name())

    def violation(self) -> Violation:
        return Violation(self.one_of(CONSTRAINTS, first=1), self.u8(), self.u32())


# ---- Refusals, by their numbers.


def _of_horizon(fields: Fields) -> errors.Refused:
    why = fields.one_of(("lowered", "below", "server time"))
    if why == "lowered":
        return errors.HorizonLowered(fields.i64())
    return errors.BelowHorizon(fields.u32()) if why == "below" else errors.ServerTime()


REFUSALS: Dict[int, Callable[[Fields], errors.Refused]] = {
    1: lambda fields: errors.UnknownUser(fields.name()),
    2: lambda fields: errors.NoTable(fields.name()),
    3: lambda fields: errors.PermissionDenied(fields.permission()),
    4: lambda fields: errors.BadAuthorizations(fields.text()),
    5: lambda fields: errors.MalformedVisibility(fields.u32(), fields.u32()),
    6: lambda fields: errors.ConstraintViolation(tuple([fields.violation() for _ in range(fields.u32())])),
    7: lambda fields: errors.TimestampNotAllowed(fields.u32()),
    8: lambda fields: errors.EmptyMutation(),
    9: lambda fields: errors.TooLarge(fields.one_of(tuple(errors.TooLarge.LIMITS), first=1)),
    10: lambda fields: errors.TableExists(fields.name()),
    11: lambda fields: errors.UserExists(fields.name()),
    12: lambda fields: errors.NoUser(fields.name()),
    13: lambda fields: errors.BadRange(),
    14: lambda fields: errors.Stale(fields.u64()),
    15: lambda fields: errors.NoSession(fields.u32()),
    16: lambda fields: errors.BadFrame(fields.one_of(tuple(errors.BadFrame.REASONS), first=1)),
    17: lambda fields: errors.NoMemory(),
    18: lambda fields: errors.RootFixed(),
    19: lambda fields: errors.GrantInvalid(),
    20: lambda fields: errors.BadSplit(fields.one_of(tuple(errors.BadSplit.REASONS))),
    21: lambda fields: errors.VersionsRaised(fields.u32()),
    22: _of_horizon,
}


def _refused(fields: Fields) -> errors.Refused:
    number = fields.u8()
    if number not in REFUSALS:
        raise ValueError("no refusal has this number")
    return REFUSALS[number](fields)


# ---- All frames, by their opcodes.


def _cell(fields: Fields) -> Cell:
    return Cell(fields.text(), fields.text(), fields.text(), fields.text(), fields.i64(), fields.text())


def _rights(fields: Fields) -> Rights:
    system, table = fields.some_of(SYSTEM_PERMISSIONS), fields.some_of(TABLE_PERMISSIONS)
    return Rights(system, table, tuple([fields.text() for _ in range(fields.u32())]))


REPLIES: Dict[int, Callable[[Fields], Union[Reply, errors.Refused]]] = {
    0x80: lambda fields: Ok(),
    0x81: _refused,
    0x82: _cell,
    0x83: lambda fields: End(fields.one_of(("more", "end")) == "end"),
    0x84: lambda fields: Opened(fields.u32()),
    0x85: lambda fields: Row(fields.text()),
    0x86: lambda fields: RangeEnd(),
    0x87: lambda fields: Status(fields.u64(), fields.u64(), fields.u64()),
    0x88: _rights,
}


def decode(frame: bytes) -> Union[Reply, errors.Refused]:
    """What a frame says."""
    fields = Fields(frame)
    opcode = fields.u8()
    if opcode not in REPLIES:
        raise ValueError("no reply has this opcode")
    reply = REPLIES[opcode](fields)
    fields.end()
    return reply


# ---- What a refusal means for its request.

INSTEAD: Dict[int, Tuple[str, ...]] = {
    Opcode.DROP_TABLE: ("DROP_TABLE",),
    Opcode.FLUSH: ("WRITE", "ALTER_TABLE"),
    Opcode.COMPACT: ("WRITE", "ALTER_TABLE"),
    Opcode.ADD_SPLIT: ("ALTER_TABLE",),
    Opcode.SPLITS: ("ALTER_TABLE",),
    Opcode.STATUS: ("ALTER_TABLE",),
    Opcode.SET_CONSTRAINTS: ("ALTER_TABLE",),
    Opcode.SET_VERSIONS: ("ALTER_TABLE",),
    Opcode.SET_HORIZON: ("ALTER_TABLE",),
    Opcode.GRANT: ("GRANT",),
    Opcode.REVOKE: ("GRANT",),
}
"""Of requests for which a permission on the system is named those on the table that would do (docs/SCRIPT.md), the narrowest first."""


def explained(refusal: errors.Refused, request: bytes, user: Optional[str]) -> errors.Refused:
    """The refusal, with what it doesn't say but this request does."""
    if isinstance(refusal, errors.PermissionDenied):
        refusal.user, refusal.instead = user, _instead(request, refusal.permission)
    if isinstance(refusal, errors.MalformedVisibility):
        refusal.label = _label(request, refusal.update)
    return refusal


def _instead(request: bytes, missing: Permission) -> Tuple[Permission, ...]:
    """What would do as well as the missing permission, and no more than that table."""
    fields = Fields(request)
    asked = fields.u8()
    if missing.table is not None or asked not in INSTEAD:
        return ()
    if asked in (Opcode.GRANT, Opcode.REVOKE):
        fields.name()
        table = fields.permission().table
    else:
        table = fields.name()
    return () if table is None else tuple([Permission(name, table) for name in INSTEAD[asked]])


def _label(request: bytes, update: int) -> Optional[bytes]:
    """The label of this update of a write, or None where it has no such."""
    fields = Fields(request)
    if fields.u8() != Opcode.WRITE:
        return None
    fields.text(), fields.text()
    if update >= fields.u32():
        return None
    for at in range(update + 1):
        is_put, _, _, label = fields.u8(), fields.text(), fields.text(), fields.text()
        fields.take(8 if fields.u8() else 0)
        if is_put:
            fields.text()
    return label
