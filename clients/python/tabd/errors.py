"""What can go wrong. Each refusal has its number in docs/PROTOCOL.md, what goes with it as attributes, and a message.

    TabdError
        Refused             the server refused a request: one of the classes below it
        ConnectionClosed    the connection ended, failed or was closed
            TimedOut        the server took too long
        ProtocolError       the server said what isn't of the protocol
        InUse               another thread uses the client, or it was made in another process
        NotText             a scan with text=True met a cell that isn't UTF-8
        PoolExhausted       all clients of a pool stayed lent
        PoolClosed          the pool was closed
        WritesFailed        writes of a batch writer were refused, or their answers are missing

What is wrong with the arguments of a call is a TypeError or a ValueError as everywhere in Python, and nothing was sent then.
"""
from __future__ import annotations

from typing import ClassVar, Optional, Tuple

from .data import Cell, Permission, Violation, Write, shortened


class TabdError(Exception):
    """All errors of this package but those about the arguments of a call."""


class OutOfRange(ValueError, OverflowError):
    """A number that doesn't fit its place."""


class ProtocolError(TabdError):
    """The server said what isn't of the protocol. The client is closed."""


class ConnectionClosed(TabdError):
    """The connection ended, failed or was closed. Whether a request that has no answer took effect isn't known."""


class InUse(TabdError):
    """Another thread uses the client, or has a pipeline of it; or a client, or batch writer, was made in another process, before a fork.

    Nothing was sent, and the client goes on as it was.
    """


class NotText(TabdError, ValueError):
    """A scan with `text=True` met a cell of which a `part`, such as "value", isn't UTF-8; `cell` has its bytes."""

    def __init__(self, cell: Cell, part: str) -> None:
        super().__init__(cell, part)
        self.cell = cell
        self.part = part

    def __str__(self) -> str:
        it = self.cell
        row, family, qualifier, label = map(shortened, (it.row, it.family, it.qualifier, it.label))
        key = f"row {row}, column {family} {qualifier}, label {label}, time {it.timestamp}"
        return f"the {self.part} isn't UTF-8: {key}"


class TimedOut(ConnectionClosed, TimeoutError):
    """The server took longer than the client's timeout. The client is closed."""


class PoolExhausted(TabdError, TimeoutError):
    """All clients of a pool stayed lent for longer than its timeout."""


class PoolClosed(TabdError):
    """The pool was closed, and lends no client."""


class WritesFailed(TabdError):
    """Not all writes of a batch writer are done.

    `refused` has pairs of each refused write and its refusal, which changed nothing. `unknown` has the writes without an answer, where the
    connection broke (its error is the `__cause__`): whether they took effect isn't known, and some may never have been sent.
    """

    def __init__(self, refused: Tuple[Tuple[Write, Refused], ...], unknown: Tuple[Write, ...]) -> None:
        super().__init__(refused, unknown)
        self.refused = refused
        self.unknown = unknown

    def __str__(self) -> str:
        said = []
        if self.refused:
            write, refusal = self.refused[0]
            first = f"row {shortened(write.row)} of table {write.table!r}: {type(refusal).__name__}: {refusal}"
            said.append(f"{len(self.refused)} refused (the first: {first})")
        if self.unknown:
            said.append(f"{len(self.unknown)} without an answer")
        return ", ".join(said)


class Refused(TabdError):
    """The server refused a request, which changed nothing but the clock."""

    number: ClassVar[int]


class UnknownUser(Refused):
    """The one who asks is no user, or no longer."""

    number = 1

    def __init__(self, user: str) -> None:
        super().__init__(user)
        self.user = user

    def __str__(self) -> str:
        return f"{self.user!r}, who asks, is no user"


class NoTable(Refused):
    """There is no table of this name."""

    number = 2

    def __init__(self, table: str) -> None:
        super().__init__(table)
        self.table = table

    def __str__(self) -> str:
        return f"there is no table {self.table!r}"


class PermissionDenied(Refused):
    """The one who asks, `user`, lacks a permission: `permission` is the first that would do, and `instead` has those that would do too.

    The permissions of `instead` are on the table where `permission` is on the system, the narrowest first.
    """

    number = 3
    user: Optional[str] = None
    instead: Tuple[Permission, ...] = ()

    def __init__(self, permission: Permission) -> None:
        super().__init__(permission)
        self.permission = permission

    def __str__(self) -> str:
        *others, last = map(str, (*self.instead, self.permission))
        who = "the user" if self.user is None else repr(self.user)
        return f"{who} needs {', '.join(others)}{' or ' if others else ''}{last}"


class BadAuthorizations(Refused):
    """A scan asked for authorizations that the user doesn't hold; `term` is the least of them."""

    number = 4

    def __init__(self, term: bytes) -> None:
        super().__init__(term)
        self.term = term

    def __str__(self) -> str:
        return f"the user doesn't hold {self.term.decode(errors='backslashreplace')!r}"


class MalformedVisibility(Refused):
    """An update's label is none; `offset` is how many bytes of it begin some label. `label` has its bytes."""

    number = 5
    label: Optional[bytes] = None

    def __init__(self, update: int, offset: int) -> None:
        super().__init__(update, offset)
        self.update = update
        self.offset = offset

    def __str__(self) -> str:
        label = "" if self.label is None else f"{shortened(self.label.decode(errors='backslashreplace'))} "
        return f"the label {label}of update {self.update} goes wrong at offset {self.offset}"


class ConstraintViolation(Refused):
    """A write fails constraints of its table; `violations` has each."""

    number = 6

    def __init__(self, violations: Tuple[Violation, ...]) -> None:
        super().__init__(violations)
        self.violations = violations

    def __str__(self) -> str:
        return ", ".join(map(str, self.violations))


class TimestampNotAllowed(Refused):
    """An update has a timestamp, where the table gives them."""

    number = 7

    def __init__(self, update: int) -> None:
        super().__init__(update)
        self.update = update

    def __str__(self) -> str:
        return f"update {self.update} has a timestamp, and the table gives them"


class EmptyMutation(Refused):
    """A write has no updates."""

    number = 8

    def __str__(self) -> str:
        return "a write without updates"


class TooLarge(Refused):
    """Something is over its limit: `part` says what, and is one of LIMITS."""

    number = 9
    LIMITS: ClassVar = {
        "updates": "a write has at most 1,000",
        "row": "at most 1,048,576 bytes",
        "family": "at most 1,048,576 bytes",
        "qualifier": "at most 1,048,576 bytes",
        "label": "at most 1,048,576 bytes",
        "value": "at most 1,048,576 bytes",
        "columns": "a scan has at most 1,000",
        "authorizations": "at most 1,024, of at most 1,024 bytes",
        "ranges": "at most 1,000 at a time",
        "sessions": "a connection has at most 65,536 at once",
        "numbers": "the store has used them up",
    }

    def __init__(self, part: str) -> None:
        super().__init__(part)
        self.part = part

    def __str__(self) -> str:
        return f"{self.part}: {self.LIMITS[self.part]}"


class TableExists(Refused):
    """There is a table of this name already."""

    number = 10

    def __init__(self, table: str) -> None:
        super().__init__(table)
        self.table = table

    def __str__(self) -> str:
        return f"there is a table {self.table!r} already"


class UserExists(Refused):
    """There is a user of this name already."""

    number = 11

    def __init__(self, user: str) -> None:
        super().__init__(user)
        self.user = user

    def __str__(self) -> str:
        return f"there is a user {self.user!r} already"


class NoUser(Refused):
    """There is no user of this name, of whom something was asked."""

    number = 12

    def __init__(self, user: str) -> None:
        super().__init__(user)
        self.user = user

    def __str__(self) -> str:
        return f"there is no user {self.user!r}"


class BadRange(Refused):
    """No row is in a range, since it ends before it begins."""

    number = 13

    def __str__(self) -> str:
        return "the low row of a range is above its high one, or equal to it with one of them left out"


class Stale(Refused):
    """A finished merge isn't installed. No request of this client is refused so today."""

    number = 14

    def __init__(self, sources: int) -> None:
        super().__init__(sources)
        self.sources = sources

    def __str__(self) -> str:
        return f"the tablet has {self.sources} sources now, and not those of the merge"


class NoSession(Refused):
    """The connection has no session of this number: it was never given, or is closed."""

    number = 15

    def __init__(self, session: int) -> None:
        super().__init__(session)
        self.session = session

    def __str__(self) -> str:
        return f"the connection has no session {self.session}"


class BadFrame(Refused):
    """The server couldn't read a request; `reason` is one of REASONS."""

    number = 16
    REASONS: ClassVar = {
        "empty": "a frame of no bytes",
        "toolong": "a frame over 8,388,608 bytes",
        "cut": "the connection ended inside a frame",
        "opcode": "the server doesn't know this request",
        "field": "the fields of the request aren't of its form",
        "order": "a request out of turn",
    }

    def __init__(self, reason: str) -> None:
        super().__init__(reason)
        self.reason = reason

    def __str__(self) -> str:
        return f"{self.reason}: {self.REASONS[self.reason]}"


class NoMemory(Refused):
    """The server had no memory for a request, of which nothing was done."""

    number = 17

    def __str__(self) -> str:
        return "the server had no memory for it; nothing was done"


class RootFixed(Refused):
    """`root` isn't dropped, nor are its system permissions changed."""

    number = 18

    def __str__(self) -> str:
        return "root can't be dropped, and its system permissions don't change"


class GrantInvalid(Refused):
    """The system permission GRANT was to be given or taken, which is root's alone."""

    number = 19

    def __str__(self) -> str:
        return "the system permission GRANT is root's alone"


class BadSplit(Refused):
    """A tablet wasn't split; `why` is one of REASONS."""

    number = 20
    REASONS: ClassVar = {
        "present": "the row is an end row already",
        "small": "the tablet is too small",
        "onerow": "the tablet holds one row at most",
    }

    def __init__(self, why: str) -> None:
        super().__init__(why)
        self.why = why

    def __str__(self) -> str:
        return f"{self.why}: {self.REASONS[self.why]}"


class VersionsRaised(Refused):
    """More versions were asked for than the table shows, which are `versions`."""

    number = 21

    def __init__(self, versions: int) -> None:
        super().__init__(versions)
        self.versions = versions

    def __str__(self) -> str:
        return f"the table shows {self.versions}, and never more"


class HorizonLowered(Refused):
    """A horizon was asked for below the table's, which is `horizon`."""

    number = 22

    def __init__(self, horizon: int) -> None:
        super().__init__(horizon)
        self.horizon = horizon

    def __str__(self) -> str:
        return f"the table's horizon is {self.horizon}, and never lower"


class BelowHorizon(Refused):
    """An update's time is below the table's horizon; `update` is the first such one."""

    number = 22

    def __init__(self, update: int) -> None:
        super().__init__(update)
        self.update = update

    def __str__(self) -> str:
        return f"the time of update {self.update} is below the table's horizon"


class ServerTime(Refused):
    """A horizon was asked of a table that gives the times."""

    number = 22

    def __str__(self) -> str:
        return "the table gives the times, and has no horizon"
