"""What a client says and is told: small values without behaviour."""
from __future__ import annotations

import inspect
from dataclasses import dataclass
from typing import Any, Callable, Optional, Tuple, Union, overload

Text = Union[str, bytes]
"""What is sent as bytes; a str is sent as UTF-8. What is told is always bytes."""

Column = Union[Text, Tuple[Text, Text]]
"""A family, or a pair of family and qualifier."""

SYSTEM_PERMISSIONS = ("GRANT", "CREATE_TABLE", "DROP_TABLE", "ALTER_TABLE", "CREATE_USER", "DROP_USER", "ALTER_USER", "SYSTEM")
TABLE_PERMISSIONS = ("READ", "WRITE", "ALTER_TABLE", "GRANT", "DROP_TABLE")
CONSTRAINTS = ("keysize", "alphanum", "numeric", "visibility")


SHOWN, LONGEST = 60, 80
"""Of a text over the longest that is shown whole, so many bytes or letters are shown."""


def shortened(value: object) -> str:
    """Its `repr`, or of a long text that of its begin, and how long it is."""
    if not isinstance(value, (str, bytes)) or len(value) <= LONGEST:
        return repr(value)
    return f"{value[:SHOWN]!r}.. ({len(value)} {'bytes' if isinstance(value, bytes) else 'letters'})"


def _as_call(it: Any, shown: Callable[[object], str] = repr) -> str:
    """The short call that makes it: in order as far as nothing is left out, and by name behind that."""
    said, left_out = [], False
    for name, parameter in inspect.signature(type(it)).parameters.items():
        given = getattr(it, name)
        if given == parameter.default:
            left_out = True
        else:
            said.append(f"{name}={shown(given)}" if left_out else shown(given))
    return f"{type(it).__name__}({', '.join(said)})"


def _as_short_call(it: Any) -> str:
    """That call, with long texts shortened."""
    return _as_call(it, shortened)


@dataclass(frozen=True)
class Cell:
    """A value with its key."""

    row: bytes
    family: bytes
    qualifier: bytes
    label: bytes
    timestamp: int
    value: bytes

    __repr__ = _as_short_call


@dataclass(frozen=True)
class TextCell:
    """A cell of a scan with `text=True`: all its bytes were UTF-8."""

    row: str
    family: str
    qualifier: str
    label: str
    timestamp: int
    value: str

    __repr__ = _as_short_call


@dataclass(frozen=True, init=False)
class Put:
    """Writes a value into a column of a row, under a label; without a timestamp the server gives the time.

    Either in the order of a script's `insert`, with both label and value, or by names:

        Put("record", "diagnosis", "medical", "asthma")
        Put("record", "diagnosis", label="medical", value="asthma")
        Put("record", "room", value="12")
    """

    family: Text
    qualifier: Text
    label: Text
    value: Text
    timestamp: Optional[int]

    @overload
    def __init__(self, family: Text, qualifier: Text, label: Text, value: Text, timestamp: Optional[int] = None) -> None: ...

    @overload
    def __init__(self, family: Text, qualifier: Text, *, value: Text, label: Text = b"", timestamp: Optional[int] = None) -> None: ...

    def __init__(
        self, family: Text, qualifier: Text, label: Text = b"", value: Optional[Text] = None, timestamp: Optional[int] = None
    ) -> None:
        if value is None:
            raise TypeError("Put: the value is missing. Say Put(family, qualifier, label, value) or Put(family, qualifier, value=..)")
        # past the `__setattr__` of a frozen dataclass, at once
        self.__dict__.update(family=family, qualifier=qualifier, label=label, value=value, timestamp=timestamp)

    __repr__ = _as_call


@dataclass(frozen=True)
class Delete:
    """Hides all puts of its column (row, family, qualifier and label) at or below its timestamp, also those that are written later."""

    family: Text
    qualifier: Text
    label: Text = b""
    timestamp: Optional[int] = None

    __repr__ = _as_call


Update = Union[Put, Delete]


@dataclass(frozen=True)
class Write:
    """What a batch writer was given: updates of a row of a table."""

    table: Text
    row: Text
    updates: Tuple[Update, ...]

    __repr__ = _as_call


@dataclass(frozen=True)
class Range:
    """Rows from `low` to `high`, with these two unless told otherwise; None is no bound."""

    low: Optional[Text] = None
    high: Optional[Text] = None
    with_low: bool = True
    with_high: bool = True

    __repr__ = _as_call

    @classmethod
    def row(cls, row: Text) -> Range:
        """This row alone."""
        from . import checks  # which stands on this module

        checks.text(row, "row")
        return cls(row, row)

    @classmethod
    def prefix(cls, prefix: Text) -> Range:
        """All rows that begin with these bytes; of the empty prefix all rows."""
        from . import checks

        low = checks.text(prefix, "prefix")
        # the first row behind them: what begins with bytes 0xff alone has none
        begin = low.rstrip(b"\xff")
        return cls(low, begin[:-1] + bytes([begin[-1] + 1]), with_high=False) if begin else cls(low)


ALL_ROWS = Range()


@dataclass(frozen=True)
class Permission:
    """A permission on a table, or on the system where the table is None."""

    name: str
    table: Optional[str] = None

    def __str__(self) -> str:
        return f"{self.name} on the system" if self.table is None else f"{self.name} on table {self.table!r}"


@dataclass(frozen=True)
class Violation:
    """A constraint that failed, by which of its codes, and the first update that failed it, from 0."""

    constraint: str
    code: int
    update: int

    def __str__(self) -> str:
        return f"{self.constraint} (code {self.code}) in update {self.update}"


@dataclass(frozen=True)
class Status:
    """How many tablets a table has, and how many sources (memory runs and sorted tables) and records they hold."""

    tablets: int
    sources: int
    records: int


@dataclass(frozen=True)
class Rights:
    """The permissions that a user has on the system and on a table, and their authorizations, rising."""

    system: Tuple[str, ...]
    table: Tuple[str, ...]
    authorizations: Tuple[bytes, ...]
