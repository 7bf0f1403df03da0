"""The bytes of each request: an opcode and its fields (docs/PROTOCOL.md). All arguments are checked here, before anything is sent."""
from __future__ import annotations

from enum import IntEnum
from functools import lru_cache
from struct import Struct
from typing import Iterable, Optional

from . import checks
from .data import CONSTRAINTS, SYSTEM_PERMISSIONS, TABLE_PERMISSIONS, Column, Delete, Put, Range, Text, Update


class Opcode(IntEnum):
    """The first byte of a request."""

    HELLO = 0x01
    CREATE_TABLE = 0x02
    DROP_TABLE = 0x03
    CREATE_USER = 0x04
    DROP_USER = 0x05
    SET_AUTHORIZATIONS = 0x06
    GRANT = 0x07
    REVOKE = 0x08
    SET_CONSTRAINTS = 0x09
    WRITE = 0x0A
    OPEN = 0x0B
    NEXT = 0x0C
    MANY = 0x0D
    CLOSE = 0x0E
    FLUSH = 0x0F
    COMPACT = 0x10
    ADD_SPLIT = 0x11
    SPLITS = 0x12
    STATUS = 0x13
    RIGHTS = 0x14
    SET_VERSIONS = 0x15
    SET_HORIZON = 0x16
    ROTATE = 0x17


# ---- The parts of requests.


def _u8(number: int) -> bytes:
    return number.to_bytes(1, "big")


def _u32(number: int) -> bytes:
    return number.to_bytes(4, "big")


def _i64(number: int) -> bytes:
    return number.to_bytes(8, "big", signed=True)


LENGTH = Struct(">I").pack


def field(content: bytes) -> bytes:
    """A length and so many bytes; a frame has this form too."""
    return LENGTH(len(content)) + content


def _name(value: Text, what: str) -> bytes:
    return _name_of(value, what) if type(value) is str else field(checks.name(value, what))


@lru_cache(maxsize=128)
def _name_of(value: str, what: str) -> bytes:
    return field(checks.name(value, what))


def _text(value: Text, what: str, part: str = "") -> bytes:
    content = value.encode() if type(value) is str else checks.text(value, what + part)
    return LENGTH(len(content)) + content


def _counted(parts: list[bytes]) -> bytes:
    return _u32(len(parts)) + b"".join(parts)


def _texts(values: Iterable[Text], what: str) -> bytes:
    return _counted([_text(value, f"{what}[{at}]") for at, value in enumerate(checks.items(values, what))])


def _versions(count: int) -> bytes:
    return _u32(checks.number(count, "versions", 1, 1000))


def _permission(permission: str, table: Optional[Text]) -> bytes:
    if table is None:
        return _u8(0) + _u8(checks.word(permission, SYSTEM_PERMISSIONS, "permission on the system"))
    return _u8(1) + _u8(checks.word(permission, TABLE_PERMISSIONS, "permission on a table")) + _name(table, "table")


def _timestamp(timestamp: Optional[int], what: str) -> bytes:
    return b"\0" if timestamp is None else b"\1" + _i64(checks.time(timestamp, f"{what}.timestamp"))


def _update(update: Update, what: str) -> bytes:
    if not isinstance(update, (Put, Delete)):
        raise TypeError(f"{what}: a Put or a Delete is meant, not {type(update).__name__}")
    column = _text(update.family, what, ".family") + _text(update.qualifier, what, ".qualifier") + _text(update.label, what, ".label")
    key = column + _timestamp(update.timestamp, what)
    return b"\1" + key + _text(update.value, what, ".value") if isinstance(update, Put) else b"\0" + key


def _bound(row: Optional[Text], with_it: bool, what: str) -> bytes:
    if row is None:
        return _u8(0)
    return _u8(1 if checks.flag(with_it, f"with_{what}") else 2) + _text(row, what)


def _range(rows: Range, what: str) -> bytes:
    checks.kind(rows, Range, what)
    return _bound(rows.low, rows.with_low, "low") + _bound(rows.high, rows.with_high, "high")


def _column(column: Column, what: str) -> bytes:
    if isinstance(column, (str, bytes, bytearray, memoryview)):
        return _text(column, what) + _u8(0)
    if not isinstance(column, tuple) or len(column) != 2:
        found = f"{len(column)} texts" if isinstance(column, tuple) else type(column).__name__
        raise TypeError(f"{what}: a family, or a tuple of family and qualifier, is meant, not {found}")
    return _text(column[0], f"{what}[0]") + _u8(1) + _text(column[1], f"{what}[1]")


# ---- Requests.


def hello(user: Text) -> bytes:
    return _u8(Opcode.HELLO) + _name(user, "user")


def of_table(opcode: Opcode, table: Text) -> bytes:
    """A request whose one field is the name of a table."""
    return _u8(opcode) + _name(table, "table")


def of_user(opcode: Opcode, user: Text) -> bytes:
    """A request whose one field is the name of a user."""
    return _u8(opcode) + _name(user, "user")


def create_table(table: Text, server_time: bool, versions: int) -> bytes:
    return of_table(Opcode.CREATE_TABLE, table) + _u8(checks.flag(server_time, "server_time")) + _versions(versions)


def set_authorizations(user: Text, authorizations: Iterable[Text]) -> bytes:
    return of_user(Opcode.SET_AUTHORIZATIONS, user) + _texts(authorizations, "authorizations")


def grant(user: Text, permission: str, table: Optional[Text]) -> bytes:
    return of_user(Opcode.GRANT, user) + _permission(permission, table)


def revoke(user: Text, permission: str, table: Optional[Text]) -> bytes:
    return of_user(Opcode.REVOKE, user) + _permission(permission, table)


def set_constraints(table: Text, constraints: Iterable[str]) -> bytes:
    places = {checks.word(word, CONSTRAINTS, "constraints") for word in checks.items(constraints, "constraints")}
    return of_table(Opcode.SET_CONSTRAINTS, table) + _u8(sum(1 << place for place in places))


def set_versions(table: Text, versions: int) -> bytes:
    return of_table(Opcode.SET_VERSIONS, table) + _versions(versions)


def set_horizon(table: Text, horizon: int) -> bytes:
    return of_table(Opcode.SET_HORIZON, table) + _i64(checks.time(horizon, "horizon"))


WRITE = _u8(Opcode.WRITE)
PLACES = tuple([f"updates[{at}]" for at in range(16)])
"""What the first updates of a write are called in a message."""


def write(table: Text, row: Text, updates: Iterable[Update]) -> bytes:
    listed = checks.items(updates, "updates")
    parts = [_update(it, PLACES[at] if at < len(PLACES) else f"updates[{at}]") for at, it in enumerate(listed)]
    return WRITE + _name(table, "table") + _text(row, "row") + LENGTH(len(parts)) + b"".join(parts)


def open_session(table: Text, rows: Range, columns: Iterable[Column], authorizations: Iterable[Text]) -> bytes:
    wanted = [_column(column, f"columns[{at}]") for at, column in enumerate(checks.items(columns, "columns"))]
    return of_table(Opcode.OPEN, table) + _range(rows, "rows") + _counted(wanted) + _texts(authorizations, "authorizations")


def next_cells(session: int, count: int) -> bytes:
    return _u8(Opcode.NEXT) + _u32(session) + _u32(checks.number(count, "count"))


def many(session: int, ranges: Iterable[Range]) -> bytes:
    wanted = [_range(rows, f"ranges[{at}]") for at, rows in enumerate(checks.items(ranges, "ranges"))]
    return _u8(Opcode.MANY) + _u32(session) + _counted(wanted)


def close_session(session: int) -> bytes:
    return _u8(Opcode.CLOSE) + _u32(session)


def compact(table: Text, full: bool) -> bytes:
    return of_table(Opcode.COMPACT, table) + _u8(checks.flag(full, "full"))


def add_split(table: Text, row: Text) -> bytes:
    return of_table(Opcode.ADD_SPLIT, table) + _text(row, "row")


def rotate() -> bytes:
    return _u8(Opcode.ROTATE)
