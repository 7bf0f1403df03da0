"""A client of the tablet server tabd, over the standard library alone.

    import tabd

    with tabd.connect(9997, "root") as client:
        client.create_table("patients")
        client.write("patients", "ann", [tabd.Put("record", "room", value="12")])
        for cell in client.scan("patients"):
            print(cell.row, cell.qualifier, cell.value)

`connect` gives a `Client`, whose methods are what can be asked. What goes wrong is told by the classes of `tabd.errors`. README.md beside this
package has examples.
"""
from .batch_writer import BatchWriter
from .client import Client, connect
from .connection import MAX_FRAME, WINDOW
from .data import (
    CONSTRAINTS,
    SYSTEM_PERMISSIONS,
    TABLE_PERMISSIONS,
    Cell,
    Column,
    Delete,
    Permission,
    Put,
    Range,
    Rights,
    Status,
    Text,
    TextCell,
    Update,
    Violation,
    Write,
)
from .errors import (
    BadAuthorizations,
    BadFrame,
    BadRange,
    BadSplit,
    BelowHorizon,
    ConnectionClosed,
    ConstraintViolation,
    EmptyMutation,
    GrantInvalid,
    HorizonLowered,
    InUse,
    MalformedVisibility,
    NoMemory,
    NoSession,
    NoTable,
    NoUser,
    NotText,
    OutOfRange,
    PermissionDenied,
    PoolClosed,
    PoolExhausted,
    ProtocolError,
    Refused,
    RootFixed,
    ServerTime,
    Stale,
    TabdError,
    TableExists,
    TimedOut,
    TimestampNotAllowed,
    TooLarge,
    UnknownUser,
    UserExists,
    VersionsRaised,
    WritesFailed,
)
from .places import TIMEOUT
from .pool import Pool
from .session import Session, TextSession

__version__ = "0.19.0"
"""The version of the program that it was released with."""

__all__ = [
    "CONSTRAINTS",
    "MAX_FRAME",
    "SYSTEM_PERMISSIONS",
    "TABLE_PERMISSIONS",
    "TIMEOUT",
    "WINDOW",
    "BadAuthorizations",
    "BadFrame",
    "BadRange",
    "BadSplit",
    "BatchWriter",
    "BelowHorizon",
    "Cell",
    "Client",
    "Column",
    "ConnectionClosed",
    "ConstraintViolation",
    "Delete",
    "EmptyMutation",
    "GrantInvalid",
    "HorizonLowered",
    "InUse",
    "MalformedVisibility",
    "NoMemory",
    "NoSession",
    "NoTable",
    "NoUser",
    "NotText",
    "OutOfRange",
    "Permission",
    "PermissionDenied",
    "Pool",
    "PoolClosed",
    "PoolExhausted",
    "ProtocolError",
    "Put",
    "Range",
    "Refused",
    "Rights",
    "RootFixed",
    "ServerTime",
    "Session",
    "Stale",
    "Status",
    "TabdError",
    "TableExists",
    "Text",
    "TextCell",
    "TextSession",
    "TimedOut",
    "TimestampNotAllowed",
    "TooLarge",
    "UnknownUser",
    "Update",
    "UserExists",
    "VersionsRaised",
    "Violation",
    "Write",
    "WritesFailed",
    "connect",
]
