"""A user's connection: what they can ask of tables and users."""
from __future__ import annotations

import socket
import sys
from contextlib import contextmanager, suppress
from functools import partial
from io import BufferedReader, BufferedWriter
from os import PathLike
from time import sleep
from types import TracebackType
from typing import Any, BinaryIO, Callable, Dict, Iterable, Iterator, List, Literal, Optional, Tuple, Type, TypeVar, Union, overload

from . import checks, requests, to_pandas
from .connection import Connection
from .data import ALL_ROWS, Cell, Column, Range, Rights, Status, Text, Update
from .errors import Refused
from .pipeline import Pipeline
from .places import LOCAL, MAX_TIMEOUT, TIMEOUT, Place, number_of_seconds, pauses, place, seconds, where
from .replies import Opened, Reply, Row
from .requests import Opcode
from .session import Session, TextSession

R = TypeVar("R", bound=Reply)
BUFFER = 1 << 16
NOBODY_LISTENS = (ConnectionRefusedError, FileNotFoundError)
"""What it is where no server listens (yet)."""


def connect(
    port: Union[int, str, PathLike[str]],
    user: Optional[Text] = None,
    host: str = LOCAL,
    timeout: Optional[float] = TIMEOUT,
    *,
    wait: float = 0,
) -> Client:
    """A client of the server on this port, or at the socket file of this path, or an OSError.

    Where the server lets it wait for longer than the timeout (seconds; None is no bound), TimedOut closes the client. A first scan behind
    millions of writes and a full compaction can take seconds. A server that doesn't listen yet is tried again for `wait` seconds.

    In place of the port, a URL can say all: `tabd://ann@127.0.0.1:9997?timeout=5&wait=10`, or `tabd+unix://ann@/run/tabd.sock`. An argument
    that says something else than the URL is a ValueError.
    """
    port, user, host, timeout, wait = checked(place(port, user, host, timeout, wait))
    with _link(port, host, timeout, wait) as link:
        reader, writer = BufferedReader(link.makefile("rb", 0), BUFFER), BufferedWriter(link.makefile("wb", 0), BUFFER)
        # the two streams keep the socket open
        return Client(reader, writer, user, break_off=partial(link.shutdown, socket.SHUT_RDWR), at=Place(port, user, host, timeout, wait))


def checked(at: Place) -> Tuple[Union[int, str], Text, str, Optional[float], float]:
    """The parts of a place where somebody can ask."""
    port, user, host, timeout, wait = at
    if timeout is not None and not 0 < number_of_seconds(timeout, "timeout") <= MAX_TIMEOUT:
        raise ValueError(f"timeout: {timeout} isn't above 0 and at most {MAX_TIMEOUT}; None is no bound")
    seconds(wait, "wait")
    if user is None:
        raise TypeError("user: who asks is missing")
    checks.name(user, "user")
    return port, user, host, timeout, wait


def _link(port: Union[int, str], host: str, timeout: Optional[float], wait: float) -> socket.socket:
    """A connection, tried again as long as nobody listens and the seconds to wait aren't over."""
    for pause in pauses(wait):
        with suppress(*NOBODY_LISTENS):
            return link_to(port, host, timeout)
        sleep(pause)
    return link_to(port, host, timeout)


def link_to(port: Union[int, str], host: str, timeout: Optional[float]) -> socket.socket:
    """A connection to who listens there now, or an OSError that names the place."""
    try:
        return _at_file(port, timeout) if isinstance(port, str) else _at_port(port, host, timeout)
    except OSError as error:
        raise _named(error, port, host, timeout) from None


def _named(error: OSError, port: Union[int, str], host: str, timeout: Optional[float]) -> OSError:
    """As this error, but it says where."""
    said = "nobody listens there" if isinstance(error, ConnectionRefusedError) else error.strerror or str(error)
    if isinstance(error, (socket.timeout, TimeoutError)) and error.errno is None:
        said = f"no connection within {timeout:g} s"
    if isinstance(port, str) and error.errno is not None:
        return type(error)(error.errno, said, port)
    said = f"{where(port, host)}: {said}"
    return type(error)(said) if error.errno is None else type(error)(error.errno, said)


def _at_port(port: int, host: str, timeout: Optional[float]) -> socket.socket:
    link = socket.create_connection((host, checks.number(port, "port", 1, 65535)), timeout)
    link.setsockopt(socket.IPPROTO_TCP, socket.TCP_NODELAY, 1)
    return link


def _at_file(path: str, timeout: Optional[float]) -> socket.socket:
    link = socket.socket(socket.AF_UNIX)
    try:
        link.settimeout(timeout)
        link.connect(path)
    except BaseException:
        link.close()
        raise
    return link


def shown_user(user: Text) -> str:
    """A user's name for messages."""
    return checks.text(user, "user").decode(errors="backslashreplace")


def shown_at(user: Text, at: Optional[Place]) -> str:
    """Who asks, and where, for a `repr`."""
    return f"{user!r}" if at is None else f"{user!r} at {at.where}"


def column_of(family: Text, qualifier: Text) -> Column:
    return checks.text(family, "family"), checks.text(qualifier, "qualifier")


def newest_value(cells: Iterable[Cell]) -> Optional[bytes]:
    """The value of the newest of these cells, the first one of several."""
    newest = max(cells, key=lambda cell: cell.timestamp, default=None)
    return None if newest is None else newest.value


class Client:
    """A user's connection to a server. It is closed by `close`, which any thread may call, or at the end of its `with`.

    One thread uses it, and its sessions, at a time: where a second one would, InUse is raised. Each method names the refusals that belong to
    it. Besides them each can be refused as UnknownUser, NoTable, PermissionDenied and NoMemory.
    """

    def __init__(
        self,
        reader: BinaryIO,
        writer: BinaryIO,
        user: Text,
        *,
        break_off: Optional[Callable[[], None]] = None,
        at: Optional[Place] = None,
    ) -> None:
        """Speaks over two buffered binary streams, and says who asks. That is taken as given: one who is no user is told so by each request.

        `break_off` is called first where the client is closed, as it is where it can't begin. `at` is where the server is, for messages.
        """
        self._user, self._at = user, at
        self._connection = Connection(reader, writer, break_off, shown_user(user), at)
        try:
            self._ask(requests.hello(user))
        except BaseException:
            self.close()
            raise

    @property
    def closed(self) -> bool:
        """Whether the connection has ended."""
        return self._connection.closed

    def __repr__(self) -> str:
        return f"<{type(self).__name__} of {shown_at(self._user, self._at)}{', closed' if self.closed else ''}>"

    def close(self) -> None:
        """Ends the connection, and its sessions with it."""
        self._connection.close()

    def __enter__(self) -> Client:
        return self

    def __exit__(self, kind: Optional[Type[BaseException]], error: Optional[BaseException], trace: Optional[TracebackType]) -> None:
        self.close()

    def _ask(self, request: bytes) -> None:
        self._connection.ask(request)

    def _ask_for(self, request: bytes, kind: Type[R]) -> R:
        """What ends the answer."""
        last = self._connection.ask(request)[-1]
        assert isinstance(last, kind)
        return last

    # ---- Cells.

    def write(self, table: Text, row: Text, updates: Iterable[Update]) -> None:
        """Does all updates of a row, 1 to 1,000, or none; of two of one column the later is the newer.

        EmptyMutation, TooLarge, MalformedVisibility, TimestampNotAllowed, BelowHorizon, ConstraintViolation.
        """
        request, pipeline = requests.write(table, row, updates), self._connection.pipeline
        if pipeline is None:
            self._ask(request)
        else:
            pipeline.write(request)

    @contextmanager
    def pipeline(self) -> Iterator[Dict[int, Refused]]:
        """Inside its `with`, writes wait and are sent many at a time, each done or refused by itself.

        Another request and the end, also by an error, send those that wait before. The dictionary gets all refusals by the places of their
        writes, from 0; the end raises the first of them. It is of the thread that opens it: another one that asks meanwhile gets InUse.
        """
        pipeline = Pipeline(self._connection)
        try:
            self._connection.hold(pipeline)
            yield pipeline.refused
        except BaseException:
            if self._connection.pipeline is pipeline and not self.closed:
                self._connection.send()
            raise
        else:
            self._connection.send()
        finally:
            if self._connection.pipeline is pipeline:
                self._connection.pipeline = None
        if pipeline.refused:
            raise pipeline.refused[min(pipeline.refused)]

    @overload
    def scan(
        self,
        table: Text,
        authorizations: Iterable[Text] = (),
        rows: Range = ALL_ROWS,
        columns: Iterable[Column] = (),
        batch: int = 1000,
        to: None = None,
        *,
        limit: Optional[int] = None,
        newest: bool = False,
        text: Literal[False] = False,
    ) -> Session: ...

    @overload
    def scan(
        self,
        table: Text,
        authorizations: Iterable[Text] = (),
        rows: Range = ALL_ROWS,
        columns: Iterable[Column] = (),
        batch: int = 1000,
        to: None = None,
        *,
        limit: Optional[int] = None,
        newest: bool = False,
        text: Literal[True],
    ) -> TextSession: ...

    @overload
    def scan(
        self,
        table: Text,
        authorizations: Iterable[Text] = (),
        rows: Range = ALL_ROWS,
        columns: Iterable[Column] = (),
        batch: int = 1000,
        *,
        to: Literal["pandas"],
        limit: Optional[int] = None,
        newest: bool = False,
        text: bool = False,
    ) -> Any: ...

    def scan(
        self,
        table: Text,
        authorizations: Iterable[Text] = (),
        rows: Range = ALL_ROWS,
        columns: Iterable[Column] = (),
        batch: int = 1000,
        to: Optional[str] = None,
        *,
        limit: Optional[int] = None,
        newest: bool = False,
        text: bool = False,
    ) -> Union[Session, TextSession, Any]:
        """A session on the cells in these rows and columns whose labels hold under these authorizations, in the order of keys.

        Columns are families, or tuples of family and qualifier; none means all. With `to="pandas"` it is a data frame of all these cells, or
        an ImportError where there is no pandas. TooLarge, BadRange, BadAuthorizations.

        With a `limit` the session gives at most so many cells, by iterations and fetches together, asks for no more of them, and is closed
        with the last. With `newest` it gives of each column (row, family, qualifier and label) the newest version alone. With `text` it is
        a TextSession, whose cells are TextCells. All three hold for a data frame too. `ranges` goes by `newest` and `text`, but no limit
        holds for it.
        """
        self._see_scan(batch, to, limit, newest, text)
        kind: Union[Type[Session], Type[TextSession]] = TextSession if text else Session
        opened = self._ask_for(requests.open_session(table, rows, columns, authorizations), Opened)
        session = kind(self._connection, opened.session, batch, limit=limit, newest=newest, table=table)
        if to is None:
            return session
        with session:
            return to_pandas.data_frame(session)

    @staticmethod
    def _see_scan(batch: int, to: Optional[str], limit: Optional[int], newest: bool, text: bool) -> None:
        """Sees that a scan can have these arguments, of which the server is told nothing."""
        if limit is not None:
            checks.number(limit, "limit", 0, sys.maxsize)
        checks.flag(newest, "newest")
        checks.flag(text, "text")
        checks.number(batch, "batch", 1)
        if to is not None:
            checks.word(to, ("pandas",), "to")
            to_pandas.library()

    def get(self, table: Text, row: Text, family: Text, qualifier: Text, authorizations: Iterable[Text] = ()) -> Optional[bytes]:
        """The newest value in a row, family and qualifier whose label holds under these authorizations, or None.

        Of labels with equal newest times the first in the order of keys counts. TooLarge, BadAuthorizations.
        """
        with self.scan(table, authorizations, Range.row(row), [column_of(family, qualifier)], newest=True) as cells:
            return newest_value(cells)

    # ---- Tables.

    def create_table(self, table: Text, *, server_time: bool = False, versions: int = 1) -> None:
        """Makes a table that shows the newest 1 to 1,000 versions of each column, at the writers' times or the server's.

        TableExists.
        """
        self._ask(requests.create_table(table, server_time, versions))

    def drop_table(self, table: Text) -> None:
        """Drops a table, its cells and all rights on it."""
        self._ask(requests.of_table(Opcode.DROP_TABLE, table))

    def set_constraints(self, table: Text, constraints: Iterable[str]) -> None:
        """Sets the table's constraints, of CONSTRAINTS, in place of those that it has."""
        self._ask(requests.set_constraints(table, constraints))

    def set_versions(self, table: Text, versions: int) -> None:
        """Shows so many versions of each column from now on, 1 to 1,000 and no more than before.

        VersionsRaised.
        """
        self._ask(requests.set_versions(table, versions))

    def set_horizon(self, table: Text, horizon: int) -> None:
        """Takes no update below this time from now on, which isn't below the one before.

        HorizonLowered; ServerTime where the table gives the times.
        """
        self._ask(requests.set_horizon(table, horizon))

    def flush(self, table: Text) -> None:
        """Makes sorted tables of what is in memory; no scan is answered otherwise."""
        self._ask(requests.of_table(Opcode.FLUSH, table))

    def compact(self, table: Text, *, full: bool = False) -> None:
        """Merges some sorted tables of each tablet, or all that it holds; no scan is answered otherwise."""
        self._ask(requests.compact(table, full))

    def add_split(self, table: Text, row: Text) -> None:
        """Splits a tablet in two; the row is the last one of the lower of them.

        TooLarge, BadSplit.
        """
        self._ask(requests.add_split(table, row))

    def splits(self, table: Text) -> List[bytes]:
        """The last row of each tablet, rising; the last tablet has none."""
        replies = self._connection.ask(requests.of_table(Opcode.SPLITS, table))
        return [reply.row for reply in replies if isinstance(reply, Row)]

    def status(self, table: Text) -> Status:
        """Counts of what the table consists of."""
        return self._ask_for(requests.of_table(Opcode.STATUS, table), Status)

    # ---- Users.

    def create_user(self, user: Text) -> None:
        """Makes a user without rights and authorizations.

        UserExists.
        """
        self._ask(requests.of_user(Opcode.CREATE_USER, user))

    def drop_user(self, user: Text) -> None:
        """Drops a user, their rights and authorizations.

        NoUser, RootFixed.
        """
        self._ask(requests.of_user(Opcode.DROP_USER, user))

    def set_authorizations(self, user: Text, authorizations: Iterable[Text]) -> None:
        """Gives a user these authorizations in place of those that they hold.

        TooLarge, NoUser.
        """
        self._ask(requests.set_authorizations(user, authorizations))

    def grant(self, user: Text, permission: str, table: Optional[Text] = None) -> None:
        """Gives a user one of TABLE_PERMISSIONS on a table, or without a table one of SYSTEM_PERMISSIONS.

        GrantInvalid, NoUser, RootFixed.
        """
        self._ask(requests.grant(user, permission, table))

    def revoke(self, user: Text, permission: str, table: Optional[Text] = None) -> None:
        """Takes what `grant` gives.

        GrantInvalid, NoUser, RootFixed.
        """
        self._ask(requests.revoke(user, permission, table))

    def rights(self, table: Text) -> Rights:
        """One's own permissions on the system and on a table, and one's authorizations."""
        return self._ask_for(requests.of_table(Opcode.RIGHTS, table), Rights)

    # ---- The server.

    def rotate(self) -> None:
        """Lets the server begin its history anew from what it holds, for which the user needs SYSTEM.

        BadFrame ("opcode") where the server doesn't know this request.
        """
        self._ask(requests.rotate())
