"""The client for asyncio: what a `tabd.Client` can be asked, as coroutines.

    import tabd.aio

    async with tabd.aio.connect(9997, "kim") as kim:
        async for cell in kim.scan("stock"):
            print(cell.row, cell.value)

Requests, replies, checks and errors are those of the package. Tasks may share a client: their requests go one after the other. A task that
is cancelled while its request is under way closes the client, as a break does. There is no pool and no batch writer here.
"""
from __future__ import annotations

import asyncio
from contextlib import asynccontextmanager, closing, suppress
from functools import partial
from operator import length_hint
from os import PathLike
from types import TracebackType
from typing import (
    Any,
    AsyncIterable,
    AsyncIterator,
    Awaitable,
    Callable,
    Coroutine,
    Dict,
    Generator,
    Generic,
    Iterable,
    List,
    Literal,
    Optional,
    Protocol,
    Tuple,
    Type,
    TypeVar,
    Union,
    cast,
    overload,
)

from . import client, requests, session, to_pandas
from .client import BUFFER, NOBODY_LISTENS, checked, column_of, link_to, newest_value, shown_at, shown_user
from .connection import Exchange, Exchanges, Step, Taken, sized
from .data import ALL_ROWS, Cell, Column, Range, Rights, Status, Text, TextCell, Update
from .errors import Refused
from .pipeline import Refusals
from .places import LOCAL, TIMEOUT, Place, pauses, place
from .replies import Opened, Reply, Row
from .requests import Opcode
from .session import C, Cells, OfBytes, OfText

T = TypeVar("T")
K = TypeVar("K", bound=type)
E = TypeVar("E", bound="Closable")
S = TypeVar("S", bound="Asked[Any]")
R = TypeVar("R", bound=Reply)

__all__ = ["Client", "Opening", "Scan", "Session", "TextSession", "connect"]


class Pipeline(Refusals):
    """The writes of a task that wait, and what was answered."""

    def __init__(self) -> None:
        super().__init__()
        self.waiting: List[Exchange] = []


class Connection(Exchanges):
    """Sends requests and reads their answers over the streams of asyncio, for one task at a time: others wait for their turn."""

    def __init__(
        self,
        reader: asyncio.StreamReader,
        writer: asyncio.StreamWriter,
        timeout: Optional[float],
        user: Optional[str] = None,
        at: Optional[Place] = None,
    ) -> None:
        super().__init__(user, at)
        self._reader, self._writer, self._timeout = reader, writer, timeout
        # by the task that opened it
        self.pipelines: Dict[Optional["asyncio.Task[Any]"], Pipeline] = {}
        self._in_turn = asyncio.Lock()
        self._is_late = False
        # what came and isn't used yet
        self._came = bytearray()

    def mine(self) -> Optional[Pipeline]:
        """The pipeline that this task has open."""
        return self.pipelines.get(asyncio.current_task()) if self.pipelines else None

    async def collect(self, request: bytes, pipeline: Pipeline) -> None:
        """Lets a request wait in this pipeline. The last of a window and a large one are sent, with all of it that wait."""
        self._see_process()
        async with self._in_turn:
            pipeline.waiting.append((sized(request), pipeline.hear))
            if self._is_enough(pipeline.waiting, request):
                await self._send(pipeline)

    async def send(self, pipeline: Pipeline) -> None:
        """Sends all of this pipeline that waits, and hears the answers."""
        self._see_process()
        async with self._in_turn:
            await self._send(pipeline)

    async def ask(self, request: bytes, hear: Optional[Callable[[Tuple[Reply, ...]], None]] = None) -> Tuple[Reply, ...]:
        """Sends a request behind all of its task that waits, and gives its answer, which `hear` takes first, or raises its refusal."""
        self._see_process()
        taken = Taken(hear)
        async with self._in_turn:
            await self._send(self.mine(), (sized(request), taken.take))
        return taken.given()

    def close(self) -> None:
        """Ends the connection. A task that waits for an answer then has none. One of another process goes on there."""
        self.closed = True
        if not self._is_of_another_process():
            self._writer.transport.abort()

    async def wait_closed(self) -> None:
        """Waits until nothing of it is left."""
        if not self._is_of_another_process():
            with suppress(OSError):
                await self._writer.wait_closed()

    async def _send(self, pipeline: Optional[Pipeline], *last: Exchange) -> None:
        if pipeline is not None:
            last, pipeline.waiting = (*pipeline.waiting, *last), []
        with closing(self._steps(*last)) as steps, suppress(StopIteration):
            step = next(steps)
            while True:
                try:
                    found = await self._do(step)
                except BaseException as error:
                    step = steps.throw(error)
                else:
                    step = steps.send(found)

    async def _do(self, step: Step) -> bytes:
        if step is None:
            return await self._read(self._length(await self._read(4)))
        self._writer.write(step)
        await self._in_time(self._writer.drain())
        return b""

    async def _read(self, count: int) -> bytes:
        while len(self._came) < count:
            part = await self._in_time(self._reader.read(BUFFER))
            if not part:
                raise self._ended()
            self._came += part
        found = bytes(self._came[:count])
        del self._came[:count]
        return found

    async def _in_time(self, does: Awaitable[T]) -> T:
        """What comes of this, or TimeoutError. (Before Python 3.12, asyncio.wait_for can pass over that its task was cancelled.)"""
        timer = None if self._timeout is None else asyncio.get_running_loop().call_later(self._timeout, self._break_off)
        try:
            return await does
        finally:
            if timer is not None:
                timer.cancel()
            if self._is_late:
                raise TimeoutError

    def _break_off(self) -> None:
        """Ends what is waited for, since it takes too long."""
        self._is_late = True
        self._writer.transport.abort()


def _told_as(there: type) -> Callable[[K], K]:
    """Says of each method without words what its namesake there says."""

    def tell(here: K) -> K:
        for name, method in vars(here).items():
            if callable(method) and not method.__doc__ and hasattr(there, name):
                method.__doc__ = getattr(there, name).__doc__
        return here

    return tell


class Closable(Protocol):
    """What an `async with` closes."""

    async def close(self) -> None:
        ...


class Opening(Generic[E]):
    """Opens something once it is awaited, or by an `async with`, which closes it."""

    def __init__(self, opens: Callable[[], Coroutine[Any, Any, E]]) -> None:
        self._opens = opens

    def __await__(self) -> Generator[Any, None, E]:
        return self._opens().__await__()

    async def __aenter__(self) -> E:
        self._opened = await self._opens()
        return self._opened

    async def __aexit__(self, kind: Optional[Type[BaseException]], error: Optional[BaseException], trace: Optional[TracebackType]) -> None:
        await self._opened.close()


@_told_as(session.Asked)
class Asked(Cells[C]):
    """What is common to the sessions of this client."""

    def __init__(
        self, connection: Connection, number: int, batch: int, limit: Optional[int], newest: bool, table: Optional[Text] = None
    ) -> None:
        super().__init__(connection, number, batch, limit, newest, table)
        self._connection = connection

    async def fetch(self, count: int) -> Tuple[List[C], bool]:
        cells: List[Cell] = []
        with closing(self._steps(count, cells)) as steps:
            for wanted in steps:
                await self._next(wanted)
        return self._fetched(cells)

    async def _next(self, count: int) -> None:
        """Takes the next cells that the server has."""
        await self._connection.ask(self._request(count), self._hear)

    async def ranges(self, ranges: Iterable[Range]) -> List[List[C]]:
        return self._by_range(await self._connection.ask(self._request_of(ranges)))

    async def close(self) -> None:
        self._close()

    async def __aiter__(self) -> AsyncIterator[C]:
        """As an iteration there."""
        while not self._is_exhausted:
            for cell in self._ahead:
                yield self._give([cell])[0]
            if not self._more and not length_hint(self._ahead):
                self._close()
            if not self._is_exhausted:
                await self._next(self.batch)

    def __del__(self) -> None:
        # one that was refused its number of cells has no connection
        if hasattr(self, "_connection"):
            self._close()


class Session(OfBytes, Asked[Cell]):
    """As a `tabd.Session`: the same for good, whatever is written meanwhile. What isn't closed is so once nothing refers to it."""


class TextSession(OfText, Asked[TextCell]):
    """As a `tabd.TextSession`."""


class Scan(Opening[E], Generic[E, C]):
    """A scan, which is opened by `async for cell in`, by `async with`, or by `await`; the latter two give the session."""

    def __init__(self, opens: Callable[[], Coroutine[Any, Any, E]], table: Text) -> None:
        super().__init__(opens)
        self._table = table

    def __repr__(self) -> str:
        return f"<tabd.aio.Scan of table {self._table!r}>"

    async def __aiter__(self) -> AsyncIterator[C]:
        session = cast("AsyncIterable[C]", await self)
        async for cell in session:
            yield cell


def connect(
    port: Union[int, str, PathLike[str]],
    user: Optional[Text] = None,
    host: str = LOCAL,
    timeout: Optional[float] = TIMEOUT,
    *,
    wait: float = 0,
) -> Opening[Client]:
    """As `tabd.connect`, for `async with`, which closes the client, or `await`."""
    return Opening(partial(_connect, *checked(place(port, user, host, timeout, wait))))


async def _connect(port: Union[int, str], user: Text, host: str, timeout: Optional[float], wait: float) -> Client:
    there = partial(asyncio.get_running_loop().run_in_executor, None, link_to, port, host, timeout)
    for pause in pauses(wait):
        with suppress(*NOBODY_LISTENS):
            link = await there()
            break
        await asyncio.sleep(pause)
    else:
        link = await there()
    reader, writer = await asyncio.open_connection(sock=link)
    at = Place(port, user, host, timeout, wait)
    return await Client(Connection(reader, writer, timeout, shown_user(user), at), user, at)._begin()


@_told_as(client.Client)
class Client:
    """A user's connection to a server, which is made by `connect`. It is closed by `close`, or at the end of its `async with`.

    What it can be asked is what a `tabd.Client` can be, and is answered and refused as there.
    """

    def __init__(self, connection: Connection, user: Text, at: Optional[Place] = None) -> None:
        """Over a connection that `connect` has made."""
        self._user, self._at = user, at
        self._connection = connection

    async def _begin(self) -> Client:
        """Says who asks."""
        try:
            await self._ask(requests.hello(self._user))
        except BaseException:
            self._connection.close()
            raise
        return self

    @property
    def closed(self) -> bool:
        """Whether the connection has ended."""
        return self._connection.closed

    def __repr__(self) -> str:
        return f"<{type(self).__name__} of {shown_at(self._user, self._at)}{', closed' if self.closed else ''}>"

    async def close(self) -> None:
        self._connection.close()
        await self._connection.wait_closed()

    async def __aenter__(self) -> Client:
        return self

    async def __aexit__(self, kind: Optional[Type[BaseException]], error: Optional[BaseException], trace: Optional[TracebackType]) -> None:
        await self.close()

    async def _ask(self, request: bytes) -> None:
        """Asks for what is answered by Ok."""
        await self._connection.ask(request)

    async def _ask_for(self, request: bytes, kind: Type[R]) -> R:
        last = (await self._connection.ask(request))[-1]
        assert isinstance(last, kind)
        return last

    # ---- Cells.

    async def write(self, table: Text, row: Text, updates: Iterable[Update]) -> None:
        request, pipeline = requests.write(table, row, updates), self._connection.mine()
        if pipeline is None:
            await self._ask(request)
        else:
            await self._connection.collect(request, pipeline)

    @asynccontextmanager
    async def pipeline(self) -> AsyncIterator[Dict[int, Refused]]:
        """As there, of the task that opens it: what another one asks meanwhile goes by itself, and is answered by itself."""
        if self._connection.mine() is not None:
            raise ValueError("a pipeline is open already")
        task, pipeline = asyncio.current_task(), Pipeline()
        self._connection.pipelines[task] = pipeline
        try:
            yield pipeline.refused
        except BaseException:
            if not self.closed:
                await self._connection.send(pipeline)
            raise
        else:
            await self._connection.send(pipeline)
        finally:
            del self._connection.pipelines[task]
        if pipeline.refused:
            raise pipeline.refused[min(pipeline.refused)]

    @overload
    def scan(
        self,
        table: Text,
        authorizations: Iterable[Text] = (),
        rows: Range = ALL_ROWS,
        columns: Iterable[Column] = (),
        batch: int = 1000,
        to: None = None,
        *,
        limit: Optional[int] = None,
        newest: bool = False,
        text: Literal[False] = False,
    ) -> Scan[Session, Cell]: ...

    @overload
    def scan(
        self,
        table: Text,
        authorizations: Iterable[Text] = (),
        rows: Range = ALL_ROWS,
        columns: Iterable[Column] = (),
        batch: int = 1000,
        to: None = None,
        *,
        limit: Optional[int] = None,
        newest: bool = False,
        text: Literal[True],
    ) -> Scan[TextSession, TextCell]: ...

    @overload
    def scan(
        self,
        table: Text,
        authorizations: Iterable[Text] = (),
        rows: Range = ALL_ROWS,
        columns: Iterable[Column] = (),
        batch: int = 1000,
        *,
        to: Literal["pandas"],
        limit: Optional[int] = None,
        newest: bool = False,
        text: bool = False,
    ) -> Coroutine[Any, Any, Any]: ...

    def scan(
        self,
        table: Text,
        authorizations: Iterable[Text] = (),
        rows: Range = ALL_ROWS,
        columns: Iterable[Column] = (),
        batch: int = 1000,
        to: Optional[str] = None,
        *,
        limit: Optional[int] = None,
        newest: bool = False,
        text: bool = False,
    ) -> Union[Scan[Session, Cell], Scan[TextSession, TextCell], Coroutine[Any, Any, Any]]:
        """As there, but the session is opened by what is done with this: `async for cell in`, `async with` or `await`.

        With `to="pandas"` it is to be awaited.
        """
        client.Client._see_scan(batch, to, limit, newest, text)
        request = requests.open_session(table, rows, columns, authorizations)
        kind: Union[Type[Session], Type[TextSession]] = TextSession if text else Session

        async def opens() -> Any:
            opened = await self._ask_for(request, Opened)
            return kind(self._connection, opened.session, batch, limit, newest, table)

        scan: Scan[Any, Any] = Scan(opens, table)
        return scan if to is None else _data_frame(scan)

    async def get(self, table: Text, row: Text, family: Text, qualifier: Text, authorizations: Iterable[Text] = ()) -> Optional[bytes]:
        cells = self.scan(table, authorizations, Range.row(row), [column_of(family, qualifier)], newest=True)
        return newest_value([cell async for cell in cells])

    # ---- Tables.

    async def create_table(self, table: Text, *, server_time: bool = False, versions: int = 1) -> None:
        await self._ask(requests.create_table(table, server_time, versions))

    async def drop_table(self, table: Text) -> None:
        await self._ask(requests.of_table(Opcode.DROP_TABLE, table))

    async def set_constraints(self, table: Text, constraints: Iterable[str]) -> None:
        await self._ask(requests.set_constraints(table, constraints))

    async def set_versions(self, table: Text, versions: int) -> None:
        await self._ask(requests.set_versions(table, versions))

    async def set_horizon(self, table: Text, horizon: int) -> None:
        await self._ask(requests.set_horizon(table, horizon))

    async def flush(self, table: Text) -> None:
        await self._ask(requests.of_table(Opcode.FLUSH, table))

    async def compact(self, table: Text, *, full: bool = False) -> None:
        await self._ask(requests.compact(table, full))

    async def add_split(self, table: Text, row: Text) -> None:
        await self._ask(requests.add_split(table, row))

    async def splits(self, table: Text) -> List[bytes]:
        replies = await self._connection.ask(requests.of_table(Opcode.SPLITS, table))
        return [reply.row for reply in replies if isinstance(reply, Row)]

    async def status(self, table: Text) -> Status:
        return await self._ask_for(requests.of_table(Opcode.STATUS, table), Status)

    # ---- Users.

    async def create_user(self, user: Text) -> None:
        await self._ask(requests.of_user(Opcode.CREATE_USER, user))

    async def drop_user(self, user: Text) -> None:
        await self._ask(requests.of_user(Opcode.DROP_USER, user))

    async def set_authorizations(self, user: Text, authorizations: Iterable[Text]) -> None:
        await self._ask(requests.set_authorizations(user, authorizations))

    async def grant(self, user: Text, permission: str, table: Optional[Text] = None) -> None:
        await self._ask(requests.grant(user, permission, table))

    async def revoke(self, user: Text, permission: str, table: Optional[Text] = None) -> None:
        await self._ask(requests.revoke(user, permission, table))

    async def rights(self, table: Text) -> Rights:
        return await self._ask_for(requests.of_table(Opcode.RIGHTS, table), Rights)

    # ---- The server.

    async def rotate(self) -> None:
        await self._ask(requests.rotate())


async def _data_frame(scan: Scan[Any, Any]) -> Any:
    async with scan as session:
        return to_pandas.data_frame([cell async for cell in session])
