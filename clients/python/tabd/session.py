"""The answer of a scan, as it stood when the session was opened."""
from __future__ import annotations

import sys
from contextlib import closing
from itertools import islice
from operator import length_hint
from types import TracebackType
from typing import Any, Generator, Generic, Iterable, Iterator, List, Optional, Tuple, Type, TypeVar

from . import checks, requests
from .connection import Connection, Exchanges
from .data import Cell, Range, Text, TextCell
from .errors import NoSession, NotText
from .replies import End, RangeEnd, Reply
from .text import text_of

C = TypeVar("C", Cell, TextCell)
S = TypeVar("S", bound="Asked[Any]")


class Cells(Generic[C]):
    """What is common to sessions, however they ask: which cells were fetched, and which of those were given."""

    def __init__(
        self, exchanges: Exchanges, number: int, batch: int, limit: Optional[int], newest: bool, table: Optional[Text] = None
    ) -> None:
        self.number = number
        self._table = table
        self.batch = checks.number(batch, "batch", 1)
        self.closed = False
        # once it is closed, whether that was behind its last cell
        self._is_exhausted: Optional[bool] = None
        # how many cells it may give yet
        self._left = sys.maxsize if limit is None else checks.number(limit, "limit", 0, sys.maxsize)
        self._newest = checks.flag(newest, "newest")
        # of the cells that were fetched for an iteration those that it hasn't given, and whether the server may have more
        self._ahead: Iterator[Cell] = iter(())
        self._more = self._left > 0
        self._column: Optional[Tuple[bytes, ...]] = None
        self._later = exchanges.later

    def __repr__(self) -> str:
        table = "" if self._table is None else f" of table {self._table!r}"
        return f"<{type(self).__name__} {self.number}{table}{', closed' if self.closed else ''}>"

    def _told(self, cell: Cell) -> C:
        """The cell as such a session gives it."""
        raise NotImplementedError

    def _steps(self, count: int, cells: List[Cell]) -> Generator[int, None, None]:
        """How many cells a fetch asks for, each time anew until the list has all that are wanted. Where that fails none is passed over."""
        count = min(checks.number(count, "count"), self._left)
        cells += islice(self._ahead, count)
        while self._left and (not cells or len(cells) < count):
            try:
                yield count - len(cells)
            except BaseException:
                self._ahead = iter([*cells, *self._ahead])
                raise
            cells += islice(self._ahead, count - len(cells))
            if not count or not self._more:
                break

    def _see_open(self) -> None:
        """As the server would say, which isn't asked."""
        if self._is_exhausted is not None:
            raise NoSession(self.number)

    def _request(self, count: int) -> bytes:
        self._see_open()
        return requests.next_cells(self.number, min(count, self._left))

    def _hear(self, replies: Tuple[Reply, ...]) -> None:
        end = replies[-1]
        self._more = not (isinstance(end, End) and end.last)
        cells: List[Cell] = [reply for reply in replies if isinstance(reply, Cell)]
        self._ahead = iter([*self._ahead, *self._shown(cells, self._column)])
        self._column = _column(cells[-1]) if cells else self._column

    def _shown(self, cells: List[Cell], before: Optional[Tuple[bytes, ...]] = None) -> List[Cell]:
        """Those of these cells that are to be given, where one of this column stood before them."""
        if not self._newest:
            return cells
        columns = [before, *map(_column, cells)]
        return [cell for above, column, cell in zip(columns, columns[1:], cells) if above != column]

    def _give(self, cells: List[Cell]) -> List[C]:
        """Tells these and counts them; behind the last that the limit lets through it is closed. Where one can't be told all stay ahead."""
        try:
            told = [self._told(cell) for cell in cells]
        except NotText:
            self._ahead = iter([*cells, *self._ahead])
            raise
        self._left -= len(told)
        if not self._left:
            self._more = False
            self._close()
        return told

    def _fetched(self, taken: List[Cell]) -> Tuple[List[C], bool]:
        cells = self._give(taken)
        return cells, self._more or length_hint(self._ahead) > 0

    def _request_of(self, ranges: Iterable[Range]) -> bytes:
        request = requests.many(self.number, ranges)
        self._see_open()
        return request

    def _by_range(self, replies: Iterable[Reply]) -> List[List[C]]:
        return [[self._told(cell) for cell in self._shown(cells)] for cells in self._split(replies)]

    @staticmethod
    def _split(replies: Iterable[Reply]) -> List[List[Cell]]:
        found: List[List[Cell]] = [[]]
        for reply in replies:
            if isinstance(reply, Cell):
                found[-1].append(reply)
            elif isinstance(reply, RangeEnd):
                found.append([])
        return found[:-1]

    def _close(self) -> None:
        if not self.closed:
            # an iteration that was under way gives none of what is ahead
            ahead = list(self._ahead)
            self.closed, self._is_exhausted = True, not ahead and not self._more
            self._later(requests.close_session(self.number), lambda answer: None)


def _column(cell: Cell) -> Tuple[bytes, ...]:
    return cell.row, cell.family, cell.qualifier, cell.label


class Asked(Cells[C]):
    """What is common to the sessions of a `Client`."""

    def __init__(
        self,
        connection: Connection,
        number: int,
        batch: int,
        *,
        limit: Optional[int] = None,
        newest: bool = False,
        table: Optional[Text] = None,
    ) -> None:
        super().__init__(connection, number, batch, limit, newest, table)
        self._connection = connection

    def fetch(self, count: int) -> Tuple[List[C], bool]:
        """The next cells, as many as asked for (up to 4,294,967,295), fewer only at the end; and whether there may be more.

        With a limit no more than it leaves, and `([], False)` behind them. NoSession.
        """
        cells: List[Cell] = []
        with closing(self._steps(count, cells)) as steps:
            for wanted in steps:
                self._next(wanted)
        return self._fetched(cells)

    def _next(self, count: int) -> None:
        """Takes the next cells that the server has. An interrupt that breaks into it closes the client, so that none is passed over."""
        self._connection.ask(self._request(count), self._hear)

    def ranges(self, ranges: Iterable[Range]) -> List[List[C]]:
        """All that it shows in each of at most 1,000 ranges, whatever was fetched, and whatever the limit.

        NoSession, as also where the limit has closed it, TooLarge ("ranges"), BadRange.
        """
        return self._by_range(self._connection.ask(self._request_of(ranges)))

    def close(self) -> None:
        """Gives it up; the server keeps nothing of it then."""
        self._close()

    def __iter__(self) -> Iterator[C]:
        for cell in self._cells():
            yield self._give([cell])[0]

    def _cells(self) -> Iterator[Cell]:
        while not self._is_exhausted:
            yield from self._ahead
            if not self._more and not length_hint(self._ahead):
                self.close()
            if not self._is_exhausted:
                self._next(self.batch)

    def __enter__(self: S) -> S:
        return self

    def __exit__(self, kind: Optional[Type[BaseException]], error: Optional[BaseException], trace: Optional[TracebackType]) -> None:
        self.close()

    def __del__(self) -> None:
        # one that was refused its number of cells has no connection
        if hasattr(self, "_connection"):
            self.close()


class OfBytes(Cells[Cell]):
    """Cells are given as they are."""

    def _told(self, cell: Cell) -> Cell:
        return cell


class OfText(Cells[TextCell]):
    """Cells are given as text. In place of one that isn't UTF-8 comes NotText, and again where one goes on: no cell is passed over."""

    def _told(self, cell: Cell) -> TextCell:
        return text_of(cell)


class Session(OfBytes, Asked[Cell]):
    """A session shows the same for good, whatever is written or dropped meanwhile.

    To iterate over its cells fetches `batch` of them at a time; another iteration, or a `fetch`, goes on behind the last cell that one
    gave. It is closed behind the last one, at the end of its `with`, or once nothing refers to it; the server is told so with the next
    request of its client. One that was closed before its last cell raises NoSession, and behind that one it is empty.
    """


class TextSession(OfText, Asked[TextCell]):
    """As a `Session`, but of text.

    In place of a cell that isn't UTF-8 comes NotText, and again where one goes on: no cell is passed over.
    """
