"""Writes of many threads, sent many at a time by a thread of their own."""
from __future__ import annotations

import atexit
import sys
import warnings
from collections import deque
from functools import partial
from os import PathLike, getpid
from threading import Condition, RLock, Thread, get_ident
from time import monotonic
from types import TracebackType
from typing import Callable, Deque, Iterable, List, Optional, Tuple, Type, Union
from weakref import WeakSet

from . import checks, requests
from .client import connect
from .connection import WINDOW, sized
from .data import Text, Update, Write
from .errors import ConnectionClosed, InUse, Refused, WritesFailed
from .places import LOCAL, TIMEOUT, seconds
from .replies import Answer

MAX_BYTES = 8 << 20
"""Bytes of requests that a batch writer holds, unless told otherwise."""
LATENCY = 1.0
"""Seconds that a write waits for others to be sent with, unless told otherwise."""


Waiting = Tuple[Text, Text, Tuple[Update, ...], bytes]
"""The parts of a write, and its request."""


class BatchWriter:
    """Takes writes of any thread, and sends them in their order over a connection of its own, each done or refused by itself.

        with tabd.BatchWriter(9997, "root", latency=0.5) as writer:
            writer.write("stock", "apple", [Put("price", "euro", value="2")])

    A write is sent after `latency` seconds at the latest. It isn't known to be done before a `flush` or the `close` behind it has returned;
    what waits when the program ends without `close` is lost, with a ResourceWarning. All writes without an answer have `max_bytes` together,
    or are one larger write: where another one would pass that, its thread waits.

    The server is said as to `connect`. A connection that it ended while nothing was asked is made anew; one that breaks ends the writer:
    `write` raises ConnectionClosed, and a `flush` behind it, or the end of the `with`, says which writes are unknown. In another process,
    behind a fork, it takes none.
    """

    def __init__(
        self,
        port: Union[int, str, PathLike[str]],
        user: Optional[Text] = None,
        *,
        max_bytes: int = MAX_BYTES,
        latency: float = LATENCY,
        on_refused: Optional[Callable[[Write, Refused], object]] = None,
        host: str = LOCAL,
        timeout: Optional[float] = TIMEOUT,
        wait: float = 0,
    ) -> None:
        """Connects. Where there is `on_refused`, it is called with each refused write and its refusal, in the writer's thread, and no flush
        tells of these; but of those for which it raises an error, which is their `__cause__`. What it writes doesn't wait for room.
        """
        self.closed = False
        self._max_bytes = checks.number(max_bytes, "max_bytes", 1, sys.maxsize)
        self._latency = seconds(latency, "latency")
        self._on_refused = on_refused
        self._process = getpid()
        self._lock = RLock()
        self._changed = Condition(self._lock)
        # the writes that wait, and by when they are sent; those that were sent; the bytes of both
        self._queue: Deque[Waiting] = deque()
        self._due = 0.0
        self._sent: Deque[Waiting] = deque()
        self._bytes = 0
        # whether its own thread waits for them
        self._is_idle = False
        # how many writes were given, and of how many it is clear what became of them
        self._given = self._settled = 0
        # threads that wait for room, and for answers
        self._crowded = self._flushing = 0
        self._refused: List[Tuple[Write, Refused]] = []
        self._unknown: List[Write] = []
        self._broken: Optional[BaseException] = None
        self._connect = partial(connect, port, user, host, timeout, wait=wait)
        self._client = self._connect()
        self._thread = Thread(target=self._run, name="tabd.BatchWriter", daemon=True)
        self._thread.start()
        LIVE.add(self)

    def __repr__(self) -> str:
        return f"<BatchWriter of {self._client._user!r}{', closed' if self.closed else ''}>"

    def write(self, table: Text, row: Text, updates: Iterable[Update]) -> None:
        """Takes all updates of a row, to do all or none. ConnectionClosed where the writer has ended: this write isn't sent then."""
        self._see_process()
        listed = tuple(checks.items(updates, "updates"))
        request = sized(requests.write(table, row, listed))
        size = len(request)
        with self._lock:
            if self._bytes and not self._has_room(size):
                self._wait_for_room(size)
            if self.closed:
                raise ConnectionClosed("the batch writer is closed")
            if self._broken is not None:
                raise ConnectionClosed("the batch writer's connection broke") from self._broken
            queue = self._queue
            if not queue:
                self._due = monotonic() + self._latency
            queue.append((table, row, listed, request))
            self._bytes += size
            self._given += 1
            if self._is_idle and (len(queue) == 1 or self._is_due()):
                self._changed.notify_all()

    def _wait_for_room(self, size: int) -> None:
        self._crowded += 1
        self._changed.notify_all()
        try:
            self._changed.wait_for(lambda: self._has_room(size))
        finally:
            self._crowded -= 1

    def flush(self) -> None:
        """Waits until all that was given before is answered.

        WritesFailed tells all that went wrong and wasn't told before. Where several threads flush at once, each is told.
        """
        self._settle(True)

    def close(self) -> None:
        """As `flush`; then the writer ends."""
        self._end(True)

    def __enter__(self) -> BatchWriter:
        return self

    def __exit__(self, kind: Optional[Type[BaseException]], error: Optional[BaseException], trace: Optional[TracebackType]) -> None:
        """Closes it. Behind an error of another's, what went wrong waits for a `flush`."""
        is_own = isinstance(error, ConnectionClosed) and self._broken is not None and error.__cause__ is self._broken
        self._end(error is None or is_own)

    def _end(self, tells: bool) -> None:
        self._see_other_thread()
        if self._process != getpid():
            self.closed = True
            return
        with self._changed:
            self.closed = True
            self._changed.notify_all()
        self._settle(tells)
        self._thread.join()

    def _settle(self, tells: bool) -> None:
        """Waits until it is clear what became of all that was given."""
        self._see_other_thread()
        self._see_process()
        with self._changed:
            self._flushing += 1
            self._changed.notify_all()
            given = self._given
            try:
                self._changed.wait_for(lambda: self._settled >= given)
            finally:
                self._flushing -= 1
            failed = WritesFailed(tuple(self._refused), tuple(self._unknown)) if tells and (self._refused or self._unknown) else None
            if tells and not self._flushing:
                self._refused, self._unknown = [], []
        if failed is not None:
            raise failed from self._broken

    def _see_other_thread(self) -> None:
        if get_ident() == self._thread.ident:
            raise ValueError("on_refused can't wait for answers: they come behind it")

    def _see_process(self) -> None:
        if self._process != getpid():
            raise InUse("this batch writer was made in another process: make writers after a fork")

    def _warn(self) -> None:
        """Where writes wait at the program's end, says that they are lost."""
        left = self._given - self._settled
        if left and self._process == getpid():
            warnings.warn(f"{self!r} wasn't closed: {left} without an answer", ResourceWarning, source=self)

    def _has_room(self, size: int) -> bool:
        """Whether a write of this size is taken now, or never."""
        ended = self.closed or self._broken is not None
        return ended or not self._bytes or self._bytes + size <= self._max_bytes or get_ident() == self._thread.ident

    def _is_due(self) -> bool:
        """Whether there is something to be sent now."""
        waited_for = self.closed or self._crowded or self._flushing
        many = len(self._queue) >= WINDOW or 2 * self._bytes >= self._max_bytes
        return bool(self._queue) and bool(waited_for or many or monotonic() >= self._due)

    # ---- In its own thread.

    def _run(self) -> None:
        try:
            while self._next():
                self._send()
        except BaseException as error:
            self._break(error)
        finally:
            self._client.close()

    def _next(self) -> bool:
        """Takes what is to be sent, as soon as it is due; False at the end."""
        with self._changed:
            while not self._is_due():
                if self.closed:
                    return False
                self._is_idle = True
                self._changed.wait(self._due - monotonic() if self._queue else None)
                self._is_idle = False
            self._sent, self._queue = self._queue, self._sent
            return True

    def _send(self) -> None:
        """Sends what was taken, and hears its answers."""
        if self._client._connection.ended():
            self._client.close()
            self._client = self._connect()
        self._client._connection.send([(waiting[3], self._hear) for waiting in self._sent])

    def _hear(self, answer: Answer) -> None:
        waiting = self._sent[0]
        if isinstance(answer, Refused):
            self._refuse(Write(*waiting[:3]), answer)
        with self._lock:
            self._sent.popleft()
            self._bytes -= len(waiting[3])
            self._settled += 1
            if self._crowded or self._flushing:
                self._changed.notify_all()

    def _refuse(self, write: Write, refusal: Refused) -> None:
        try:
            if self._on_refused is not None:
                self._on_refused(write, refusal)
                return
        except BaseException as error:
            refusal.__cause__ = error
        with self._changed:
            self._refused.append((write, refusal))

    def _break(self, error: BaseException) -> None:
        """What has no answer will have none."""
        with self._changed:
            self._broken = error
            self._unknown += [Write(*waiting[:3]) for waiting in (*self._sent, *self._queue)]
            self._sent.clear()
            self._queue.clear()
            self._bytes, self._settled = 0, self._given
            self._changed.notify_all()


LIVE: "WeakSet[BatchWriter]" = WeakSet()
"""The writers that may have writes to lose."""


@atexit.register
def _warn() -> None:
    """Says of which writers writes are lost."""
    for writer in list(LIVE):
        writer._warn()
