"""Clients that threads share: each is lent to one of them at a time."""
from __future__ import annotations

from contextlib import contextmanager
from functools import partial
from os import PathLike, getpid
from threading import Condition, Lock, Thread
from time import monotonic
from types import TracebackType
from typing import Iterator, List, Optional, Set, Tuple, Type, Union

from . import checks
from .client import Client, checked, connect
from .data import Text
from .errors import PoolClosed, PoolExhausted
from .places import LOCAL, TIMEOUT, place, seconds

IDLE = 10.0
"""Seconds that a pool keeps a client which nobody has, unless told otherwise."""


class Making:
    """A client that is being made, in a thread of its own: who waits for it takes one that comes back before."""

    def __init__(self) -> None:
        self.error: Optional[BaseException] = None
        self.is_over = False

    def fail(self) -> None:
        """Raises the error, which isn't kept then: its traceback has all that its thread had."""
        error, self.error = self.error, None
        try:
            raise error or AssertionError
        finally:
            del error


class Pool:
    """Up to `size` clients of a user, made as they are needed. It is closed by `close`, or at the end of its `with`; any thread may use it.

        with tabd.Pool(9997, "kim", size=4) as pool:
            with pool.client() as client:
                client.write(..)

    The server is said as to `connect`, by a URL too; `client_timeout` is the timeout of each client, and `timeout` how many seconds a
    thread waits for one to be free (None: for good). A client that nobody has for `idle` seconds (None: for good) is closed, as each holds
    one of the server's workers. In another process, behind a fork, a pool makes clients of its own.
    """

    def __init__(
        self,
        port: Union[int, str, PathLike[str]],
        user: Optional[Text] = None,
        *,
        size: int = 4,
        timeout: Optional[float] = TIMEOUT,
        host: str = LOCAL,
        client_timeout: Optional[float] = TIMEOUT,
        wait: float = 0,
        idle: Optional[float] = IDLE,
    ) -> None:
        self.size = checks.number(size, "size", 1)
        self.closed = False
        self._timeout = None if timeout is None else seconds(timeout, "timeout")
        self._idle = None if idle is None else seconds(idle, "idle")
        self._user = checked(place(port, user, host, client_timeout, wait))[1]
        self._connect = partial(connect, port, user, host, client_timeout, wait=wait)
        self._begin()

    def _begin(self) -> None:
        """Begins without a client, in this process."""
        self._process = getpid()
        self._lock = Lock()
        # a client came back, or the pool was closed; the latter for who closes idle clients
        self._changed, self._ends = Condition(self._lock), Condition(self._lock)
        # those that nobody has and since when, the latest behind; those that somebody has; how many are being made
        self._free: List[Tuple[float, Client]] = []
        self._lent: Set[Client] = set()
        self._making = 0
        self._is_closing_idle = False

    def _see_process(self) -> None:
        """Begins anew behind a fork. What the process before has, it goes on with."""
        if self._process != getpid():
            self._begin()

    def __repr__(self) -> str:
        return f"<Pool of {self._user!r}, size {self.size}{', closed' if self.closed else ''}>"

    @contextmanager
    def client(self) -> Iterator[Client]:
        """Lends a client for a `with`. Its sessions are to be done with by the end of that. One that was closed or broke isn't lent again.

        PoolExhausted, PoolClosed, and what `connect` raises.
        """
        self._see_process()
        client = self._take()
        try:
            yield client
        finally:
            self._take_back(client)

    def close(self) -> None:
        """Closes all clients. A thread that has one, or waits for one, is told so."""
        self._see_process()
        with self._lock:
            self.closed = True
            clients = [*(client for _, client in self._free), *self._lent]
            self._free.clear()
            self._changed.notify_all()
            self._ends.notify_all()
        for client in clients:
            client.close()

    def __enter__(self) -> Pool:
        return self

    def __exit__(self, kind: Optional[Type[BaseException]], error: Optional[BaseException], trace: Optional[TracebackType]) -> None:
        self.close()

    def _take(self) -> Client:
        """One that nobody has, or a new one, whichever is there first."""
        end = None if self._timeout is None else monotonic() + self._timeout
        making: Optional[Making] = None
        with self._lock:
            while True:
                client = self._usable()
                if client is not None:
                    self._lent.add(client)
                    return client
                if making is not None and making.error is not None:
                    making.fail()
                if making is None or making.is_over:
                    making = self._make() if self._making + len(self._lent) < self.size else None
                # (how long it takes to make one is bounded by the client's own timeout)
                left = None if end is None or making is not None else end - monotonic()
                if left is not None and left <= 0:
                    raise PoolExhausted(f"all clients of the pool ({self.size}) stayed lent for {self._timeout} seconds")
                self._changed.wait(left)

    def _usable(self) -> Optional[Client]:
        """One that nobody has, and whose connection the server hasn't ended meanwhile."""
        if self.closed:
            raise PoolClosed("the pool is closed")
        while self._free:
            _, client = self._free.pop()
            if not client._connection.ended():
                return client
            client.close()
        return None

    def _make(self) -> Making:
        making = Making()
        thread = Thread(target=self._connect_for, args=[making], name="tabd.Pool", daemon=True)
        self._making += 1
        try:
            thread.start()
        except BaseException:
            self._making -= 1
            raise
        return making

    def _take_back(self, client: Client) -> None:
        self._see_process()
        with self._lock:
            # (one of another process isn't lent here)
            if client in self._lent:
                self._lent.discard(client)
                self._set_free(client)

    def _set_free(self, client: Client) -> None:
        """Lets who waits have this client, or one that is made in place of one that was closed."""
        if self.closed:
            client.close()
        elif not client.closed:
            self._free.append((monotonic(), client))
            if self._idle is not None and not self._is_closing_idle:
                Thread(target=self._close_idle, name="tabd.Pool", daemon=True).start()
                self._is_closing_idle = True
        self._changed.notify_all()

    # ---- In threads of their own.

    def _connect_for(self, making: Making) -> None:
        """Makes a client, of which there may be no need any more."""
        client: Optional[Client] = None
        try:
            client = self._connect()
        except BaseException as error:
            making.error = error
        with self._lock:
            self._making -= 1
            making.is_over = True
            if client is not None:
                self._set_free(client)
            self._changed.notify_all()

    def _close_idle(self) -> None:
        """Closes clients that nobody had for so long, until there is none."""
        assert self._idle is not None
        with self._lock:
            while self._free:
                # the first is the one that nobody had for longest
                left = self._free[0][0] + self._idle - monotonic()
                if left > 0:
                    self._ends.wait(left)
                else:
                    self._free.pop(0)[1].close()
            self._is_closing_idle = False
