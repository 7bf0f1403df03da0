"""Requests and their answers in turn."""
from __future__ import annotations

import select
import socket
from collections import deque
from contextlib import closing, suppress
from os import getpid
from threading import RLock, get_ident
from typing import TYPE_CHECKING, BinaryIO, Callable, Deque, Generator, Iterable, List, Optional, Sized, Tuple

from .errors import ConnectionClosed, InUse, ProtocolError, Refused, TimedOut
from .places import Place
from .replies import BEFORE, LAST, Answer, Ok, Reply, decode, explained, is_whole
from .requests import field

if TYPE_CHECKING:
    from .pipeline import Pipeline

MAX_FRAME = 8_388_608
"""Bytes of a request or a reply."""
WINDOW = 100
"""At most so many requests are sent together. The replies to so many writes and closes, of at most 140 bytes each, fit into what a
socket or a pipe holds, so that neither side waits for the other."""


Hear = Callable[[Answer], object]
"""Takes the answer of a request; what breaks into that closes the connection too."""


Exchange = Tuple[bytes, Hear]
"""A request, and what takes its answer."""

Step = Optional[bytes]
"""What an exchange does next: it sends these bytes, or, where it is None, reads a frame."""

DONE = (Ok(),)
"""The answer that most requests have, in a frame of one byte."""


class Exchanges:
    """Requests that wait, and what is sent and read for them, whatever does so.

    Whatever breaks into an exchange leaves the two sides out of step, and closes the connection; what was answered before is heard.
    """

    def __init__(self, user: Optional[str] = None, at: Optional[Place] = None) -> None:
        """Who asks, and where, is for messages."""
        self._user, self._at = user, at
        self._waiting: Deque[Exchange] = deque()
        self._process = getpid()
        self._has_answered = False
        self.closed = False

    def later(self, request: bytes, hear: Hear) -> None:
        """Lets a request wait for the next one that is sent; its answer is handed to `hear` then. Any thread may say so at any time."""
        self._waiting.append((sized(request), hear))

    def close(self) -> None:
        """Ends the connection."""
        raise NotImplementedError

    @staticmethod
    def _is_enough(waiting: Sized, request: bytes) -> bool:
        """Whether all that waits is to be sent with this request: it is the last of a window, or large."""
        return len(waiting) >= WINDOW or len(request) >= MAX_FRAME // WINDOW

    def _is_of_another_process(self) -> bool:
        """Whether there was a fork since. What is sent or read here then is missing there."""
        return self._process != getpid()

    def _see_process(self) -> None:
        if self._is_of_another_process():
            raise InUse("this client was made in another process: make clients after a fork")

    def _late(self) -> str:
        """What it means that nothing came in time."""
        if self._at is None or self._at.timeout is None:
            return "the server took longer than the timeout"
        said = f"the server at {self._at.where} didn't answer within {self._at.timeout:g} s"
        return said if self._has_answered else f"{said}; all its workers may be busy (serve --workers)"

    def _steps(self, *last: Exchange) -> Generator[Step, bytes, None]:
        """Sends what waits now, and these behind it. The answers to each window are heard before the next is sent."""
        if self.closed:
            self._waiting.clear()
            raise ConnectionClosed("the client is closed")
        try:
            waiting = [self._waiting.popleft() for _ in range(len(self._waiting))]
            waiting += last
            for first in range(0, len(waiting), WINDOW):
                yield from self._exchange(waiting[first : first + WINDOW])
        except BaseException as error:
            self.close()
            if isinstance(error, (socket.timeout, TimeoutError)):
                raise TimedOut(self._late()) from error
            if isinstance(error, (OSError, ValueError)):
                raise ConnectionClosed(f"the connection failed: {error}") from error
            raise

    def _exchange(self, window: List[Exchange]) -> Generator[Step, bytes, None]:
        """Sends these requests together, and hears their answers. A server that ends the connection meanwhile may have answered some."""
        broken: Optional[ConnectionError] = None
        try:
            yield b"".join([field(request) for request, _ in window])
        except ConnectionError as error:
            broken = error
        for request, hear in window:
            try:
                frame = yield None
                answer: Answer = DONE
                if frame != b"\x80" or request[0] in LAST:
                    answer = yield from self._answer(request, frame)
            except (ConnectionClosed, ConnectionError) as error:
                raise broken or error
            self._has_answered = True
            hear(answer)
        if broken is not None:
            self.close()

    def _answer(self, request: bytes, frame: bytes) -> Generator[Step, bytes, Answer]:
        """The frames of a reply from this one up to its last, or the refusal in their place."""
        last, before = LAST.get(request[0], Ok), BEFORE.get(request[0], ())
        replies: List[Reply] = []
        while True:
            try:
                reply = decode(frame)
            except ValueError as error:
                raise ProtocolError(f"a reply that isn't understood: {error}: {frame[:32].hex()}") from error
            if isinstance(reply, Refused) and not replies:
                return explained(reply, request, self._user)
            if isinstance(reply, Refused) or not isinstance(reply, (last, *before)):
                raise ProtocolError(f"a reply out of place: {frame[:32].hex()}")
            replies.append(reply)
            if isinstance(reply, last):
                if not is_whole(request, replies):
                    raise ProtocolError(f"a list of {len(replies) - 1} that isn't what was asked for")
                return tuple(replies)
            frame = yield None

    @staticmethod
    def _length(head: bytes) -> int:
        """How many bytes the frame has that begins so."""
        length = int.from_bytes(head, "big")
        if length > MAX_FRAME:
            raise ProtocolError(f"a reply of {length} bytes: is a tabd server there?")
        return length

    def _ended(self) -> ConnectionClosed:
        """What it means that nothing more can be read."""
        return ConnectionClosed("the client was closed meanwhile" if self.closed else "the server ended the connection")


class Taken:
    """The answer of one request."""

    def __init__(self, hear: Optional[Callable[[Tuple[Reply, ...]], None]]) -> None:
        self._hear = hear
        self._answers: List[Answer] = []

    def take(self, answer: Answer) -> None:
        if self._hear is not None and not isinstance(answer, Refused):
            self._hear(answer)
        self._answers.append(answer)

    def given(self) -> Tuple[Reply, ...]:
        """The answer, or its refusal is raised."""
        answer = self._answers.pop()
        if not isinstance(answer, Refused):
            return answer
        try:
            raise answer
        finally:
            del answer  # a refusal that could be reached from its own traceback would stay, and all sessions of the caller with it


class Connection(Exchanges):
    """Sends requests and reads their answers over two streams.

    One thread does so at a time. `break_off` is called first where it is closed, so that what couldn't be sent isn't waited for again.
    """

    def __init__(
        self,
        reader: BinaryIO,
        writer: BinaryIO,
        break_off: Optional[Callable[[], None]],
        user: Optional[str] = None,
        at: Optional[Place] = None,
    ) -> None:
        super().__init__(user, at)
        self._reader, self._writer, self._break_off = reader, writer, break_off
        # whose turn it is, which is said and seen by one thread at a time; and the pipeline whose thread alone may ask
        self._turn: Optional[object] = None
        self._taking = RLock()
        self.pipeline: Optional[Pipeline] = None

    def collect(self, *exchanges: Exchange) -> None:
        """As `later`, for one thread at a time. The last request of a window and a large one are sent, with all that wait."""
        self._in_turn(self._collect, exchanges)

    def send(self, exchanges: Iterable[Exchange] = ()) -> None:
        """Sends all that waits and these, in turn, and hears the answers to each window before it sends the next."""
        self._in_turn(self._send_all, exchanges)

    def ask(self, request: bytes, hear: Optional[Callable[[Tuple[Reply, ...]], None]] = None) -> Tuple[Reply, ...]:
        """Sends a request behind all that waits, and gives its answer, which `hear` takes first, or raises its refusal."""
        taken = Taken(hear)
        self._in_turn(self._send, (sized(request), taken.take))
        return taken.given()

    def hold(self, pipeline: Pipeline) -> None:
        """Lets the thread of this pipeline alone ask, as long as it is the `pipeline`."""
        self._see_process()
        with self._taking:
            self._see_thread()
            if self.pipeline is not None:
                raise ValueError("a pipeline is open already")
            self.pipeline = pipeline

    def ended(self) -> bool:
        """Whether it is closed, or something came where nothing was asked, such as its end. Nothing is sent to find out."""
        if self.closed:
            return True
        poll = select.poll()
        poll.register(self._reader.fileno(), select.POLLIN)
        return bool(poll.poll(0))

    def close(self) -> None:
        """Ends the connection. A thread that waits for an answer then has none. One of another process goes on there."""
        self.closed = True
        if self._is_of_another_process():
            return
        if self._break_off is not None:
            with suppress(OSError):
                self._break_off()
        self._shut()

    def _in_turn(self, does: Callable[..., None], *words: object) -> None:
        """Does this while no other thread sends or reads. One that would is told so, and nothing of it is sent."""
        self._see_process()
        turn = object()
        try:
            with self._taking:
                self._see_thread()
                if self._turn is not None:
                    raise InUse("another request of this client is under way: one thread uses a client at a time")
                self._turn = turn
            does(*words)
        finally:
            # nothing is called before the turn is over: an exception of a signal's handler comes behind a call
            if self._turn is turn:
                self._turn = None
            if self.closed:
                self._shut()

    def _see_thread(self) -> None:
        if self.pipeline is not None and self.pipeline.thread != get_ident():
            raise InUse("another thread has a pipeline of this client: one thread uses a client at a time")

    def _shut(self) -> None:
        """Closes the streams, unless a thread uses them, which does so at its end: one that is closed fails a reader in ways of its own."""
        turn = object()
        try:
            with self._taking:
                if self._turn is not None:
                    return
                self._turn = turn
            for end in (self._writer.close, self._reader.close):
                with suppress(OSError):
                    end()
        finally:
            if self._turn is turn:
                self._turn = None

    def _collect(self, exchanges: Iterable[Exchange]) -> None:
        for request, hear in exchanges:
            self.later(request, hear)
            if self._is_enough(self._waiting, request):
                self._send()

    def _send_all(self, exchanges: Iterable[Exchange]) -> None:
        self._collect(exchanges)
        self._send()

    def _send(self, *last: Exchange) -> None:
        """Sends what waits now, and these behind it."""
        with closing(self._steps(*last)) as steps, suppress(StopIteration):
            step = next(steps)
            while True:
                try:
                    found = self._do(step)
                except BaseException as error:
                    step = steps.throw(error)
                else:
                    step = steps.send(found)

    def _do(self, step: Step) -> bytes:
        if step is None:
            return self._read(self._length(self._read(4)))
        self._writer.write(step)
        self._writer.flush()
        return b""

    def _read(self, count: int) -> bytes:
        found = self._reader.read(count)
        if len(found) < count:
            raise self._ended()
        return found


def sized(request: bytes) -> bytes:
    """A request that can be sent."""
    if len(request) > MAX_FRAME:
        raise ValueError(f"a request of {len(request)} bytes, and at most {MAX_FRAME} can be sent")
    return request
