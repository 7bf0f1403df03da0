"""What stands in place of a server: the test says what each of its connections is answered."""
import socket
import struct
import threading
import unittest
from contextlib import suppress
from typing import Any, Callable, Iterator, List, Tuple

OK = b"\x80"


class Link:
    """A connection, as the server has it."""

    def __init__(self, link: socket.socket) -> None:
        self._link = link
        self._reader = link.makefile("rb")

    def requests(self) -> Iterator[bytes]:
        """Each request that comes, to the end."""
        while len(length := self._reader.read(4)) == 4:
            yield self._reader.read(struct.unpack(">I", length)[0])

    def say(self, *frames: bytes) -> None:
        self._link.sendall(b"".join(struct.pack(">I", len(frame)) + frame for frame in frames))

    def end(self) -> None:
        """Ends the connection, from any thread."""
        with suppress(OSError):
            self._link.shutdown(socket.SHUT_RDWR)

    def close(self) -> None:
        self.end()
        self._reader.close()
        self._link.close()


def agree(link: Link) -> None:
    """Answers everything with Ok."""
    for _ in link.requests():
        link.say(OK)


class AnsweringCase(unittest.TestCase):
    """Serves by `serve`, in a thread for each connection."""

    serve: "Callable[[Link], None]" = staticmethod(agree)

    def setUp(self) -> None:
        self.listener = socket.create_server(("127.0.0.1", 0))
        self.port = self.listener.getsockname()[1]
        self.links: List[Link] = []
        self.threads = [threading.Thread(target=self.accept)]
        self.threads[0].start()
        self.addCleanup(self.stop)

    def accept(self) -> None:
        with suppress(OSError):
            while True:
                link = Link(self.listener.accept()[0])
                self.links.append(link)
                self.threads.append(threading.Thread(target=self.answer, args=[link]))
                self.threads[-1].start()

    def answer(self, link: Link) -> None:
        try:
            # what the test ends meanwhile isn't read to its end
            with suppress(OSError, ValueError):
                self.serve(link)
        finally:
            link.close()

    def stop(self) -> None:
        """Ends all."""
        with suppress(OSError):
            self.listener.shutdown(socket.SHUT_RDWR)
        self.threads[0].join()
        self.listener.close()
        for link in self.links:
            link.end()
        for thread in self.threads[1:]:
            thread.join()


def beside(work: "Callable[[], Any]") -> "Tuple[threading.Thread, List[Any]]":
    """A thread that does this, and what comes of it."""
    result: List[Any] = []

    def run() -> None:
        try:
            result.append(work())
        except BaseException as error:
            result.append(error)

    thread = threading.Thread(target=run)
    thread.start()
    return thread, result
