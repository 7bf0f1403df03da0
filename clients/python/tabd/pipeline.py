"""Writes that are sent many at a time."""
from __future__ import annotations

from threading import get_ident
from typing import Dict

from .connection import Connection
from .errors import Refused
from .replies import Answer


class Refusals:
    """The refusals of writes that were answered, by their places from 0."""

    def __init__(self) -> None:
        self.refused: Dict[int, Refused] = {}
        self._answered = 0

    def hear(self, answer: Answer) -> None:
        """Takes the answer to the next write."""
        if isinstance(answer, Refused):
            self.refused[self._answered] = answer
        self._answered += 1


class Pipeline(Refusals):
    """The writes of a client that wait, and what was answered. It is of the thread that makes it."""

    def __init__(self, connection: Connection) -> None:
        super().__init__()
        self._connection = connection
        self.thread = get_ident()

    def write(self, request: bytes) -> None:
        """Lets a write wait; the last of a window and a large one send all that wait."""
        self._connection.collect((request, self.hear))
