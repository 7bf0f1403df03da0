"""What is asked of the arguments of a call before anything is sent. `what` names the argument in the message."""
from __future__ import annotations

import operator
import re
from collections import abc
from reprlib import repr as shown
from typing import Iterable, Sequence, Type, TypeVar

from .data import Text
from .errors import OutOfRange

T = TypeVar("T")
NAME = re.compile(rb"[a-zA-Z0-9_.-]{1,128}")
LEAST_TIME, GREATEST_TIME = -(1 << 63), (1 << 63) - 1
GREATEST_NUMBER = (1 << 32) - 1


def text(value: Text, what: str) -> bytes:
    """The bytes that are sent for a text."""
    if isinstance(value, str):
        return value.encode()
    if isinstance(value, (bytes, bytearray, memoryview)):
        return bytes(value)
    raise TypeError(f"{what}: a str or bytes is meant, not {type(value).__name__}")


def name(value: Text, what: str) -> bytes:
    """The bytes of a name of a user or a table."""
    found = text(value, what)
    if not NAME.fullmatch(found):
        raise ValueError(f"{what}: {shown(value)} is no name, which is 1 to 128 bytes of a-z A-Z 0-9 _ - .")
    return found


def items(values: Iterable[T], what: str) -> list[T]:
    """The members of a list. A text would be one of its characters, and is never meant."""
    if type(values) is list or type(values) is tuple:
        return list(values)
    if isinstance(values, (str, bytes, bytearray, memoryview)):
        raise TypeError(f"{what}: a list is meant, and {shown(values)} is one text. Say [{shown(values)}]")
    if not isinstance(values, abc.Iterable):
        raise TypeError(f"{what}: a list is meant, not {type(values).__name__}")
    return list(values)


def number(value: int, what: str, least: int = 0, greatest: int = GREATEST_NUMBER) -> int:
    """A whole number between these two."""
    if isinstance(value, bool) or not hasattr(value, "__index__"):
        raise TypeError(f"{what}: a whole number is meant, not {type(value).__name__}")
    found = operator.index(value)
    if not least <= found <= greatest:
        raise OutOfRange(f"{what}: {found} isn't from {least} to {greatest}")
    return found


def time(value: int, what: str) -> int:
    """A timestamp: 64 bits, signed."""
    return number(value, what, LEAST_TIME, GREATEST_TIME)


def flag(value: bool, what: str) -> bool:
    """True or False; a word such as "no" would count as true."""
    if not isinstance(value, bool):
        raise TypeError(f"{what}: True or False is meant, not {type(value).__name__}")
    return value


def word(value: str, words: Sequence[str], what: str) -> int:
    """The place of a word among these."""
    if value not in words:
        raise ValueError(f"{what}: {shown(value)} is none of {' '.join(words)}")
    return words.index(value)


def kind(value: object, wanted: Type[T], what: str) -> T:
    """A value of this class."""
    if not isinstance(value, wanted):
        raise TypeError(f"{what}: a {wanted.__name__} is meant, not {type(value).__name__}")
    return value
