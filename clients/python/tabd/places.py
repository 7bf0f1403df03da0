"""Where a server listens, who asks it and for how long one waits, as the arguments of `connect` or a URL say."""
from __future__ import annotations

import os
import re
from os import PathLike, fspath
from time import monotonic
from typing import Dict, Iterator, NamedTuple, Optional, TypeVar, Union
from urllib.parse import unquote, unquote_to_bytes

from .data import Text

T = TypeVar("T")
LOCAL = "127.0.0.1"
TIMEOUT = 60.0
"""Seconds that a client waits for its server, unless told otherwise."""
MAX_TIMEOUT = 1_000_000_000
"""More seconds than that no socket takes."""
FIRST_PAUSE, LONGEST_PAUSE = 0.01, 0.25
"""Seconds between one try to connect and the next; each pause is twice as long as the one before."""

BEGIN = re.compile(r"tabd(\+unix)?://", re.IGNORECASE)
URL, HOST_AND_PORT = "tabd://ann@127.0.0.1:9997", re.compile(r"[^/]*:[0-9]+")
PASSWORD, WRONG_PORT = re.compile(r"^((?:[^:@/?]*://)?[^:@/?]*):[^/?]*(?=@)"), re.compile(r"(?:\[[^\[\]]*\]|[^:/?]*):([^:/?]+)(?:[/?].*)?")
SPELLED = re.compile(r"(?:[A-Za-z0-9._~!$&'()*+,;=:@/?\[\]-]|%[0-9A-Fa-f]{2})*")
"""What a URL may consist of (RFC 3986; none of tabd has a fragment)."""
PARTS = re.compile(
    r"[^:]*://(?:(?P<user>[^:@/?]*)@)?(?P<host>\[[^\[\]@/?]+\]|[^\[\]:@/?]*)(?::(?P<port>[0-9]+))?(?P<path>/[^?]*)?(?:\?(?P<query>.*))?"
)
WORDS = ("timeout", "wait")
"""What may stand behind the `?` of a URL."""
SECONDS = re.compile(r"[0-9]+(?:\.[0-9]+)?")


class Place(NamedTuple):
    """A port and its host, or the path of a socket file; who asks; the seconds to wait for an answer, and for a server that listens."""

    port: Union[int, str]
    user: Optional[Text]
    host: str
    timeout: Optional[float]
    wait: float

    @property
    def where(self) -> str:
        """The place as one would name it."""
        return where(self.port, self.host)


def where(port: Union[int, str], host: str) -> str:
    """Where that is, as one would name it."""
    if isinstance(port, str):
        return port
    return f"[{host}]:{port}" if ":" in host else f"{host}:{port}"


def place(port: Union[int, str, PathLike[str]], user: Optional[Text], host: str, timeout: Optional[float], wait: float) -> Place:
    """What these arguments of `connect` say. Where a URL says something too, an argument that was given may not say another thing."""
    if not isinstance(port, str) or not BEGIN.match(port):
        return Place(_path(port) if isinstance(port, (str, PathLike)) else port, user, host, timeout, wait)
    said = PARTS.fullmatch(port) if SPELLED.fullmatch(port) else None
    if said is None:
        raise ValueError(f"{_no_url(port)}, or tabd+unix://ann@/run/tabd.sock{_why(port)}")
    waits = _waits(said["query"] or "")
    who = None if said["user"] is None else unquote(said["user"])
    user = _one("user", user.decode("latin-1") if isinstance(user, bytes) else user, None, who)
    timeout, wait = _one("timeout", timeout, TIMEOUT, waits.get("timeout")), _one("wait", wait, 0, waits.get("wait"))
    if "+" in port.partition(":")[0]:
        if said["host"] or said["port"] or not said["path"]:
            raise ValueError("a URL of a socket file has its whole path and no host: tabd+unix://ann@/run/tabd.sock")
        return Place(os.fsdecode(unquote_to_bytes(said["path"])), user, host, timeout, wait)
    if not said["host"] or not said["port"] or said["path"] not in (None, "/"):
        raise ValueError("a URL of a port has its host and the port, and no path: tabd://ann@127.0.0.1:9997")
    return Place(int(said["port"]), user, _one("host", host, LOCAL, unquote(said["host"].strip("[]"))), timeout, wait)


def _path(port: Union[str, PathLike[str]]) -> str:
    """The path of a socket file. A text that was meant for a port or a URL is none."""
    path = fspath(port)
    if isinstance(port, str) and path.isdecimal():
        raise TypeError(f"port: a number is meant, and {path!r} is a text")
    if isinstance(port, str) and ("://" in path or HOST_AND_PORT.fullmatch(path)):
        raise ValueError(_no_url(path))
    return path


def _no_url(given: str) -> str:
    shown = PASSWORD.sub("\\1:..", given)
    return f"{shown!r} is not a URL of tabd: {URL} is meant"


def _why(url: str) -> str:
    """What keeps it from being one, where that can be told."""
    if PASSWORD.search(url):
        return "; tabd has no passwords"
    wrong = WRONG_PORT.fullmatch(url.partition("://")[2].rpartition("@")[2])
    return f"; the port {wrong[1]!r} is not a number" if wrong and not wrong[1].isdecimal() else ""


def _one(what: str, given: T, default: T, said: Optional[T]) -> T:
    """What the URL says, or else the argument."""
    if said is None:
        return given
    if given != default and given != said:
        raise ValueError(f"{what}: the URL says {said!r}, and the argument {given!r}")
    return said


def _waits(query: str) -> Dict[str, float]:
    """What is said behind the `?`."""
    said: Dict[str, float] = {}
    for pair in query.split("&") if query else ():
        word, _, value = map(unquote, pair.partition("="))
        if word not in WORDS:
            raise ValueError(f"a URL of tabd doesn't know {word!r}; it knows {', '.join(WORDS)}")
        if word in said or not SECONDS.fullmatch(value):
            raise ValueError(f"{word}: one number of seconds is meant, as in ?{word}=5")
        said[word] = float(value)
    return said


def seconds(value: float, what: str) -> float:
    """So many seconds as can be waited."""
    if not 0 <= number_of_seconds(value, what) <= MAX_TIMEOUT:
        raise ValueError(f"{what}: {value} isn't from 0 to {MAX_TIMEOUT}")
    return value


def number_of_seconds(value: float, what: str) -> float:
    """A number, whatever it is."""
    if isinstance(value, bool) or not (isinstance(value, float) or hasattr(value, "__index__")):
        raise TypeError(f"{what}: a number of seconds is meant, not {type(value).__name__}")
    return value


def pauses(wait: float) -> Iterator[float]:
    """The seconds to pause behind each try to connect, until so many are over; behind them goes one more try."""
    end, pause = monotonic() + wait, FIRST_PAUSE
    while (left := end - monotonic()) > 0:
        yield min(pause, left)
        pause = min(2 * pause, LONGEST_PAUSE)
