"""Where an exchange stands: a Redis, and the keys there that begin with the exchange's name."""

from __future__ import annotations

import dataclasses
import re

from ragvismo_service.statuses import BadUse

HOST = r"(?P<host>\[[0-9A-Fa-f:.]+\]|[^:/@#\[\]]*)"
USER = r"(?:(?P<user>[^:/@#]+)@)?"
FORMS = (
    re.compile(rf"(?:{HOST}:)?(?P<port>\d{{1,5}})(?:/(?P<name>.+))?"),
    re.compile(rf"(?P<scheme>rediss?)://{USER}{HOST}(?::(?P<port>\d{{1,5}}))?(?:/(?P<name>.+))?"),
    re.compile(rf"(?P<scheme>unix)://{USER}(?P<socket>/[^#]+)(?:#(?P<name>.+))?"),
)
FORM = "HOST:PORT/NAME, redis(s)://USER@HOST:PORT/NAME or unix://USER@SOCKET#NAME"
# Where an address tells no port.
URL_PORT = 6379


@dataclasses.dataclass(frozen=True)
class Place:
    """A Redis, who speaks to it, and the name of one of the exchanges in it. Where there are
    sentinels, the host is the name of the group of Redis that they watch."""

    host: str = "127.0.0.1"
    port: int = URL_PORT
    name: str = "ragvismo"
    user: str = ""
    is_secure: bool = False
    socket: str = ""
    password: str = dataclasses.field(default="", repr=False)
    sentinels: tuple[Place, ...] = ()

    @staticmethod
    def of(text: str) -> Place:
        """The place that a text tells, which leaves away what it likes of host, port and name;
        raises BadUse."""
        parts = next((found for form in FORMS if (found := form.fullmatch(text))), None)
        if not parts:
            raise BadUse(f"{text} is no place: {FORM}; a password comes by --password FILE")
        told = {part: value for part, value in parts.groupdict().items() if value}
        host, port = told.get("host", Place.host).strip("[]"), int(told.get("port", URL_PORT))
        if not 0 < port < 65536:
            raise BadUse(f"{text} is no place: a port is 1 to 65535")
        is_secure, socket = told.get("scheme") == "rediss", told.get("socket", "")
        return Place(
            host, port, told.get("name", Place.name), told.get("user", ""), is_secure, socket
        )

    def __str__(self) -> str:
        user = f"{self.user}@" if self.user else ""
        if self.socket:
            return f"unix://{user}{self.socket}#{self.name}"
        scheme = (
            f"redis{'s' * self.is_secure}://" if user or self.is_secure or self.sentinels else ""
        )
        host = f"[{self.host}]" if ":" in self.host else self.host
        return f"{scheme}{user}{host}:{self.port}/{self.name}"


@dataclasses.dataclass(frozen=True)
class Keys:
    """The keys of an exchange: the stream of messages, that of answers, the sum of its program's
    file, what is written to see that another Redis has all, the stream of books, what is before the
    session of a solver in the key of its proposals, the stream of questions, and that of what was
    told to them."""

    taken: bytes
    answers: bytes
    program: bytes
    copied: bytes
    books: bytes
    proposals: bytes
    questions: bytes
    told: bytes

    @staticmethod
    def of(name: str) -> Keys:
        keys = "in", "out", "program", "copied", "books", "proposals/", "questions", "told"
        return Keys(*(f"{name}:{key}".encode() for key in keys))
