"""The messages of members, on the disk before they are sent, so that each counts once."""

from __future__ import annotations

import pathlib
from collections.abc import Iterable
from typing import NamedTuple

from ragvismo_gateway.members_file import opened, together

# How many messages of a session are kept, so that one that is sent again counts once.
KEPT = 1000
TABLE = """
CREATE TABLE IF NOT EXISTS messages (
    exchange TEXT NOT NULL, session INTEGER NOT NULL, number INTEGER NOT NULL, key TEXT NOT NULL,
    body BLOB NOT NULL, PRIMARY KEY (exchange, session, number), UNIQUE (exchange, session, key));
"""
ROW = "exchange = ? AND session = ?"


class Message(NamedTuple):
    """A message that was numbered; the key is what its sender calls it."""

    session: int
    number: int
    key: str
    body: bytes


class Kept:
    """The messages of one exchange in the file of members; each thread has its own."""

    def __init__(self, path: pathlib.Path, exchange: str) -> None:
        self.exchange, self.file = exchange, opened(path, TABLE)

    def close(self) -> None:
        self.file.close()

    def keep(self, messages: Iterable[Message]) -> None:
        """Keeps messages before they are sent, together."""
        with together(self.file):
            for message in messages:
                self._keep(message)

    def _keep(self, message: Message) -> None:
        row, of_session = (self.exchange, *message), (self.exchange, message.session)
        self.file.execute("INSERT OR REPLACE INTO messages VALUES (?, ?, ?, ?, ?)", row)
        past = f"DELETE FROM messages WHERE {ROW} AND number <= ?"
        self.file.execute(past, (*of_session, message.number - KEPT))
        # The one before is answered, and just its key is wanted.
        blank = f"UPDATE messages SET body = x'' WHERE {ROW} AND number = ?"
        self.file.execute(blank, (*of_session, message.number - 1))

    def sessions(self) -> list[int]:
        """The sessions that have messages."""
        asked = "SELECT DISTINCT session FROM messages WHERE exchange = ?"
        return [session for [session] in self.file.execute(asked, (self.exchange,))]

    def of(self, session: int) -> list[Message]:
        """The messages of a session, by number."""
        asked = f"SELECT session, number, key, body FROM messages WHERE {ROW} ORDER BY number"
        return [Message(*row) for row in self.file.execute(asked, (self.exchange, session))]

    def last_elsewhere(self) -> dict[tuple[int, str], bytes]:
        """What each session said last in other exchanges, by session and key: just that may be sent
        again by who had no answer when this one began."""
        asked = "SELECT session, key, body FROM messages WHERE exchange <> ? AND body <> x''"
        rows = self.file.execute(asked, (self.exchange,))
        return {(session, key): body for session, key, body in rows}

    def forget(self, session: int, last: int) -> None:
        """Takes away the messages of a session after its last one."""
        after = f"DELETE FROM messages WHERE {ROW} AND number > ?"
        self.file.execute(after, (self.exchange, session, last))
