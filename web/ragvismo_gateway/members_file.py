"""The file of members and messages, which is on the disk and for one's own eyes alone."""

from __future__ import annotations

import contextlib
import pathlib
import sqlite3
from collections.abc import Iterator

from ragvismo_service.statuses import Ended, Status

FILE = "members.sqlite"
# How long another process may write to it, in seconds.
PATIENCE = 30.0


def opened(path: pathlib.Path, tables: str) -> sqlite3.Connection:
    """The file with its tables; what is written is on the disk then."""
    path.touch(mode=0o600)
    file = sqlite3.connect(path, PATIENCE, isolation_level=None)
    file.execute("PRAGMA journal_mode = WAL")
    file.execute("PRAGMA synchronous = FULL")
    file.executescript(tables)
    return file


@contextlib.contextmanager
def together(file: sqlite3.Connection) -> Iterator[None]:
    """What is written meanwhile is written together, or nothing of it."""
    file.execute("BEGIN IMMEDIATE")
    try:
        yield
    except BaseException:
        file.execute("ROLLBACK")
        raise
    file.execute("COMMIT")


@contextlib.contextmanager
def told_faults() -> Iterator[None]:
    """Ended where the file cannot be read or written."""
    try:
        yield
    except sqlite3.Error as fault:
        raise Ended(Status.FILE_FAULT, f"{FILE}: {fault}") from None
