"""Files that stand once they are told of: on the disk, with their folders, and written by one
process at a time."""

from __future__ import annotations

import fcntl
import os
import pathlib
import time
from typing import BinaryIO

from ragvismo_service.statuses import Ended, Status


def sync(folder: pathlib.Path) -> None:
    """Has the disk know the names in a folder."""
    place = os.open(folder, os.O_RDONLY | os.O_DIRECTORY)
    try:
        os.fsync(place)
    finally:
        os.close(place)


def make(folder: pathlib.Path) -> None:
    """Makes a folder, and those that it stands in."""
    missing = [it for it in (folder, *folder.parents) if not it.exists()]
    folder.mkdir(parents=True, exist_ok=True)
    for made in missing:
        sync(made.parent)


def close(file: BinaryIO) -> None:
    """Closes a file that is on the disk then."""
    with file:
        file.flush()
        os.fsync(file.fileno())


def append(path: pathlib.Path, line: bytes) -> None:
    """Appends a line, which is on the disk then."""
    file = open(path, "ab")
    file.write(line)
    close(file)
    sync(path.parent)


def write(path: pathlib.Path, text: bytes, mode: int = 0o666) -> None:
    """Has a file be a text, whole: it is the old one or the new one at any moment."""
    new = path.with_name(f"{path.name}.new")
    new.unlink(missing_ok=True)
    file = open(new, "wb", opener=lambda name, flags: os.open(name, flags, mode))
    file.write(text)
    close(file)
    new.replace(path)
    sync(path.parent)


def mend(path: pathlib.Path) -> None:
    """Takes away a last line that was written in part."""
    if path.exists():
        with open(path, "rb+") as file:
            text = file.read()
            file.truncate(text.rfind(b"\n") + 1)
            os.fsync(file.fileno())


def lock(folder: pathlib.Path, patience: float = 0) -> BinaryIO:
    """A lock on a folder, which whoever has the file open holds; Ended where another one holds it
    for all of patience."""
    make(folder)
    file, until = open(folder / "lock", "ab"), time.monotonic() + patience
    while True:
        try:
            fcntl.flock(file, fcntl.LOCK_EX | fcntl.LOCK_NB)
            return file
        except BlockingIOError:
            if time.monotonic() >= until:
                raise Ended(Status.HELD, f"another process writes to {folder}") from None
            time.sleep(0.05)
