"""Children whose ends are pipes."""

from __future__ import annotations

import subprocess
from collections.abc import Sequence
from typing import IO, Any


def piped(
    command: Sequence[object], *, errors: bool = False, **more: Any
) -> subprocess.Popen[bytes]:
    """A child whose input and output are pipes, and its standard error where that is asked for."""
    if errors:
        more["stderr"] = subprocess.PIPE
    words = [str(it) for it in command]
    child: subprocess.Popen[bytes] = subprocess.Popen(
        words, stdin=subprocess.PIPE, stdout=subprocess.PIPE, **more
    )
    return child


def ends_of(child: subprocess.Popen[bytes]) -> tuple[IO[bytes], IO[bytes]]:
    """The pipe to a child and the one from it."""
    assert child.stdin and child.stdout
    return child.stdin, child.stdout
