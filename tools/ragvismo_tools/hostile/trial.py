"""Runs of the program that are tried, and what is expected of them."""

from __future__ import annotations

from typing import IO
import pathlib
import resource
import signal
import subprocess
from collections.abc import Callable

from ragvismo_tools.places import TOP


INPUT_LIMIT = 16_777_216


SECONDS, BYTES = 120, 2 * 1024**3


COMMANDS = TOP / "examples/joint.commands"


# A finished run: its status (below 0 for a signal), output and standard error.
Ran = tuple[int, bytes, bytes]
# A trial of a program, in short or whole: how many were tried, and what came out.
Trial = Callable[[pathlib.Path, bool], tuple[int, str]]


class Unexpected(Exception):
    """What came out otherwise than it should."""


def expect(holds: bool, said: str) -> None:
    if not holds:
        raise Unexpected(said)


def run(
    program: pathlib.Path,
    word: str,
    given: bytes,
    memory: int = BYTES,
    out: int | IO[bytes] = subprocess.PIPE,
    file_size: int | None = None,
) -> Ran:
    """A finished run: status (below 0 for a signal), output, standard error."""

    def limits() -> None:
        resource.setrlimit(resource.RLIMIT_AS, (memory, memory))
        if file_size is not None:
            signal.signal(signal.SIGXFSZ, signal.SIG_IGN)
            resource.setrlimit(resource.RLIMIT_FSIZE, (file_size, file_size))

    ran = subprocess.run(
        [program, word],
        input=given,
        stdout=out,
        stderr=subprocess.PIPE,
        timeout=SECONDS,
        preexec_fn=limits,
    )
    return ran.returncode, ran.stdout, ran.stderr


def settled(program: pathlib.Path) -> tuple[bytes, bytes]:
    """The example's commands and the whole output on them."""
    text = COMMANDS.read_bytes()
    status, out, _ = run(program, "run", text)
    expect(status == 0, f"the example ended with {status}")
    return text, out


LIVE = b"".join((TOP / f"examples/{name}.commands").read_bytes() for name in ("joint", "serve")) * 3


LINE_LIMIT = MOST_LINES = 16_777_216


def replies_of(program: pathlib.Path, text: bytes) -> list[bytes]:
    """The reply to each line of a text."""
    status, out, said = run(program, "serve", text)
    expect((status, said) == (0, b""), f"serve ended with {status}, {said[-200:]!r}")
    return out.splitlines(True)
