"""Solvers: commands that are asked with the books of an exchange, and may hang, flood or end."""

from __future__ import annotations

import os
import pathlib
import select
import shlex
import signal
import subprocess
import sys
import time

from ragvismo_tools.piping import ends_of, piped

MOST_BYTES = 16_777_216
# So many seconds it is waited for at once, since the system waits for no number of them.
HOUR = 3_600


def has_ended(process: subprocess.Popen[bytes]) -> bool:
    """Whether it has; it is not waited for, so that its group is still there to be stopped."""
    ends = os.WEXITED | os.WNOHANG | os.WNOWAIT
    return os.waitid(os.P_PID, process.pid, ends) is not None


class Solver:
    """A command that is asked with book replies, and which nothing is believed of."""

    def __init__(self, command: list[str]) -> None:
        self.command, self.answer = command, b""
        self.process: subprocess.Popen[bytes] | None = None

    def stop(self, why: str = "") -> None:
        if self.process:
            os.killpg(self.process.pid, signal.SIGKILL)
            self.process.wait()
            for end in (self.given, self.told):
                end.close()
            self.process = None
        if why:
            tool = pathlib.Path(sys.argv[0]).name
            print(f"{tool}: {shlex.join(self.command)} {why}", file=sys.stderr, flush=True)

    def start(self) -> None:
        """Starts it, where it does not run, with all that it starts in a group of its own."""
        if self.process and has_ended(self.process):
            self.stop("ended")
        if not self.process:
            self.process = piped(self.command, bufsize=0, start_new_session=True)
            self.given, self.told = ends_of(self.process)
            for end in (self.given, self.told):
                os.set_blocking(end.fileno(), False)
        self.answer = b""

    def turn(self, left: bytes, until: float) -> bytes:
        """Gives it what is left of a book and takes what it answers, whichever goes first; what is
        still left."""
        to = [self.given] if left else []
        rest = max(0, min(until - time.monotonic(), HOUR))
        may_read, may_write, _ = select.select([self.told], to, [], rest)
        if may_write:
            left = left[os.write(self.given.fileno(), left[:65536]) :]
        if may_read:
            piece = os.read(self.told.fileno(), 65536)
            if not piece:
                raise BrokenPipeError
            self.answer += piece
        return left

    def line_for(self, book: bytes, seconds: float) -> bytes:
        """The first line that it answers to a book reply; nothing where none comes in time, and
        then it is stopped."""
        try:
            self.start()
            left, until, is_late = book, time.monotonic() + seconds, False
            while b"\n" not in self.answer and len(self.answer) <= MOST_BYTES and not is_late:
                is_late = time.monotonic() >= until  # what the pipe holds came in time
                left = self.turn(left, until)
        except OSError:
            self.stop("could not be asked")
            return b""
        line, feed, rest = self.answer.partition(b"\n")
        if not feed or left or rest:
            self.stop(
                "was silent for too long"
                if not feed and len(self.answer) <= MOST_BYTES
                else "answered more than a line"
            )
        return line if feed else b""
