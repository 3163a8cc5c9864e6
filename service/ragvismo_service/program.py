"""The program behind pipes, and what it answers to the entries of a log."""

from __future__ import annotations

import contextlib
import enum
import fcntl
import hashlib
import itertools
import os
import pathlib
import select
import subprocess
import time
from collections.abc import Callable, Iterator
from io import BufferedReader

from ragvismo_service.chain import FIRST_HEAD, Answered, chained
from ragvismo_service.messages import Entry, malformed
from ragvismo_service.statuses import BadUse, Ended, Status

PIECE, PIPE = 1 << 16, 1 << 20
# How often it is seen that the program says nothing, in seconds.
OFTEN = 1.0


class Rule(enum.StrEnum):
    """Who may say what: the owner of an account and the operator, or anybody."""

    MEMBERS = "members"
    SESSIONS = "sessions"


def opened(path: pathlib.Path) -> BufferedReader:
    """The file of a program that can be run; raises BadUse."""
    try:
        file = open(path, "rb")
    except OSError as fault:
        raise BadUse(f"there is no program {path}, which ./build makes: {fault.strerror}") from None
    if not path.is_file() or not os.access(path, os.X_OK):
        raise BadUse(f"{path} cannot be run")
    return file


def nothing() -> None:
    """What is done where nothing is to be done."""


class Program:
    """The program `exchange serve members`, or `exchange serve sessions`, which answers each line
    with one; just the file whose sum is in `digest` is run.

    It ends with HANGS where for `patience` seconds it neither takes a byte nor answers.
    """

    def __init__(self, path: pathlib.Path, patience: float, rule: Rule) -> None:
        self.patience = patience
        # The pieces of an answer that has not ended.
        self.begun: list[bytes] = []
        with opened(path) as file:
            # What names who answers: the sum of the file, and which rule it keeps.
            total = hashlib.file_digest(file, "sha256").hexdigest()
            self.digest = total if rule is Rule.SESSIONS else f"{rule} {total}"
            self.process = subprocess.Popen(
                [path, "serve", rule],
                executable=f"/proc/self/fd/{file.fileno()}",
                pass_fds=[file.fileno()],
                stdin=subprocess.PIPE,
                stdout=subprocess.PIPE,
                bufsize=0,
            )
        assert self.process.stdin and self.process.stdout
        self.stdin, self.stdout = self.process.stdin, self.process.stdout
        # Of a user who has many pipes already Linux leaves each as it is.
        for pipe in (self.stdin, self.stdout):
            with contextlib.suppress(PermissionError):
                fcntl.fcntl(pipe, fcntl.F_SETPIPE_SZ, PIPE)
        os.set_blocking(self.stdin.fileno(), False)

    def check(self) -> None:
        """Ended where the program ended while it was asked nothing."""
        if (status := self.process.poll()) is not None:
            raise Ended(Status.PROGRAM_ENDED, f"the program ended with status {status}")

    def answers(
        self, lines: list[bytes], meanwhile: Callable[[], None] = nothing
    ) -> Iterator[list[bytes]]:
        """The answers to lines, in order, in groups as they come; while there are none `meanwhile`
        is done every second."""
        left, given, since = len(lines), memoryview(b"".join(lines)), time.monotonic()
        while left:
            ready, room, _ = select.select(
                [self.stdout], [self.stdin] if given else [], [], min(OFTEN, self.patience)
            )
            if not ready and not room:
                self._wait_since(since)
                meanwhile()
                continue
            since = time.monotonic()
            if room:
                given = self._give(given)
            group = self._read() if ready else []
            left -= len(group)
            if left < 0:
                raise Ended(Status.PROGRAM_ENDED, "the program answered more than it was asked")
            if group:
                yield group

    def _wait_since(self, since: float) -> None:
        """Ended where the program has been silent since a time for as long as patience lasts."""
        if time.monotonic() >= since + self.patience:
            self.process.kill()
            raise Ended(Status.HANGS, f"the program answered nothing for {self.patience:g} s")

    def _give(self, text: memoryview) -> memoryview:
        """Writes what the pipe has room for, and tells what is left; nothing is left for a program
        that ended."""
        try:
            return text[self.stdin.write(text) or 0 :]
        except BrokenPipeError:
            return text[:0]

    def _read(self) -> list[bytes]:
        """The answers that one piece of output ends."""
        if not (piece := os.read(self.stdout.fileno(), PIECE)):
            raise Ended(
                Status.PROGRAM_ENDED, f"the program ended with status {self.process.wait()}"
            )
        if b"\n" not in piece:
            self.begun.append(piece)
            return []
        *answers, rest = b"".join((*self.begun, piece)).split(b"\n")
        self.begun = [rest]
        return answers

    def end(self) -> None:
        self.stdin.close()
        self.process.wait()


class Replay:
    """A program that is given the entries of a log from the first on, and the chain over its
    answers."""

    def __init__(self, program: Program) -> None:
        self.program, self.head = program, FIRST_HEAD

    def answers(self, entries: list[Entry]) -> Iterator[list[Answered]]:
        """The next entries with their answers, in order, in groups as they come."""
        for fault, alike in itertools.groupby(entries, lambda entry: entry.fault):
            run = list(alike)
            if fault is not None:
                yield self._chained([(entry, malformed(entry.id, fault)) for entry in run])
                continue
            left = iter(run)
            for answers in self.program.answers([entry.text + b"\n" for entry in run]):
                yield self._chained([(next(left), answer) for answer in answers])

    def _chained(self, answers: list[tuple[Entry, bytes]]) -> list[Answered]:
        group = list(chained(self.head, answers))
        self.head = group[-1].head
        return group
