"""Runs a live exchange with solvers beside it, which propose before each clear.

    tools/auction [--solver COMMAND].. [--seconds N] [--log FILE] [--program FILE] < LINES > REPLIES

Each line of standard input is given to `exchange serve` as soon as it comes, and the reply is
printed. Before a line `clear,M,B` the exchange is asked for `book,M`; its reply is given to each
solver as a line, and the first line that a solver answers within N seconds (10) is handed in where
it begins with `propose,M,`: the exchange judges it, and believes none. A solver that is silent for
so long, floods, or has ended is stopped and started anew at the next clear: it costs its time and
nothing else. `--solver` may stand several times; where it does not the solver is `exchange
propose`. FILE gets all lines that the exchange was given, so that `exchange serve < FILE` prints
the same replies. The status is that of the exchange, or 2 for bad use, with one line on standard
error.
"""
from __future__ import annotations

import argparse
import os
import pathlib
import re
import shlex
import sys
from typing import BinaryIO

from ragvismo_tools.ending import BadUse, ended, words_of
from ragvismo_tools.piping import ends_of, piped
from ragvismo_tools.places import PROGRAM
from ragvismo_tools.solvers import Solver

CLEAR = re.compile(rb"clear,([0-9]+),")
BOOK = b'"reply":"book"'
MARK = b"\xef\xbb\xbf"


class Exchange:
    """A live exchange of which one line is asked at a time."""

    def __init__(self, program: pathlib.Path, log: BinaryIO | None) -> None:
        self.process, self.log = piped([program, "serve"]), log
        self.given, self.told = ends_of(self.process)

    def ask(self, line: bytes) -> bytes:
        """The reply to a line, with its LF, which is printed too; nothing to an empty line, before
        whose end a CR may stand, or where the exchange has gone."""
        if self.log:
            self.log.write(line + b"\n")
            self.log.flush()
        try:
            self.given.write(line + b"\n")
            self.given.flush()
        except BrokenPipeError:
            return b""
        reply = self.told.readline() if line.removesuffix(b"\r") else b""
        sys.stdout.buffer.write(reply)
        sys.stdout.buffer.flush()
        return reply

    def end(self) -> int:
        try:
            self.given.close()
        except BrokenPipeError:
            pass
        return self.process.wait()


def propose(exchange: Exchange, solvers: list[Solver], market: bytes, seconds: float) -> None:
    """Lets each solver propose for the market's live orders."""
    book = exchange.ask(b"book," + market)
    if BOOK not in book:
        return
    for solver in solvers:
        line = solver.line_for(book, seconds)
        if line.startswith(b"propose," + market + b",") and b"\r" not in line:
            exchange.ask(line)


def serve(given: argparse.Namespace) -> int:
    own = [str(given.program), "propose"]
    solvers = [Solver(shlex.split(command)) for command in given.solver] or [Solver(own)]
    exchange = Exchange(given.program, given.log)
    try:
        for number, line in enumerate(sys.stdin.buffer):
            text = line.removesuffix(b"\n")
            text = text if number else text.removeprefix(MARK)
            clear = CLEAR.match(text)
            if clear:
                propose(exchange, solvers, clear[1], given.seconds)
            if not exchange.ask(text) and text.removesuffix(b"\r"):
                break
    finally:
        for solver in solvers:
            solver.stop()
    return exchange.end()


def main() -> int:
    words = words_of(__doc__)
    words.add_argument(
        "--solver", action="append", default=[], metavar="COMMAND", help="one more solver"
    )
    words.add_argument(
        "--seconds", type=float, default=10, metavar="N", help="how long each may take for a book"
    )
    words.add_argument(
        "--log",
        type=argparse.FileType("wb"),
        metavar="FILE",
        help="gets the lines that the exchange was given",
    )
    words.add_argument("--program", type=pathlib.Path, default=PROGRAM, metavar="FILE")
    given = words.parse_args()
    given.program = given.program.absolute()
    if not given.seconds > 0:
        raise BadUse("--seconds is a number above 0")
    if not os.access(given.program, os.X_OK):
        raise BadUse(f"there is no program {given.program}, which ./build makes")
    return serve(given)


def run() -> int:
    return ended(main)
