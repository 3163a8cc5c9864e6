"""Proposes for the books that an auctioneer tells.

    service/solver SESSION [--solver COMMAND] [--seconds N] [--program FILE] [--at PLACE]

It follows the books and gives each, as the line that the exchange answered, to `exchange propose`,
or to COMMAND. The first line that this answers within N seconds (5), where it is a proposal for the
book, is offered to the auctioneer, which hands it in as a message of the session. A command that is
silent for so long, floods, or has ended is stopped, and started anew with the next book. SESSION is
one that nobody else uses, 1000000 and above for those that `service/users` knows. As many may run
as there are sessions, on any machines.

It runs until it is stopped, or ends with one line on standard error and status
"""

from __future__ import annotations

import json
import shlex
import signal
import sys
from typing import NamedTuple

from ragvismo_service.figures import FAULTS
from ragvismo_service.messages import GREATEST_ID, START_ID
from ragvismo_service.places import Keys
from ragvismo_service.statuses import Status, table
from ragvismo_service.store import Store
from ragvismo_service.streams import Pages
from ragvismo_service.watchdog import ready
from ragvismo_service.words import (
    PROGRAM,
    Words,
    runnable,
    seconds,
    solver_session,
    status_of,
    store_of,
)
from ragvismo_tools.solvers import Solver

STATUSES = Status.BAD_USE, Status.NO_REDIS


class Book(NamedTuple):
    """A book that an auctioneer told: its entry, and the reply as a line."""

    id: bytes
    line: bytes


class Follower:
    """Follows the books, and offers what a solver says to each."""

    def __init__(self, store: Store, session: int, solver: Solver, patience: float) -> None:
        self.store, self.solver, self.patience = store, solver, patience
        keys = Keys.of(store.place.name)
        self.key = b"%b%d" % (keys.proposals, session)
        self.pages = Pages(store, keys.books, START_ID, GREATEST_ID)
        # The books that no proposal was asked for yet, and what is offered, by market.
        self.books: dict[int, Book] = {}
        self.offers: dict[int, bytes] = {}

    def read_on(self) -> None:
        """Takes what is told; where nothing is to be done it is waited for, a second at most."""
        if not self.books:
            wait = b"XREAD", b"COUNT", b"1", b"BLOCK", b"1000", b"STREAMS"
            self.store.say(*wait, self.pages.key, self.pages.since)
        while page := self.store.say(*self.pages.command()):
            self.pages.take(page)
            for id, fields in page:
                self.take(id, dict(zip(fields[::2], fields[1::2])).get(b"reply", b""))

    def take(self, id: bytes, line: bytes) -> None:
        """Takes a reply: a book, or what came of its clear; what no auctioneer wrote is passed
        over."""
        try:
            reply = json.loads(line)
            market, kind = int(reply["market"]), reply["reply"]
        except FAULTS:
            return
        self.books.pop(market, None)
        self.offers.pop(market, None)
        if kind == "book":
            self.books[market] = Book(id, line)

    def turn(self) -> None:
        """Asks the solver with the book that waits longest, and offers what it says."""
        self.read_on()
        if not self.books:
            return
        market = next(iter(self.books))
        book = self.books.pop(market)
        line = self.solver.line_for(book.line + b"\n", self.patience)
        if line.startswith(b"propose,%d," % market):
            self.offers[market] = b"%b %b" % (book.id, line)
            self.store.say(b"SET", self.key, b"\n".join(self.offers.values()))

    def run(self) -> None:
        try:
            ready()
            while True:
                self.turn()
        finally:
            self.solver.stop()


def run() -> None:
    words = Words(f"{__doc__}{table(*STATUSES)}")
    words.add_argument("session", type=solver_session, metavar="SESSION")
    words.add_argument("--solver", type=shlex.split, metavar="COMMAND")
    words.add_argument("--seconds", type=seconds, default=5.0, metavar="N")
    words.add_program(is_wanted=False)
    given = words.parse_args()
    # Who has a command of his own needs no program.
    own = given.solver or [str(given.program or runnable(str(PROGRAM))), "propose"]
    solver = Solver(own)
    signal.signal(signal.SIGTERM, lambda *_: sys.exit(128 + signal.SIGTERM))
    Follower(store_of(given), given.session, solver, given.seconds).run()


def main() -> int:
    return status_of(run)
