"""Answers questions, beside the log: as many followers as are needed run, on any machines.

    service/follower [--at PLACE] [--program FILE] [--sessions] [--idle] [--patience SECONDS]

It gives the messages that are answered to a program of its own, whose answers have to be the same,
and takes questions from NAME:questions: the line ?SESSION,BODY is said to that program, and what it
answers is told on NAME:told with the last entry that it knows of. That is at least the last one
that was answered when the question was taken. Each question is given to one follower, and after 5 s
of silence to another one. It may be killed at any moment, and starts by reading the log. It gives
way to the other processes of its machine, the sequencers among them; with --idle it runs only when
none of these wants to, so that no question makes a message wait. service/ask asks.

It runs until it is stopped, or ends with one line on standard error and status
"""

from __future__ import annotations

import logging
import time
from collections.abc import Callable

from ragvismo_service.chain import Answered
from ragvismo_service.history import History
from ragvismo_service.messages import START_ID, order_of
from ragvismo_service.processes import give_way
from ragvismo_service.program import Program, Replay
from ragvismo_service.questions import Asked, Question, Taker
from ragvismo_service.statuses import NOT_AGAIN, Ended, Status, table
from ragvismo_service.store import Store
from ragvismo_service.watchdog import ready
from ragvismo_service.words import Words, status_of, store_of

OTHERS = Status.DONE, Status.NO, Status.HELD, Status.LAGS, Status.FILE_FAULT
STATUSES = [status for status in Status if status not in OTHERS]
LOOKED_AT = ", ".join(map(str, sorted(NOT_AGAIN)))
AGAIN = f"A person has to look where it ends with {LOOKED_AT}; else it is started again."
# It takes questions when it has read in less time, in seconds, what came meanwhile.
NEAR = 1.0


class Answerer:
    """Reads the log into a program, and asks it."""

    def __init__(self, store: Store, start: Callable[[], Program]) -> None:
        self.store, self.start = store, start
        self.history, self.taker = History(store), Taker(store)
        self.program = start()
        self.replay, self.is_given = Replay(self.program), False

    # ---- the log

    def begin(self) -> None:
        """Reads the log, until it takes little time to read what came meanwhile: more may come for
        ever. Ended where it is not whole."""
        since = time.monotonic()
        self.history.begin()
        before = since - NEAR
        while (now := time.monotonic()) >= before + NEAR:
            before = now
            self.read_to(self.last_answer())
        count, took = self.history.count, time.monotonic() - since
        logging.info("%s answers are read, after %.1f s", count, took)
        self.taker.begin()

    def last_answer(self) -> bytes:
        """The id of the last answer; Ended where another program answers, or the answer that was
        read last is not there any more."""
        keys, since = self.history.keys, self.history.since
        program, last, read = self.store.ask(
            lambda: [
                [b"GET", keys.program],
                [b"XREVRANGE", keys.answers, b"+", b"-", b"COUNT", b"1"],
                [b"XRANGE", keys.answers, since, since],
            ]
        )
        if program and program.decode() != self.program.digest:
            raise Ended(Status.OTHER_PROGRAM, "the exchange is answered by another program")
        if since != START_ID and not read:
            said = f"the log no longer has the answer under {since.decode()}, which was read"
            raise Ended(Status.LOST, f"{said}: start again")
        return bytes(last[0][0]) if last else START_ID

    def read_to(self, last: bytes) -> None:
        """Gives the program what was answered up to an id."""
        pages = self.history.pages()
        while order_of(self.history.since) < order_of(last) and (page := next(pages, None)):
            self.take(page)

    def take(self, page: list[Answered]) -> None:
        """Gives the program some entries; Ended where it answers otherwise than was answered."""
        entries = [it.entry for it in page]
        own = [it for group in self.replay.answers(entries) for it in group]
        self.is_given = self.is_given or any(entry.fault is None for entry in entries)
        for computed, told in zip(own, page):
            if computed.head != told.head:
                said = f"ANOTHER ANSWER than this machine's stands under {told.entry.id.decode()}"
                raise Ended(Status.DIFFERS, f"{said}: one machine is broken")

    # ---- questions

    def turn(self) -> None:
        """Reads on, and answers the next question, if one comes soon."""
        question = self.taker.take()
        self.read_to(self.last_answer())
        if question:
            answer = question.refused() if question.fault else self.asked(question)
            self.taker.tell(Asked(question.id, self.history.since, answer))
        else:
            self.program.check()

    def asked(self, question: Question) -> bytes:
        """What the program answers to a question. One that was given no message yet is started anew
        then, since what it is said first may begin with a byte order mark."""
        [[answer]] = self.program.answers([question.line], lambda: self.taker.keep(question))
        if not self.is_given:
            self.program.end()
            self.program = self.start()
            self.replay.program = self.program
        return answer

    def run(self) -> None:
        self.begin()
        ready()
        while True:
            self.turn()


def run() -> None:
    words = Words(f"{__doc__}{table(*STATUSES)}\n\n{AGAIN}")
    words.add_program()
    words.add_rule()
    words.add_argument("--idle", action="store_true")
    given = words.parse_args()
    give_way(given.idle)
    store = store_of(given)
    logging.info("started at %s, with %s", store.place, given.program)
    Answerer(store, lambda: Program(given.program, given.patience, given.rule)).run()


def main() -> int:
    return status_of(run)
