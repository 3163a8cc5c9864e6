"""Answers the messages of an exchange, in the order of its log in Redis, each once.

    service/sequencer [--at PLACE] [--program FILE] [--sessions] [--patience SECONDS]

It reads the stream NAME:in from its first entry, gives each message to `exchange serve members`
(with --sessions to `serve sessions`, where any session may move any account), and appends the
answer to NAME:out under the id of the entry that it answers, with the head of the chain of sums. An
entry that is no message never reaches the program; its answer is
{"entry":ID,"reason":R,"reply":"service"}, R being Fields (other fields than session, number and
body), Form (a line feed, or a comma in session or number), Malformed (a `?` before the session,
which asks) or Long (over 16,777,216 bytes as a line). Any number may run at once on any machines:
each computes the same answers, and whoever is first publishes. It may be killed at any moment, and
starts by reading again. With --sentinel it takes and answers just what another Redis has as well,
so that one of them may be lost.

It runs until it is stopped, or ends with one line on standard error and status
"""

from __future__ import annotations

import logging
import time
from typing import Any, NoReturn

from ragvismo_service.chain import Answered
from ragvismo_service.messages import START_ID, Entry, RawEntry
from ragvismo_service.places import Keys
from ragvismo_service.program import Program, Replay
from ragvismo_service.publishing import Publisher
from ragvismo_service.statuses import NOT_AGAIN, Ended, Status, table
from ragvismo_service.store import Command, Store
from ragvismo_service.streams import Counts, PageSize, counts
from ragvismo_service.watchdog import alive, ready
from ragvismo_service.words import Words, status_of, store_of

WAIT = b"1000"
# It is looked whether all entries are there before what is read is answered. Redis tells the first
# of them with that; where it is above so many bytes, it is looked just so often, in seconds.
SHORT, OFTEN = 1 << 16, 1.0
OTHERS = Status.DONE, Status.NO, Status.HELD, Status.LAGS, Status.FILE_FAULT
STATUSES = [status for status in Status if status not in OTHERS]
LOOKED_AT = ", ".join(map(str, sorted(NOT_AGAIN)))
AGAIN = f"A person has to look where it ends with {LOOKED_AT}; else it is started again."


class Sequencer:
    """Takes the log entry by entry to the program, and publishes what it answers."""

    def __init__(self, store: Store, program: Program) -> None:
        self.store, self.keys, self.program = store, Keys.of(store.place.name), program
        self.replay, self.publisher, self.size = (
            Replay(program),
            Publisher(self.keys, program.digest),
            PageSize(store),
        )
        # How many entries were read, the id and the bytes of the first and the whole last one; and
        # whether more may be there already.
        self.count, self.first, self.bytes = 0, START_ID, 0
        self.last: RawEntry | None = None
        self.reads_on = True
        # When it was looked last whether all are there, and whether it is now.
        self.looked, self.looks = 0.0, True

    def claim(self) -> None:
        """The first program that comes is the exchange's."""
        key, digest = self.keys.program, self.program.digest.encode()
        _, claimed = self.store.ask(
            lambda: [[b"SET", key, digest, b"NX"], [b"GET", key]], kept=True
        )
        if claimed != digest:
            said = "the exchange is answered by another program; service/rehearse compares the two"
            raise Ended(Status.OTHER_PROGRAM, said)

    def publish(self, group: list[Answered]) -> None:
        [told] = self.store.ask(lambda: [self.publisher.command(group)], kept=True)
        self.take_told(group, told)

    def take_told(self, group: list[Answered], told: list[bytes]) -> None:
        """Takes what publishing was told."""
        if missing := self.publisher.take(group, told):
            self.end_lost(missing)

    def end_lost(self, missing: str) -> NoReturn:
        """Entries or answers are not there: Redis lost the end of the log, or they were taken out,
        or there is another log."""
        counts(self.store, self.keys)
        found = self.store.say(b"XRANGE", self.keys.taken, b"-", b"+", b"COUNT", b"1")
        if self.count and [id for id, _ in found] != [self.first]:
            raise Ended(
                Status.CUT,
                f"THE LOG WAS TAKEN AWAY: its first entry is not {self.first.decode()} any more",
            )
        raise Ended(Status.LOST, f"the log no longer has {missing}: start again")

    def commands(self, group: list[Answered]) -> list[Command]:
        """What publishes answers, waits a second for an entry, and reads on from the last one read,
        in one round trip.

        XREAD waits, and XRANGE, which Redis runs when all that has come is done, reads from the
        last one read on: so entries that come together are read together, and the log is seen to
        have that one still.
        """
        since, taken = self.last[0] if self.last else START_ID, self.keys.taken
        publish = [self.publisher.command(group)] if group else []
        wait = [[b"XREAD", b"COUNT", b"1", b"BLOCK", WAIT, b"STREAMS", taken, since]]
        count = [[b"XINFO", b"STREAM", taken]] if self.looks else []
        read = [b"XRANGE", taken, since, b"+", b"COUNT", b"%d" % (self.size.entries() + 1)]
        return [*publish, *([] if self.reads_on else wait), *count, read]

    def told(self, group: list[Answered]) -> list[Any]:
        """What Redis says to these commands; one by one where its limit for all replies might be
        met, as it may have been where the connection is lost."""
        together = self.store.ask(
            lambda: self.commands(group)[: None if self.size.entries() > 1 else 1], kept=True
        )
        rest = self.commands(group)[len(together) :]
        return together + [self.store.say(*command, kept=True) for command in rest]

    def read_on(self, group: list[Answered]) -> list[Entry]:
        """The entries after the last one read, when answers are published."""
        self.looks = self.bytes <= SHORT or time.monotonic() >= self.looked + OFTEN
        *told, found = self.told(group)
        if group:
            self.take_told(group, told[0])
        if self.last and found[:1] != [self.last]:
            self.end_lost(f"entry {self.last[0].decode()}, which was read")
        if self.looks:
            Counts.of(told[-1]).whole(self.keys.taken, self.count)
            self.looked = time.monotonic()
        new = found[1:] if self.last else found
        if new and not self.count:
            self.first, self.bytes = new[0][0], sum(map(len, new[0][1]))
        self.count += len(new)
        self.reads_on = len(new) >= self.size.count
        self.size.learn(new)
        self.last = found[-1] if found else None
        return [Entry.of(raw) for raw in new]

    def take_page(self, group: list[Answered]) -> list[Answered]:
        """Publishes answers and computes the next ones; those are told that are to be published
        with the next read."""
        entries = self.read_on(group)
        if not entries:
            self.program.check()
        left, group = len(entries), []
        for group in self.replay.answers(entries):
            alive()
            left -= len(group)
            if left:
                self.publish(group)
        return group

    def run(self) -> None:
        self.claim()
        appended, answered = counts(self.store, self.keys)
        logging.info(
            "%s entries, %s of them answered: all are read again", appended.length, answered.length
        )
        since, group = time.monotonic(), list[Answered]()
        while self.reads_on:
            group = self.take_page(group)
        logging.info("%s entries are read, after %.1f s", self.count, time.monotonic() - since)
        ready()
        while True:
            group = self.take_page(group)


def main() -> int:
    return status_of(run)


def run() -> None:
    words = Words(f"{__doc__}{table(*STATUSES)}\n\n{AGAIN}")
    words.add_program()
    words.add_rule()
    given = words.parse_args()
    store = store_of(given)
    program = Program(given.program, given.patience, given.rule)
    logging.info("started at %s, with %s of sum %s", store.place, given.program, program.digest)
    Sequencer(store, program).run()
