#!/usr/bin/python3 -B
"""A session with an exchange behind its service.

    service/client.py SESSION [--at PLACE] [--password FILE] [--numbered] [--patience SECONDS]

sends each line of standard input as a message of the session and prints its answer. With --numbered
the first line is message 1, the second message 2 and so on, so a file that is sent once more, whole
or from where it was left, counts once; the status is 1 where the session turns out to have other
messages. Other statuses: 2 bad use, 3 Redis refuses, or is away for longer than --patience (for
ever, if not given), 9 what answers is no sequencer. For programs:

    from client import Session
    session = Session("redis://gateway@127.0.0.1:6380", 7, password=..)
    session.ask("open,1")       # {'account': 1, 'line': 1, 'reply': 'opened'}

A message is sent under the same number until it is answered, so it counts once however often a
connection is lost.
"""
from __future__ import annotations

import dataclasses
import json
import logging
import sys
import time
from collections.abc import Iterator
from typing import Any

from ragvismo_service.connecting import is_away, pool_of
from ragvismo_service.messages import before, fault_of
from ragvismo_service.places import Keys, Place
from ragvismo_service.statuses import BadUse, Ended, Status
from ragvismo_service.words import Words, place_of, status_of

import redis

HIGHEST_NUMBER = 1_000_000
# After so many seconds without an answer it is said that it waits.
SILENCE = 5


class Refused(Exception):
    """The gate or the service refused a message, which changed nothing; the answer is its one
    argument."""


class Unanswered(Ended):
    """No answer came in time. The message may count yet: ask the same again."""


class Broken(Ended):
    """What stands among the answers is no sequencer's, or Redis takes no message. Sending the same
    again does not help."""


class Session:
    """One session, which one client at a time may use.

    `number` is that of its next message; where it is None, the exchange is asked for it. A client
    that may be killed keeps the number and the body of its last message, and begins again with
    both: then the message counts once all the same.
    """

    def __init__(
        self,
        at: str | Place,
        session: int,
        number: int | None = None,
        patience: float | None = None,
        password: str = "",
    ) -> None:
        place = Place.of(at) if isinstance(at, str) else at
        place = dataclasses.replace(place, password=password or place.password)
        self.place, self.keys, self.session, self.patience = (
            place,
            Keys.of(place.name),
            session,
            patience,
        )
        self.redis = redis.Redis(connection_pool=pool_of(place, "client"))
        self.number = number or self.next_number()

    def ask(self, body: str | bytes) -> dict[str, Any]:
        """The reply to a body.

        Refused where the message is none, or its number is not the next one; Unanswered after
        `patience` seconds; Broken.
        """
        answer = self.answer(self.number, body)
        if "of" not in answer:
            raise Refused(answer)
        self.number += 1
        return dict(answer["of"])

    def next_number(self) -> int:
        """The number of the next message, told by the refusal of one that is ahead of all."""
        return int(self.answer(HIGHEST_NUMBER, "balance,0").get("expected", 1))

    def answer(self, number: int, body: str | bytes) -> dict[str, Any]:
        """The answer to a message, sent again where Redis went away before it was seen; what is no
        message, or too long, is answered as the service would, and not sent."""
        body = body.encode() if isinstance(body, str) else body
        if fault := fault_of(b"%d" % self.session, b"%d" % number, body):
            return {"reason": str(fault), "reply": "service"}
        since, is_told = time.monotonic(), False
        while True:
            try:
                return self.answer_under(self.append(number, body), since)
            except redis.RedisError as fault:
                if not is_away(fault):
                    raise Broken(Status.NO_REDIS, f"Redis refuses: {fault}") from None
                self.end_late(since)
                if not is_told:
                    logging.info("message %s is sent again until it is answered: %s", number, fault)
                is_told = True
                time.sleep(0.1)

    def append(self, number: int, body: bytes) -> bytes:
        """Appends a message, and tells its id."""
        id: bytes = self.redis.xadd(
            self.keys.taken, {"session": self.session, "number": number, "body": body}
        )
        return id

    def answer_under(self, entry: bytes, since: float) -> dict[str, Any]:
        """The answer to the entry of an id, waited for."""
        last, is_told = before(entry), False
        while True:
            if found := self.redis.xread({self.keys.answers: last}, count=1, block=1000):
                [(_, [(id, fields)])] = found
                return self.read(entry, id, fields)
            self.end_late(since)
            if not is_told and time.monotonic() > since + SILENCE:
                logging.info("entry %s waits for its answer", entry.decode())
                is_told = True

    def read(self, entry: bytes, id: bytes, fields: dict[bytes, bytes]) -> dict[str, Any]:
        """The answer that stands first at an entry's id or after it."""
        lost = redis.ConnectionError(f"entry {entry.decode()} was lost before it was answered")
        if id != entry:
            if self.redis.xrange(self.keys.taken, entry, entry, 1):
                raise Broken(
                    Status.FORGED,
                    f"an answer stands under {id.decode()}, and none to the entry before it,"
                    f" {entry.decode()}",
                )
            raise lost
        try:
            answer = json.loads(fields[b"answer"])
            # Another Redis that took the place of one may have given the id to a message of another
            # session.
            if answer.get("session", self.session) != self.session:
                raise lost
            if isinstance(answer.get("of", answer)["reply"], str):
                return dict(answer)
        except (KeyError, ValueError, TypeError, AttributeError, RecursionError):
            pass
        raise Broken(Status.FORGED, f"what stands as the answer to entry {entry.decode()} is none")

    def end_late(self, since: float) -> None:
        if self.patience and time.monotonic() > since + self.patience:
            raise Unanswered(
                Status.NO_REDIS,
                f"session {self.session} got no answer for {self.patience:g} s;"
                " the message may count yet",
            )


def bodies() -> Iterator[bytes]:
    """The lines of standard input that are not empty."""
    for line in sys.stdin.buffer:
        if body := line.rstrip(b"\r\n"):
            yield body


def say(answer: dict[str, Any]) -> None:
    print(json.dumps(answer, separators=(",", ":")), flush=True)


def talk(session: Session) -> None:
    """Sends each line as the next message."""
    for body in bodies():
        try:
            say(session.ask(body))
        except Refused as refusal:
            say(refusal.args[0])


def send_numbered(session: Session) -> Status:
    """Sends each line under its own number, and says whether the session has just these
    messages."""
    answer: dict[str, Any] = {"of": {}}
    for number, body in enumerate(bodies(), 1):
        answer = session.answer(number, body)
        say(answer.get("of", answer))
        if answer.get("reason") not in (None, "Old"):
            break
    # The last message of a session may be repeated and is answered as it was; all before it are
    # Old.
    if "of" in answer:
        return Status.DONE
    raise Ended(
        Status.NO,
        f"session {session.session} has other messages than these; use one that nobody else uses",
    )


def session_of(text: str) -> int:
    """The number of a session; raises BadUse."""
    if not text.isdecimal() or not 0 < int(text) < 1_000_000_000:
        raise BadUse(f"{text} is no session: 1 to 999999999")
    return int(text)


def run() -> Status | None:
    words = Words(__doc__, patience=None)
    words.add_argument("session", type=session_of, metavar="SESSION")
    words.add_argument("--numbered", action="store_true")
    given = words.parse_args()
    session = Session(place_of(given), given.session, 1 if given.numbered else None, given.patience)
    if given.numbered:
        return send_numbered(session)
    talk(session)
    return None


if __name__ == "__main__":
    sys.exit(status_of(run))
