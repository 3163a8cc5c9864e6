"""Begins an exchange with what a day's end wrote for it.

    service/begin FILE [--at PLACE]

FILE has messages, SESSION,NUMBER,BODY on a line, as `service/day-end` writes them to next.messages:
owners open their accounts, and the operator deposits what these had and lists the markets. The
exchange is a new one, or one that has begun with them. Those that it does not have are appended in
turn, and their answers waited for; each counts once, so this may be killed and called again.

It ends with 0 where the exchange has them all, or with one line on standard error and status
"""

from __future__ import annotations

import itertools
import pathlib

from ragvismo_service.carrying import Message, refuse
from ragvismo_service.chain import Answered
from ragvismo_service.following import Follower
from ragvismo_service.messages import answer_of
from ragvismo_service.statuses import Ended, Status, table
from ragvismo_service.store import Command, Store
from ragvismo_service.words import Words, status_of, store_of

OTHERS = (
    Status.DONE,
    Status.DIFFERS,
    Status.OTHER_PROGRAM,
    Status.PROGRAM_ENDED,
    Status.HANGS,
    Status.HELD,
    Status.LAGS,
)
STATUSES = [status for status in Status if status not in OTHERS]
# How many are appended together.
TOGETHER = 200


class Beginning:
    """Messages, and which of them an exchange has not taken yet."""

    def __init__(self, store: Store, messages: list[Message]) -> None:
        self.store, self.follower = store, Follower(store, self.take)
        self.left = {(it.session, it.number): it for it in messages}

    def take(self, answered: Answered, is_new: bool) -> None:
        """Takes an answer; Ended where the exchange has another message in the place of one of
        these, or refuses it."""
        answer = answer_of(answered.entry.id, answered.answer)
        if "of" not in answer:
            return
        message = self.left.pop((answer["session"], answer["number"]), None)
        if message and answered.entry.text != message.line():
            said = f"message {message.number} of session {message.session} is another one there"
            raise Ended(Status.NO, f"{said}: the exchange did not begin with these")
        if message:
            refuse(message, answer)

    def append(self) -> bytes:
        """Appends the next messages, and tells the id of the last entry."""
        key, some = self.follower.history.keys.taken, itertools.islice(self.left.values(), TOGETHER)
        commands: list[Command] = [
            [b"XADD", key, b"*", b"session", b"%d" % it.session]
            + [b"number", b"%d" % it.number, b"body", it.body]
            for it in some
        ]
        return bytes(self.store.ask(lambda: commands)[-1])

    def run(self) -> None:
        self.follower.begin()
        while self.left:
            many, last = len(self.left), self.append()
            self.follower.wait_for(last)
            # What Redis lost is appended again.
            if len(self.left) == many and self.follower.has(last):
                first = next(iter(self.left.values())).line().decode()
                raise Ended(Status.NO, f"the exchange does not take {first}")


def run() -> None:
    words = Words(f"{__doc__}{table(*STATUSES)}")
    words.add_argument("file", metavar="FILE", type=pathlib.Path)
    given = words.parse_args()
    messages = [Message.of(line) for line in given.file.read_bytes().splitlines()]
    Beginning(store_of(given), messages).run()
    print(f"the exchange has all {len(messages)} messages", flush=True)


def main() -> int:
    return status_of(run)
