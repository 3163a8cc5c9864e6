"""What the next exchange begins with: the messages of those who own the accounts, and of the
operator."""

from __future__ import annotations

import collections
import json
import pathlib
import re
import subprocess
from collections.abc import Iterable, Iterator
from typing import NamedTuple

from ragvismo_service.messages import answer_of
from ragvismo_service.program import Rule
from ragvismo_service.segments import segments
from ragvismo_service.statuses import BadUse, Ended, Status

# The session of the operator's that lists the markets and deposits.
OPERATOR = 1
# What the replies to the two lines are told by which an owner makes an account what it is.
OPENED, SECURED = b'"reply":"opened"', b'"reply":"secured"'
OF_ACCOUNT = re.compile(rb"open,([0-9]+)")
MESSAGE = re.compile(rb"([1-9][0-9]{0,8}),([1-9][0-9]{0,6}),(.+)", re.DOTALL)


class Message(NamedTuple):
    """A message: the session, its number there, and the body."""

    session: int
    number: int
    body: bytes

    def line(self) -> bytes:
        return b"%d,%d,%b" % self

    @staticmethod
    def of(line: bytes) -> Message:
        """The message of a line; raises BadUse."""
        found = MESSAGE.fullmatch(line)
        if not found:
            raise BadUse(f"{line[:100]!r} is no message: SESSION,NUMBER,BODY")
        return Message(int(found[1]), int(found[2]), found[3])


class Owners:
    """Who opened each account of a journal, and whether it was secured by a line."""

    def __init__(self, folder: pathlib.Path) -> None:
        self.session_of: dict[int, int] = {}
        self.secured: set[int] = set()
        for segment in segments(folder):
            with open(segment.paths(folder)[1], "rb") as replies:
                for line in replies:
                    if OPENED in line or SECURED in line:
                        self._take(line)

    def _take(self, line: bytes) -> None:
        answer = answer_of(b"a reply", line)
        reply = answer.get("of", answer)
        if reply["reply"] == "opened":
            self.session_of[reply["account"]] = answer["session"]
        elif reply["reply"] == "secured":
            self.secured.add(reply["account"])

    def bodies(self, lines: Iterable[bytes]) -> Iterator[tuple[int, bytes]]:
        """The lines of the next exchange, each with the session that says it."""
        for line in lines:
            if not (found := OF_ACCOUNT.fullmatch(line)):
                yield OPERATOR, line
                continue
            account = int(found[1])
            session = self.session_of[account]
            yield session, line
            if account in self.secured:
                yield session, b"secure,%d" % account


def messages(bodies: Iterable[tuple[int, bytes]]) -> Iterator[Message]:
    """The messages of these lines, those of each session numbered from 1 on."""
    numbers = collections.Counter[int]()
    for session, body in bodies:
        numbers[session] += 1
        yield Message(session, numbers[session], body)


def rehearsed(given: list[Message], program: pathlib.Path, rule: Rule) -> str:
    """That a new exchange takes the messages; Ended where it does not."""
    lines = b"".join(message.line() + b"\n" for message in given)
    ran = subprocess.run([program, "serve", rule], input=lines, capture_output=True)
    answers = ran.stdout.splitlines()
    for message, answer in zip(given, answers):
        refuse(message, json.loads(answer))
    if len(answers) != len(given):
        raise Ended(Status.NO, f"of {len(given)} messages {len(answers)} are answered")
    return f"{len(given)} messages, which a new exchange takes"


def refuse(message: Message, answer: dict[str, object]) -> None:
    """Ended where an exchange refuses a message."""
    reply = answer.get("of", answer)
    if not isinstance(reply, dict) or "reason" in reply:
        raise Ended(Status.NO, f"{message.line().decode()} is refused: {reply}")
