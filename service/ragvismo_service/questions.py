"""Questions, which change nothing: what is asked of the followers of a log, and what these tell.

NAME:questions has the questions that nobody has answered yet, in the fields session and body; its
group `followers` gives each of them to one follower. NAME:told has what was told last: in question
the id, in entry the last entry of the log that the answer knows of, and in answer the line of the
program, or {"question":ID,"reason":R,"reply":"service"} where it was not asked: R is that of an
entry that is no message, or Tried, where several followers ended while they asked it.
"""

from __future__ import annotations

import json
import os
import socket
import time
from typing import Any, NamedTuple

from ragvismo_service.messages import START_ID, RawEntry, answer_of, fault_of
from ragvismo_service.places import Keys
from ragvismo_service.statuses import Ended, Status
from ragvismo_service.store import Store

GROUP = b"followers"
FIELDS, TOLD = [b"session", b"body"], [b"question", b"entry", b"answer"]
# About so many questions wait, and so many answers are kept; more push out the oldest.
KEPT = b"1000"
# How long a question waits in silence until another follower takes it, in milliseconds, and by how
# many it is tried.
SILENCE, TRIES = b"5000", 3
# How long a follower waits for a question, in milliseconds, before it reads on.
PAUSE = b"200"


class Asked(NamedTuple):
    """What was told to a question: its id, the last entry of the log that the answer knows of, and
    the answer."""

    question: bytes
    entry: bytes
    answer: bytes

    @staticmethod
    def of(raw: RawEntry) -> Asked:
        """What an entry tells; Ended where no follower writes such an entry."""
        id, fields = raw
        if fields[::2] != TOLD:
            said = f"NO FOLLOWER WROTE what stands under {id.decode()} among what was told"
            raise Ended(Status.FORGED, said)
        return Asked(*fields[1::2])

    def told(self) -> dict[str, Any]:
        """The answer with its entry; Ended where it has no reply."""
        return {"entry": self.entry.decode(), **answer_of(self.question, self.answer)}


class Asker:
    """Asks, and reads what is told; who has asked before it reads."""

    def __init__(self, store: Store) -> None:
        self.store, self.keys = store, Keys.of(store.place.name)
        self.since = self.last()

    def last(self) -> bytes:
        """The id of what was told last."""
        found = self.store.say(b"XREVRANGE", self.keys.told, b"+", b"-", b"COUNT", b"1")
        return bytes(found[0][0]) if found else START_ID

    def put(self, session: int, body: bytes) -> bytes:
        """Asks a question of a session, and tells its id."""
        kept, fields = [b"MAXLEN", b"~", KEPT], [b"session", b"%d" % session, b"body", body]
        return bytes(self.store.say(b"XADD", self.keys.questions, *kept, b"*", *fields))

    def read(self, seconds: float) -> list[Asked]:
        """What was told since the last read, to anybody; it is waited for so long."""
        block = b"%d" % max(1, int(1000 * seconds))
        words = b"XREAD", b"COUNT", b"100", b"BLOCK", block, b"STREAMS", self.keys.told, self.since
        found = self.store.say(*words)
        told: list[RawEntry] = found[0][1] if found else []
        if told:
            self.since = told[-1][0]
        return [Asked.of(it) for it in told]

    def ask(self, session: int, body: bytes, patience: float) -> Asked:
        """What is told to a question of a session; Ended where that takes longer than patience
        lasts."""
        self.since = self.last()
        id, until = self.put(session, body), time.monotonic() + patience
        while (left := until - time.monotonic()) > 0:
            for asked in self.read(min(1.0, left)):
                if asked.question == id:
                    return asked
        said = f"no follower answered for {patience:g} s; service/follower is one"
        raise Ended(Status.LAGS, said)


class Question(NamedTuple):
    """A question that a follower took: its line for the program, or why there is none."""

    id: bytes
    line: bytes
    fault: str

    @staticmethod
    def of(raw: RawEntry) -> Question:
        id, fields = raw
        if fields[::2] != FIELDS:
            return Question(id, b"", "Fields")
        session, body = fields[1::2]
        return Question(id, b"?%b,%b\n" % (session, body), fault_of(session, b"", body) or "")

    def refused(self) -> bytes:
        """The answer where the program is not asked."""
        told = {"question": self.id.decode(), "reason": self.fault, "reply": "service"}
        return json.dumps(told, separators=(",", ":")).encode()


class Taker:
    """The questions, as one follower takes them: each is given to one, and to another one where
    that is silent for too long."""

    def __init__(self, store: Store) -> None:
        self.store, self.keys = store, Keys.of(store.place.name)
        self.name = f"{socket.gethostname()}-{os.getpid()}".encode()

    def begin(self) -> None:
        """Makes the group, where there is none."""
        self.store.say(b"XGROUP", b"CREATE", self.keys.questions, GROUP, b"0", b"MKSTREAM")

    def take(self) -> Question | None:
        """The next question; None where none comes soon."""
        words = self.keys.questions, GROUP, self.name, SILENCE, b"0-0", b"COUNT", b"1"
        if found := [raw for raw in self.store.say(b"XAUTOCLAIM", *words)[1] if raw]:
            question = Question.of(found[0])
            return question._replace(fault="Tried") if self._is_tried(question.id) else question
        waited = b"COUNT", b"1", b"BLOCK", PAUSE, b"STREAMS", self.keys.questions, b">"
        read = self.store.say(b"XREADGROUP", b"GROUP", GROUP, self.name, *waited)
        return Question.of(read[0][1][0]) if read else None

    def _is_tried(self, id: bytes) -> bool:
        """Whether a question was given to as many as may try it."""
        found = self.store.say(b"XPENDING", self.keys.questions, GROUP, id, id, b"1")
        return any(times > TRIES for _, _, _, times in found)

    def keep(self, question: Question) -> None:
        """Says that a question is being answered."""
        words = self.keys.questions, GROUP, self.name, b"0", question.id, b"JUSTID"
        self.store.say(b"XCLAIM", *words)

    def tell(self, asked: Asked) -> None:
        """Tells what is asked, as often as it is said, and that it is."""
        fields = [it for pair in zip(TOLD, asked) for it in pair]
        keys, id = self.keys, asked.question
        self.store.ask(
            lambda: [
                [b"XADD", keys.told, b"MAXLEN", b"~", KEPT, b"*", *fields],
                [b"XACK", keys.questions, GROUP, id],
                [b"XDEL", keys.questions, id],
            ]
        )
