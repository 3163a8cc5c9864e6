"""What stands in the two streams: messages and their answers, and what is none of these.

Clients append to NAME:in, with the fields session, number and body. NAME:out has the answer to each
entry under the same id, in the field answer, and beside it in chain the head of the chain of sums.
"""

from __future__ import annotations

import enum
import hashlib
import json
from typing import Any, NamedTuple

from ragvismo_service.statuses import Ended, Status

LONGEST_LINE = 16 * 1024 * 1024
START_ID, GREATEST_ID = b"0-0", b"%d-%d" % (2**64 - 1, 2**64 - 1)
FIELDS = [b"session", b"number", b"body"]
TOLD = [b"answer", b"chain"]
# An entry as Redis tells it: its id, and its fields with their values in turn.
RawEntry = list[Any]


class Fault(enum.StrEnum):
    """Why an entry is no message."""

    FIELDS = "Fields"
    FORM = "Form"
    MALFORMED = "Malformed"
    LONG = "Long"


def fault_of(session: bytes, number: bytes, body: bytes) -> Fault | None:
    """Why a session, a number and a body are no message; None where they are one. A line that asks
    is none, so that no question stands in the log."""
    if b"\n" in body or b"\n" in session or b"," in session or b"\n" in number or b"," in number:
        return Fault.FORM
    if session.startswith(b"?"):
        return Fault.MALFORMED
    return Fault.LONG if len(session) + len(number) + len(body) + 2 > LONGEST_LINE else None


def malformed(id: bytes, fault: str) -> bytes:
    """The answer to an entry that is no message."""
    return json.dumps(
        {"entry": id.decode(), "reason": fault, "reply": "service"}, separators=(",", ":")
    ).encode()


class Entry(NamedTuple):
    """An entry of NAME:in; its text is the message's, or where it is none the SHA-256 of its fields
    in hexadecimal."""

    id: bytes
    text: bytes
    fault: Fault | None

    @staticmethod
    def of(raw: RawEntry) -> Entry:
        id, fields = raw
        names, values = fields[::2], fields[1::2]
        if names != FIELDS:
            if sorted(names) != sorted(FIELDS):
                return Entry(id, sum_of_fields(fields), Fault.FIELDS)
            told = dict(zip(names, values))
            values = [told[name] for name in FIELDS]
        session, number, body = values
        if fault := fault_of(session, number, body):
            return Entry(id, sum_of_fields(fields), fault)
        return Entry(id, b"%b,%b,%b" % (session, number, body), None)

    def line(self) -> bytes:
        """The entry as the chain and the journal tell it: ID,SESSION,NUMBER,BODY or
        ID!FAULT,SHA256."""
        if self.fault is None:
            return b"%b,%b" % (self.id, self.text)
        return b"%b!%b,%b" % (self.id, self.fault.encode(), self.text)


def sum_of_fields(fields: list[bytes]) -> bytes:
    """The SHA-256 of the fields and values of an entry, each written with its length before it."""
    total = hashlib.sha256()
    for text in fields:
        total.update(b"%d:" % len(text))
        total.update(text)
    return total.hexdigest().encode()


class Told(NamedTuple):
    """An entry of NAME:out."""

    id: bytes
    answer: bytes
    head: bytes

    @staticmethod
    def of(raw: RawEntry) -> Told:
        """The answer that an entry tells; Ended where no sequencer writes such an entry."""
        id, fields = raw
        if fields[::2] != TOLD or len(fields) != 4 or b"\n" in fields[1]:
            raise Ended(
                Status.FORGED,
                f"NO SEQUENCER WROTE what stands under {id.decode()} among the answers",
            )
        return Told(id, fields[1], fields[3])


def answer_of(id: bytes, answer: bytes) -> dict[str, Any]:
    """An answer as an object; Ended where it has no reply."""
    try:
        told: dict[str, Any] = json.loads(answer)
        if isinstance(told.get("of", told)["reply"], str):
            return told
    except (ValueError, KeyError, TypeError, AttributeError, RecursionError):
        pass
    raise Ended(
        Status.FORGED, f"NO SEQUENCER WROTE the answer under {id.decode()}: it has no reply"
    )


def reply_of(id: bytes, answer: bytes) -> dict[str, Any]:
    """The reply in an answer; Ended where it has none."""
    told = answer_of(id, answer)
    return dict(told.get("of", told))


def time_of(id: bytes) -> int:
    """When an entry was appended, in milliseconds since 1970 by the clock of Redis."""
    return int(id.split(b"-")[0])


def order_of(id: bytes) -> tuple[int, int]:
    """What the ids of entries are compared by."""
    time_part, number = map(int, id.split(b"-"))
    return time_part, number


def before(id: bytes) -> bytes:
    """The greatest id below."""
    time_part, number = order_of(id)
    return b"%d-%d" % ((time_part, number - 1) if number else (time_part - 1, 2**64 - 1))
