"""The chain of sums over the log: each head is a SHA-256 over the head before, an entry and its
answer.

The head after an answer is the sum of three lines: the head before, in hexadecimal; the line of the
entry, as the journal keeps it; the answer. Each ends with a line feed. The first head is 64 zeros.
So who knows a head knows all entries and answers up to it.
"""

from __future__ import annotations

import hashlib
from collections.abc import Iterable, Iterator
from typing import NamedTuple

from ragvismo_service.messages import Entry

FIRST_HEAD = b"0" * 64


class Answered(NamedTuple):
    """An entry, its answer, and the head of the chain after it."""

    entry: Entry
    answer: bytes
    head: bytes


def head_after(head: bytes, line: bytes, answer: bytes) -> bytes:
    """The head after an entry, told by its line, and its answer."""
    return hashlib.sha256(b"%b\n%b\n%b\n" % (head, line, answer)).hexdigest().encode()


def chained(head: bytes, answers: Iterable[tuple[Entry, bytes]]) -> Iterator[Answered]:
    """Entries and answers, each with the head after it."""
    for entry, answer in answers:
        head = head_after(head, entry.line(), answer)
        yield Answered(entry, answer, head)
