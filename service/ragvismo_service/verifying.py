"""Checks the log of an exchange by its chain of sums, without the program.

    service/verify [--at PLACE] [--head SUM] [--jobs N]

Each answer has a SHA-256 beside it, over the sum before, its entry and itself; so one that was
changed, put in or taken out breaks the chain there. It says how many answers hold, and the last
sum. Who can write to Redis can make the whole chain anew, but not with a sum that you keep
elsewhere or signed: --head SUM asks whether that one is in the chain. The log is cut into parts, of
which --jobs are checked at once, each from the sum that stands before it.

It ends with 0, or with one line on standard error and status
"""

from __future__ import annotations

import concurrent.futures
import functools
import os
import re
from typing import NamedTuple

from ragvismo_service.chain import FIRST_HEAD
from ragvismo_service.history import History
from ragvismo_service.messages import GREATEST_ID, START_ID, Told, time_of
from ragvismo_service.places import Keys, Place
from ragvismo_service.processes import end_with
from ragvismo_service.statuses import BadUse, Ended, Status, table
from ragvismo_service.store import Store
from ragvismo_service.streams import counts
from ragvismo_service.words import Words, status_of, store_of

# A part has about so many answers, where as many come at all times.
LEAST = 10_000
PROCESSORS = len(os.sched_getaffinity(0))
ENDS = (b"XRANGE", b"-", b"+"), (b"XREVRANGE", b"+", b"-")
STATUSES = Status.BAD_USE, Status.NO_REDIS, Status.CUT, Status.FORGED, Status.CHANGED


def head_of(text: str) -> bytes:
    """A sum of the chain; raises BadUse."""
    if not re.fullmatch("[0-9a-f]{64}", text):
        raise BadUse(f"{text} is no sum: 64 hexadecimal digits")
    return text.encode()


class Part(NamedTuple):
    """A part of the chain: from after an answer, beside which a sum stands, to another answer."""

    since: bytes
    head: bytes
    until: bytes


class Holds(NamedTuple):
    """What holds of a part: so many answers, to an id and a sum; and whether the sum that was asked
    for is one of them."""

    answers: int
    last: bytes
    head: bytes
    is_there: bool


WHOLE = Part(START_ID, FIRST_HEAD, GREATEST_ID)


def parts(store: Store, keys: Keys, many: int) -> list[Part]:
    """Parts of the log of about the same time."""
    [[first, _]], [[last, _]] = (
        store.say(word, keys.answers, *ends, b"COUNT", b"1") for word, *ends in ENDS
    )
    since, found = time_of(first), [(START_ID, FIRST_HEAD)]
    for at in range(1, many):
        moment = since + (time_of(last) - since) * at // many
        told = Told.of(store.say(b"XRANGE", keys.answers, b"%d" % moment, b"+", b"COUNT", b"1")[0])
        if told.id != found[-1][0]:
            found.append((told.id, told.head))
    untils = [id for id, _ in found[1:]] + [GREATEST_ID]
    return [Part(*start, until) for start, until in zip(found, untils)]


def check(place: Place, patience: float, part: Part, kept: bytes | None) -> Holds:
    """What holds of a part; Ended where it does not."""
    history, is_there = History(Store(place, patience, "verify"), *part), False
    for heads in history.heads():
        is_there = is_there or kept in heads
    if history.entries and part.until != GREATEST_ID:
        raise Ended(Status.CUT, f"THE ANSWER to {history.entries[0][0].decode()} was taken out")
    return Holds(history.count, history.since, history.head, is_there)


class Verified(NamedTuple):
    """How many answers of a log hold, to an id and a sum."""

    answers: int
    last: bytes
    head: bytes

    def __str__(self) -> str:
        return f"{self.answers} answers hold, to {self.last.decode()}: {self.head.decode()}"


def verified(store: Store, kept: bytes | None, jobs: int) -> Verified:
    """What holds of a log, its parts being checked at once by so many; Ended where it does not, or
    a sum is not in it."""
    keys, place = Keys.of(store.place.name), store.place
    _, answered = counts(store, keys)
    cut = parts(store, keys, answered.length // LEAST) if answered.length >= 2 * LEAST else [WHOLE]
    ending = os.getpid(), Status.NO_REDIS
    with concurrent.futures.ProcessPoolExecutor(
        max(1, jobs), initializer=end_with, initargs=ending
    ) as pool:
        held = list(pool.map(functools.partial(check, place, store.patience, kept=kept), cut))
    count = sum(it.answers for it in held)
    if kept and kept != FIRST_HEAD and not any(it.is_there for it in held):
        said = (
            f"THE LOG WAS CHANGED: the sum {kept.decode()} is not in its chain of {count} answers"
        )
        raise Ended(Status.CHANGED, said)
    return Verified(count, held[-1].last, held[-1].head)


def run() -> None:
    words = Words(f"{__doc__}{table(*STATUSES)}")
    words.add_argument("--head", type=head_of, metavar="SUM")
    words.add_argument("--jobs", type=int, default=PROCESSORS, metavar="N")
    given = words.parse_args()
    print(verified(store_of(given), given.head, given.jobs))


def main() -> int:
    return status_of(run)
