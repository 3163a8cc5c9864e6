"""Reading streams: pages of so many bytes, and whether all entries that were ever added are
there."""

from __future__ import annotations

import itertools

from typing import Any, NamedTuple

from ragvismo_service.messages import GREATEST_ID, START_ID, RawEntry
from ragvismo_service.places import Keys
from ragvismo_service.statuses import Ended, Status
from ragvismo_service.store import Command, Store

# A page is to have so many bytes; of small entries it has so many.
PAGE_BYTES, PAGE_ENTRIES = 1 << 20, 256
# What Redis would tell of a stream that is not there.
NO_STREAM = {b"length": 0, b"entries-added": 0, b"last-generated-id": START_ID}


class PageSize:
    """How many entries to ask for. One at first and after a loss of the connection, with which
    Redis answers a page that is above its limit for one reply; then as many as the last page lets
    expect to be of PAGE_BYTES."""

    def __init__(self, store: Store) -> None:
        self.store, self.losses, self.count = store, store.losses, 1

    def entries(self) -> int:
        if self.losses != self.store.losses:
            self.losses, self.count = self.store.losses, 1
        return self.count

    def learn(self, page: list[RawEntry]) -> None:
        """Takes the size of a page that came."""
        size = sum(map(len, itertools.chain.from_iterable(fields for _, fields in page)))
        if size > PAGE_BYTES:
            self.count = max(1, self.count * PAGE_BYTES // size)
        elif 2 * size <= PAGE_BYTES and len(page) >= self.count:
            self.count = min(PAGE_ENTRIES, 2 * self.count)


class Pages:
    """The pages of a stream after an id, to another one."""

    def __init__(self, store: Store, key: bytes, since: bytes, until: bytes) -> None:
        self.key, self.since, self.until, self.size = key, since, until, PageSize(store)

    def command(self) -> Command:
        # Redis takes the greatest id for no place to read on from.
        first, last = (b"(" + self.since, self.until) if self.since != GREATEST_ID else (b"+", b"-")
        return [b"XRANGE", self.key, first, last, b"COUNT", b"%d" % self.size.entries()]

    def take(self, page: list[RawEntry]) -> None:
        """Takes what Redis said to the command."""
        self.size.learn(page)
        if page:
            self.since = page[-1][0]


class Counts(NamedTuple):
    """How many entries a stream has, how many were ever added, and the id of the last of these."""

    length: int
    added: int
    last: bytes

    @staticmethod
    def of(info: list[Any] | None) -> Counts:
        """The counts that XINFO STREAM tells; None is a stream that is not there."""
        told = dict(zip(info[::2], info[1::2])) if info else NO_STREAM
        if b"entries-added" not in told:
            raise Ended(
                Status.NO_REDIS, "this Redis does not count what was added to a stream; 7.0 does"
            )
        return Counts(told[b"length"], told[b"entries-added"], told[b"last-generated-id"])

    def whole(self, key: bytes, least: int = 0) -> Counts:
        """The counts; Ended where entries were taken out, of all that were added or of as many as
        there were at least."""
        taken = max(self.added, least) - self.length
        if taken > 0:
            raise Ended(Status.CUT, f"{taken} ENTRIES WERE TAKEN OUT of {key.decode()}: restore it")
        return self


def counts(store: Store, keys: Keys) -> tuple[Counts, Counts]:
    """The counts of entries and of answers; Ended where some were taken out."""
    # The answers first: they never are more than the entries are then.
    answered = Counts.of(store.say(b"XINFO", b"STREAM", keys.answers)).whole(keys.answers)
    appended = Counts.of(store.say(b"XINFO", b"STREAM", keys.taken)).whole(
        keys.taken, answered.length
    )
    return appended, answered
