"""How much and how often: so that none who asks too much is noticed by the others."""

from __future__ import annotations

import time
from collections.abc import Hashable
from typing import NamedTuple

from ragvismo_gateway.connections import Most
from ragvismo_gateway.refusals import Reason, Refusal

MOST_BUCKETS = 10_000


class Rate(NamedTuple):
    """So many at once, and so many a second after that."""

    burst: float
    each_second: float


class Limits(NamedTuple):
    """What one member may do; what one address may, before it is known who it is."""

    lines: Rate = Rate(40, 20)
    asked: Rate = Rate(200, 50)
    questions: Rate = Rate(60, 10)
    # What came since a place may be long to tell.
    openings: Rate = Rate(16, 1)
    logins: Rate = Rate(20, 0.5)
    logins_of_name: Rate = Rate(5, 0.05)
    waiting: int = 16
    asking: int = 8
    feeds: int = 8
    connections: Most = Most()


class Buckets:
    """One bucket for each key, that fills again as time passes."""

    def __init__(self, rate: Rate) -> None:
        self.rate = rate
        self.left: dict[Hashable, tuple[float, float]] = {}

    def take(self, key: Hashable) -> None:
        """Takes one from a bucket; raises Refusal where it is empty."""
        now, (burst, each_second) = time.monotonic(), self.rate
        if len(self.left) >= MOST_BUCKETS:
            self._forget_full(now)
        left, since = self.left.get(key, (burst, now))
        left = min(burst, left + (now - since) * each_second)
        if left < 1:
            self.left[key] = left, now
            raise Refusal(Reason.OFTEN, f"too often: wait {(1 - left) / each_second:.0f} s")
        self.left[key] = left - 1, now

    def give(self, key: Hashable) -> None:
        """Gives one back."""
        left, since = self.left.get(key, (self.rate.burst, 0.0))
        self.left[key] = left + 1, since

    def _forget_full(self, now: float) -> None:
        burst, each_second = self.rate
        full = [
            key
            for key, (left, since) in self.left.items()
            if left + (now - since) * each_second >= burst
        ]
        for key in full or list(self.left)[: MOST_BUCKETS // 2]:
            del self.left[key]
