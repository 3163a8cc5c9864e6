"""Tells Prometheus how an exchange is doing.

    service/metrics [--at PLACE] [--listen HOST:PORT] [--every SECONDS]

At http://HOST:PORT/metrics (127.0.0.1:9380, if not given) stand the entries, how many are not
answered and how long the oldest has waited, the sequencers and followers that are connected, the
questions that wait, replies, refusals by reason, clears by mark, the seconds from append to answer
of all and of clears that came since this runs, live orders, the balance of the house, how long a
market has been closed, how much of each limit is used, and memory and copies of Redis. It reads the
whole log, checks the chain of sums, and looks again every --every seconds (5). service/alerts.yml
has rules that go with it.

It runs until it is stopped, or ends with one line on standard error and status
"""

from __future__ import annotations

import time
from typing import Any

from ragvismo_service.chain import Answered
from ragvismo_service.figures import Figures
from ragvismo_service.following import Follower, since_append
from ragvismo_service.places import Place
from ragvismo_service.statuses import BadUse, Status, table
from ragvismo_service.store import Store
from ragvismo_service.watchdog import ready
from ragvismo_service.words import Words, seconds, status_of, store_of

try:
    import prometheus_client as prometheus
except ImportError:
    raise SystemExit("python3-prometheus-client is missing; tools/setup installs it") from None

STATUSES = Status.BAD_USE, Status.NO_REDIS, Status.LOST, Status.CUT, Status.FORGED, Status.CHANGED
BUCKETS = 0.001, 0.0025, 0.005, 0.01, 0.025, 0.05, 0.1, 0.25, 0.5, 1, 2.5, 5, 10, 30, 60
MARKS = "optimal", "bounded", "wide", "budget"
GAUGES = {
    "entries": "Entries of the log",
    "lag_entries": "Entries that are not answered",
    "oldest_wait_seconds": "How long the oldest of these has waited",
    "sequencers": "Sequencers that are connected",
    "followers": "Followers that are connected",
    "questions": "Questions that are not answered",
    "live_orders": "Orders that are live",
    "house_balance_ticks": "What the house has",
    "longest_closed_seconds": "How long a market has been closed that was closed first",
    "redis_memory_bytes": "Memory that Redis uses",
    "redis_copies": "Copies that follow this Redis",
    "looked_timestamp_seconds": "When all this was looked at last",
}


class Metrics:
    """What is told, in a registry of its own."""

    def __init__(self, store: Store) -> None:
        self.registry, self.figures = prometheus.CollectorRegistry(), Figures()
        self.store, self.follower = store, Follower(store, self.take)
        self.gauges = {
            name: self.made(prometheus.Gauge, name, said) for name, said in GAUGES.items()
        }
        self.limits = self.made(
            prometheus.Gauge, "limit_used_ratio", "How much of a limit is used, of 1", ["limit"]
        )
        self.replies = self.made(prometheus.Counter, "replies", "Replies, each once", ["reply"])
        self.refusals = self.made(prometheus.Counter, "refusals", "Refusals by reason", ["reason"])
        self.clears = self.made(prometheus.Counter, "clears", "Cleared batches by mark", ["mark"])
        # What is told as 0 first has risen by one with the first clear.
        for mark in MARKS:
            self.clears.labels(mark)
        said = "From append to answer, of what came since this runs"
        self.seconds = self.made(prometheus.Histogram, "answer_seconds", said, buckets=BUCKETS)
        self.clear_seconds = self.made(
            prometheus.Histogram, "clear_seconds", f"{said}: clears", buckets=BUCKETS
        )

    def made(self, kind: Any, name: str, said: str, labels: Any = (), **more: Any) -> Any:
        return kind(f"ragvismo_{name}", said, labels, registry=self.registry, **more)

    def take(self, answered: Answered, is_new: bool) -> None:
        reply = self.figures.take(answered)
        if is_new:
            self.seconds.observe(since_append(answered))
        if reply is None:
            return
        self.replies.labels(reply["reply"]).inc()
        if "reason" in reply:
            self.refusals.labels(reply["reason"]).inc()
        # A line that tries has a mark, and is no clear.
        if reply["reply"] == "cleared" and "mark" in reply:
            self.clears.labels(reply["mark"]).inc()
            if is_new:
                self.clear_seconds.observe(since_append(answered))

    def look(self) -> None:
        """Takes how all is now; Ended where entries were taken out."""
        state = self.follower.state()
        told = dict(
            line.split(":", 1)
            for line in self.store.say(b"INFO").decode().splitlines()
            if ":" in line
        )
        values = {
            "entries": state.entries,
            "lag_entries": state.lag,
            "oldest_wait_seconds": state.waited,
            "sequencers": state.sequencers,
            "followers": self.follower.connected("follower"),
            "questions": self.store.say(b"XLEN", self.follower.history.keys.questions),
            "live_orders": len(self.figures.live),
            "house_balance_ticks": self.figures.house,
            "longest_closed_seconds": self.longest_closed(),
            "redis_memory_bytes": int(told["used_memory"]),
            "redis_copies": int(told["connected_slaves"]),
            "looked_timestamp_seconds": time.time(),
        }
        for name, value in values.items():
            self.gauges[name].set(value)
        for limit, ratio in self.figures.ratios().items():
            self.limits.labels(limit).set(ratio)

    def longest_closed(self) -> float:
        """How long the market has been closed that was closed first, in seconds."""
        times = self.figures.closed.values()
        return max(0.0, time.time() - min(times) / 1000) if times else 0.0


def run() -> None:
    words = Words(f"{__doc__}{table(*STATUSES)}")
    words.add_argument("--listen", type=Place.of, default="127.0.0.1:9380", metavar="HOST:PORT")
    words.add_argument("--every", type=seconds, default=5, metavar="SECONDS")
    given = words.parse_args()
    metrics = Metrics(store_of(given))
    metrics.follower.begin()
    metrics.look()
    try:
        prometheus.start_http_server(given.listen.port, given.listen.host, metrics.registry)
    except OSError as fault:
        raise BadUse(
            f"cannot listen at {given.listen.host}:{given.listen.port}: {fault.strerror}"
        ) from None
    ready()
    while True:
        metrics.follower.wait(given.every)
        metrics.look()


def main() -> int:
    return status_of(run)
