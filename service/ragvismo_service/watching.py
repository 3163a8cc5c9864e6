"""Prints how an exchange is doing, every few seconds.

    service/watch [--at PLACE] [--every SECONDS] [--once] [--place FILE] [--most N]
                  [--longest SECONDS]

Of the whole log: entries, how many are not answered (the lag) and how long the oldest of them has
waited, sequencers of this exchange that are connected, answers by kind, refusals by reason, and
marks. Of the answers that came since it runs: the median and the greatest time from append to
answer in milliseconds, of all and of clears (with the clock of this machine and of Redis). It
checks the chain of sums as it reads. With --place it keeps in FILE how far it has come, and goes on
from there the next time. With --most it ends as soon as more than N entries are not answered, with
--longest as soon as one has waited longer.

It runs until it is stopped, or ends with one line on standard error and status
"""

from __future__ import annotations

import collections
import json
import pathlib
import statistics
from typing import Any

from ragvismo_service import files
from ragvismo_service.chain import FIRST_HEAD, Answered
from ragvismo_service.following import Follower, since_append
from ragvismo_service.messages import START_ID, reply_of
from ragvismo_service.statuses import BadUse, Ended, Status, table
from ragvismo_service.store import Store
from ragvismo_service.words import Words, seconds, status_of, store_of

STATUSES = (
    Status.BAD_USE,
    Status.NO_REDIS,
    Status.LOST,
    Status.CUT,
    Status.FORGED,
    Status.CHANGED,
    Status.LAGS,
    Status.FILE_FAULT,
)


class Seen:
    """What the answers so far tell."""

    def __init__(self) -> None:
        self.last, self.head, self.count = START_ID, FIRST_HEAD, 0
        self.kinds: collections.Counter[str] = collections.Counter()
        self.times: dict[str, list[float]] = {"all": [], "clears": []}

    def take(self, answered: Answered, is_new: bool) -> None:
        reply = reply_of(answered.entry.id, answered.answer)
        self.last, self.head, self.count = answered.entry.id, answered.head, self.count + 1
        # A line that tries has a mark, and is no clear.
        is_clear = reply["reply"] == "cleared"
        kind = reply.get("mark") if is_clear else reply.get("reason")
        self.kinds[str(kind or reply["reply"])] += 1
        if is_new:
            waited = 1000 * since_append(answered)
            self.times["all"].append(waited)
            if is_clear:
                self.times["clears"].append(waited)

    def told_times(self) -> str:
        """The times since the last call."""
        said = []
        for name, times in self.times.items():
            if times:
                said.append(
                    f"{name} {len(times)}: median {statistics.median(times):.0f} ms,"
                    f" greatest {max(times):.0f} ms"
                )
            times.clear()
        return "; ".join(said) or "no answers"

    def text(self) -> bytes:
        """How far it has come."""
        told = {
            "last": self.last.decode(),
            "head": self.head.decode(),
            "count": self.count,
            "kinds": self.kinds,
        }
        return json.dumps(told, separators=(",", ":")).encode() + b"\n"

    @staticmethod
    def of(path: pathlib.Path) -> Seen:
        """What a file keeps; raises BadUse."""
        seen = Seen()
        if path.exists():
            try:
                told: dict[str, Any] = json.loads(path.read_bytes())
                seen.last, seen.head, seen.count = (
                    told["last"].encode(),
                    told["head"].encode(),
                    int(told["count"]),
                )
                seen.kinds.update(told["kinds"])
            except (OSError, ValueError, KeyError, TypeError, AttributeError):
                raise BadUse(f"{path} does not tell how far a watch has come") from None
        return seen


class Watch:
    """Tells how an exchange is doing."""

    def __init__(self, store: Store, seen: Seen, most: float, longest: float) -> None:
        self.seen, self.most, self.longest = seen, most, longest
        self.follower, self.lags = Follower(store, seen.take, seen.last, seen.head), False

    def told_state(self) -> str:
        """How the log is; Ended where entries were taken out."""
        state = self.follower.state()
        waits = f", the oldest for {state.waited:.1f} s" if state.lag and state.waited else ""
        kinds = ", ".join(f"{count} {kind}" for kind, count in sorted(self.seen.kinds.items()))
        self.lags = state.lag > self.most or state.waited > self.longest
        lag = f"{state.entries} entries, {state.lag} not answered{waits}"
        return f"{lag}; {state.sequencers} sequencers; {kinds}"


def run() -> None:
    words = Words(f"{__doc__}{table(*STATUSES)}")
    words.add_argument("--every", type=seconds, default=5, metavar="SECONDS")
    words.add_argument("--once", action="store_true")
    words.add_argument("--place", type=pathlib.Path, metavar="FILE")
    words.add_argument("--most", type=float, default=float("inf"), metavar="N")
    words.add_argument("--longest", type=seconds, default=float("inf"), metavar="SECONDS")
    given = words.parse_args()
    seen = Seen.of(given.place) if given.place else Seen()
    watch = Watch(store_of(given), seen, given.most, given.longest)
    watch.follower.begin()
    said = watch.told_state()
    while True:
        print(said, flush=True)
        if given.place:
            files.write(given.place, seen.text())
        if watch.lags:
            raise Ended(Status.LAGS, "more waits, or waits longer, than the call allows")
        if given.once:
            return
        watch.follower.wait(given.every)
        said = f"{watch.told_state()}; {seen.told_times()}"


def main() -> int:
    return status_of(run)
