"""Reading the answers of an exchange as they come, and how far they are behind the messages."""

from __future__ import annotations

import logging
import time
from collections.abc import Callable
from typing import NamedTuple

from ragvismo_service.chain import FIRST_HEAD, Answered
from ragvismo_service.connecting import client_name
from ragvismo_service.history import History
from ragvismo_service.messages import GREATEST_ID, START_ID, order_of, time_of
from ragvismo_service.store import Store
from ragvismo_service.streams import Pages, counts


class State(NamedTuple):
    """How many entries there are, how many are not answered, how long the oldest of them has waited
    in seconds, and how many sequencers are connected."""

    entries: int
    lag: int
    waited: float
    sequencers: int


class Follower:
    """Gives each answer to `take`, with whether it came while this runs; the chain of sums is
    checked."""

    def __init__(
        self,
        store: Store,
        take: Callable[[Answered, bool], None],
        since: bytes = START_ID,
        head: bytes = FIRST_HEAD,
    ) -> None:
        self.store, self.take, self.history = store, take, History(store, since, head)

    def begin(self) -> None:
        """Takes what is there; Ended where that is not whole, or not what was read before."""
        self.history.begin()
        last = order_of(counts(self.store, self.history.keys)[1].last)
        self.read_on(False, lambda: order_of(self.history.since) >= last)

    def read_on(self, is_new: bool, is_enough: Callable[[], bool]) -> None:
        """Takes page by page what is there, and what comes meanwhile until it is enough: more may
        come for ever where it comes as fast as it is taken."""
        for page in self.history.pages():
            for answered in page:
                self.take(answered, is_new)
            if is_enough():
                break

    def wait(self, seconds: float) -> None:
        """Takes what comes in some seconds."""
        until = time.monotonic() + seconds
        while (left := until - time.monotonic()) > 0:
            self.wait_for_more(left)

    def wait_for_more(self, seconds: float) -> None:
        """Takes what comes next, which is waited for some seconds, and one at most, and what comes
        after it in these."""
        until = time.monotonic() + min(1.0, seconds)
        block, answers = b"%d" % max(1, min(1000, int(seconds * 1000))), self.history.keys.answers
        self.store.say(
            b"XREAD", b"COUNT", b"1", b"BLOCK", block, b"STREAMS", answers, self.history.since
        )
        self.read_on(True, lambda: time.monotonic() >= until)

    def wait_for(self, id: bytes) -> None:
        """Waits until the entry of an id is answered; not for one that Redis lost."""
        since, store = time.monotonic(), self.store
        while order_of(self.history.since) < order_of(id):
            self.wait_for_more(1)
            if time.monotonic() > since + store.patience:
                if not self.has(id):
                    return
                logging.info("entry %s waits for its answer", id.decode())
                since = time.monotonic()

    def has(self, id: bytes) -> bool:
        """Whether the log has an entry, which another Redis may have lost."""
        return bool(self.store.say(b"XRANGE", self.history.keys.taken, id, id))

    def state(self) -> State:
        """How the log is; Ended where entries were taken out."""
        appended, answered = counts(self.store, self.history.keys)
        lag, waited = appended.length - answered.length, self._waited(answered.last)
        return State(appended.length, lag, waited, self.connected("sequencer"))

    def _waited(self, last: bytes) -> float:
        """How long the first entry has waited after the last one that is answered."""
        after = Pages(self.store, self.history.keys.taken, last, GREATEST_ID)
        waiting = self.store.say(*after.command())
        return max(0.0, time.time() - time_of(waiting[0][0]) / 1000) if waiting else 0.0

    def connected(self, tool: str) -> int:
        """How many of a tool of this exchange are connected."""
        clients = self.store.say(b"CLIENT", b"LIST").decode().splitlines()
        name = f"name={client_name(tool, self.store.place.name)}"
        return sum(name in client.split() for client in clients)


def since_append(answered: Answered) -> float:
    """The seconds since an entry was appended, by the clocks of this machine and of Redis."""
    return time.time() - time_of(answered.entry.id) / 1000
