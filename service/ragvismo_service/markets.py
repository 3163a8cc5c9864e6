"""What the log tells an auctioneer: which markets are open, and what came since one was closed."""

from __future__ import annotations

import collections
import dataclasses
import re
from collections.abc import Callable
from typing import Any, NamedTuple

from ragvismo_service.chain import Answered
from ragvismo_service.figures import FAULTS
from ragvismo_service.messages import answer_of, time_of
from ragvismo_service.statuses import Ended, Status

OF_MARKET = re.compile(rb"(clear|propose),([1-9][0-9]{0,8}),")


class Said(NamedTuple):
    """A message that was taken, and the reply to its body."""

    id: bytes
    session: int
    body: bytes
    reply: dict[str, Any]

    @property
    def kind(self) -> str:
        return str(self.reply["reply"])

    def field(self, at: int) -> int:
        """A number of a body that was accepted."""
        return int(self.body.split(b",", at + 1)[at].strip(b'"'))


@dataclasses.dataclass
class Closing:
    """Who closed a market, with how many live orders, and what came since: the book that was
    answered to the same session, who proposed, and whether a clear was refused."""

    session: int
    orders: int
    book: Said | None = None
    proposers: set[int] = dataclasses.field(default_factory=set)
    is_refused: bool = False


@dataclasses.dataclass
class Market:
    """A market: when its last auction began (where there was none, when it was listed), in
    milliseconds by the clock of Redis, and whether orders came since it was found empty."""

    began: int
    has_orders: bool = False
    is_settled: bool = False
    closing: Closing | None = None


class Markets:
    """Takes each answer of the log, in order."""

    def __init__(self) -> None:
        self.of: dict[int, Market] = {}
        # The number of the last message that was taken of each session.
        self.numbers: collections.Counter[int] = collections.Counter()
        self.line = 0
        self.takes: dict[str, Callable[[Said], None]] = {
            "listed": self._list,
            "placed": self._place,
            "closed": self._close,
            "reopened": self._open,
            "book": self._book,
            "proposed": self._propose,
            "refused": self._refuse,
            "cleared": self._clear,
            "settled": self._settle,
        }

    def take(self, answered: Answered) -> Said | None:
        """Takes an answer, and tells what it is where it was not taken before; Ended where no
        sequencer wrote it."""
        try:
            return self._take(answered)
        except FAULTS:
            raise Ended(
                Status.FORGED, f"NO SEQUENCER WROTE the answer under {answered.entry.id.decode()}"
            ) from None

    def _take(self, answered: Answered) -> Said | None:
        entry, answer = answered.entry, answer_of(answered.entry.id, answered.answer)
        if "of" not in answer or answer["of"]["line"] <= self.line:
            return None
        body = entry.text.split(b",", 2)[2]
        said = Said(entry.id, answer["session"], body, answer["of"])
        self.line, self.numbers[said.session] = said.reply["line"], answer["number"]
        if take := self.takes.get(said.kind):
            take(said)
        return said

    def _list(self, said: Said) -> None:
        self.of[said.reply["market"]] = Market(time_of(said.id))

    def _place(self, said: Said) -> None:
        self.of[said.field(2)].has_orders = True

    def _close(self, said: Said) -> None:
        market, orders = self.of[said.reply["market"]], said.reply["orders"]
        market.began, market.has_orders = time_of(said.id), orders > 0
        market.closing = Closing(said.session, orders)

    def _open(self, said: Said) -> None:
        self.of[said.reply["market"]].closing = None

    def _book(self, said: Said) -> None:
        closing = self.of[said.reply["market"]].closing
        if closing and closing.session == said.session and not closing.book:
            closing.book = said

    def _propose(self, said: Said) -> None:
        if closing := self.of[said.reply["market"]].closing:
            closing.proposers.add(said.session)

    def _refuse(self, said: Said) -> None:
        found = OF_MARKET.match(said.body)
        market = self.of.get(int(found[2])) if found else None
        if not found or not market or not market.closing:
            return
        if found[1] == b"propose":
            # What is Stale was for another book.
            if said.reply["reason"] != "Stale":
                market.closing.proposers.add(said.session)
        elif market.closing.session == said.session:
            market.closing.is_refused = True

    def _clear(self, said: Said) -> None:
        market = self.of[said.reply["market"]]
        market.closing, market.has_orders = None, False

    def _settle(self, said: Said) -> None:
        market = self.of[said.reply["market"]]
        market.closing, market.is_settled = None, True
