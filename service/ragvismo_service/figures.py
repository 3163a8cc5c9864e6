"""What the answers of an exchange tell of its orders, of its house, and of how much of its limits
is used."""

from __future__ import annotations

import collections
from collections.abc import Callable
from typing import Any

from ragvismo_service.chain import Answered
from ragvismo_service.messages import answer_of, time_of
from ragvismo_service.statuses import Ended, Status

# What one exchange takes in its life, and how many orders of a market may be live.
LIMITS = {
    "accounts": 10_000,
    "batches": 2_000_000,
    "live_orders_of_a_market": 256,
    "markets": 64,
    "messages": 16_777_216,
    "messages_of_a_session": 1_000_000,
    "orders": 1_000_000,
    "sessions": 10_000,
}
HOUSE = 0
FAULTS = KeyError, ValueError, TypeError, IndexError, AttributeError, ZeroDivisionError
Reply = dict[str, Any]


def cash_of(order: Reply, fill: str) -> int:
    """What an account gets at a clear in whole ticks, below 0 where it pays: rounded for the
    house."""
    numerator, _, denominator = fill.partition("/")
    price = -order["price"] if order["side"] == "buy" else order["price"]
    return int(numerator) * int(price) // int(denominator or 1)


class Figures:
    """What the answers so far tell; a reply counts once, however often its message was repeated."""

    def __init__(self) -> None:
        self.used = dict.fromkeys(LIMITS, 0)
        self.house = 0
        # The market of each live order, and how many each market has.
        self.live: dict[int, int] = {}
        self.live_of: collections.Counter[int] = collections.Counter()
        self.sessions: set[int] = set()
        # When each market was closed that is closed, and the entry that is taken was appended, in
        # milliseconds since 1970 by the clock of Redis.
        self.closed: dict[int, int] = {}
        self.time = 0
        self.line = 0
        self.takes: dict[str, Callable[[Reply, list[str]], None]] = {
            "opened": self._count("accounts"),
            "listed": self._count("markets"),
            "placed": self._place,
            "cancelled": self._cancel,
            "cleared": self._clear,
            "settled": self._settle,
            "balance": self._balance,
            "closed": self._close,
            "reopened": self._open,
        }

    def take(self, answered: Answered) -> Reply | None:
        """Takes an answer, and tells its reply where it is one that was not taken before; Ended
        where it is none."""
        try:
            return self._take(answered)
        except FAULTS:
            raise Ended(
                Status.FORGED, f"NO SEQUENCER WROTE the answer under {answered.entry.id.decode()}"
            ) from None

    def _take(self, answered: Answered) -> Reply | None:
        entry, answer = answered.entry, answer_of(answered.entry.id, answered.answer)
        self.used["messages"] += entry.fault is None
        if "of" not in answer:
            return answer
        reply: Reply = answer["of"]
        if reply["line"] <= self.line:
            return None
        self.line, self.time = reply["line"], time_of(entry.id)
        self.sessions.add(answer["session"])
        self.used["sessions"] = len(self.sessions)
        self.used["messages_of_a_session"] = max(
            self.used["messages_of_a_session"], answer["number"]
        )
        if take := self.takes.get(reply["reply"]):
            take(reply, entry.text.decode("latin-1").split(",")[2:])
            self.used["live_orders_of_a_market"] = max(self.live_of.values(), default=0)
        return reply

    def ratios(self) -> dict[str, float]:
        """How much of each limit is used, of 1."""
        return {name: self.used[name] / limit for name, limit in LIMITS.items()}

    def _count(self, name: str) -> Callable[[Reply, list[str]], None]:
        def take(_: Reply, __: list[str]) -> None:
            self.used[name] += 1

        return take

    def _place(self, reply: Reply, fields: list[str]) -> None:
        self.used["orders"], market = reply["order"], int(fields[2].strip('"'))
        self.live[reply["order"]] = market
        self.live_of[market] += 1

    def _cancel(self, reply: Reply, _: list[str]) -> None:
        self._leave(reply["order"])

    def _leave(self, order: int) -> None:
        if market := self.live.pop(order, 0):
            self.live_of[market] -= 1

    def _close(self, reply: Reply, _: list[str]) -> None:
        self.closed[reply["market"]] = self.time

    def _open(self, reply: Reply, _: list[str]) -> None:
        self.closed.pop(reply["market"], None)

    def _clear(self, reply: Reply, _: list[str]) -> None:
        self._open(reply, _)
        self.used["batches"] = reply["batch"]
        for order, fill in zip(reply["orders"], reply["fills"]):
            self._leave(order["order"])
            self.house -= cash_of(order, fill)

    def _settle(self, reply: Reply, _: list[str]) -> None:
        self._open(reply, _)
        for order in [order for order, of in self.live.items() if of == reply["market"]]:
            self._leave(order)
        self.house -= sum(int(payout["amount"]) for payout in reply["payouts"])

    def _balance(self, reply: Reply, _: list[str]) -> None:
        if reply["account"] == HOUSE:
            self.house = int(reply["balance"])
