"""What the log tells of an exchange: markets, live orders, who opened which account, batches, and
what each session was answered."""

from __future__ import annotations

import collections
import itertools
import json
from collections.abc import Callable
from typing import Any, NamedTuple

from ragvismo_gateway.keeping import KEPT
from ragvismo_service.chain import Answered
from ragvismo_service.messages import time_of

# How many events can be told again to who lost the connection.
EVENTS = 10_000
# How much of what a session said, and was answered, is kept; so many as are kept of this size are.
KEPT_BYTES = 4 << 20
SHORT = KEPT_BYTES // KEPT
ORDERS = {"buy", "sell", "bundle"}


class Order(NamedTuple):
    """A live order."""

    number: int
    account: int
    market: int
    side: str
    price: int
    quantity: int
    legs: list[dict[str, Any]]

    def told(self, names_account: bool) -> dict[str, Any]:
        """The order as `book` tells it, with its account where that may be seen."""
        told = {
            "legs": self.legs,
            "order": self.number,
            "price": self.price,
            "quantity": self.quantity,
            "side": self.side,
        }
        return {"account": self.account, **told} if names_account else told


class Market(NamedTuple):
    """A market; its prices are none until it is settled. It began when it was listed, or closed
    last, in milliseconds by the clock of Redis."""

    underlyings: int
    orders: dict[int, Order]
    prices: list[int]
    began: int
    is_closed: bool = False

    @property
    def phase(self) -> str:
        if self.prices:
            return "settled"
        return "closed" if self.is_closed else "open"


class Batch(NamedTuple):
    """Which entry has the answer that cleared a batch, and what it says in short."""

    entry: bytes
    said: dict[str, Any]


class Event(NamedTuple):
    """What came to pass: the text for all (none where it is one account's own), that for who may
    see whose account it is, the account, and of a settlement what each account is paid."""

    at: int
    text: str
    named: str
    account: int
    payouts: list[dict[str, Any]]


class Spoken(NamedTuple):
    """What a session said, and the reply."""

    at: int
    body: bytes
    reply: bytes

    def size(self) -> int:
        return len(self.body) + len(self.reply)

    def line(self) -> str:
        """What was said, as JSON."""
        return json.dumps(self.body.decode(errors="replace"))


def compact(told: object) -> str:
    return json.dumps(told, separators=(",", ":"))


def fields_of(body: bytes) -> list[str]:
    """The fields of a line that was accepted: none has a comma or a quotation mark within."""
    return [field.strip('"') for field in body.decode().split(",")]


def form_of(kind: str, strike: str, weights: list[str]) -> list[int]:
    """The option as a vector: the strike's entry and the weights."""
    sign = 1 if kind == "call" else -1
    return [-sign * int(strike), *(sign * int(weight) for weight in weights)]


def order_of(number: int, body: bytes, underlyings: Callable[[int], int]) -> Order:
    """The order that an accepted line placed."""
    word, account, market, *rest = fields_of(body)
    if word != "bundle":
        kind, strike, price, quantity, *weights = rest
        legs = [{"count": 1, "form": form_of(kind, strike, weights)}]
        side = word
    else:
        side, price, quantity, _, *parts = rest
        size = underlyings(int(market)) + 3
        legs = []
        for at in range(0, len(parts), size):
            count, kind, strike, *weights = parts[at : at + size]
            legs.append({"count": int(count), "form": form_of(kind, strike, weights)})
    return Order(number, int(account), int(market), side, int(price), int(quantity), legs)


def reply_text(answer: bytes) -> bytes:
    """The reply in an answer, byte for byte."""
    begin, end = answer.find(b'"of":'), answer.rfind(b',"session":')
    return answer[begin + 5 : end] if answer.startswith(b'{"number":') and begin > 0 else answer


def too_much(said: dict[int, Spoken], size: int) -> int:
    """The number of what is to be kept no more of what a session said, of so many bytes; 0 where
    all may stay. A clear or a proposal may be long, and does not push out what moved money."""
    if len(said) > KEPT:
        return next(iter(said))
    if size <= KEPT_BYTES:
        return 0
    *others, _ = said
    return next((number for number in others if said[number].size() > SHORT), 0)


class View:
    """Takes each entry of the log with its answer, in order."""

    def __init__(self) -> None:
        self.count = 0
        self.markets: dict[int, Market] = {}
        self.market_of: dict[int, int] = {}
        self.owners: dict[int, int] = {}
        self.accounts: dict[int, list[int]] = collections.defaultdict(list)
        self.placed: collections.Counter[int] = collections.Counter()
        self.batches: dict[int, Batch] = {}
        self.spoken: dict[int, dict[int, Spoken]] = collections.defaultdict(dict)
        self.sizes: collections.Counter[int] = collections.Counter()
        # Where in the log a session said the newest of what is kept no more.
        self.dropped: collections.Counter[int] = collections.Counter()
        self.last: dict[int, int] = {}
        # Where in the log the balance or the positions of an account may have changed last, and
        # the live orders of a market, and where a market was listed or settled last.
        self.touched: dict[int, int] = {}
        self.moved: dict[int, int] = {}
        self.markets_changed = 0
        # What was proposed last, by session and market.
        self.proposed: dict[tuple[int, int], dict[str, Any]] = {}
        self.events: collections.deque[Event] = collections.deque(maxlen=EVENTS)

    def take(self, answered: Answered) -> tuple[int, int] | None:
        """Takes an entry; tells session and number of what was a message."""
        self.count += 1
        if answered.entry.fault:
            return None
        *names, body = answered.entry.text.split(b",", 2)
        if not all(map(bytes.isdigit, names)):
            return None
        session, number = map(int, names)
        if not answered.answer.startswith(b'{"number":'):
            return session, number
        reply = json.loads(answered.answer)["of"]
        if self.last.get(session, 0) < number:
            self.last[session] = number
            self._speak(session, number, Spoken(self.count, body, reply_text(answered.answer)))
            kind: Any = getattr(self, f"_{reply['reply']}", None)
            if kind:
                kind(session, body, reply, answered.entry.id)
        return session, number

    def _speak(self, session: int, number: int, spoken: Spoken) -> None:
        """Keeps what a session said last, so many lines and bytes, and that one anyway."""
        said = self.spoken[session]
        said[number] = spoken
        self.sizes[session] += spoken.size()
        while (old := too_much(said, self.sizes[session])) > 0:
            gone = said.pop(old)
            self.sizes[session] -= gone.size()
            self.dropped[session] = max(self.dropped[session], gone.at)

    def _tell(
        self, account: int, payouts: list[dict[str, Any]], is_for_all: bool = True, **said: Any
    ) -> None:
        said["at"] = self.count
        text = compact(said)
        named = compact({"account": account, **said}) if account else text
        self.events.append(Event(self.count, text if is_for_all else "", named, account, payouts))

    def live(self, session: int, market: int) -> int:
        """How many live orders a session has in a market."""
        orders = self.markets[market].orders.values() if market in self.markets else ()
        return sum(self.owners.get(order.account) == session for order in orders)

    def last_batches(self, most: int) -> list[dict[str, Any]]:
        """What the newest batches say in short, the oldest of them first, in a moment however many
        there are."""
        newest = list(itertools.islice(reversed(self.batches.values()), most))
        return [batch.said for batch in reversed(newest)]

    def _touch(self, *accounts: int) -> None:
        """What moves money of an account may move the house's."""
        self.touched.update(dict.fromkeys((0, *accounts), self.count))

    def changed(self, account: int) -> int:
        """Where in the log what is told of an account may have changed last."""
        return max(self.touched.get(account, 0), self.markets_changed)

    def changed_book(self, market: int) -> int:
        """Where in the log what is told of a market's live orders may have changed last."""
        return max(self.moved.get(market, 0), self.markets_changed)

    # ---- what each reply changes

    def _opened(self, session: int, body: bytes, reply: dict[str, Any], id: bytes) -> None:
        self._touch(reply["account"])
        self.owners[reply["account"]] = session
        self.accounts[session].append(reply["account"])

    def _deposited(self, session: int, body: bytes, reply: dict[str, Any], id: bytes) -> None:
        self._touch(reply["account"])
        self._tell(
            reply["account"], [], is_for_all=False, event="deposited", balance=reply["balance"]
        )

    def _withdrawn(self, session: int, body: bytes, reply: dict[str, Any], id: bytes) -> None:
        self._touch(reply["account"])

    def _secured(self, session: int, body: bytes, reply: dict[str, Any], id: bytes) -> None:
        self._touch(reply["account"])

    def _proposed(self, session: int, body: bytes, reply: dict[str, Any], id: bytes) -> None:
        self.proposed[session, reply["market"]] = {"at": self.count, "session": session, **reply}

    def _listed(self, session: int, body: bytes, reply: dict[str, Any], id: bytes) -> None:
        self.markets[reply["market"]] = Market(reply["underlyings"], {}, [], time_of(id))
        self.markets_changed = self.count
        told: dict[str, Any] = {"market": reply["market"], "underlyings": reply["underlyings"]}
        self._tell(0, [], event="listed", **told)

    def _closed(self, session: int, body: bytes, reply: dict[str, Any], id: bytes) -> None:
        self._set_closed(reply["market"], True)
        market = self.markets[reply["market"]]
        self.markets[reply["market"]] = market._replace(began=time_of(id))
        self._tell(0, [], event="closed", market=reply["market"])

    def _reopened(self, session: int, body: bytes, reply: dict[str, Any], id: bytes) -> None:
        self._set_closed(reply["market"], False)
        self._tell(0, [], event="reopened", market=reply["market"])

    def _placed(self, session: int, body: bytes, reply: dict[str, Any], id: bytes) -> None:
        order = order_of(reply["order"], body, lambda market: self.markets[market].underlyings)
        self.markets[order.market].orders[order.number] = order
        self.moved[order.market] = self.count
        self._touch(order.account)
        self.market_of[order.number] = order.market
        self.placed[session] += 1
        told: dict[str, Any] = {"market": order.market, "order": order.told(False)}
        self._tell(order.account, [], event="placed", **told)

    def _cancelled(self, session: int, body: bytes, reply: dict[str, Any], id: bytes) -> None:
        market = self.market_of.pop(reply["order"])
        order = self.markets[market].orders.pop(reply["order"])
        self.moved[market] = self.count
        self._touch(order.account)
        told: dict[str, Any] = {"market": market, "order": order.number}
        self._tell(order.account, [], event="cancelled", **told)

    def _cleared(self, session: int, body: bytes, reply: dict[str, Any], id: bytes) -> None:
        kept = "batch", "bound", "line", "mark", "market", "surplus", "underlyings", "units"
        said = {key: reply[key] for key in kept if key in reply}
        said["orders"] = len(reply["orders"])
        said["filled"] = sum(fill != "0" for fill in reply["fills"])
        self.batches[reply["batch"]] = Batch(id, said)
        self._set_closed(reply["market"], False)
        self._take_orders(reply["market"])
        self._tell(0, [], event="cleared", **said)

    def _settled(self, session: int, body: bytes, reply: dict[str, Any], id: bytes) -> None:
        prices = [int(field) for field in fields_of(body)[2:]]
        self.markets[reply["market"]].prices.extend(prices)
        self.markets_changed = self.count
        self._touch(*(payout["account"] for payout in reply["payouts"]))
        self._take_orders(reply["market"])
        told: dict[str, Any] = {"market": reply["market"], "prices": prices}
        told["lapsed"] = reply["lapsed"]
        self._tell(0, reply["payouts"], event="settled", **told)

    def _set_closed(self, market: int, is_closed: bool) -> None:
        self.markets[market] = self.markets[market]._replace(is_closed=is_closed)

    def _take_orders(self, market: int) -> None:
        self.moved[market] = self.count
        for number, order in self.markets[market].orders.items():
            self._touch(order.account)
            del self.market_of[number]
        self.markets[market].orders.clear()
