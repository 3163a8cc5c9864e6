"""A live exchange: the program `exchange serve` with a method for each kind of line."""

from __future__ import annotations

import json
import operator
import os
import select
import subprocess
import tempfile
from collections.abc import Callable, Iterable, Iterator, Sequence
from dataclasses import dataclass
from fractions import Fraction
from types import TracebackType
from typing import TYPE_CHECKING, Any, Literal, NamedTuple, SupportsIndex

from ragvismo import cleared, program
from ragvismo.cleared import Cleared
from ragvismo.faults import Ended, Refused
from ragvismo.orders import Batch, Leg, Option, Order, PlacedOrder, Side, buy, bundle, sell
from ragvismo.proposals import Proposal

if TYPE_CHECKING:
    import pandas

BUDGET = 20_000
MARGIN_BUDGET = 2_000
GREATEST_DEPOSIT = 10**15
PIECE = 65_536


class Balance(NamedTuple):
    """What an account has, and what of it its live buys reserve, in ticks."""

    amount: int
    reserved: int


class Payout(NamedTuple):
    """What a position gains at the settlement, in whole ticks, below 0 where its account pays."""

    batch: int
    order: int
    account: int
    amount: int


class Settled(NamedTuple):
    """A settlement: the payouts of all positions, and how many live orders lapsed."""

    payouts: list[Payout]
    lapsed: int


class Price(NamedTuple):
    """What the market bids and asks for an option, in whole ticks.

    `ask` is the least price at which a further buy would raise the greatest surplus, `bid` the
    greatest at which a further sell would. `never` where no price would do, `unmarked` where a
    clear that would tell it is not marked optimal, or too many clears are wanted.
    """

    bid: int | Literal["never", "unmarked"]
    ask: int | Literal["never", "unmarked"]


class Trial(NamedTuple):
    """What a clear would do with one order more: how much of it would be filled, the surplus of all
    orders in ticks, and whether it is proved the greatest."""

    fill: Fraction
    surplus: Fraction
    mark: Literal["optimal", "wide", "budget"]


class Level(NamedTuple):
    """A price, in ticks, and how much of an order would be filled at it."""

    price: int
    fill: Fraction
    mark: Literal["optimal", "wide", "budget"]


@dataclass(frozen=True)
class Depth:
    """How deep a market is for an option: what would be filled of a further sell (`bids`) and of a
    further buy (`asks`) of `quantity` options, at each price that was asked for.

    Where the marks are optimal, a buy's fill does not fall and a sell's does not rise with the
    price; between two prices it is between their fills.
    """

    market: int
    option: Option
    quantity: int
    bids: tuple[Level, ...]
    asks: tuple[Level, ...]

    def to_frame(self, floats: bool = False) -> "pandas.DataFrame":
        """The levels: `side` (of the further order), `price`, `fill`, `mark`."""
        from ragvismo.frames import frame_of

        levels = [("sell", it) for it in self.bids] + [("buy", it) for it in self.asks]
        columns: dict[str, list[Any]] = {"side": [side for side, _ in levels]}
        for name in Level._fields:
            columns[name] = [getattr(it, name) for _, it in levels]
        return frame_of(columns, floats)


class Margin(NamedTuple):
    """The least liability, in ticks, that covers what an account's positions in a market owe, and
    the state (t, s) at which they owe it; or `unbounded` with its ray, or `wide` or `budget`
    without a state."""

    amount: Fraction | Literal["unbounded", "wide", "budget"]
    at: tuple[int, ...] | None


class Position(NamedTuple):
    """What an account holds (a buy) or owes (a sell) of a batch: so many bundles of an order."""

    batch: int
    order: int
    side: Side
    fill: Fraction
    legs: tuple[Leg, ...]


@dataclass(frozen=True)
class Book:
    """The live orders of a market, by rising number."""

    market: int
    underlyings: int
    orders: tuple[PlacedOrder, ...]

    @property
    def batch(self) -> Batch:
        """The orders as a batch, to be cleared or priced by itself."""
        return Batch(self.orders)


class Need(NamedTuple):
    """What an account has and needs, in ticks: a word stands where no amount is enough or none was
    found."""

    balance: int
    need: int | str
    secured: bool


class Proposed(NamedTuple):
    """A proposal that holds: its surplus and bound, and the greatest surplus and the least bound
    that are kept for these orders after it, in ticks."""

    surplus: Fraction
    bound: Fraction
    best_surplus: Fraction
    least_bound: Fraction


class Exchange:
    """Holds a running `exchange serve`, which answers each call before it returns. Amounts, prices
    and strikes are whole ticks. Use it in a `with`, or call `close`.

    Each call raises `Refused` where the exchange refuses it, which changes nothing, `Ended` where
    the program has ended, and TypeError for a number that is not whole. With a `timeout` in seconds
    a call that is not answered by then raises `TimedOut`; the program goes on with it, and the next
    call waits for both answers. `commands` and `replies` are the lines so far: `exchange serve`
    answers the same commands by the same replies.
    """

    def __init__(self, path: program.Path | None = None, *, timeout: float | None = None) -> None:
        """Starts the program that `program.find` finds; raises `NoProgram` where there is none."""
        self.path = program.find(path)
        self.timeout = timeout
        self.commands: list[str] = []
        self.replies: list[str] = []
        self._unsent, self._received = b"", b""
        self._errors = tempfile.TemporaryFile()
        ends: dict[str, Any] = {"stdin": subprocess.PIPE, "stdout": subprocess.PIPE}
        self._process = subprocess.Popen(
            [self.path, "serve"], bufsize=0, stderr=self._errors, **ends
        )
        assert self._process.stdin and self._process.stdout
        self._to, self._from = self._process.stdin, self._process.stdout
        os.set_blocking(self._to.fileno(), False)

    def __enter__(self) -> Exchange:
        return self

    def __exit__(
        self,
        kind: type[BaseException] | None,
        fault: BaseException | None,
        trace: TracebackType | None,
    ) -> None:
        self.close()

    def close(self) -> None:
        """Ends the program. What it held is gone, but `commands` can be run again."""
        for end in (self._to, self._from):
            try:
                end.close()
            except BrokenPipeError:
                pass
        self._process.kill()  # it may be busy with a call that was not waited for
        self._process.wait()
        self._errors.close()

    def ask(self, command: str) -> dict[str, Any]:
        """The reply to one command line of docs/FORMATS.md, as an object; raises as said above."""
        if not command or not command.isprintable():
            raise ValueError("a command is one line of letters that can be seen")
        if self._errors.closed:
            raise Ended("the exchange is closed")
        self.commands.append(command)
        self._unsent += command.encode() + b"\n"
        deadline = program.Deadline(self.timeout)
        while len(self.replies) < len(self.commands):  # more than one after a wait that was ended
            self._go_on(deadline)
        reply: dict[str, Any] = json.loads(self.replies[-1])
        if reply["reply"] == "refused":
            raise refused(command, reply)
        return reply

    def _go_on(self, deadline: program.Deadline) -> None:
        """Sends or receives a piece of what is to be sent and received."""
        poll, left = select.poll(), deadline.left()
        poll.register(self._from, select.POLLIN)
        if self._unsent:
            poll.register(self._to, select.POLLOUT)
        ready = dict(poll.poll(None if left is None else left * 1000))
        if self._to.fileno() in ready:
            try:
                self._unsent = self._unsent[self._to.write(self._unsent[:PIECE]) or 0 :]
            except BrokenPipeError:
                raise self._ended() from None
        if self._from.fileno() in ready:
            piece = self._from.read(PIECE)
            if not piece:
                raise self._ended()
            *lines, self._received = (self._received + piece).split(b"\n")
            self.replies += [it.decode() for it in lines]

    def _ended(self) -> Ended:
        del self.commands[len(self.replies) :]
        status = self._process.wait()
        self._errors.seek(0)
        return program.ended("serve", status, self._errors.read())

    def open(self, *, account: int) -> None:
        """Opens an account, 1 to 999,999,999."""
        self.ask(_line("open", account))

    def deposit(self, *, account: int, amount: int) -> int:
        """Deposits 1 to 10^15 ticks; what the account then has."""
        return int(self.ask(_line("deposit", account, amount))["balance"])

    def withdraw(self, *, account: int, amount: int) -> int:
        """Withdraws ticks that neither its live buys nor its positions need; what it then has."""
        return int(self.ask(_line("withdraw", account, amount))["balance"])

    def balance(self, *, account: int) -> Balance:
        """What an account has; account 0 is the house."""
        reply = self.ask(_line("balance", account))
        return Balance(int(reply["balance"]), int(reply["reserved"]))

    def market(self, *, market: int, underlyings: int = 1) -> None:
        """Lists a market on 1 to 8 underlyings."""
        self.ask(_line("market", market, underlyings))

    def place(self, order: Order, *, market: int) -> int:
        """Places an order of its account; its number."""
        return int(self.ask(command_of(order, market))["order"])

    def buy(
        self, *, account: int, market: int, option: Option, price: int, quantity: int = 1
    ) -> int:
        """Bids `price` ticks each for so many of an option; the order's number."""
        return self.place(buy(option, price, quantity, account=account), market=market)

    def sell(
        self, *, account: int, market: int, option: Option, price: int, quantity: int = 1
    ) -> int:
        """Asks `price` ticks each for so many of an option; the order's number."""
        return self.place(sell(option, price, quantity, account=account), market=market)

    def bundle(
        self,
        *,
        account: int,
        market: int,
        side: Side,
        legs: Iterable[tuple[int, Option]],
        price: int,
        quantity: int = 1,
    ) -> int:
        """Bids or asks `price` ticks each for so many bundles of 1 to 4 legs, counts with options;
        the order's number."""
        return self.place(bundle(side, legs, price, quantity, account=account), market=market)

    def cancel(self, *, account: int, order: int) -> None:
        """Cancels a live order of an account."""
        self.ask(_line("cancel", account, order))

    def book(self, *, market: int) -> Book:
        """The live orders of a market."""
        reply = self.ask(_line("book", market))
        orders = tuple(map(_placed, reply["orders"]))
        return Book(reply["market"], reply["underlyings"], orders)

    def positions(self, *, account: int, market: int) -> list[Position]:
        """The positions of an account in a market, in the order in which they were added."""
        reply = self.ask(_line("positions", account, market))
        return [
            Position(
                it["batch"], it["order"], it["side"], Fraction(it["fill"]), cleared.legs_of(it)
            )
            for it in reply["positions"]
        ]

    def close_market(self, *, market: int) -> int:
        """Closes a market: no order comes or goes in it until it is cleared, settled or opened
        again. How many live orders it has."""
        return int(self.ask(_line("close", market))["orders"])

    def reopen_market(self, *, market: int) -> None:
        """Opens a closed market again."""
        self.ask(_line("reopen", market))

    def secure(self, *, account: int) -> int:
        """Secures an account, for good: no line is accepted from then on that could leave its
        balance below 0. What it needs, in ticks."""
        return int(self.ask(_line("secure", account))["need"])

    def need(self, *, account: int) -> Need:
        """What an account needs, beside its balance, and whether it is secured."""
        reply = self.ask(_line("need", account))
        amount = reply["need"]
        need = int(amount) if amount.isdecimal() else amount
        return Need(int(reply["balance"]), need, reply["secured"])

    def propose(
        self,
        *,
        market: int,
        solver: Literal["exchange"] | Callable[[Batch], Proposal | None] | Proposal = "exchange",
    ) -> Proposed | None:
        """Proposes how the live orders of a market be filled, as they stand: a `Proposal`, or what
        the program's own solver or a function finds, None where that finds nothing. The next clear
        of just these orders takes the best of what was proposed where its own run gives up. A
        function is not asked where there is no order: a batch of none is on one underlying.
        """
        book = self.book(market=market)
        if solver == "exchange":
            told = self.replies[-1] + "\n"
            line = program.run(told, "propose", self.path, self.timeout).rstrip("\n")
        else:
            if callable(solver):
                found = solver(book.batch) if book.orders else None
            else:
                found = solver
            numbers = [it.number for it in book.orders]
            line = found.line(market, book.batch, numbers) if found else ""
        if not line:
            return None
        reply = self.ask(line)
        return Proposed(*(Fraction(reply[name]) for name in Proposed._fields))

    def clear(self, *, market: int, budget: int = BUDGET) -> Cleared:
        """Clears all live orders of a market within a budget of 1 to 20,000 units, turns of the
        solver."""
        reply = self.ask(_line("clear", market, budget))
        return cleared.read(reply, self.replies[-1], self.path)

    def settle(self, *, market: int, prices: Sequence[int]) -> Settled:
        """Settles a market for good at whole prices of its underlyings, 0 to 10^9."""
        reply = self.ask(_line("settle", market, *prices))
        paid = [
            Payout(it["batch"], it["order"], it["account"], int(it["amount"]))
            for it in reply["payouts"]
        ]
        return Settled(paid, reply["lapsed"])

    def quote(self, *, market: int, option: Option, budget: int = BUDGET) -> Price:
        """What the market bids and asks for one option, by the line `quote`: at most 43 clears a
        side, each with `budget` units.

        That line tells what a buyer must bid as its bid; here it is the ask, as of `price`.
        """
        reply = self.ask(_line("quote", market, budget, *_about(option)))
        return Price(bid=_told(reply["ask"]), ask=_told(reply["bid"]))

    def price(
        self, *, market: int, option: Option, quantity: int = 1, budget: int = BUDGET
    ) -> Price:
        """What the market bids and asks for `quantity` of one option, by the line `price`: in a few
        clears of `budget` units each, at most 60 a side."""
        reply = self.ask(_line("price", market, budget, quantity, *_about(option)))
        return Price(bid=_told(reply["bid"]), ask=_told(reply["ask"]))

    def try_order(
        self,
        *,
        market: int,
        side: Side,
        option: Option,
        price: int,
        quantity: int = 1,
        budget: int = BUDGET,
    ) -> Trial:
        """What would be filled of an order for `quantity` of one option, if the market were cleared
        now with it at the end, by the line `try`: in one clear of `budget` units, which charges
        nothing. No order is placed."""
        reply = self.ask(_line("try", market, budget, side, price, quantity, *_about(option)))
        return Trial(Fraction(reply["fill"]), Fraction(reply["surplus"]), reply["mark"])

    def depth(
        self,
        *,
        market: int,
        option: Option,
        prices: Iterable[int],
        quantity: int = 1,
        budget: int = BUDGET,
    ) -> Depth:
        """How deep a market is for an option: a `try_order` for each price and side. No order is
        placed. `picture` draws it."""
        listed = sorted({int(operator.index(it)) for it in prices})
        about: dict[str, Any] = {"market": market, "option": option, "quantity": quantity}

        def levels(side: Side) -> Iterator[Level]:
            for price in listed:
                tried = self.try_order(side=side, price=price, budget=budget, **about)
                yield Level(price, tried.fill, tried.mark)

        return Depth(bids=tuple(levels("sell")), asks=tuple(levels("buy")), **about)

    def margin(self, *, account: int, market: int, budget: int = MARGIN_BUDGET) -> Margin:
        """What the positions of an account in a market may owe, within a budget of 1 to 20,000
        units."""
        reply = self.ask(_line("margin", account, market, budget))
        word = reply["margin"]
        amount = word if word in ("unbounded", "wide", "budget") else Fraction(word)
        return Margin(amount, tuple(map(int, reply["at"])) if "at" in reply else None)


def command_of(order: Order, market: int) -> str:
    """The command line that places an order."""
    about = order.price, order.quantity
    if len(order.legs) == 1 and order.legs[0].count == 1:
        option = order.legs[0].option
        kind, strike, *weights = _about(option)
        return _line(order.side, order.account, market, kind, strike, *about, *weights)
    legs = [field for leg in order.legs for field in (leg.count, *_about(leg.option))]
    return _line("bundle", order.account, market, order.side, *about, len(order.legs), *legs)


def book_line(batch: Batch) -> str:
    """The reply `book` of a market that holds the orders of a batch alone, numbered from 1."""
    orders = [
        {
            "account": it.account,
            "legs": [{"count": leg.count, "form": leg.option.form} for leg in it.legs],
            "order": number,
            "price": it.price,
            "quantity": it.quantity,
            "side": it.side,
        }
        for number, it in enumerate(batch.orders, 1)
    ]
    about = {"line": 1, "market": 1, "underlyings": batch.underlyings}
    return cleared.spelled({**about, "orders": orders, "reply": "book"})


def refused(command: str, reply: dict[str, Any]) -> Refused:
    """The exception that tells a refusal of a command."""
    names = ("field", "need", "failed")
    return Refused(command, reply["reason"], reply["number"], *map(reply.get, names))


def _placed(order: dict[str, Any]) -> PlacedOrder:
    about = {name: order[name] for name in ("account", "side", "price", "quantity")}
    return PlacedOrder(number=order["order"], legs=cleared.legs_of(order), **about)


def _about(option: Option) -> tuple[int | str, ...]:
    return option.kind, option.strike, *option.weights


def _told(word: str) -> Any:
    """A whole price of a reply, or a word."""
    return word if word in ("never", "unmarked") else int(word)


def _line(word: str, *fields: SupportsIndex | str) -> str:
    """A command line; a number that is not whole is a TypeError."""
    whole = (it if isinstance(it, str) else str(int(operator.index(it))) for it in fields)
    return ",".join([word, *whole])
