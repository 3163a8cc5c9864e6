"""Option quotes as data has them, as batches: OptionMetrics (IvyDB), CBOE, and plain columns.

**Which rows are one chain.** Those with the same underlying (`secid`, `ticker`, `act_symbol`,
`underlying_symbol`), quote date or time, expiration, and whatever tells options apart that pay
otherwise: root, morning settlement, contract size, special settlement, delivery code. A column
`symbol` names the contract where it has the form of one (SPXW 190118C02500000), and then only its
root counts; it names the underlying where no other column does. `optionid` never counts.

**What an order is.** A bid is a buy and an offer a sell, for as many contracts as its size, 1 where
no size is told. A bid or offer that is empty, or not above 0, does not stand. Prices are of one
unit of the underlying; `Chain.multiplier` says how many a contract is for.

**Interest.** In the exchange premium and payoff are worth the same, though a payoff comes later. So
a quote is divided by the `discount` of its chain, what one unit of money at settlement is worth
when it is quoted: premiums, limits and surplus are then in money of the settlement, and times the
discount in money of the quote. Without one no interest is counted. The limits are rounded to whole
ticks, of bids down and of offers up, so nobody trades at worse than was quoted; a finer tick keeps
more.

**The underlying.** A unit of it at settlement is the call with strike 0. Where the data quote it,
and it is asked for, its last bid and offer in the chain are orders for that call, of one contract
each; what it pays before the settlement (dividends) is subtracted first, in money of the quote.

**Exercise.** The exchange's options are European. American ones are taken as if they were, which
`Chain.exercise` tells; their bids and offers also pay for early exercise.

**Long chains.** A chain has at most `most` orders. Of a longer one only the best bid and the best
offer of each option stay; then strikes are taken by their distance from the middle, with all their
orders, as long as these fit. The middle is the strike at which the middles of call and put are
nearest to one another, and where no strike has both the median strike.
"""

from __future__ import annotations

import csv
import gzip
import pathlib
import re
import statistics
import zlib
from collections import Counter
from collections.abc import Callable, Iterable, Iterator
from dataclasses import dataclass
from decimal import Decimal, InvalidOperation
from fractions import Fraction
from math import ceil, floor
from typing import IO, TYPE_CHECKING, Any, Literal, NamedTuple, cast, get_args

from ragvismo.faults import BadChain
from ragvismo.orders import KINDS, Batch, Option, Order, Side, buy, call, put, sell
from ragvismo.program import Path

if TYPE_CHECKING:
    import pandas

# A quote needs room for one order more in a book of 256.
MOST = 255
# What the exchange takes.
MOST_STRIKE, MOST_PRICE, MOST_QUANTITY = 10**9, 10**12, 10**6
UNDERLYING = ("secid", "ticker", "act_symbol", "underlying_symbol")
APART = (
    *("date", "quote_date", "quote_datetime", "exdate", "expiration", "root", "am_settlement"),
    *("contract_size", "ss_flag", "delivery_code"),
)
# A contract by its symbol: the root, then the date, kind and strike.
CONTRACT = re.compile(r"([A-Z0-9.^]+)\s*\d{6}[CP]\d+")
EXERCISE = {"A": "American", "E": "European"}
# What a column is called, by who delivers it; of several the first that is there.
NAMES = {
    "strike": ("strike", "strike_price"),
    "kind": ("cp_flag", "option_type", "kind"),
    "bid": ("best_bid", "bid_{at}", "bid"),
    "offer": ("best_offer", "ask_{at}", "ask", "offer"),
    "bid_size": ("bid_size_{at}", "bid_size"),
    "offer_size": ("ask_size_{at}", "ask_size", "offer_size"),
    "underlying_bid": ("underlying_bid_{at}", "underlying_bid"),
    "underlying_offer": ("underlying_ask_{at}", "underlying_ask"),
    "multiplier": ("contract_size",),
    "exercise": ("exercise_style",),
}
WANTED = ("strike", "kind", "bid", "offer")
READING = (csv.Error, UnicodeDecodeError, EOFError, OSError, zlib.error)
SIDES: tuple[tuple[Side, str, str], ...] = (
    ("buy", "bid", "bid_size"),
    ("sell", "offer", "offer_size"),
)
Cells = dict[str, str]
# The times of a day at which CBOE tells quotes.
Time = Literal["1545", "eod"]
# A number, or what gives one for the cells that name a chain.
ByChain = Decimal | float | str | Callable[[Cells], "Decimal | float | str"]


class Quote(NamedTuple):
    """One side of a quote of an option: the order that it is."""

    option: Option
    order: Order


@dataclass(frozen=True)
class Chain:
    """Quotes of one underlying and expiration at one time, as a batch.

    `about` has the cells that tell it from other chains. Prices are in ticks of `tick`, in money of
    the settlement; a contract is for `multiplier` units of the underlying, where that is told.
    `exercise` is American, European, or None where the data do not say. `left_out` counts, by
    reason, the rows and orders that are not in the batch, and `strikes` are the least and greatest
    that are.
    """

    about: dict[str, str]
    batch: Batch
    tick: Decimal
    multiplier: int | None
    discount: Fraction
    exercise: str | None
    strikes: tuple[int, int] | None
    left_out: dict[str, int]

    @property
    def name(self) -> str:
        return " ".join(filter(None, self.about.values()))

    def money(self, ticks: Fraction | int) -> Fraction:
        """An amount of a batch in money of the quote: ticks times the tick, the multiplier (1 where
        none is told) and the discount."""
        return ticks * Fraction(self.tick) * (self.multiplier or 1) * self.discount


def import_chain(
    source: "Path | pandas.DataFrame",
    *,
    tick: Decimal | float | str = "0.01",
    discount: ByChain = 1,
    at: Time = "1545",
    between: tuple[Decimal | float | str, Decimal | float | str] = (0, "1e9"),
    underlying: bool = False,
    dividends: ByChain = 0,
    most: int = MOST,
) -> list[Chain]:
    """The chains of a file of comma-separated values (.gz too; a minus is standard input) or of a
    DataFrame, in the order in which they begin there; this module's text says by which rules.

    Columns are those of IvyDB (`strike_price` in thousandths, `cp_flag`, `best_bid`, `best_offer`),
    of CBOE's DataShop (`strike`, `option_type`, `bid_1545` or `bid_eod` by `at`, or `bid`), or of
    their like, in any case of letters. `discount` and `dividends` are numbers, or functions of a
    chain's cells. `underlying` adds what is quoted of the underlying. `between` are the strikes
    that are taken, in money. Raises `BadChain` where the file cannot be read or lacks a column; a
    row that is no quote is left out and counted.
    """
    rules = _Rules(
        tick=_number(tick),
        low=_number(between[0]),
        high=_number(between[1]),
        discount=discount,
        dividends=dividends,
        underlying=underlying,
        most=most,
    )
    if rules.tick <= 0 or most < 1:
        raise ValueError("a tick is above 0, and a chain has at least one order")
    if at not in get_args(Time):
        raise ValueError(f"the quotes of a day are of {' or '.join(get_args(Time))}, not {at!r}")
    chains: dict[tuple[tuple[str, str], ...], _Making] = {}
    with _Rows(source, at) as rows:
        for cells in rows:
            about = rows.about(cells)
            key = tuple(sorted(about.items()))  # a root stands elsewhere where a contract tells it
            if key not in chains:
                chains[key] = _Making(about, rules)
            chains[key].take(rows.named(cells), thousandths=rows.thousandths)
    return [it.made() for it in chains.values()]


class _Rows:
    """The rows of a source, with their cells by the names that a quote has."""

    def __init__(self, source: "Path | pandas.DataFrame", at: str) -> None:
        self.file: IO[str] | None = None
        try:
            self.head, self.rows = self.opened(source)
        except READING as fault:
            self.__exit__()
            raise BadChain(f"{source} cannot be read: {fault}") from None
        self.name = "made" if self.file is None else pathlib.Path(str(source)).name.split(".")[0]
        self.columns = {
            name: next((it for of in known if (it := of.format(at=at)) in self.head), None)
            for name, known in NAMES.items()
        }
        missing = [NAMES[it][0].format(at=at) for it in WANTED if not self.columns[it]]
        if missing:
            self.__exit__()
            raise BadChain(f"there is no column {', '.join(missing)}")
        self.thousandths = self.columns["strike"] == "strike_price"
        self.named_by = [it for it in UNDERLYING if it in self.head]

    def opened(self, source: "Path | pandas.DataFrame") -> tuple[list[str], Iterable[Any]]:
        if hasattr(source, "columns"):
            frame = cast("pandas.DataFrame", source)
            head = [str(it).lower() for it in frame.columns]
            return head, frame.itertuples(index=False, name=None)
        path = pathlib.Path(cast(Path, source))
        if path == pathlib.Path("-"):
            self.file = open(0, newline="", encoding="utf-8-sig", closefd=False)
        else:
            opens: Any = gzip.open if path.suffix == ".gz" else open
            self.file = opens(path, "rt", newline="", encoding="utf-8-sig")
        rows = csv.reader(cast(IO[str], self.file))
        return [it.strip().lower() for it in next(rows, [])], rows

    def __enter__(self) -> _Rows:
        return self

    def __exit__(self, *fault: object) -> None:
        if self.file:
            self.file.close()

    def __iter__(self) -> Iterator[Cells]:
        try:
            for row in self.rows:
                cells = dict(zip(self.head, map(_text, row)))
                if any(cells.values()):  # an empty line is no row
                    yield cells
        except READING as fault:
            raise BadChain(f"the file cannot be read on: {fault}") from None

    def about(self, cells: Cells) -> dict[str, str]:
        """What names a row's chain."""
        about = {it: cells.get(it, "") for it in self.named_by}
        contract = CONTRACT.fullmatch(cells.get("symbol", ""))
        if contract and not cells.get("root"):
            about["root"] = contract[1]
        elif "symbol" in self.head and not contract and not self.named_by:
            about["symbol"] = cells.get("symbol", "")
        for it in APART:
            if it in self.head and it not in about:
                about[it] = cells.get(it, "")
        return about or {"file": self.name}

    def named(self, cells: Cells) -> Cells:
        return {name: cells.get(of, "") for name, of in self.columns.items() if of}


@dataclass(frozen=True)
class _Rules:
    """By what rules chains are made; amounts are in the data's money."""

    tick: Decimal
    low: Decimal
    high: Decimal
    discount: ByChain
    dividends: ByChain
    underlying: bool
    most: int


class _Making:
    """A chain while its rows are read."""

    def __init__(self, about: Cells, rules: _Rules) -> None:
        self.about, self.rules = about, rules
        self.discount = Fraction(_of_chain(rules.discount, about))
        self.dividends = _of_chain(rules.dividends, about)
        if not 0 < self.discount:
            raise ValueError(f"the discount of {about} is not above 0")
        self.quotes: list[Quote] = []
        self.left_out: Counter[str] = Counter()
        self.exercises: set[str] = set()
        self.multiplier: int | None = None
        self.stock: dict[Side, Decimal] = {}

    def take(self, cells: Cells, thousandths: bool) -> None:
        """Takes a row: at most a buy and a sell."""
        strike, kind = _amount(cells["strike"]), KINDS.get(cells["kind"].lower())
        if strike is None or kind is None:
            self.left_out["rows without a strike or a kind"] += 1
            return
        strike = strike / 1000 if thousandths else strike
        if not self.rules.low <= strike <= self.rules.high:
            self.left_out["rows with other strikes"] += 1
            return
        ticks = strike / self.rules.tick
        if ticks != int(ticks) or ticks > MOST_STRIKE:
            self.left_out["rows whose strike is no whole number of ticks up to 10^9"] += 1
            return
        self.exercises.add(cells.get("exercise", "").upper()[:1])
        self.multiplier = int(_amount(cells.get("multiplier", "")) or 0) or None
        option = (call if kind == "call" else put)(int(ticks))
        for side, price, size in SIDES:
            self.quotes += self.quoted(side, option, cells[price], cells.get(size, "") or "1")
            if stock := _amount(cells.get(f"underlying_{price}", "")):
                self.stock[side] = max(stock - self.dividends, Decimal(0))

    def quoted(self, side: Side, option: Option, price: str, size: str) -> Iterator[Quote]:
        """The order of one side, where it stands."""
        amount, quantity = _amount(price), int(_amount(size) or 0)
        if not amount:
            return
        exact = Fraction(amount) / Fraction(self.rules.tick) / self.discount
        limit = floor(exact) if side == "buy" else ceil(exact)
        if not 0 < quantity <= MOST_QUANTITY:
            self.left_out["orders whose size is not from 1 to 10^6"] += 1
        elif not 0 < limit <= MOST_PRICE:
            self.left_out["orders whose price is not from 1 to 10^12 ticks"] += 1
        else:
            yield Quote(option, (buy if side == "buy" else sell)(option, limit, quantity))

    def made(self) -> Chain:
        stock = [
            it
            for side, price in self.stock.items()
            if self.rules.underlying
            for it in self.quoted(side, call(0), str(price), "1")
        ][: self.rules.most]
        kept = self.cut(self.rules.most - len(stock))
        strikes = [it.option.strike for it in kept]
        styles = {EXERCISE.get(it) for it in self.exercises}
        return Chain(
            about=self.about,
            batch=Batch(it.order for it in [*kept, *stock]),
            tick=self.rules.tick,
            multiplier=self.multiplier,
            discount=self.discount,
            exercise=styles.pop() if len(styles) == 1 else None,
            strikes=(min(strikes), max(strikes)) if strikes else None,
            left_out=dict(self.left_out),
        )

    def cut(self, most: int) -> list[Quote]:
        """At most so many orders, by the rule for long chains, in their first order."""
        if len(self.quotes) <= most:
            return self.quotes
        best: dict[tuple[Option, Side], Quote] = {}
        for it in self.quotes:
            key = it.option, it.order.side
            if key not in best or it.order.sign * (it.order.price - best[key].order.price) > 0:
                best[key] = it
        of_strike: dict[int, list[Quote]] = {}
        for it in best.values():
            of_strike.setdefault(it.option.strike, []).append(it)
        middle = _middle(of_strike)
        kept: list[Quote] = []
        for strike in sorted(of_strike, key=lambda it: (abs(it - middle), it)):
            if len(kept) + len(of_strike[strike]) > most:
                break
            kept += of_strike[strike]
        self.left_out["orders beyond the greatest number"] += len(self.quotes) - len(kept)
        chosen = set(map(id, kept))
        return [it for it in self.quotes if id(it) in chosen]


def _middle(of_strike: dict[int, list[Quote]]) -> int:
    """The strike at which the middles of call and put are nearest, else the median strike."""
    apart: dict[int, int] = {}
    for strike, quotes in of_strike.items():
        prices: dict[str, list[int]] = {"call": [], "put": []}
        for it in quotes:
            prices[it.option.kind].append(it.order.price)
        if all(len(it) == 2 for it in prices.values()):
            apart[strike] = abs(sum(prices["call"]) - sum(prices["put"]))
    return min(apart, key=lambda it: (apart[it], it)) if apart else statistics.median_low(of_strike)


def _text(cell: object) -> str:
    """A cell as a text, empty where it is missing; of a frame, whole numbers and days as files have
    them."""
    if isinstance(cell, float) and cell.is_integer():
        return str(int(cell))
    text = str(cell).strip().removesuffix(" 00:00:00")
    return "" if text in ("nan", "NaN", "NaT", "<NA>", "None") else text


def _amount(text: str) -> Decimal | None:
    """A number from 0 on that is neither too large nor too fine to be any money, else None."""
    try:
        found = Decimal(text)
    except InvalidOperation:
        return None
    if not found.is_finite() or not 0 <= found <= 10**15 or int(found.as_tuple().exponent) < -40:
        return None
    return found


def _number(given: Decimal | float | str) -> Decimal:
    found = _amount(str(given))
    if found is None:
        raise ValueError(f"{given!r} is no number from 0 on")
    return found


def _of_chain(given: ByChain, about: Cells) -> Decimal:
    return _number(given(dict(about)) if callable(given) else given)
