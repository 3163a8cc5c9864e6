"""Options, bundles of them, and orders. Prices and strikes are whole ticks, quantities bundles."""

from __future__ import annotations

import operator
import re
from collections.abc import Iterable, Iterator, Sequence
from dataclasses import dataclass
from fractions import Fraction
from typing import TYPE_CHECKING, Any, Literal, NamedTuple, SupportsIndex, get_args

from ragvismo.faults import BadFrame

if TYPE_CHECKING:
    import pandas

Side = Literal["buy", "sell"]
Kind = Literal["call", "put"]
KINDS: dict[str, Kind] = {"call": "call", "put": "put", "c": "call", "p": "put"}
# An option in words, with its count before it where it is a leg that does not count once.
WORDS = re.compile(
    r"(?:(-?\d+) of )?(call|put) (-?\d+)(?: with weight (-?\d+)| on \((-?\d+(?:, -?\d+)+)\))?"
)
# Weights in words, as tuples, lists and arrays are written into files.
WEIGHTS = re.compile(r"[\[(]?\s*-?\d+(?:[\s,]+-?\d+)*[\s,]*[\])]?")


class Option(NamedTuple):
    """A European option as a vector: (-strike, weights) of a call, (strike, -weights) of a put.

    It pays 0 or the product of the vector with (1, prices), if that is more. The put with strike
    -K on the weights -w is the call with strike K on w.
    """

    form: tuple[int, ...]

    @property
    def kind(self) -> Kind:
        """A put is told by its weights: the first that is not 0 is negative in the vector."""
        return "call" if next(filter(None, self.form[1:]), 1) > 0 else "put"

    @property
    def strike(self) -> int:
        """The strike, in ticks."""
        return -self.form[0] if self.kind == "call" else self.form[0]

    @property
    def weights(self) -> tuple[int, ...]:
        """The weight of each underlying."""
        return self.form[1:] if self.kind == "call" else tuple(-it for it in self.form[1:])

    def payoff(self, *prices: int | Fraction) -> Fraction:
        """What one option pays at prices of the underlyings, in ticks."""
        return Fraction(self.at((1, *prices)))

    def at(self, state: Sequence[int | Fraction]) -> int | Fraction:
        """What one option pays at a state (t, s): at t = 1 its payoff at the prices s, at t = 0 its
        slope along s."""
        return max(0, sum(entry * of for entry, of in zip(self.form, state, strict=True)))

    def __str__(self) -> str:
        if self.weights == (1,):
            return f"{self.kind} {self.strike}"
        if len(self.weights) == 1:
            return f"{self.kind} {self.strike} with weight {self.weights[0]}"
        return f"{self.kind} {self.strike} on ({', '.join(map(str, self.weights))})"


def call(strike: SupportsIndex, *weights: SupportsIndex) -> Option:
    """The call with a strike in ticks, on weighted prices; on the one underlying where no weight is
    given. TypeError where a number is not whole, ValueError where all weights are 0."""
    whole = _weights(weights)
    return Option((-int(operator.index(strike)), *whole))


def put(strike: SupportsIndex, *weights: SupportsIndex) -> Option:
    """The put with a strike in ticks, on weighted prices; else as `call`."""
    whole = _weights(weights)
    return Option((int(operator.index(strike)), *(-it for it in whole)))


def _weights(weights: Iterable[SupportsIndex]) -> tuple[int, ...]:
    whole = tuple(int(operator.index(it)) for it in weights) or (1,)
    if not any(whole):
        raise ValueError("an option has a weight that is not 0")
    return whole


@dataclass(frozen=True)
class Leg:
    """So many of an option, below 0 where the bundle gives it in place of getting it."""

    count: int
    option: Option

    def __post_init__(self) -> None:
        if not isinstance(self.option, Option):
            raise TypeError(f"a leg has an option, made by call or put, not {self.option!r}")
        object.__setattr__(self, "count", int(operator.index(self.count)))

    def __str__(self) -> str:
        return str(self.option) if self.count == 1 else f"{self.count} of {self.option}"


@dataclass(frozen=True, kw_only=True)
class Order:
    """A limit order for a bundle of one to four legs: `price` in ticks for one bundle, `quantity`
    in bundles. What the exchange would not read as an order is a TypeError or a ValueError; ranges
    are the exchange's to judge."""

    side: Side
    price: int
    quantity: int
    legs: tuple[Leg, ...]
    account: int = 1

    def __post_init__(self) -> None:
        if self.side not in get_args(Side):
            raise ValueError(f"a side is buy or sell, not {self.side!r}")
        if len({len(leg.option.form) for leg in self.legs}) != 1:
            raise ValueError("the options of an order are all on as many underlyings")
        for name in ("price", "quantity", "account"):
            object.__setattr__(self, name, int(operator.index(getattr(self, name))))

    @property
    def sign(self) -> int:
        """1 of a buy, -1 of a sell."""
        return 1 if self.side == "buy" else -1

    @property
    def underlyings(self) -> int:
        """How many underlyings the options have."""
        return len(self.legs[0].option.form) - 1

    def at(self, state: Sequence[int | Fraction]) -> int | Fraction:
        """What one bundle pays at a state (t, s), in ticks at t = 1."""
        return sum(leg.count * leg.option.at(state) for leg in self.legs)

    def options(self) -> str:
        """The bundle in words, which `legs_of` reads."""
        return " and ".join(map(str, self.legs))


@dataclass(frozen=True, kw_only=True)
class PlacedOrder(Order):
    """An order with its number in the exchange."""

    number: int


@dataclass(frozen=True, kw_only=True)
class FilledOrder(PlacedOrder):
    """An order of a cleared batch with its fill, in bundles."""

    fill: Fraction

    @property
    def premium(self) -> Fraction:
        """What the order adds to the batch's premium, in ticks, below 0 of a sell."""
        return self.sign * self.fill * self.price

    @property
    def cash(self) -> int:
        """What the account gets at the clear, in whole ticks, below 0 where it pays."""
        return cash_of(self.side, self.fill, self.price)


def cash_of(side: Side, fill: Fraction, price: int) -> int:
    """What an account gets at a clear, in whole ticks: a buyer pays, rounded up, a seller gets,
    rounded down."""
    numerator, denominator = fill.as_integer_ratio()
    return numerator * (-price if side == "buy" else price) // denominator


def buy(option: Option, price: int, quantity: int = 1, *, account: int = 1) -> Order:
    """A buy of single options: `price` in ticks for one of them."""
    return Order(
        side="buy", price=price, quantity=quantity, legs=(Leg(1, option),), account=account
    )


def sell(option: Option, price: int, quantity: int = 1, *, account: int = 1) -> Order:
    """A sell of single options: `price` in ticks for one of them."""
    return Order(
        side="sell", price=price, quantity=quantity, legs=(Leg(1, option),), account=account
    )


def bundle(
    side: Side,
    legs: Iterable[tuple[int, Option]],
    price: int,
    quantity: int = 1,
    *,
    account: int = 1,
) -> Order:
    """An order for a bundle: its legs are counts with options, `price` is in ticks for one."""
    made = tuple(Leg(*leg) for leg in legs)
    return Order(side=side, price=price, quantity=quantity, legs=made, account=account)


def legs_of(words: str) -> tuple[Leg, ...]:
    """The legs of a bundle in words, as `Order.options` writes them; ValueError at other words."""
    return tuple(map(_leg_of, words.split(" and ")))


def _leg_of(words: str) -> Leg:
    found = WORDS.fullmatch(words)
    if not found:
        raise ValueError(f"{words!r} is no option in words, such as 2 of call 10 on (1, -1)")
    count, kind, strike, weight, weights = found.groups()
    whole = map(int, (weight or weights or "1").split(", "))
    return Leg(int(count or 1), (call if kind == "call" else put)(int(strike), *whole))


@dataclass(frozen=True)
class Batch:
    """Orders of one market, to be cleared together: at most 256, on 1 to 8 underlyings.

    ValueError where they are not all on as many.
    """

    orders: tuple[Order, ...]

    def __init__(self, orders: Iterable[Order]) -> None:
        object.__setattr__(self, "orders", tuple(orders))
        for place, order in enumerate(self.orders, 1):
            if order.underlyings != self.underlyings:
                raise ValueError(
                    f"order {place} is on {order.underlyings} underlyings, and the first on "
                    f"{self.underlyings}"
                )

    @property
    def underlyings(self) -> int:
        """How many underlyings the options have; 1 where there is no order."""
        return self.orders[0].underlyings if self.orders else 1

    @classmethod
    def from_frame(cls, frame: "pandas.DataFrame") -> Batch:
        """A batch from the columns `side`, `price` and `quantity`, and one of: `legs`, sequences of
        (count, Option); `options`, the bundle in words, as the frames of this package have it; or
        `kind` (call or put, C or P) and `strike` in ticks, with `weights`, a sequence for each
        order, (1,) where the column is left out. `account` may be left out too and is then 1.

        A missing column is a KeyError. `BadFrame`, a ValueError, names the row and the column of
        what is missing (NaN, NA, None), not whole, or no word that stands there.
        """
        return cls(list(_orders_of(frame)))

    def to_frame(self) -> "pandas.DataFrame":
        """The orders as a DataFrame that `from_frame` reads, also from a file: `account`, `side`,
        `options` (the bundle in words), `price`, `quantity`."""
        import pandas

        columns = ["account", "side", "options", "price", "quantity"]
        rows = [(it.account, it.side, it.options(), it.price, it.quantity) for it in self.orders]
        return pandas.DataFrame(rows, columns=columns)


class Row:
    """A row of a frame, whose cells are told with the row and the column where they are wrong."""

    def __init__(self, label: Any, cells: dict[str, Any]) -> None:
        self.label, self.cells = label, cells

    def fault(self, column: str, why: str) -> BadFrame:
        return BadFrame(f"row {self.label!r}, column {column}: {why}")

    def present(self, column: str, usual: Any = None) -> Any:
        """The cell; a missing one (NaN, NA, None) is told."""
        import pandas

        cell = self.cells.get(column, usual) if usual is not None else self.cells[column]
        if pandas.api.types.is_scalar(cell) and pandas.isna(cell):
            raise self.fault(column, f"{cell!r} is missing")
        return cell

    def whole(self, column: str, usual: Any = None) -> int:
        return self.as_whole(column, self.present(column, usual))

    def as_whole(self, column: str, number: Any) -> int:
        """A whole number; a float of a DataFrame, say after a missing value, is one where whole."""
        try:
            if int(number) == number:
                return int(number)
        except (TypeError, ValueError, OverflowError):
            pass
        raise self.fault(column, f"{number!r} is no whole number")

    def word(self, column: str, words: dict[str, Any]) -> Any:
        cell = self.present(column)
        if str(cell).lower() not in words:
            raise self.fault(column, f"{cell!r} is none of {', '.join(words)}")
        return words[str(cell).lower()]

    @property
    def bundle(self) -> str:
        """The column by which the bundle is told."""
        return next((it for it in ("legs", "options") if it in self.cells), "weights")

    def order(self) -> Order:
        about = {
            "side": self.word("side", {side: side for side in get_args(Side)}),
            "price": self.whole("price"),
            "quantity": self.whole("quantity"),
            "account": self.whole("account", 1),
        }
        try:
            return Order(legs=self.legs(), **about)
        except (TypeError, ValueError) as fault:
            raise fault if isinstance(fault, BadFrame) else self.fault(self.bundle, str(fault))

    def legs(self) -> tuple[Leg, ...]:
        if self.bundle == "weights":
            return (Leg(1, self.option()),)
        cell = self.present(self.bundle)
        if self.bundle == "options":
            return legs_of(str(cell))
        return tuple(Leg(self.as_whole("legs", count), option) for count, option in cell)

    def option(self) -> Option:
        made = call if self.word("kind", dict(KINDS)) == "call" else put
        weights = self.present("weights", (1,))
        if isinstance(weights, str):
            if not WEIGHTS.fullmatch(weights):
                raise ValueError(f"{weights!r} is no sequence of whole numbers, such as (1, -1)")
            weights = [int(it) for it in re.findall(r"-?\d+", weights)]
        whole = [self.as_whole("weights", it) for it in weights]
        if not whole:
            raise ValueError("there is no weight")
        return made(self.whole("strike"), *whole)


def _orders_of(frame: "pandas.DataFrame") -> Iterator[Order]:
    first = 0
    for label, cells in zip(frame.index, frame.to_dict("records")):
        row = Row(label, cells)
        order = row.order()
        first = first or order.underlyings
        if order.underlyings != first:
            told = f"{order.underlyings} underlyings, and the first row is on {first}"
            raise row.fault(row.bundle, told)
        yield order
