"""What the measure of a cleared batch says of prices, and what a batch bids and asks for an option.

A measure is no forecast, and often one of many with the same properties (docs/RESEARCH.md).
"""

from __future__ import annotations

from collections.abc import Iterable
from dataclasses import dataclass
from fractions import Fraction
from math import ceil, floor
from typing import TYPE_CHECKING, Literal

from ragvismo import program
from ragvismo.cleared import Cleared
from ragvismo.clearing import clear
from ragvismo.exchange import BUDGET
from ragvismo.faults import NoMeasure
from ragvismo.orders import Batch, Leg, Option, Order, Side, call, put

if TYPE_CHECKING:
    import pandas

MOST_WEIGHT, MOST_STRIKE = 1_000, 10**9
BEST: dict[Side, int] = {"buy": 10**12, "sell": 0}


def state_prices(cleared: Cleared, floats: bool = False) -> "pandas.DataFrame":
    """The measure of a batch as prices of states: for each of them `price_1` .. `price_n` in ticks
    (of a ray the direction in which prices rise), `is_ray`, `mass`, which is the price of one tick
    paid in that state, and `weight`, which times a payoff is the state's part of a price. Exact, or
    floats, which plot, where those are asked for. Raises `NoMeasure` where the batch has none.
    """
    import pandas

    _wants_measure(cleared)
    of = float if floats else Fraction
    names = [f"price_{number}" for number in range(1, cleared.underlyings + 1)]
    rows = [
        (*map(of, it.prices), it.is_ray, of(it.mass), of(it.weight))
        for it in cleared.certificate.measure
    ]
    return pandas.DataFrame(rows, columns=[*names, "is_ray", "mass", "weight"])


@dataclass(frozen=True)
class Distribution:
    """A distribution of the price of one underlying at the settlement, with what is left beyond
    every price.

    `masses` gives each price, in ticks, its mass; they sum to 1. `slope` is the weight of the ray:
    what a call pays there for each tick of price, whatever its strike.
    """

    masses: dict[Fraction, Fraction]
    slope: Fraction

    def price(self, option: Option) -> Fraction:
        """The price of an option, in ticks: what it pays on average, and its part of the slope."""
        paid = sum(mass * option.payoff(price) for price, mass in self.masses.items())
        return paid + self.slope * option.at((0, 1))

    def mean(self) -> Fraction:
        """The price of the underlying itself, in ticks: its average and the slope."""
        return self.price(call(0))

    def below(self, price: int | Fraction) -> Fraction:
        """The mass of the prices below one."""
        return sum((mass for at, mass in self.masses.items() if at < price), Fraction(0))

    def options(self, strikes: Iterable[int], floats: bool = False) -> "pandas.DataFrame":
        """The prices of a call and a put at each strike, all in ticks: `strike`, `call`, `put`."""
        import pandas

        of = float if floats else Fraction
        rows = [(it, of(self.price(call(it))), of(self.price(put(it)))) for it in strikes]
        return pandas.DataFrame(rows, columns=["strike", "call", "put"])


def implied_distribution(cleared: Cleared) -> Distribution:
    """The measure of a batch on one underlying as a distribution. Raises `NoMeasure` where the
    batch has none, and ValueError where the batch has several underlyings."""
    _wants_measure(cleared)
    if cleared.underlyings != 1:
        raise ValueError(
            f"a distribution is of one underlying, and the batch has {cleared.underlyings}"
        )
    masses: dict[Fraction, Fraction] = {}
    slope = Fraction(0)
    for state in sorted(cleared.certificate.measure, key=lambda it: it.prices):
        if state.is_ray:
            slope += state.weight * state.entries[1]
        else:
            masses[state.prices[0]] = masses.get(state.prices[0], Fraction(0)) + state.mass
    return Distribution(masses, slope)


def _wants_measure(cleared: Cleared) -> None:
    if not cleared.certificate.measure:
        raise NoMeasure(f"batch {cleared.number} has the mark {cleared.mark}, and so no measure")


# What the market bids and asks.

Word = Literal["never", "unmarked"]
Bound = Fraction | Word


@dataclass(frozen=True)
class PriceBounds:
    """What a batch bids and asks for an option, in exact ticks: a further buy raises the greatest
    surplus at each price above `ask` and at none up to it, a further sell at each price below `bid`
    and at none from it on, whatever its quantity. An ask below 0, or a bid above 10^12, says that
    each price that an order may have does.

    `never` where no price would do, `unmarked` where a clear that would tell it is not marked
    optimal, or the price has a denominator that no order can have.
    """

    bid: Bound
    ask: Bound

    @property
    def whole_bid(self) -> int | Word:
        """The greatest whole price at which a further sell raises the surplus, as `price` tells."""
        if isinstance(self.bid, str):
            return self.bid
        whole: int = ceil(self.bid) - 1
        return whole if whole < BEST["buy"] else BEST["buy"]

    @property
    def whole_ask(self) -> int | Word:
        """The least whole price at which a further buy raises the surplus, as `price` tells."""
        if isinstance(self.ask, str):
            return self.ask
        whole: int = floor(self.ask) + 1
        return whole if whole > 0 else 0


def price_bounds(
    batch: Batch,
    option: Option,
    *,
    budget: int = BUDGET,
    timeout: float | None = None,
    path: program.Path | None = None,
) -> PriceBounds:
    """The exact bid and ask of a batch for an option, that a live book is asked by `book`'s batch.

    With one order more the greatest surplus is a convex function of that order's price (Chvatal,
    chapter 10): from a price at which it is raised by so much with such a fill, it cannot be raised
    beyond the price that is nearer by their quotient. That price is tried next, exactly, as an
    order for so many options that its limit is whole; the first at which nothing is raised is the
    bound. Each clear has the budget; raises as `clear` does.
    """
    deadline = program.Deadline(timeout)

    def cleared(orders: Iterable[Order]) -> Cleared:
        more = Batch([*batch.orders, *orders])
        return clear(more, budget=budget, timeout=deadline.left(), path=path)

    base = cleared([])

    def bound(side: Side) -> Bound:
        price = Fraction(BEST[side])
        raised = False
        while base.mark == "optimal":
            order = order_at(side, option, price)
            if order is None:
                return "unmarked"
            found = cleared([order])
            if found.mark != "optimal":
                return "unmarked"
            if found.surplus == base.surplus:
                return price if raised else "never"
            raised = True
            options = found.fills[-1] * sum(
                leg.count * times_of(leg.option, option) for leg in order.legs
            )
            step = (found.surplus - base.surplus) / options
            price += step if side == "sell" else -step
            if not 0 <= price <= BEST["buy"]:
                return price
        return "unmarked"

    return PriceBounds(bid=bound("sell"), ask=bound("buy"))


def times_of(option: Option, of: Option) -> int:
    """How many of an option another one is."""
    return next(a // b for a, b in zip(option.form, of.form) if b)


def order_at(side: Side, option: Option, price: Fraction) -> Order | None:
    """An order at an exact price for one option: for so many that the limit is whole, as a count of
    the option with greater weights and a count of itself. None where no order can be that many.
    """
    many = price.denominator
    heaviest = max(abs(it) for it in option.weights)
    by = min(many, MOST_WEIGHT // heaviest, MOST_STRIKE // (abs(option.strike) or 1))
    legs = [Leg(many // by, Option(tuple(it * by for it in option.form)))] if by > 1 else []
    rest = many % by if by > 1 else many
    if rest:
        legs.append(Leg(rest, option))
    if legs[0].count > MOST_WEIGHT or price.numerator > BEST["buy"]:
        return None
    return Order(side=side, price=price.numerator, quantity=1, legs=tuple(legs))
