"""Made books on several underlyings: random combinations, and names with pairs, an index, baskets.

Each trader believes a price at settlement of each underlying, MIDDLE and a doubt of its own, and
bids or asks what its option is then worth on average, less or plus half a spread, where the
weighted price is normal.
"""
from __future__ import annotations

import math
import random
from collections.abc import Callable, Sequence
from operator import mul
from statistics import NormalDist

from ragvismo import Batch, Option, Order, buy, call, put, sell

MIDDLE, DEVIATION, DOUBT, GRID, HALF_SPREAD = 100, 20, 8, 5, 1
# Of one hundred orders of a book of names so many are on one underlying, on a pair, on the index.
SINGLE, PAIR, INDEX = 60, 15, 20
Kind = Callable[[int, int, random.Random], Batch]


def worth(option: Option, prices: Sequence[float]) -> float:
    """What an option pays on average, in ticks, where each price is normal about one of these. By
    its form: the kind and the strike that an option tells are for weights that begin above 0."""
    normal, (first, *weights) = NormalDist(), option.form
    deviation = DEVIATION * math.hypot(*weights)
    high: float = (first + sum(map(mul, weights, prices))) / deviation
    return deviation * (high * normal.cdf(high) + normal.pdf(high))


def order(weights: list[int], draw: random.Random) -> Order:
    """An order on a weighted sum, by a belief about each price and half a spread."""
    middle, deviation = MIDDLE * sum(weights), DEVIATION * math.hypot(*weights)
    strike = GRID * round(draw.gauss(middle, deviation / 2) / GRID)
    option = draw.choice((call, put))(strike, *weights)
    value = worth(option, [draw.gauss(MIDDLE, DOUBT) for _ in weights])
    quantity = draw.randint(1, 10)
    if draw.random() < 0.5:
        return buy(option, max(math.floor(value - HALF_SPREAD), 0), quantity)
    return sell(option, math.ceil(value + HALF_SPREAD), quantity)


def any_sum(underlyings: int, draw: random.Random) -> list[int]:
    """Weights -1, 1 or 2 of one to three underlyings."""
    chosen = draw.sample(range(underlyings), min(draw.randint(1, 3), underlyings))
    return [draw.choice((-1, 1, 1, 2)) if at in chosen else 0 for at in range(underlyings)]


def name_sum(underlyings: int, draw: random.Random) -> list[int]:
    """A name, one less another, one of each, or an odd basket of one to three of each."""
    at, kind = draw.randrange(underlyings), draw.randrange(100)
    if kind < SINGLE:
        return [int(it == at) for it in range(underlyings)]
    if kind < SINGLE + PAIR:
        other = (at + draw.randint(1, underlyings - 1)) % underlyings
        return [(it == at) - (it == other) for it in range(underlyings)]
    if kind < SINGLE + PAIR + INDEX:
        return [1] * underlyings
    return [draw.randint(1, 3) for _ in range(underlyings)]


def of_sums(sums: Callable[[int, random.Random], list[int]]) -> Kind:
    """Books of so many orders, on sums that are drawn so."""

    def made(underlyings: int, orders: int, draw: random.Random) -> Batch:
        return Batch([order(sums(underlyings, draw), draw) for _ in range(orders)])

    return made


KINDS: dict[str, Kind] = {"random": of_sums(any_sum), "names": of_sums(name_sum)}
