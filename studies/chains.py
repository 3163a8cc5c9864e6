"""Option chains: made ones around a model's prices, and the best quotes of any.

The model is the lognormal one of Black (1976) without interest: the price at settlement has the
mean MIDDLE, and its logarithm the deviation DEVIATION. A tick is a thousandth of that mean.
"""
from __future__ import annotations

import math
import random
from collections.abc import Iterator, Sequence
from statistics import NormalDist

from ragvismo import Batch, Option, Order, buy, call, put, sell

MIDDLE, DEVIATION, STEP = 1000, 0.2, 25
HALF_SPREAD = 4


def listed(strikes: int) -> list[Option]:
    """A call and a put at each of so many strikes, STEP apart, around the middle."""
    first = MIDDLE - STEP * (strikes // 2)
    return [kind(first + STEP * place) for place in range(strikes) for kind in (call, put)]


def worth(option: Option) -> float:
    """What the model says an option on one underlying is worth, in ticks."""
    normal, strike = NormalDist(), option.strike
    high = math.log(MIDDLE / strike) / DEVIATION + DEVIATION / 2
    of_call = MIDDLE * normal.cdf(high) - strike * normal.cdf(high - DEVIATION)
    return of_call if option.kind == "call" else of_call - MIDDLE + strike


def bid_below(value: float) -> int:
    """Bids half a spread below what an option is taken to be worth, in whole ticks."""
    return max(math.floor(value - HALF_SPREAD), 0)


def ask_above(value: float) -> int:
    """Asks half a spread above what an option is taken to be worth, in whole ticks."""
    return max(math.ceil(value + HALF_SPREAD), 0)


def beliefs(orders: int, strikes: int, noise: float, draw: random.Random, most: int = 10) -> Batch:
    """Single orders for options drawn from a chain, each by a belief around the model's price, of
    quantities up to the most."""
    options, made = listed(strikes), []
    for _ in range(orders):
        option, buys = draw.choice(options), draw.random() < 0.5
        value, quantity = worth(option) + draw.gauss(0, noise), draw.randint(1, most)
        price = bid_below(value) if buys else ask_above(value)
        made.append((buy if buys else sell)(option, price, quantity))
    return Batch(made)


def quotes(strikes: int, noise: float, draw: random.Random) -> Batch:
    """A bid and an ask for each option of a chain, around a middle of its own. One seed draws the
    same quantities, and middles that are as much further off as the noise is greater."""
    made = []
    for option in listed(strikes):
        value = worth(option) + noise * draw.gauss(0, 1)
        made.append(buy(option, bid_below(value), draw.randint(1, 10)))
        made.append(sell(option, ask_above(value), draw.randint(1, 10)))
    return Batch(made)


def best(orders: Sequence[Order]) -> Iterator[tuple[Option, int, int]]:
    """The greatest bid and the least ask, in ticks, of each option that has both."""
    bids: dict[Option, int] = {}
    asks: dict[Option, int] = {}
    for order in orders:
        option = order.legs[0].option
        if order.side == "buy":
            bids[option] = max(order.price, bids.get(option, order.price))
        else:
            asks[option] = min(order.price, asks.get(option, order.price))
    for option in (it for it in bids if it in asks):
        yield option, bids[option], asks[option]
