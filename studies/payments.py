#!/usr/bin/python3
"""Payments: each filled order at its own limit, or at the prices of the measure.

    studies/payments.py [--batches N] [--workers N] [--out FOLDER] [--journals FOLDER]
                        [--scheduler ADDRESS] [--program FILE] [--seconds]

The fills are the same; what is paid differs. At limits, as the exchange does it, the house keeps
the surplus and no trader gains over its limit. At the measure's prices, of the certificate, each
order pays or gets what the measure prices its option at: the house keeps nothing, and the traders
gain the surplus. Of one chain of nine strikes traders want calls and puts, each with a value of its
own in whole ticks, the model's price and noise of 8 ticks. N batches (40) of 20, 60 and 180 orders.

First all write their values as limits, but one: of four traders a batch, drawn beforehand, each
tries limits that are 0, 1, 2, 4, 8, 16 and 32 ticks better for it. Its best reply is the one by
which it gains most, of equal ones the nearest to its value. Then all the others write limits that
are so many ticks off (60 orders): the best reply to that, and what is left of the greatest surplus
by values, and who has it. A batch's four traders count as one observation: the mean of each has an
interval of 95 percent by t, over n batches, and the best replies one by resampling too. Every clear
is audited.

The prices of the measure are one choice of many where the optimum is degenerate, the one at which
the run ends. The paper of Wang, Pennock, Devanur, Rothschild, Tao and Wellman (EC 2021) states the
auction; that payments at limits call for bids off the value is a remark of game theory, and the
numbers here are of these made markets alone. A best reply is not an equilibrium, and no trader here
has several orders.

--out writes payments.md and payments.svg into FOLDER, over tracked files in the whole study alone.
--journals keeps the cleared lines in FOLDER, and --seconds tells on standard error what each case
took. --workers are processes at once, and --scheduler is the address of one of dask.distributed,
each of whose workers has a checkout with the program, and its folders studies, python and tools in
PYTHONPATH; the bytes are the same. The program is FILE, or what RAGVISMO_EXCHANGE names, or what
./build makes.
"""
from __future__ import annotations

import dataclasses
import random
import statistics
from collections.abc import Iterable, Sequence
from fractions import Fraction
from typing import Any, NamedTuple

import common
from chains import listed, worth
from common import BadInput, Given, Report, Table
from ragvismo import Batch, Cleared, Order, buy, sell

WHOLE, STRIKES, NOISE, TRIED = 40, 9, 8, 4
ORDERS = (20, 60, 180)
SHADES = (0, 1, 2, 4, 8, 16, 32)
RULES = ("at limits", "at the measure's prices")
FIRST_HEAD = (
    *("Orders", "n", "Surplus", "Filled, %", "Gain of all traders: at limits", "by the measure"),
    *("One trader's best reply: ticks off, at limits", "resampled", "by the measure", "resampled"),
    *("What it gains over its value: at limits", "by the measure"),
)
OTHERS_HEAD = (
    *("The others' ticks off", "n", "Best reply at limits: ticks off", "resampled"),
    *("Surplus by values, % of the greatest", "of it to traders, %", "to the house, %"),
)


class Case(NamedTuple):
    """The orders of a batch, and by how many ticks the others' limits are off their values."""

    orders: int
    shade: int


class Reply(NamedTuple):
    """By how many ticks a trader's best limit is off its value, and what it gains by that over
    what its value as limit gains, in ticks."""

    shade: int
    gain: float


class Found(NamedTuple):
    """The surplus by values and what of it the traders have by each rule, in ticks, the share of
    the quantity that is filled, and the traders' best replies by each rule."""

    surplus: float
    gains: tuple[float, float]
    filled: float
    replies: dict[str, list[Reply]]


def values(orders: int, draw: random.Random) -> Batch:
    """Orders with the traders' values as limits."""
    options, made = listed(STRIKES), []
    for _ in range(orders):
        option, side = draw.choice(options), draw.choice((buy, sell))
        value = max(round(worth(option) + draw.gauss(0, NOISE)), 0)
        made.append(side(option, value, draw.randint(1, 10)))
    return Batch(made)


def shaded(order: Order, ticks: int) -> Order:
    """An order whose limit is so many ticks better for its trader, and not below 0."""
    return dataclasses.replace(order, price=max(order.price - order.sign * ticks, 0))


def replaced(batch: Batch, at: int, order: Order) -> Batch:
    return Batch([order if place == at else it for place, it in enumerate(batch.orders)])


def gain(cleared: Cleared, at: int, value: int, rule: str) -> float:
    """What a trader gains with its order, of this value, in ticks."""
    order = cleared.orders[at]
    at_limit = rule == RULES[0]
    price = Fraction(order.price) if at_limit else cleared.certificate.price(order)
    return float(order.sign * (value - price) * order.fill)


def best_reply(tried: Sequence[Cleared], at: int, value: int, rule: str) -> Reply:
    gains = [gain(it, at, value, rule) for it in tried]
    best = max(range(len(SHADES)), key=lambda place: (round(gains[place], 6), -place))
    return Reply(SHADES[best], gains[best] - gains[0])


def replies_to(batch: Batch, truth: Batch, chosen: Sequence[int], given: Given) -> list[Cleared]:
    """For each of the chosen traders the batch cleared with each limit that it tries."""
    made = [
        replaced(batch, at, shaded(truth.orders[at], shade)) for at in chosen for shade in SHADES
    ]
    found = common.clear_together([batch, *made], given)
    if any(it.mark != "optimal" for it in found):
        raise BadInput("a batch is not cleared optimally")
    return found


def one(case: Case, number: int, given: Given) -> tuple[Found, list[Cleared]]:
    draw = random.Random(f"payments {number}")
    truth = values(case.orders, draw)
    chosen = draw.sample(range(case.orders), TRIED)
    batch = Batch([shaded(it, case.shade) for it in truth.orders])
    cleared, *found = replies_to(batch, truth, chosen, given)
    replies: dict[str, list[Reply]] = {rule: [] for rule in RULES}
    for place, at in enumerate(chosen):
        tried = found[place * len(SHADES) : (place + 1) * len(SHADES)]
        for rule in RULES:
            replies[rule].append(best_reply(tried, at, truth.orders[at].price, rule))
    gains = [
        sum(gain(cleared, at, it.price, rule) for at, it in enumerate(truth.orders))
        for rule in RULES
    ]
    by_values = float(cleared.surplus) + gains[0]
    result = Found(by_values, (gains[0], gains[1]), common.filled_share(cleared), replies)
    return result, [cleared, *found]


def shades(of: Iterable[Found], rule: str) -> list[float]:
    """For each batch the mean of its traders' best replies."""
    return [statistics.mean(it.shade for it in found.replies[rule]) for found in of]


def gained(of: Iterable[Found], rule: str) -> list[float]:
    return [statistics.mean(it.gain for it in found.replies[rule]) for found in of]


def first_row(orders: int, of: Sequence[Found]) -> list[object]:
    replies = [shades(of, rule) for rule in RULES]
    return [
        *(orders, len(of), common.told([it.surplus for it in of], 1)),
        f"{statistics.mean(it.filled for it in of):.1f}",
        *(f"{statistics.mean(it.gains[place] for it in of):,.1f}" for place in (0, 1)),
        *(cell for it in replies for cell in (common.told(it, 1), common.ends(it, 1))),
        *(common.told(gained(of, rule), 1) for rule in RULES),
    ]


def other_row(shade: int, of: Sequence[Found], truth: Sequence[Found]) -> list[object]:
    replies = shades(of, RULES[0])
    greatest = [it.surplus for it in truth]
    kept = common.share((it.surplus for it in of), greatest)
    traders = common.share((it.gains[0] for it in of), greatest)
    return [
        *(shade, len(of), common.told(replies, 1), common.ends(replies, 1)),
        *(f"{it:.1f}" for it in (kept, traders, kept - traders)),
    ]


def draw_cases(found: dict[Case, list[Found]], panels: Sequence[Any]) -> None:
    upper, lower = panels
    of_values = [found[Case(orders, 0)] for orders in ORDERS]
    for at, (rule, look) in enumerate(zip(RULES, ("k-o", "k--s"))):
        replies = [shades(of, rule) for of in of_values]
        stand = common.beside(range(len(ORDERS)), at, len(RULES))
        common.show(upper, stand, replies, look, label=rule, markerfacecolor="w")
    upper.set_xticks(range(len(ORDERS)), ORDERS)
    upper.set_xlabel("orders, all others at their values")
    others = [shades(found[Case(ORDERS[1], shade)], RULES[0]) for shade in SHADES]
    places = range(len(SHADES))
    common.show(lower, places, others, "k-o", label="best reply", markerfacecolor="w")
    lower.plot(places, SHADES, "k:", lw=1.2, label="as the others")
    lower.set_xticks(places, SHADES)
    lower.set_xlabel("the others' ticks off")
    for axes in panels:
        # Room for marks at 0 below, and for the legend above; the dotted line goes on.
        axes.set(ylabel="best reply (ticks off)", ylim=(-0.25, 4))
        axes.legend(frameon=False, loc="upper right")


def study(given: Given) -> Report:
    cases = [Case(orders, 0) for orders in ORDERS]
    cases += [Case(ORDERS[1], shade) for shade in SHADES if shade]
    found = common.trials(one, cases, given, "payments")
    truth = found[Case(ORDERS[1], 0)]
    first = [first_row(orders, found[Case(orders, 0)]) for orders in ORDERS]
    others = [other_row(shade, found[Case(ORDERS[1], shade)], truth) for shade in SHADES]
    tables = [
        Table("All write their values, but one trader. Amounts in ticks.", FIRST_HEAD, first),
        Table(f"{ORDERS[1]} orders, all off their values.", OTHERS_HEAD, others),
    ]
    return Report(tables, 2, lambda panels: draw_cases(found, panels))


if __name__ == "__main__":
    common.run(__doc__, WHOLE, study)
