#!/usr/bin/python3
"""Any strike: what free strikes add over a grid, matched jointly and each option alone.

    studies/strikes.py [--batches N] [--workers N] [--out FOLDER] [--journals FOLDER]
                       [--scheduler ADDRESS] [--program FILE] [--seconds]

The same 40 traders a batch, with the same beliefs, place their orders on 1, 2, 4, .. 64 listed
strikes, and then each on the very strike that it wished. Each believes the price at settlement to
be uniform within 500 of a mean of its own, and bids or asks what its option is then worth on
average. Each of N batches (40) is cleared jointly and each option alone. Told are the surpluses,
the mean gain of joint clearing batch by batch, and the mean of what free strikes add to the joint
surplus of the grid, batch by batch, with intervals of 95 percent by t and by resampling. Every line
is audited.

Mirrored of Wang, Pennock, Devanur, Rothschild, Tao and Wellman (EC 2021): that traders of one
expiry may name any strike, and that thin options meet jointly. Not mirrored: the paper has no such
experiment, and what a trader gains from the very strike that it wished is counted nowhere. All is
made, from fixed seeds.

--out writes strikes.md and strikes.svg into FOLDER, over tracked files in the whole study alone.
--journals keeps the cleared lines in FOLDER, and --seconds tells on standard error what each case
took. --workers are processes at once, and --scheduler is the address of one of dask.distributed,
each of whose workers has a checkout with the program, and its folders studies, python and tools in
PYTHONPATH; the bytes are the same. The program is FILE, or what RAGVISMO_EXCHANGE names, or what
./build makes.
"""
from __future__ import annotations

import random
import statistics
from collections.abc import Callable, Sequence
from fractions import Fraction
from typing import Any, NamedTuple

import common
from common import Given, Pair, Report, Table
from ragvismo import Batch, Cleared, Option, Order, buy, call, put, sell

WHOLE, ORDERS = 40, 40
GRIDS = (1, 2, 4, 8, 16, 32, 64)
FREE = "any"
LOWEST, HIGHEST = 600, 1400
MIDDLE, WIDTH, DOUBT = 1000, 500, 80
HEAD = (
    *("Strikes", "n", "Joint (mean)", "Each option alone (mean)", "Gain of joint clearing"),
    *("resampled", "Joint: free strikes less this", "resampled", "Joint marks"),
)
Kind = Callable[[int], Option]


class Trader(NamedTuple):
    """Whether it buys, what kind, and the strike that it wishes and its believed mean in ticks."""

    buys: bool
    kind: Kind
    wish: float
    mean: int
    quantity: int

    def order(self, strikes: Sequence[int]) -> Order:
        """Its order on the nearest of the strikes, or where there are none on its own; the limit is
        what it believes, rounded in its favour."""
        option = self.kind(
            min(strikes, key=lambda it: abs(it - self.wish)) if strikes else round(self.wish)
        )
        value = worth(option, self.mean)
        whole = value.numerator // value.denominator
        if self.buys:
            return buy(option, whole, self.quantity)
        return sell(option, whole + (value.denominator > 1), self.quantity)


def worth(option: Option, mean: int) -> Fraction:
    """What an option pays on average, in ticks, at prices uniform within WIDTH of a mean."""
    edge = option.at((1, mean + WIDTH)), option.at((1, mean - WIDTH))
    low, high = sorted(map(Fraction, edge))
    return (low + high) / 2 if low else high * high / (4 * WIDTH)


def traders(number: int) -> list[Trader]:
    """The traders of a batch: the same for every grid of strikes."""
    draw = random.Random(f"strikes {number}")
    return [
        Trader(
            draw.choice((True, False)),
            draw.choice((call, put)),
            draw.uniform(LOWEST, HIGHEST),
            round(draw.gauss(MIDDLE, DOUBT)),
            draw.randint(1, 10),
        )
        for _ in range(ORDERS)
    ]


def grid(count: int) -> list[int]:
    """So many strikes, evenly from the lowest to the highest; 0 of them where any may be named."""
    return [
        round(LOWEST + (HIGHEST - LOWEST) * (2 * place + 1) / (2 * count)) for place in range(count)
    ]


def one(count: int, number: int, given: Given) -> tuple[Pair, list[Cleared]]:
    """A batch on so many listed strikes, or with 0 on those that were wished."""
    batch = Batch([it.order(grid(count)) for it in traders(number)])
    pair = common.clear_both(batch, given)
    return pair, list(pair)


def row(count: int, pairs: Sequence[Pair], free: Sequence[Pair]) -> list[object]:
    means = [
        statistics.mean(float(it.surplus) for it in of)
        for of in ([it.joint for it in pairs], [it.each for it in pairs])
    ]
    added = [
        float(its.joint.surplus - it.joint.surplus) for its, it in zip(free, pairs, strict=True)
    ]
    gains = [it.gain for it in pairs]
    return [
        *(count or FREE, len(pairs)),
        *(f"{it:,.0f}" for it in means),
        *(common.told(gains), common.ends(gains)),
        *((common.told(added), common.ends(added)) if count else ("", "")),
        common.counts([it.joint.mark for it in pairs]),
    ]


def draw(cases: dict[int, list[Pair]], panels: Sequence[Any]) -> None:
    upper, lower = panels
    places, names = range(len(cases)), [count or FREE for count in cases]
    surpluses: dict[str, list[list[float]]] = {
        "cleared jointly": [[float(it.joint.surplus) for it in pairs] for pairs in cases.values()],
        "each option alone": [[float(it.each.surplus) for it in pairs] for pairs in cases.values()],
    }
    for (name, of), look in zip(surpluses.items(), ("k-o", "k--s")):
        upper.plot(
            places, [statistics.mean(it) for it in of], look, lw=1.6, markersize=6, label=name
        )
    upper.set(ylabel="surplus (ticks)", ylim=(0, None))
    upper.legend(frameon=False)
    common.show(lower, places, [[it.gain for it in pairs] for pairs in cases.values()], "k-o")
    lower.set(ylabel="gain (ticks)", xlabel="strikes in the market", ylim=(0, None))
    for axes in panels:
        axes.set_xticks(places, names)


def study(given: Given) -> Report:
    cases = common.trials(one, (*GRIDS, 0), given, "strikes")
    rows = [row(count, pairs, cases[0]) for count, pairs in cases.items()]
    title = f"Surplus of a batch of {ORDERS} orders in ticks, in the mean of n."
    return Report([Table(title, HEAD, rows)], 2, lambda panels: draw(cases, panels))


if __name__ == "__main__":
    common.run(__doc__, WHOLE, study)
