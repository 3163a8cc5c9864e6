#!/usr/bin/python3
"""Over time: one auction a day, or many, each in one market or option by option.

    studies/over_time.py [--batches N] [--workers N] [--out FOLDER] [--journals FOLDER]
                         [--scheduler ADDRESS] [--program FILE] [--seconds]

128 orders for the calls and puts of nine strikes come at times of a day, by beliefs around the
model's price with noise of 8 ticks. There are 1, 2, 4, .. 64 auctions a day, at equal distances,
the last at its end. An order is in the first auction after its time; what is not filled rests, and
is placed again for the next auction in whole options: a part of one that is left is lost, and told.
N days (40). Each day is cleared jointly and with each option alone.

Told are the day's surplus, the sum over its auctions; its share, day by day, of the surplus of one
joint auction of all orders, the most that any auctions can leave; what it leaves more jointly than
with each option alone on the same day; how much is filled; and how long an option that is filled
has waited, in hundredths of the day. Means have intervals of 95 percent by t, and the surpluses and
shares by resampling too. Every line is audited.

The paper of Wang, Pennock, Devanur, Rothschild, Tao and Wellman (EC 2021) clears one batch; a day
of auctions stands in no part of it that is known here. No order is cancelled or moved, and values
do not change within the day, so waiting has no cost here but time.

--out writes over_time.md and over_time.svg into FOLDER, over tracked files in the whole study
alone. --journals keeps the cleared lines in FOLDER, and --seconds tells on standard error what each
case took. --workers are processes at once, and --scheduler is the address of one of
dask.distributed, each of whose workers has a checkout with the program, and its folders studies,
python and tools in PYTHONPATH; the bytes are the same. The program is FILE, or what
RAGVISMO_EXCHANGE names, or what ./build makes.
"""
from __future__ import annotations

import dataclasses
import math
import random
import statistics
from collections.abc import Sequence
from typing import Any, NamedTuple

import common
from chains import beliefs
from common import BadInput, Given, Report, Table
from ragvismo import Batch, Cleared, Order, clear
from ragvismo.clearing import Mechanism

WHOLE, ORDERS, STRIKES, NOISE = 40, 128, 9, 8
AUCTIONS = (1, 2, 4, 8, 16, 32, 64)
WAYS: tuple[Mechanism, ...] = ("joint", "each")
NAMES = {"joint": "jointly", "each": "each option alone"}
HEAD = (
    *("Auctions", "Cleared", "n", "Surplus of a day", "resampled", "% of one joint auction"),
    *("resampled", "Jointly less alone", "Filled, %", "Waited, % of the day"),
    "Options lost in parts, %",
)


class Case(NamedTuple):
    """How many auctions a day has, and how each is cleared."""

    auctions: int
    way: Mechanism


class Day(NamedTuple):
    """What a day's auctions leave, in ticks, how much of the quantity is filled and is lost in
    parts of an option, and how long what is filled has waited, all in percent."""

    surplus: float
    filled: float
    lost: float
    waited: float


class Resting(NamedTuple):
    """An order and the time at which it came."""

    time: float
    order: Order


def arrivals(number: int) -> list[Resting]:
    """The orders of a day by their times, which are from 0 to 1."""
    draw = random.Random(f"over time {number}")
    orders = beliefs(ORDERS, STRIKES, NOISE, draw).orders
    return [Resting(*it) for it in zip(sorted(draw.random() for _ in orders), orders)]


def rest(of: Resting, fill: Any) -> list[Resting]:
    """What is left of an order in whole options, if anything."""
    left = math.floor(of.order.quantity - fill)
    return [Resting(of.time, dataclasses.replace(of.order, quantity=left))] if left else []


def one(case: Case, number: int, given: Given) -> tuple[Day, list[Cleared]]:
    ahead, live, lines = arrivals(number), list[Resting](), list[Cleared]()
    whole = sum(it.order.quantity for it in ahead)
    surplus, filled, waited = 0.0, 0.0, 0.0
    for auction in range(1, case.auctions + 1):
        end = auction / case.auctions
        live += [it for it in ahead if it.time <= end]
        ahead = [it for it in ahead if it.time > end]
        if not live:
            continue
        cleared = clear(Batch([it.order for it in live]), case.way, path=given.program)
        if case.way == "joint" and cleared.mark != "optimal":
            raise BadInput(f"an auction of {len(live)} orders is not cleared optimally")
        lines.append(cleared)
        surplus += float(cleared.surplus)
        filled += float(sum(cleared.fills))
        waited += sum(float(fill) * (end - it.time) for it, fill in zip(live, cleared.fills))
        live = [left for it, fill in zip(live, cleared.fills) for left in rest(it, fill)]
    left = sum(it.order.quantity for it in live)
    day = Day(
        surplus,
        100 * filled / whole,
        100 * (whole - filled - left) / whole,
        100 * waited / filled if filled else 0.0,
    )
    return day, lines


def shares(days: Sequence[Day], most: Sequence[Day]) -> list[float]:
    """Each day's surplus in percent of that of one joint auction of its orders."""
    return [common.share([it.surplus], [of.surplus]) for it, of in zip(days, most, strict=True)]


def row(case: Case, days: Sequence[Day], most: Sequence[Day], alone: Sequence[Day]) -> list[object]:
    """The cells of a case, beside one joint auction of each day, and as many with each option
    alone."""
    surplus, of_most = [it.surplus for it in days], shares(days, most)
    more = [it.surplus - its.surplus for it, its in zip(days, alone, strict=True)]
    return [
        *(case.auctions, NAMES[case.way], len(days)),
        *(common.told(surplus, 1), common.ends(surplus, 1)),
        *(common.told(of_most, 1), common.ends(of_most, 1)),
        common.told(more, 1) if case.way == "joint" else "",
        *(common.told([it.filled for it in days], 1), common.told([it.waited for it in days], 1)),
        f"{statistics.mean(it.lost for it in days):.1f}",
    ]


def draw_cases(found: dict[Case, list[Day]], panels: Sequence[Any]) -> None:
    upper, lower = panels
    places, most = range(len(AUCTIONS)), found[Case(1, "joint")]
    for at, (way, look) in enumerate(zip(WAYS, ("k-o", "k--s"))):
        days = [found[Case(count, way)] for count in AUCTIONS]
        about = {"label": NAMES[way], "markerfacecolor": "w"}
        stand = common.beside(places, at, len(WAYS))
        common.show(upper, stand, [shares(of, most) for of in days], look, **about)
        common.show(lower, stand, [[it.waited for it in of] for of in days], look, **about)
    upper.set_ylabel("surplus (% of the most)")
    upper.legend(frameon=False, loc="upper right")
    lower.set(ylabel="waited (% of the day)", ylim=(0, None), xlabel="auctions a day")
    for axes in panels:
        axes.set_xticks(places, AUCTIONS)


def study(given: Given) -> Report:
    cases = [Case(count, way) for count in AUCTIONS for way in WAYS]
    found = common.trials(one, cases, given, "over-time")
    most = found[Case(1, "joint")]
    rows = [
        row(case, days, most, found[Case(case.auctions, "each")]) for case, days in found.items()
    ]
    title = f"Days of {ORDERS} orders, noise {NOISE}. Surplus in ticks."
    return Report([Table(title, HEAD, rows)], 2, lambda panels: draw_cases(found, panels))


if __name__ == "__main__":
    common.run(__doc__, WHOLE, study)
