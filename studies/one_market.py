#!/usr/bin/python3
"""One market or many: option chains matched jointly, and each option alone.

    studies/one_market.py [--batches N] [--workers N] [--out FOLDER] [--journals FOLDER]
                          [--scheduler ADDRESS] [--program FILE] [--seconds]

Orders for calls and puts of one expiry: each for an option drawn from the chain, by a belief
around a model's price, less or plus half a spread. One of noise of the beliefs, strikes and orders
is varied at a time, with N batches for each value (40), and each batch is cleared jointly and each
option alone. Told are the orders that trade, the surplus with the mean gain batch by batch and its
intervals of 95 percent, by t and by resampling, and the share of the quantity that is filled. Every
line is audited.

Mirrored of Wang, Pennock, Devanur, Rothschild, Tao and Wellman (EC 2021): the question,
consolidating the strikes of one expiry, and the mechanism. Not mirrored: their data, quotes of
real stocks. Here all is made, from fixed seeds.

--out writes one_market.md and one_market.svg into FOLDER, over tracked files in the whole study
alone. --journals keeps the cleared lines in FOLDER, and --seconds tells on standard error what each
case took. --workers are processes at once, and --scheduler is the address of one of
dask.distributed, each of whose workers has a checkout with the program, and its folders studies,
python and tools in PYTHONPATH; the bytes are the same. The program is FILE, or what
RAGVISMO_EXCHANGE names, or what ./build makes.
"""
from __future__ import annotations

import random
import statistics
from collections.abc import Sequence
from typing import Any

import common
from chains import beliefs
from common import Given, Pair, Report, Table
from ragvismo import Cleared

WHOLE = 40
USUAL = {"noise": 8, "strikes": 9, "orders": 100}
VARIED = {
    "noise": (0, 2, 4, 8, 16, 32),
    "strikes": (1, 3, 5, 9, 17, 33),
    "orders": (20, 40, 80, 160, 240),
}
NAMES = {"noise": "noise of beliefs (ticks)", "strikes": "strikes in the chain", "orders": "orders"}
HEAD = (
    *("Varied", "Value", "n", "Orders that trade: joint", "alone", "Surplus: joint", "alone"),
    *("gain", "resampled", "Quantity filled, %: joint", "alone", "Joint marks"),
)


# What is varied, and its value.
Case = tuple[str, int]


def one(case: Case, number: int, given: Given) -> tuple[Pair, list[Cleared]]:
    varied, value = case
    about = {**USUAL, varied: value}
    draw = random.Random(f"one market {number}")
    batch = beliefs(about["orders"], about["strikes"], about["noise"], draw)
    pair = common.clear_both(batch, given)
    return pair, list(pair)


def measures(pairs: Sequence[Pair]) -> list[object]:
    """The cells of a row that tell what became of batches."""
    sides = [[it.joint for it in pairs], [it.each for it in pairs]]
    trades = [statistics.mean(sum(map(bool, it.fills)) for it in side) for side in sides]
    surplus = [statistics.mean(float(it.surplus) for it in side) for side in sides]
    shares = [statistics.mean(map(common.filled_share, side)) for side in sides]
    return [
        len(pairs),
        *(f"{it:.1f}" for it in trades),
        *(f"{it:,.1f}" for it in surplus),
        *(common.told([it.gain for it in pairs], 1), common.ends([it.gain for it in pairs], 1)),
        *(f"{it:.1f}" for it in shares),
        common.counts([it.joint.mark for it in pairs]),
    ]


def draw(found: dict[Case, list[Pair]], panels: Sequence[Any]) -> None:
    for axes, (varied, values) in zip(panels, VARIED.items()):
        rows = [found[varied, value] for value in values]
        joint = [[common.filled_share(pair.joint) for pair in pairs] for pairs in rows]
        each = [[common.filled_share(pair.each) for pair in pairs] for pairs in rows]
        places = range(len(values))
        common.show(axes, [it - 0.06 for it in places], joint, "k-o", label="jointly")
        alone = {"label": "each option alone", "markerfacecolor": "w"}
        common.show(axes, [it + 0.06 for it in places], each, "k--s", **alone)
        axes.set_xticks(places, values)
        axes.set(xlabel=NAMES[varied], ylabel="filled (%)", ylim=(0, None))
    panels[0].legend(frameon=False)


def study(given: Given) -> Report:
    cases = [(varied, value) for varied, values in VARIED.items() for value in values]
    found = common.trials(one, cases, given, "one-market")
    rows = [[*case, *measures(pairs)] for case, pairs in found.items()]
    usual = ", ".join(f"{name} {value}" for name, value in USUAL.items())
    title = f"Means over n batches, {usual} where not varied. Surplus and noise in ticks."
    return Report([Table(title, HEAD, rows)], len(VARIED), lambda panels: draw(found, panels))


if __name__ == "__main__":
    common.run(__doc__, WHOLE, study)
