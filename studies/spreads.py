#!/usr/bin/python3
"""Spreads: how far what a whole book bids and asks lies within its own quotes.

    studies/spreads.py [--batches N] [--workers N] [--out FOLDER] [--journals FOLDER]
                       [--scheduler ADDRESS] [--program FILE] [--seconds]

A bid and an ask stand for each call and each put of a chain, around a middle of its own: the
model's price and noise. One of noise and strikes is varied at a time, with N chains for each value
(40); the same options, quantities and draws at every noise, and every book as it stands, whether or
not it would trade. Told are two kinds of spreads, of all options:

    exact    between the price above which a further buy adds to what the market can share, and the
             price below which a further sell does (`price_bounds`): by the option's own quotes
             these are the ask and the bid, by the whole book exact fractions
    whole    between the least whole price at which such a buy, and the greatest at which such a
             sell does (the line `price`): by the own quotes a tick above the ask and a tick below
             the bid

A chain's fall is what its spreads by the whole book lack, in sum, of those by their own quotes. Its
mean has an interval of 95 percent by t, and one by resampling. Every clear is audited, and that the
line `price` tells the whole prices is tested.

Mirrored of Wang, Pennock, Devanur, Rothschild, Tao and Wellman (EC 2021): the question what a
consolidated book says of bids and asks that no single option has. Not mirrored: their data, quotes
of real stocks. Here all is made, from fixed seeds.

--out writes spreads.md and spreads.svg into FOLDER, over tracked files in the whole study alone.
--journals keeps the cleared lines in FOLDER, and --seconds tells on standard error what each case
took. --workers are processes at once, and --scheduler is the address of one of dask.distributed,
each of whose workers has a checkout with the program, and its folders studies, python and tools in
PYTHONPATH; the bytes are the same. The program is FILE, or what RAGVISMO_EXCHANGE names, or what
./build makes.
"""
from __future__ import annotations

import json
import random
from collections.abc import Sequence
from fractions import Fraction
from typing import Any, Literal, NamedTuple

import common
from chains import best, quotes
from common import BadInput, Given, Report, Table
from ragvismo import Batch, Cleared, Option, Order, PriceBounds, program
from ragvismo.exchange import command_of
from ragvismo.orders import Side
from ragvismo.prices import order_at, times_of

WHOLE = 40
USUAL = {"noise": 2, "strikes": 9}
VARIED = {"noise": (0, 1, 2, 4, 8), "strikes": (3, 5, 9, 13, 17)}
NAMES = {"noise": "noise of middles (ticks)", "strikes": "strikes in the chain"}
HEAD = (
    *("Varied", "Value", "Chains", "That would trade", "Options", "Better, %"),
    *("Exact: own quotes", "whole book", "fall of a chain's, %", "resampled"),
    *("Whole: own quotes", "whole book", "fall of a chain's, %", "resampled"),
)
# From here on a further buy adds something, if it does at any price.
HIGHEST = Fraction(10**9)
UNMARKED = PriceBounds("unmarked", "unmarked")
# What is varied, and its value.
Case = tuple[str, int]


class NotOptimal(BadInput):
    """A clear that would tell a price is not marked optimal."""


class Spread(NamedTuple):
    """What stands for an option, and the exact prices by the whole book."""

    option: Option
    bid: int
    ask: int
    bounds: PriceBounds

    @property
    def exact(self) -> tuple[Fraction, Fraction]:
        """The bid and the ask by the whole book; those that stand where it tells none."""
        bid, ask = self.bounds.bid, self.bounds.ask
        return (
            Fraction(self.bid) if isinstance(bid, str) else bid,
            Fraction(self.ask) if isinstance(ask, str) else ask,
        )

    @property
    def is_better(self) -> bool:
        """Whether the whole book bids more or asks less than the option's own quotes."""
        return self.exact[0] > self.bid or self.exact[1] < self.ask

    @property
    def whole(self) -> tuple[int, int]:
        """The greatest whole price at which a sell trades with the whole book, and the least at
        which a buy does."""
        bid, ask = self.exact
        bounds = PriceBounds(bid, ask)
        low, high = bounds.whole_bid, bounds.whole_ask
        assert not isinstance(low, str) and not isinstance(high, str)
        return low, high


class Chain(NamedTuple):
    """What the orders of a chain leave as they stand, and its spreads."""

    surplus: float
    spreads: list[Spread]

    @property
    def is_told(self) -> bool:
        """Whether the clears that tell the prices by the whole book are marked optimal."""
        return all(it.bounds != UNMARKED for it in self.spreads)

    def spread(self, kind: str) -> tuple[float, float]:
        """The sums of the spreads by the own quotes and by the whole book."""
        if kind == "exact":
            own = sum(it.ask - it.bid for it in self.spreads)
            return own, float(sum(it.exact[1] - it.exact[0] for it in self.spreads))
        own = sum(it.ask - it.bid + 2 for it in self.spreads)
        return own, float(sum(it.whole[1] - it.whole[0] for it in self.spreads))

    def fall(self, kind: str) -> float:
        """What its spreads by the whole book lack of those by their own quotes, in percent."""
        own, whole = self.spread(kind)
        return 100 * (1 - whole / own) if own > 0 else 0.0


class Way(NamedTuple):
    """One side of an option's bounds, on the way: the price that is tried, whether one at which a
    further order adds something was, and whether the bound is found."""

    option: Option
    side: Side
    price: Fraction
    is_raised: bool = False
    is_found: bool = False

    @property
    def bound(self) -> Fraction | Literal["never"]:
        return self.price if self.is_raised else "never"


def quote_chain(batch: Batch, given: Given) -> tuple[Chain, list[Cleared]]:
    """What a book says of each option that has a bid and an ask; and all that was cleared."""
    cleared = common.clear_together([batch], given)
    base, standing = cleared[0], list(best(batch.orders))
    if base.mark != "optimal":
        return unmarked(batch, base), cleared
    sides = [
        it
        for option, _, _ in standing
        for it in (
            Way(option, "buy", HIGHEST),
            Way(option, "sell", Fraction(0)),
        )
    ]
    while any(not it.is_found for it in sides):
        sides, more = nearer(batch, base, sides, given)
        cleared += more
    prices = iter(it.bound for it in sides)
    spreads = []
    for option, bid, ask in standing:
        high, low = next(prices), next(prices)
        spreads.append(Spread(option, bid, ask, PriceBounds(low, high)))
    confirm(batch, spreads, given)
    return Chain(float(base.surplus), spreads), cleared


def unmarked(batch: Batch, base: Cleared) -> Chain:
    """A book of which no prices are told."""
    return Chain(float(base.surplus), [Spread(*it, UNMARKED) for it in best(batch.orders)])


def nearer(
    batch: Batch, base: Cleared, sides: Sequence[Way], given: Given
) -> tuple[list[Way], list[Cleared]]:
    """Each price that is not found yet moved to where a further order may add nothing: the surplus
    is a convex function of its price, so no further than what it adds there for each option."""
    orders = [None if it.is_found else order_at(it.side, it.option, it.price) for it in sides]
    asked = [it for it in orders if it]
    cleared = common.clear_together([Batch([*batch.orders, it]) for it in asked], given)
    replies = iter(cleared)
    return [moved(it, order, base, replies) for it, order in zip(sides, orders)], cleared


def moved(side: Way, order: Order | None, base: Cleared, replies: Any) -> Way:
    if side.is_found:
        return side
    if order is None:
        raise NotOptimal(f"no order can be at {side.price} for the {side.option}")
    found = next(replies)
    if found.mark != "optimal":
        told = f"with the {side.option} at {side.price} the book is not cleared optimally"
        raise NotOptimal(told)
    if found.surplus == base.surplus:
        return side._replace(is_found=True)
    options = sum(leg.count * times_of(leg.option, side.option) for leg in order.legs)
    step = (found.surplus - base.surplus) / (found.fills[-1] * options)
    price = side.price + (step if side.side == "sell" else -step)
    return side._replace(price=price, is_raised=True, is_found=price < 0)


def confirm(batch: Batch, spreads: Sequence[Spread], given: Given) -> None:
    """Tests that the line `price` tells the whole prices."""
    lines = ["open,1", f"deposit,1,{common.FUNDS}", "market,1,1"]
    lines += [command_of(order, 1) for order in batch.orders]
    about = f"price,1,{common.BUDGET},1"
    lines += [f"{about},{it.option.kind},{it.option.strike},1" for it in spreads]
    text = program.run("".join(f"{line}\n" for line in lines), "serve", given.program)
    replies = [json.loads(line) for line in text.splitlines()][-len(spreads) :]
    for it, reply in zip(spreads, replies):
        wanted = tuple(map(str, it.whole))
        told = reply["bid"], reply["ask"]
        if told != wanted and not {"never", "unmarked"} & set(told):
            raise BadInput(f"the line price tells {reply} of the {it.option}, not {wanted}")


def one(case: Case, number: int, given: Given) -> tuple[Chain, list[Cleared]]:
    varied, value = case
    about = {**USUAL, varied: value}
    draw = random.Random(f"spreads {number}")
    chain, cleared = quote_chain(quotes(about["strikes"], about["noise"], draw), given)
    if not chain.is_told:
        raise NotOptimal("a book is not cleared optimally")
    return chain, cleared


def measures(chains: Sequence[Chain]) -> list[object]:
    """The cells of a row that tell what became of chains."""
    spreads = [spread for chain in chains for spread in chain.spreads]
    better = [it for it in spreads if it.is_better]
    cells: list[object] = [
        *(len(chains), sum(it.surplus > 0 for it in chains), len(spreads)),
        f"{100 * len(better) / len(spreads) if spreads else 0:.0f}",
    ]
    for kind in ("exact", "whole"):
        sums = [it.spread(kind) for it in chains]
        falls = [it.fall(kind) for it in chains]
        means = (sum(each) / max(len(spreads), 1) for each in zip(*sums))
        cells += [*(f"{it:.2f}" for it in means), common.told(falls, 1), common.ends(falls, 1)]
    return cells


def draw(found: dict[Case, list[Chain]], panels: Sequence[Any]) -> None:
    for axes, (varied, values) in zip(panels, VARIED.items()):
        for kind, look, label in (("exact", "k-o", "exact"), ("whole", "k--s", "whole prices")):
            falls = [[it.fall(kind) for it in found[varied, value]] for value in values]
            by = -0.05 if kind == "exact" else 0.05
            places = [place + by for place in range(len(values))]
            common.show(axes, places, falls, look, label=label, markerfacecolor="w")
        axes.set_xticks(range(len(values)), values)
        axes.set(xlabel=NAMES[varied], ylabel="spreads fall by (%)", ylim=(0, None))
    panels[0].legend(frameon=False)


def study(given: Given) -> Report:
    cases = [(varied, value) for varied, values in VARIED.items() for value in values]
    found = common.trials(one, cases, given, "spreads")
    rows = [[*case, *measures(chains)] for case, chains in found.items()]
    usual = ", ".join(f"{name} {value}" for name, value in USUAL.items())
    title = f"Means over all options, {usual} where not varied. Amounts in ticks."
    return Report([Table(title, HEAD, rows)], len(VARIED), lambda panels: draw(found, panels))


if __name__ == "__main__":
    common.run(__doc__, WHOLE, study)
