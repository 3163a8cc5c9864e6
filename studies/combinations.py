#!/usr/bin/python3
"""Combinations: options on weighted sums of several underlyings in one market, or in many.

    studies/combinations.py [--batches N] [--workers N] [--out FOLDER] [--journals FOLDER]
                            [--scheduler ADDRESS] [--program FILE] [--seconds]

Two kinds of books (studies/books.py), both of calls and puts that are bid and asked by beliefs of
their traders: random ones, on one to three of the underlyings with weights -1, 1 and 2; and names,
where six in ten orders are on a single underlying, and the others on a pair (one less another), on
the index (one of each) or on an odd basket. Of each kind and each number of underlyings there are N
batches of 20 orders, of 64 and of 128 (24), and a fifth as many of 256, which take the solver up to
half a minute each. Its work and its line are capped: where the cover of all its fills takes more,
it fills a part of the orders, and the bound stays that of all. Such gaps are larger, and told. Each
batch is cleared

    joint    with all in one market, by the exchange's own run of 2,000 units and its solver
    sum      with a market for each weighted sum, of all strikes
    strike   with a market for each strike of each sum, a call and its put together
    alone    with each option by itself

No batch is left out, whatever its mark: told is for each case how far the surplus may be below the
greatest one, at most the bound of its certificate. What one market adds is the joint surplus less
that by sum, batch by batch, with an interval of 95 percent by t and one by resampling. Each line is
audited. Of two batches of 20 orders of each case `solvers.highs`, which shares no code with the
exchange's solver, finds fills as well, and told is the greatest difference.

Mirrored of Wang, Pennock, Devanur, Rothschild, Tao and Wellman (EC 2021): made markets of
combinatorial options of different sizes, the optimum by generating constraints, and what it costs
over orders and underlyings. Not mirrored: their way of drawing orders, and their integer program by
a solver of floats, in place of which stand the exchange's two.

--out writes combinations.md and combinations.svg into FOLDER, over tracked files in the whole study
alone. --journals keeps the cleared lines in FOLDER, and --seconds tells on standard error what each
case took. --workers are processes at once, and --scheduler is the address of one of
dask.distributed, each of whose workers has a checkout with the program, and its folders studies,
python and tools in PYTHONPATH; the bytes are the same. The program is FILE, or what
RAGVISMO_EXCHANGE names, or what ./build makes.
"""
from __future__ import annotations

import random
import statistics
from collections.abc import Callable, Hashable, Sequence
from fractions import Fraction
from typing import Any, NamedTuple

import common
import books
from common import BadInput, Given, Report, Table
from ragvismo import Batch, Cleared, Order, clear, solvers
from ragvismo.cleared import Cover

WHOLE, OWN_BUDGET = 24, 2_000
# The orders of a batch on so many underlyings.
SIZES = dict.fromkeys((2, 3, 4, 8), (20, 64, 128, 256))
# Batches of more orders than this take long: of so many one is made, the one at this place.
QUICK, EVERY, PLACE = 128, 5, 3
# What the books are called in the figure.
ABOUT = {"random": "random books", "names": "books of names, pairs, an index, baskets"}
# So many batches of so many orders are given to both solvers.
BOTH_SOLVERS, BOTH_ORDERS = 2, 20
# A bound of no more ticks is taken for nothing.
LITTLE = 1e-4
# The markets that a batch is parted into, by what their orders share.
PARTS: dict[str, Callable[[Order], Hashable]] = {
    "sum": lambda order: order.legs[0].option.weights,
    "strike": lambda order: (order.legs[0].option.weights, order.legs[0].option.strike),
    "alone": lambda order: order.legs,
}
HEAD = (
    *("Books", "Underlyings", "Orders", "n", "Marks", "Gap, % of the bound: median", "greatest"),
    *("Surplus: bound", "joint", "by sum", "by strike", "alone"),
    *("Joint less by sum", "resampled"),
)
FILLED_HEAD = (
    *("Books", "Underlyings", "Orders", "Filled, % of the quantity: joint", "by sum", "by strike"),
    *("alone", "Orders that trade: joint", "by sum", "by strike", "alone"),
)
WORK_HEAD = (
    *("Books", "Underlyings", "Orders", "Units: median", "greatest", "Nodes: median", "greatest"),
    "HiGHS differs by, % of the bound",
)


class Case(NamedTuple):
    """A kind of books, a number of underlyings, and one of orders."""

    books: str
    underlyings: int
    orders: int


class Market(NamedTuple):
    """What a batch leaves, how much of its quantity is filled, in percent, and of how many orders
    some."""

    surplus: float
    filled: float
    traded: int


class Found(NamedTuple):
    """A batch cleared in each way, with its mark, bound, units and nodes, and what another solver
    finds, in ticks."""

    joint: Market
    parts: dict[str, Market]
    mark: str
    bound: float
    units: int
    nodes: int
    highs: float | None

    @property
    def more(self) -> float:
        """What one market adds to those by sum, in ticks; what a bound of floats may take is 0."""
        more = self.joint.surplus - self.parts["sum"].surplus
        return more if abs(more) > LITTLE else 0.0

    @property
    def gap(self) -> float:
        """By how much the greatest surplus may be above the joint one, in percent of the bound."""
        return 100 * (1 - self.joint.surplus / self.bound) if self.bound > LITTLE else 0.0


def market(batch: Batch, surplus: Fraction, fills: Sequence[Fraction]) -> Market:
    whole = sum(it.quantity for it in batch.orders)
    return Market(float(surplus), 100 * float(sum(fills)) / whole, sum(map(bool, fills)))


def in_parts(batch: Batch, share: Callable[[Order], Hashable], given: Given) -> list[Cleared]:
    """The markets of a batch, each cleared by itself; those of one order are left out."""
    parts: dict[Hashable, list[Order]] = {}
    for order in batch.orders:
        parts.setdefault(share(order), []).append(order)
    batches = [Batch(orders) for orders in parts.values() if len(orders) > 1]
    found = common.clear_together(batches, given)
    return [
        it if it.mark == "optimal" else clear(of, solver="exchange", path=given.program)
        for of, it in zip(batches, found, strict=True)
    ]


def bound_of(joint: Cleared) -> float:
    """The bound of a line, which the exchange's solver proposes of every batch."""
    if joint.bound is None:
        raise BadInput("the exchange's solver proposes nothing")
    return float(joint.bound)


def nodes_of(cover: Cover) -> int:
    """How many nodes a cover has: a tree, or one over classes; a match has none."""
    nodes = cover["cells"] if isinstance(cover, dict) else cover
    return len(nodes) if isinstance(nodes, list) else 0


def together(batch: Batch, found: Sequence[Cleared]) -> Market:
    fills = [fill for it in found for fill in it.fills]
    return market(batch, sum((it.surplus for it in found), Fraction(0)), fills)


def one(case: Case, number: int, given: Given) -> tuple[Found | None, list[Cleared]]:
    if case.orders > QUICK and number % EVERY != PLACE:
        return None, []
    draw = random.Random(f"combinations {case.books} {case.underlyings} {number}")
    batch = books.KINDS[case.books](case.underlyings, case.orders, draw)
    joint = clear(batch, solver="exchange", budget=OWN_BUDGET, path=given.program)
    parted = {name: in_parts(batch, share, given) for name, share in PARTS.items()}
    is_both = number < BOTH_SOLVERS and case.orders == BOTH_ORDERS
    other = solvers.highs(batch).surplus(batch) if is_both else None
    found = Found(
        market(batch, joint.surplus, joint.fills),
        {name: together(batch, it) for name, it in parted.items()},
        joint.mark,
        bound_of(joint),
        joint.units,
        nodes_of(joint.certificate.cover),
        None if other is None else float(other),
    )
    return found, [joint, *(line for it in parted.values() for line in it)]


def brief(percent: float) -> str:
    """A percentage by its first digit, or where it is greater in whole ones."""
    return f"{percent:.0f}" if percent >= 1 else f"{percent:.1g}"


def measures(of: Sequence[Found]) -> list[object]:
    """The cells on surplus and gap."""
    gaps = [it.gap for it in of]
    more = [it.more for it in of]
    surplus = [[it.bound for it in of], [it.joint.surplus for it in of]]
    surplus += [[it.parts[name].surplus for it in of] for name in PARTS]
    return [
        *(len(of), common.counts([it.mark for it in of])),
        *map(brief, (statistics.median(gaps), max(gaps))),
        *(f"{statistics.mean(it):,.1f}" for it in surplus),
        *(common.told(more, 1), common.ends(more, 1)),
    ]


def filled(of: Sequence[Found]) -> list[object]:
    """The cells on what trades."""
    ways = [[it.joint for it in of], *([it.parts[name] for it in of] for name in PARTS)]
    return [
        *(f"{statistics.mean(it.filled for it in way):.1f}" for way in ways),
        *(f"{statistics.mean(it.traded for it in way):.1f}" for way in ways),
    ]


def work(of: Sequence[Found]) -> list[object]:
    """The cells on what it took, and on the other solver."""
    units, nodes = [it.units for it in of], [it.nodes for it in of]
    apart = [
        100 * abs(it.highs - it.joint.surplus) / it.bound
        for it in of
        if it.highs is not None and it.bound > LITTLE
    ]
    return [
        *(f"{statistics.median(units):,.0f}", f"{max(units):,}"),
        *(f"{statistics.median(nodes):,.0f}", f"{max(nodes):,}"),
        brief(max(apart)) if apart else "",
    ]


def places_of(cases: Sequence[Case]) -> list[float]:
    """A place for each case, with a gap where the number of underlyings changes."""
    counts = [it.underlyings for it in cases]
    return [
        place + sum(a != b for a, b in zip(counts, counts[1 : place + 1])) / 2
        for place in range(len(cases))
    ]


def draw_cases(found: dict[Case, list[Found]], panels: Sequence[Any]) -> None:
    """Of each kind of books the joint surplus and the others', in percent of the bound; a line
    joins the cases on as many underlyings."""
    names = {"joint": "one market", "sum": "by sum", "strike": "by strike", "alone": "alone"}
    for axes, kind in zip(panels, books.KINDS):
        mine = [case for case in found if case.books == kind]
        places = dict(zip(mine, places_of(mine)))
        of = {count: [it for it in mine if it.underlyings == count] for count in SIZES}
        for name, look in zip(names, ("k-o", "k--s", "k-.^", "k:D")):
            about = {"lw": 1.6, "markersize": 6, "markerfacecolor": "w", "label": names[name]}
            for cases in of.values():
                at = [places[it] for it in cases]
                axes.plot(at, [part_of_bound(found[it], name) for it in cases], look, **about)
                about["label"] = "_"
        axes.set_xticks(list(places.values()), [it.orders for it in mine], fontsize="small")
        middles = [statistics.mean(places[it] for it in cases) for cases in of.values() if cases]
        axes.set_xticks(middles, [f"\n{it} underlyings" for it in of if of[it]], minor=True)
        axes.xaxis.remove_overlapping_locs = False
        axes.tick_params("x", which="minor", length=0, pad=8, labelsize="small")
        ends = -0.4, max(places.values()) + 0.4
        axes.set(xlabel=f"orders ({ABOUT[kind]})", xlim=ends, ylim=(-5, 105))
        axes.set(ylabel="% of the bound", yticks=range(0, 101, 25))
    above = {"loc": "lower center", "bbox_to_anchor": (0.5, 1), "borderaxespad": 0}
    panels[0].legend(frameon=False, ncols=4, columnspacing=1, handlelength=1.8, **above)


def part_of_bound(of: Sequence[Found], name: str) -> float:
    """What batches leave in one market, or in the markets of this name, in percent of what they
    can at most."""
    left = [it.joint if name == "joint" else it.parts[name] for it in of]
    return common.share((it.surplus for it in left), (it.bound for it in of))


def study(given: Given) -> Report:
    cases = [
        Case(kind, underlyings, orders)
        for kind in books.KINDS
        for underlyings, sizes in SIZES.items()
        for orders in sizes
    ]
    made = common.trials(one, cases, given, "combinations")
    held = {case: [it for it in of if it] for case, of in made.items()}
    found = {case: of for case, of in held.items() if of}
    rows = [
        [[*case, *cells(of)] for case, of in found.items()] for cells in (measures, filled, work)
    ]
    tables = [
        Table("Mean surplus of n batches in ticks, and what is known of it.", HEAD, rows[0]),
        Table("What trades, in the mean.", FILLED_HEAD, rows[1]),
        Table("What it took: turns of the own run, and nodes of the cover.", WORK_HEAD, rows[2]),
    ]
    return Report(tables, len(books.KINDS), lambda panels: draw_cases(found, panels))


if __name__ == "__main__":
    common.run(__doc__, WHOLE, study)
