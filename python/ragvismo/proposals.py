"""Proposals: fills with a cover and a measure, as lines of `serve` take them, and their recheck.

`Proposal.check` is this package's own, by exact fractions and without the program: it says which
condition of docs/CERTIFICATES.md fails first. It does not say where a sum is too long for the
program's 128 bits, which is the program's to judge.
"""

from __future__ import annotations

from collections.abc import Sequence
from dataclasses import dataclass
from fractions import Fraction
from typing import Any, NamedTuple

from ragvismo import cells
from ragvismo.cleared import Cover, State, price_by, spelled
from ragvismo.faults import Unproved
from ragvismo.orders import Batch, Leg, Order

Vector = list[Fraction]
# The most nodes times legs of a tree in a proposal.
MOST_WALKED = 2_000_000


class HeldLeg(NamedTuple):
    """A leg of an order with its fill: `size` is fill times the size of the count; `is_long` says
    that the house owes it."""

    form: tuple[int, ...]
    size: Fraction
    is_long: bool


@dataclass(frozen=True)
class Proposal:
    """Fills of a batch, one for each order, in bundles; the liability in ticks that they are
    covered with, by a cover; and a measure. Its surplus is the premium less the liability.
    """

    fills: tuple[Fraction, ...]
    liability: Fraction
    cover: Cover
    measure: tuple[State, ...]

    def surplus(self, batch: Batch) -> Fraction:
        """What the fills leave at every price, in ticks."""
        return premium_of(batch, self.fills) - self.liability

    def bound(self, batch: Batch) -> Fraction:
        """What no fills leave more than, by the measure, in ticks."""
        gains = (
            order.quantity
            * max(Fraction(0), order.sign * (order.price - price_by(self.measure, order)))
            for order in batch.orders
        )
        return sum(gains, Fraction(0))

    def line(self, market: int, batch: Batch, numbers: Sequence[int]) -> str:
        """The line that proposes it to `serve`, for orders with these numbers."""
        states = [
            {"state": list(map(str, it.entries)), "weight": str(it.weight)} for it in self.measure
        ]
        proposal: dict[str, Any] = {
            "certificate": {"cover": self.cover, "measure": states},
            "fills": list(map(str, self.fills)),
            "liability": str(self.liability),
            "orders": list(numbers),
            "surplus": str(self.surplus(batch)),
        }
        return f"propose,{market},{spelled(proposal)}"

    def check(self, batch: Batch) -> None:
        """Rechecks the proposal for a batch by plain sums; raises `Unproved`."""
        check_shape(batch, self)
        check_fills(batch, self.fills)
        if self.surplus(batch) < 0:
            raise Unproved("Cover", f"the surplus is {self.surplus(batch)}")
        legs = held_legs(batch, self.fills)
        if self.cover == "line":
            check_line(batch, self.fills, self.liability)
        elif self.cover == "match":
            check_match(batch, self.fills, self.liability)
        elif isinstance(self.cover, list):
            check_tree(self.cover, legs, self.liability, batch.underlyings)
        elif isinstance(self.cover, dict):
            owed = [(it.form, it.size if it.is_long else -it.size) for it in legs]
            cells.check_cells(self.cover["cells"], owed, self.liability, batch.underlyings + 1)
        check_measure(self.measure)


def premium_of(batch: Batch, fills: Sequence[Fraction]) -> Fraction:
    """Fill times limit price over the buys, less the same over the sells, in ticks."""
    parts = (it.sign * fill * it.price for it, fill in zip(batch.orders, fills))
    return sum(parts, Fraction(0))


def net_of(orders: Sequence[Order], fills: Sequence[Fraction], state: Sequence[int]) -> Fraction:
    """What fills owe at a state."""
    parts = (it.sign * fill * it.at(state) for it, fill in zip(orders, fills) if fill)
    return sum(parts, Fraction(0))


def held_legs(batch: Batch, fills: Sequence[Fraction]) -> list[HeldLeg]:
    """The legs of all orders, in their order, each with its fill."""
    return [
        HeldLeg(leg.option.form, fill * abs(leg.count), order.sign * leg.count > 0)
        for order, fill in zip(batch.orders, fills)
        for leg in order.legs
    ]


def check_count(batch: Batch, fills: Sequence[Fraction]) -> None:
    """There is a fill for each order."""
    if len(fills) != len(batch.orders):
        raise Unproved(
            "BatchShape", f"there are {len(fills)} fills, and {len(batch.orders)} orders"
        )


def check_states(batch: Batch, measure: Sequence[State]) -> None:
    """The states are on the batch's underlyings."""
    if any(len(it.entries) != batch.underlyings + 1 for it in measure):
        raise Unproved("BatchShape", f"a state is not one on {batch.underlyings} underlyings")


def check_shape(batch: Batch, proposal: Proposal) -> None:
    """There is a fill for each order, and cover and measure are of the batch's underlyings."""
    cover, legs = proposal.cover, sum(len(it.legs) for it in batch.orders)
    check_count(batch, proposal.fills)
    check_states(batch, proposal.measure)
    if isinstance(cover, dict):
        forms = [leg.option.form for order in batch.orders for leg in order.legs]
        cells.check_shape(cover["cells"], len(cells.classes_of(forms)))
    elif cover == "line" and batch.underlyings != 1:
        raise Unproved("BatchShape", "a cover line is on one underlying")
    elif isinstance(cover, list):
        if batch.underlyings == 1:
            raise Unproved("BatchShape", "a tree is on several underlyings")
        if len(cover) * legs > MOST_WALKED:
            raise Unproved("BatchShape", f"{len(cover)} nodes times {legs} legs are too many")
    elif cover not in ("line", "match"):
        raise Unproved("BatchShape", f"a cover {cover} is not known here")


def check_fills(batch: Batch, fills: Sequence[Fraction]) -> None:
    for place, (order, fill) in enumerate(zip(batch.orders, fills), 1):
        if not 0 <= fill <= order.quantity:
            raise Unproved("Fill", f"fill {place} is {fill}, and the quantity {order.quantity}")


def check_measure(measure: Sequence[State]) -> None:
    if any(it.weight < 0 or min(it.entries) < 0 for it in measure):
        raise Unproved("Measure", "an entry or a weight is below 0")
    if not all(any(it.entries) for it in measure):
        raise Unproved("Measure", "the entries of a state are all 0")
    if sum(it.mass for it in measure) != 1:
        raise Unproved("Measure", "the masses do not sum to 1")


# One underlying.


def line_states(batch: Batch) -> list[tuple[int, int]]:
    """The states that decide what fills owe on one underlying: the price 0, each price above it at
    which an option bends, and the slope at last."""
    forms = {leg.option.form for order in batch.orders for leg in order.legs}
    bends = sorted({Fraction(-it[0], it[1]) for it in forms if it[0] * it[1] < 0})
    return [(1, 0), *((it.denominator, it.numerator) for it in bends), (0, 1)]


def check_line(batch: Batch, fills: Sequence[Fraction], liability: Fraction) -> None:
    for state in line_states(batch):
        if net_of(batch.orders, fills, state) > liability * state[0]:
            raise Unproved("Cover", f"more is owed at the state {state}")


# Any number of underlyings.


def check_match(batch: Batch, fills: Sequence[Fraction], liability: Fraction) -> None:
    if liability:
        raise Unproved("Cover", f"a match owes nothing, and the liability is {liability}")
    if not is_match(batch, fills):
        raise Unproved("Cover", "more is bought than sold of a bundle, or less")


def is_match(batch: Batch, fills: Sequence[Fraction]) -> bool:
    """Whether as much is bought as sold of each bundle."""
    left: dict[tuple[Leg, ...], Fraction] = {}
    for order, fill in zip(batch.orders, fills):
        left[order.legs] = left.get(order.legs, Fraction(0)) + order.sign * fill
    return not any(left.values())


# Several.


def check_tree(
    nodes: list[dict[str, Any]], legs: Sequence[HeldLeg], liability: Fraction, underlyings: int
) -> None:
    """Walks a tree in preorder; `Unproved` at the first leaf that is not closed."""
    most = [liability, *[Fraction(0)] * underlyings]
    ahead: list[dict[int, int]] = [{}]  # the signs above each subtree that is still to come
    for node in nodes:
        if not ahead:
            raise Unproved("Cover", "nodes stand behind the end of the tree")
        signs = ahead.pop()
        if "split" in node:
            at = node["split"] - 1
            if at not in range(len(legs)) or not legs[at].is_long or at in signs:
                raise Unproved("Cover", f"a split at leg {at + 1}, which is not free")
            ahead += [{**signs, at: -1}, {**signs, at: 1}]
        else:
            if not cells.do_rise([it["at"] for it in node["leaf"]], len(legs)):
                raise Unproved("Cover", f"the places of a leaf do not rise from 1 to {len(legs)}")
            multipliers = {it["at"] - 1: Fraction(it["by"]) for it in node["leaf"]}
            entries = leaf_entries(legs, signs, multipliers, len(most))
            if any(entry > limit for entry, limit in zip(entries, most)):
                raise Unproved("Cover", f"a leaf with the entries {', '.join(map(str, entries))}")
    if ahead:
        raise Unproved("Cover", "the tree ends before its leaves")


def leaf_entries(
    legs: Sequence[HeldLeg], signs: dict[int, int], multipliers: dict[int, Fraction], size: int
) -> Vector:
    """The entries of the vector that bounds what is owed in a leaf; `Unproved` at a multiplier that
    may not stand there."""
    entries = [Fraction(0)] * size
    for place, leg in enumerate(legs):
        by, sign = multipliers.get(place, Fraction(0)), signs.get(place, 0)
        if by < 0 or (not leg.is_long and by > leg.size) or (leg.is_long and by and not sign):
            raise Unproved("Cover", f"the multiplier {by} of leg {place + 1}")
        if leg.is_long and not sign and leg.size:
            entries = [of + leg.size * max(0, it) for of, it in zip(entries, leg.form)]
        elif factor := (leg.size + by if sign > 0 else -by):
            entries = [of + factor * it for of, it in zip(entries, leg.form)]
    return entries
