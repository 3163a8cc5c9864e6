"""Covers for given fills: the least liability, and what shows that it is enough.

Each kind of cover has a function here, which takes a batch and fills and answers with the liability
and the cover as lines tell it: `line` on one underlying, `by_cells` on several. A cover is found
with the floats of HiGHS, and its leaves are closed in exact numbers; where that fails `NoCover`
says why.
"""

from __future__ import annotations

from collections.abc import Iterator, Mapping, Sequence
from fractions import Fraction
from typing import Any, NamedTuple

from ragvismo import cells, exact
from ragvismo.cleared import Cover, State
from ragvismo.faults import NoCover
from ragvismo.orders import Batch
from ragvismo.program import Deadline
from ragvismo.proposals import held_legs, line_states, net_of

MOST_NODES = 20_000
# What counts as nothing beside numbers of about 1.
NEAR = 1e-9
# Of fills with denominators up to this it rather splits, up to so many nodes, than that a leaf is
# closed with more than the least liability.
SIMPLE, FEW = 10**6, 1_000
PRECISE = {"primal_feasibility_tolerance": 1e-10, "dual_feasibility_tolerance": 1e-10}
# So many classes are bounded anew in a node, of those that are overstated most.
MOST_BOUNDED = 24
Numbers = Any  # arrays of numpy
# Signs of classes, and what bounds classes, by their places from 0.
Signs = Mapping[int, int]
Bounds = Mapping[int, "Bound"]


class Found(NamedTuple):
    """A liability, in ticks, and the cover that shows it to be enough."""

    liability: Fraction
    cover: Cover


def line(batch: Batch, fills: Sequence[Fraction]) -> Found:
    """The least liability on one underlying. `NoCover` where more is owed the higher the price."""
    owed = [(state, net_of(batch.orders, fills, state)) for state in line_states(batch)]
    slope = owed.pop()[1]
    if slope > 0:
        raise NoCover(f"the fills owe {slope} more for each tick of the price, without end")
    return Found(max(net / state[0] for state, net in owed), "line")


def by_cells(
    batch: Batch,
    fills: Sequence[Fraction],
    measure: Sequence[State],
    deadline: Deadline,
    most: int = MOST_NODES,
) -> Found:
    """A tree over the classes of a batch's options, on several underlyings, with the least
    liability but for what rounding takes.

    Branch and bound: what is owed on a class is bounded by the classes that have a sign, as tightly
    as a linear program finds it, and the tree splits where the bound of a node owes most, until
    each leaf is closed by multipliers as Farkas's lemma has them (Chvatal, chapter 16;
    docs/CERTIFICATES.md). `NoCover` where more is owed along a ray, or where the tree would have
    more nodes than `most`.
    """
    return _Search(batch, fills, measure, deadline, most).found()


class Bound(NamedTuple):
    """What bounds a class in a leaf: the multipliers of classes with a sign, exact, and the vector
    that they give."""

    minus: dict[int, Fraction]
    plus: dict[int, Fraction]
    vector: list[Fraction]

    def node(self, place: int) -> cells.Node:
        lists = {"minus": flat(self.minus), "plus": flat(self.plus)}
        return {"bound": place + 1, **lists}


class Leaf(NamedTuple):
    """A leaf that floats close: the signs above it, and the bounds that they give."""

    signs: Signs
    bounds: Bounds


class Closed(NamedTuple):
    """A leaf that exact multipliers close, and the liability that it then needs."""

    leaf: Leaf
    multipliers: dict[int, Fraction]
    needed: Fraction


class Solved(NamedTuple):
    """A node's program, solved: how far it is from being closed, at most 0 where it is, and the
    state (on the scale of the search) that is worst for its bound.
    """

    excess: float
    state: Numbers


class _Search:
    """Numbers on one scale: classes divided by their largest entry with prices in units of `unit`,
    kinks times what they were divided by, all of it by the greatest such kink."""

    def __init__(
        self,
        batch: Batch,
        fills: Sequence[Fraction],
        measure: Sequence[State],
        deadline: Deadline,
        most: int,
    ) -> None:
        import numpy

        self.numpy, self.deadline, self.most = numpy, deadline, most
        self.is_simple = all(it.denominator <= SIMPLE for it in fills)
        legs = held_legs(batch, fills)
        self.kinked = cells.kinked([(it.form, it.size if it.is_long else -it.size) for it in legs])
        self.unit = unit_of(batch)
        self.units = numpy.array([1.0, *[self.unit] * batch.underlyings])
        forms = numpy.array(self.kinked.classes, dtype=float) * self.units
        scales = numpy.abs(forms).max(axis=1)
        kinks = numpy.array(list(map(float, self.kinked.kinks))) * scales
        self.money = max(float(numpy.abs(kinks).max()), NEAR)
        self.forms, self.kinks = forms / scales[:, None], kinks / self.money
        self.scales = scales
        self.slope = numpy.array(list(map(float, self.kinked.slope))) * self.units / self.money
        origin = State((1, *[0] * batch.underlyings), Fraction(1))
        settled = [it.entries for it in (origin, *measure) if not it.is_ray]
        self.least = max(net_of(batch.orders, fills, it) / it[0] for it in settled)
        self.needed, self.liability = self.least, float(self.least) / self.money

    def found(self) -> Found:
        cover: list[cells.Node] = []
        for it in self.nodes():
            if isinstance(it, int):
                cover.append({"split": it + 1})
                continue
            cover += [of.node(place) for place, of in it.leaf.bounds.items()]
            cover.append(self.leaf_node(it))
        return Found(self.needed, {"cells": cover})

    def leaf_node(self, closed: Closed) -> cells.Node:
        """A leaf as lines tell it."""
        multipliers, signs = closed.multipliers, closed.leaf.signs
        whole = [
            place
            for place, by in sorted(multipliers.items())
            if by and place not in signs and by == -self.kinked.kinks[place]
        ]
        rest = {place: by for place, by in multipliers.items() if by and place not in whole}
        full = {"full": [place + 1 for place in whole]} if whole else {}
        return {**full, "leaf": flat(rest)}

    def nodes(self) -> Iterator[int | Closed]:
        """The nodes in preorder: of a split the place of its class, and leaves."""
        ahead: list[dict[int, int]] = [{}]
        count = 0
        while ahead:
            signs = ahead.pop()
            closed, state = self.tried(signs, self.is_simple and count <= FEW)
            count += 1 + len(closed.leaf.bounds) if closed else 1
            if count > self.most:
                raise NoCover(f"the tree would have more than {self.most} nodes")
            if closed:
                yield closed
                continue
            at = self.most_overstated(signs, state)
            yield at
            ahead += [{**signs, at: -1}, {**signs, at: 1}]

    def tried(self, signs: Signs, exactly: bool) -> tuple[Closed | None, Numbers]:
        """A node as a leaf, where it closes without bounds or with those of its signs (with the
        least liability, if that is asked for), and the state that is worst for it. Where all that
        the house owes has a sign, the leaf is closed or the fills have no cover."""
        node = self.told(signs, {})
        leaf = Leaf(signs, {})
        if node.excess > NEAR and signs:
            leaf = Leaf(signs, self.bounded(signs, node.state))
            node = self.told(*leaf) if leaf.bounds else node
        is_last = all(at in signs for at, kink in enumerate(self.kinks) if kink > 0)
        closed = self.closed(leaf) if is_last or node.excess <= NEAR else None
        if is_last and not closed:
            raise NoCover("the fills owe more and more along a ray, by less than floats tell")
        if is_last and closed:
            self.least = max(self.least, closed.needed)
        near = self.least if exactly else Fraction((self.liability + 10 * NEAR) * self.money)
        if not closed or closed.needed > max(self.least, near):
            return None, node.state
        self.needed = max(self.needed, closed.needed)
        return closed, node.state

    def told(self, signs: Signs, bounds: Bounds) -> Solved:
        """A node's program, solved, at a liability that its worst state does not exceed."""
        node = self.solved(signs, bounds)
        while node.excess > NEAR and self.owes_more(node.state):
            node = self.solved(signs, bounds)
        return node

    def base(self, signs: Signs, bounds: Bounds) -> Numbers:
        """What bounds the sum of what is owed before any multiplier, less the liability."""
        base = self.slope.copy()
        base[0] -= self.liability
        for place in self.numpy.flatnonzero(self.kinks):
            sign, form = signs.get(place, 0), self.forms[place]
            if place in bounds:
                form = self.scaled(bounds[place].vector, place)
            if sign > 0 or (not sign and self.kinks[place] > 0):
                base += self.kinks[place] * (form if sign else self.numpy.maximum(form, 0))
        return base

    def scaled(self, vector: Sequence[Fraction], place: int) -> Numbers:
        """A vector that bounds a class, on the scale of the search."""
        return self.numpy.array(list(map(float, vector))) * self.units / self.scales[place]

    def solved(self, signs: Signs, bounds: Bounds) -> Solved:
        """How near the multipliers bring a node to being closed."""
        self.deadline.left()
        places = self.movable(signs)
        columns = [signs.get(it, -1) * self.forms[it] for it in places]
        ends = [None if it in signs else -float(self.kinks[it]) for it in places]
        excess, state, _ = least_excess(self.base(signs, bounds), columns, ends)
        return Solved(excess, state)

    def movable(self, signs: Signs) -> list[int]:
        """The classes that have a multiplier: with a sign, or owed to the house."""
        return [at for at, kink in enumerate(self.kinks) if kink < 0 or at in signs]

    def owes_more(self, state: Numbers) -> bool:
        """Whether more than the liability is owed at a state, which then rises to it."""
        pays = self.numpy.maximum(self.forms @ state, 0)
        net = float((self.kinks * pays).sum() + self.slope @ state)
        if net - self.liability * state[0] <= NEAR / 2:
            return False
        if state[0] < 1e-7:
            told = ", ".join(f"{it:.6g}" for it in state[1:] / state[1:].max())
            raise NoCover(f"the fills owe more and more along the ray ({told}), without end")
        self.liability = net / state[0] + NEAR / 8
        return True

    def overstated(self, signs: Signs, state: Numbers) -> Numbers:
        """By how much the bound of each class without a sign is above what it owes at a state."""
        above = self.numpy.maximum(self.forms, 0) @ state
        above -= self.numpy.maximum(self.forms @ state, 0)
        above = above * self.numpy.maximum(self.kinks, 0)
        above[list(signs)] = 0
        return above

    def most_overstated(self, signs: Signs, state: Numbers) -> int:
        """The class to split at: one without a sign that the house owes."""
        above = self.overstated(signs, state)
        open_ones = [at for at, kink in enumerate(self.kinks) if kink > 0 and at not in signs]
        return max(open_ones, key=lambda at: (float(above[at]), float(self.kinks[at])))

    # Bounds by classes with a sign.

    def bounded(self, signs: Signs, state: Numbers) -> dict[int, Bound]:
        """The bounds that bring a node nearest to being closed, of classes that are overstated
        most."""
        above = self.overstated(signs, state)
        places = [int(it) for it in above.argsort()[::-1][:MOST_BOUNDED] if above[it] > NEAR]
        found = {}
        for place, (minus, plus) in self.multipliers_of(signs, places).items():
            if minus or plus:
                found[place] = self.bound(signs, place, minus, plus)
        return dict(sorted(found.items()))

    def bound(
        self, signs: Signs, place: int, minus: dict[int, Fraction], plus: dict[int, Fraction]
    ) -> Bound:
        node = Bound(minus, plus, []).node(place)
        by = {at + 1: sign for at, sign in signs.items()}
        return Bound(minus, plus, cells.bound_by(node, self.kinked, by))

    def multipliers_of(
        self, signs: Signs, places: Sequence[int]
    ) -> dict[int, tuple[dict[int, Fraction], dict[int, Fraction]]]:
        """For each of the places the multipliers `minus` and `plus` of classes with a sign, by one
        program with those of the leaf: the vector of a bound is at least each of its two sums."""
        from scipy.optimize import linprog
        from scipy.sparse import csr_matrix

        numpy = self.numpy
        given = list(signs)
        turned = numpy.array([signs[it] * self.forms[it] for it in given]).T
        size, many = self.forms.shape[1], len(places)
        short = [at for at, kink in enumerate(self.kinks) if kink < 0 and at not in signs]
        free = numpy.hstack([turned, -self.forms[short].T.reshape(size, len(short))])
        one = 2 * len(given) + size  # unknowns of a bound: plus, minus, and its vector
        width = free.shape[1] + many * one + 1
        rows, right = [], []
        first = numpy.zeros((size, width))
        first[:, : free.shape[1]], first[:, -1] = free, -1
        for at, place in enumerate(places):
            start = free.shape[1] + at * one
            vector = slice(start + 2 * len(given), start + one)
            first[:, vector] = numpy.eye(size) * self.kinks[place]
            for own, part in ((0, 0), (self.forms[place], len(given))):
                block = numpy.zeros((size, width))
                block[:, start + part : start + part + len(given)] = turned
                block[:, vector] = -numpy.eye(size)
                rows.append(block)
                right.append(numpy.zeros(size) - own)
        base = self.base({**signs, **dict.fromkeys(places, -1)}, {})
        ends = [*[None] * len(given), *(-float(self.kinks[it]) for it in short)]
        found = linprog(
            numpy.eye(width)[-1],
            A_ub=csr_matrix(numpy.vstack([first, *rows])),
            b_ub=numpy.concatenate([-base, *right]),
            bounds=[*((0, end) for end in ends), *[(0, None)] * (many * one), (-1, None)],
            method="highs",
            options=PRECISE,
        )
        if found.x is None:
            return {}
        simple = {}
        for at, place in enumerate(places):
            start = free.shape[1] + at * one
            lists = found.x[start : start + 2 * len(given)].reshape(2, len(given))
            plus, minus = (self.simple(dict(zip(given, it)), place) for it in lists)
            simple[place] = minus, plus
        return simple

    def simple(self, multipliers: dict[int, float], of: int) -> dict[int, Fraction]:
        """Multipliers of classes in a bound of another, simple where they nearly are."""
        by = {
            place: float(it) * self.scales[of] / self.scales[place]
            for place, it in sorted(multipliers.items())
        }
        return {place: near for place, it in by.items() if (near := near_simple(it))}

    # Leaves in exact numbers.

    def closed(self, leaf: Leaf) -> Closed | None:
        """A leaf with the multipliers that close it at the liability so far, or else at the least
        that they can; None where they do not close it."""
        base = self.entries(leaf, {})
        places = self.movable(leaf.signs)
        found = exact.least(
            base,
            [[leaf.signs.get(it, -1) * of for of in self.kinked.classes[it]] for it in places],
            [None if it in leaf.signs else -self.kinked.kinks[it] for it in places],
            self.needed,
        )
        if found is None:
            return None
        multipliers = dict(zip(places, found))
        return Closed(leaf, multipliers, self.entries(leaf, multipliers)[0])

    def entries(self, leaf: Leaf, multipliers: dict[int, Fraction]) -> list[Fraction]:
        """What bounds the sum of what is owed in a leaf, with multipliers."""
        return cells.leaf_sums(
            self.kinked,
            {place + 1: by for place, by in multipliers.items()},
            {place + 1: sign for place, sign in leaf.signs.items()},
            {place + 1: of.vector for place, of in leaf.bounds.items()},
            self.forms.shape[1],
        )


def flat(multipliers: Mapping[int, Fraction]) -> list[int | str]:
    """Classes and multipliers in turn, as lines tell them."""
    told: list[int | str] = []
    for place, by in sorted(multipliers.items()):
        told += place + 1, str(by)
    return told


def near_simple(number: float) -> Fraction:
    """A multiplier that is not below 0: a simple fraction where it is near one."""
    simple = Fraction(number).limit_denominator(100)
    if abs(float(simple) - number) <= NEAR * max(1.0, number):
        return max(simple, Fraction(0))
    return Fraction(max(round(number * 2**20), 0), 2**20)


def unit_of(batch: Batch) -> float:
    """A price of about the size of the batch's: the greatest strike beside its weights."""
    forms = [leg.option.form for order in batch.orders for leg in order.legs]
    return max((abs(it[0]) / max(abs(of) for of in it[1:]) for it in forms), default=1.0) or 1.0


def least_excess(
    base: Numbers, columns: Sequence[Numbers], ends: Sequence[float | None]
) -> tuple[float, Numbers, Numbers]:
    """The multipliers from 0 to their ends that make the greatest entry of base plus multipliers
    times columns least: that entry, the weights of the entries (a state), and the multipliers.
    """
    import numpy
    from scipy.optimize import linprog

    rows = numpy.column_stack([*columns, -numpy.ones(len(base))])
    bounds = [*((0, end) for end in ends), (-1, None)]
    costs = numpy.zeros(len(bounds))
    costs[-1] = 1
    found = linprog(costs, A_ub=rows, b_ub=-base, bounds=bounds, method="highs", options=PRECISE)
    if found.x is None:
        raise NoCover(f"HiGHS ended with: {found.message}")
    return float(found.x[-1]), -found.ineqlin.marginals, found.x[:-1]
