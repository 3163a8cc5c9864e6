"""Solvers outside the exchange: near-greatest fills by HiGHS, and certificates for given fills.

The exchange believes none of them, and `Proposal.check` neither: what they hand out is rechecked in
exact fractions. They want scipy (python3-scipy of Debian).
"""

from __future__ import annotations

import random
from collections.abc import Iterable, Iterator, Sequence
from dataclasses import replace
from fractions import Fraction
from typing import NamedTuple

from ragvismo import covers
from ragvismo.cleared import State
from ragvismo.covers import NEAR, Numbers, least_excess, unit_of
from ragvismo.faults import NoCover, TimedOut
from ragvismo.orders import Batch
from ragvismo.program import Deadline
from ragvismo.proposals import (
    Proposal,
    check_count,
    check_fills,
    check_measure,
    check_states,
    is_match,
    line_states,
)

Entries = tuple[int, ...]
ROUNDS, STARTS = 400, 12
# Rays have no slack: orders that owe there count so much more, so that rounded fills owe nothing.
# Where that costs more than a small part of the bound, it is tried without.
MORE_ON_RAYS, SMALL = 1 + 2.0**-26, 1e-6
FILL, MASS = 2**40, 2**40
# Where the rows hold more ticks, the liability is counted in units of the most: beside so much its
# own factor is small, and HiGHS takes factors below 1e-9 for nothing.
MUCH = 2.0**20
# By how much orders that are owed something are filled less, where a cover is not found.
LESS = (Fraction(0), Fraction(1, 2**24), Fraction(1, 2**16), Fraction(1, 2**8))


def certify(
    batch: Batch,
    fills: Iterable[Fraction | int],
    measure: Iterable[State],
    *,
    timeout: float | None = None,
    nodes: int = covers.MOST_NODES,
) -> Proposal:
    """The proposal of given fills: with the least liability, a cover that shows it to be enough
    (the line on one underlying; on several a match, or cells of at most so many nodes), and a
    measure, by which no fills cover more than its bound.

    Raises `Unproved` where a fill is outside its quantity or the measure is none, `NoCover` where
    no cover was found, with the reason, or the fills leave less than nothing, and `TimedOut`.
    """
    whole, states = tuple(map(Fraction, fills)), tuple(measure)
    check_count(batch, whole)
    check_states(batch, states)
    check_fills(batch, whole)
    check_measure(states)
    if batch.underlyings == 1:
        found = covers.line(batch, whole)
    elif is_match(batch, whole):
        found = covers.Found(Fraction(0), "match")
    else:
        found = covers.by_cells(batch, whole, states, Deadline(timeout), nodes)
    proposal = Proposal(whole, *found, states)
    if proposal.surplus(batch) < 0:
        raise NoCover(f"the fills leave {proposal.surplus(batch)} at the worst price")
    proposal.check(batch)
    return proposal


def highs(batch: Batch, *, timeout: float | None = None) -> Proposal:
    """Fills near the greatest surplus, by linear programs of HiGHS over more and more states: the
    constraint generation of Wang, Pennock, Devanur, Rothschild, Tao and Wellman (EC 2021).

    On one underlying the states that decide are few. On several each round adds states at which
    the fills of the round before owe more than their liability: found by climbing, and where that
    finds none by a mixed-integer program for the worst state, which ends the rounds where it finds
    none either. The fills are rounded and certified; where that fails some are filled less, at last
    all with nothing, which always holds. The bound comes from the multipliers of the states, so it
    holds wherever the rounds were ended, by `timeout` seconds too.
    """
    if not batch.orders:
        return certify(batch, [], [State((1, *[0] * batch.underlyings), Fraction(1))])
    deadline = Deadline(timeout)
    found = _solved(batch, MORE_ON_RAYS, deadline)
    if found.bound(batch) - found.surplus(batch) <= SMALL * found.bound(batch):
        return found
    both = found, _solved(batch, 1.0, deadline)
    best = max(both, key=lambda it: it.surplus(batch))
    return replace(best, measure=min(both, key=lambda it: it.bound(batch)).measure)


def _solved(batch: Batch, more: float, deadline: Deadline) -> Proposal:
    """The proposal of the rounds, in which what is owed on rays counts so much more."""
    master = _Master(batch, more)
    try:
        master.solve(deadline)
    except (TimedOut, NoCover):  # the states so far give a bound all the same
        pass
    sound = (it for it in master.measures() if all(state.weight >= 0 for state in it))
    measure = min(sound, key=lambda it: _bound(batch, it))
    return _best(batch, master.tries(), measure, deadline)


def _best(
    batch: Batch, tries: Iterable[list[Fraction]], measure: list[State], deadline: Deadline
) -> Proposal:
    """Of fills that are tried in turn the proposal that leaves most: of the first ones, which are
    simple and may prove the greatest surplus, and the first of the others that is covered.
    """
    best = certify(batch, [0] * len(batch.orders), measure)
    for place, fills in enumerate(tries):
        try:
            found = certify(batch, fills, measure, timeout=deadline.left())
        except NoCover:
            continue
        except TimedOut:
            break
        best = max(best, found, key=lambda it: it.surplus(batch))
        if place or best.surplus(batch) == best.bound(batch):
            break
    return best


def measure_of(states: Sequence[Entries], weights: Iterable[float]) -> list[State]:
    """A measure near weights in floats: whole parts of 2^-40 for each mass, of which the heaviest
    settlement takes what is left."""
    masses = [
        Fraction(round(max(weight, 0.0) * (it[0] or 1) * MASS), MASS)
        for it, weight in zip(states, weights, strict=True)
    ]
    return _measure(states, masses)


def _measure(states: Sequence[Entries], masses: Sequence[Fraction]) -> list[State]:
    """States with their masses, a ray's being its weight; the heaviest takes what is left of 1."""
    settled = [at for at, it in enumerate(states) if it[0]]
    heaviest = max(settled, key=masses.__getitem__)
    left = 1 - sum((masses[at] for at in settled if at != heaviest), Fraction(0))
    whole = [left if at == heaviest else it for at, it in enumerate(masses)]
    return [State(it, mass / (it[0] or 1)) for it, mass in zip(states, whole) if mass]


def _bound(batch: Batch, measure: list[State]) -> Fraction:
    return Proposal((), Fraction(0), "", tuple(measure)).bound(batch)


def _simple(number: float, most: int = 1_000, off: float = 1e-7) -> Fraction:
    """The simple fraction that a float may stand for, or the float itself."""
    near = Fraction(number).limit_denominator(most)
    return near if abs(float(near) - number) <= off * max(1.0, abs(number)) else Fraction(number)


class Class(NamedTuple):
    """The legs whose options bend at the same prices and pay alike up to a factor: what is owed is
    `size` times the positive part of the form, with the slopes of all classes apart."""

    form: Numbers
    size: float


class _Master:
    """The program over the states so far. Prices are in units of `unit`, a state's entries sum to 1
    on this scale, money is in units of the greatest limit, fills in parts of their quantities.
    """

    def __init__(self, batch: Batch, more: float) -> None:
        import numpy

        self.numpy, self.batch, self.more = numpy, batch, more
        self.unit = unit_of(batch)
        self.signs = numpy.array([it.sign for it in batch.orders], dtype=float)
        self.quantities = numpy.array([it.quantity for it in batch.orders], dtype=float)
        self.prices = numpy.array([it.price for it in batch.orders], dtype=float)
        self.legs = [(at, leg) for at, it in enumerate(batch.orders) for leg in it.legs]
        self.forms = numpy.array([leg.option.form for _, leg in self.legs], dtype=float)
        self.forms[:, 1:] *= self.unit
        self.counts = numpy.array(
            [batch.orders[at].sign * leg.count for at, leg in self.legs], dtype=float
        )
        self.owners = numpy.array([at for at, _ in self.legs])
        self.states: list[Entries] = []
        self.rows: list[Numbers] = []
        self.fills = numpy.zeros(len(batch.orders))
        self.liability, self.weights = 0.0, numpy.zeros(0)
        n = batch.underlyings
        units: list[Entries] = [tuple(int(at == of) for at in range(n + 1)) for of in range(n + 1)]
        first: list[Entries] = [*line_states(batch)] if n == 1 else units
        for it in first:
            self.add(it)

    def scaled(self, state: Entries) -> Numbers:
        scaled = self.numpy.array([state[0], *(it / self.unit for it in state[1:])], dtype=float)
        return scaled / scaled.sum()

    def pays(self, scaled: Numbers) -> Numbers:
        """What each order owes at a state, for one bundle, with the room on rays."""
        legs = self.counts * self.numpy.maximum(self.forms @ scaled, 0)
        paid = self.numpy.bincount(self.owners, legs, len(self.fills))
        return self.numpy.where(paid > NEAR, paid * self.more, paid) if scaled[0] == 0 else paid

    def add(self, state: Entries) -> bool:
        """Adds the row of a state, where it is not there."""
        if state in self.states:
            return False
        scaled = self.scaled(state)
        self.states.append(state)
        self.rows.append(self.numpy.append(self.pays(scaled) * self.quantities, -scaled[0]))
        return True

    def solve(self, deadline: Deadline) -> None:
        """Rounds until no state is found at which more is owed; `TimedOut` leaves the last one."""
        self.program()
        if self.batch.underlyings == 1:
            return
        draw = random.Random(0)
        for _ in range(ROUNDS):
            deadline.left()
            worse = list(self.climbed(draw)) or list(self.worst(deadline))
            if not sum([self.add(it) for it in worse]):
                return
            self.program()

    def program(self) -> None:
        """Solves for fills, liability and the weights of the states."""
        from scipy.optimize import linprog

        money = max(float((self.prices * self.quantities).max()), 1.0)
        rows = self.numpy.array(self.rows)
        most = float(self.numpy.abs(rows).max())
        unit = most if most > MUCH else 1.0
        costs = self.numpy.append(-self.signs * self.prices * self.quantities, unit) / money
        rows[:, -1] *= unit
        scale = self.numpy.maximum(self.numpy.abs(rows).max(axis=1), NEAR)
        bounds = [*[(0, 1)] * len(self.fills), (None, None)]
        found = linprog(
            costs,
            A_ub=rows / scale[:, None],
            b_ub=self.numpy.zeros(len(rows)),
            bounds=bounds,
            method="highs",
            options={"primal_feasibility_tolerance": 1e-10, "dual_feasibility_tolerance": 1e-10},
        )
        if found.x is None:
            return
        self.fills, self.liability = found.x[:-1], float(found.x[-1]) * unit
        self.weights = -found.ineqlin.marginals * money / scale

    # The worst state.

    def classes(self) -> tuple[list[Class], Numbers]:
        """The classes of the fills, and the slope that they leave, on a common scale of 1."""
        sizes = self.counts * (self.fills * self.quantities)[self.owners]
        slope = self.numpy.zeros(self.forms.shape[1])
        slope[0] = -self.liability
        grouped: dict[tuple[float, ...], tuple[Numbers, float]] = {}
        for form, size in zip(self.forms, sizes):
            scale = float(self.numpy.abs(form).max())
            unit = form / scale
            if next(filter(None, unit[1:])) < 0:  # a put is the call less the option's own line
                slope += size * form
                unit = -unit
            key = tuple(self.numpy.round(unit, 12))
            grouped[key] = unit, grouped.get(key, (unit, 0.0))[1] + size * scale
        classes = [Class(*it) for it in grouped.values()]
        most = max([abs(it.size) for it in classes] + [float(self.numpy.abs(slope).max()), NEAR])
        held = [Class(it.form, it.size / most) for it in classes if abs(it.size) > NEAR * most]
        return held, slope / most

    def owed(self, classes: Sequence[Class], slope: Numbers, state: Numbers) -> float:
        """What is owed above the liability at a state."""
        bent = sum(it.size * max(0.0, float(it.form @ state)) for it in classes)
        return float(slope @ state) + bent

    def climbed(self, draw: random.Random) -> Iterator[Entries]:
        """States at which more is owed, each found by making what is bought linear where it stands,
        solving, and again from there."""
        classes, slope = self.classes()
        short = [it for it in classes if it.size < 0]
        columns, ends = [-it.form for it in short], [-it.size for it in short]
        heavy = sorted(range(len(self.weights)), key=lambda at: -float(self.weights[at]))[
            : STARTS // 2
        ]
        starts = [self.scaled(self.states[at]) for at in heavy]
        starts += [self.drawn(draw) for _ in range(STARTS - len(starts))]
        for state in starts:
            owed = self.owed(classes, slope, state)
            while True:
                bought = [it for it in classes if it.size > 0 and it.form @ state > 0]
                base = slope + sum(
                    (it.size * it.form for it in bought), self.numpy.zeros(len(slope))
                )
                after = least_excess(base, columns, ends)[1]
                gained = self.owed(classes, slope, after) - owed
                if gained <= NEAR:
                    break
                state, owed = after, owed + gained
            if owed > 10 * NEAR:
                yield self.whole(state)

    def drawn(self, draw: random.Random) -> Numbers:
        state = self.numpy.array([draw.expovariate(1) for _ in range(self.forms.shape[1])])
        return state / state.sum()

    def worst(self, deadline: Deadline) -> Iterator[Entries]:
        """The state at which most is owed above the liability, if more than nothing is."""
        from scipy.optimize import Bounds, LinearConstraint, milp

        numpy = self.numpy
        classes, slope = self.classes()
        n, k = len(slope), len(classes)
        bought = [at for at, it in enumerate(classes) if it.size > 0]
        costs = numpy.concatenate([-slope, [-it.size for it in classes], numpy.zeros(len(bought))])
        forms = numpy.array([it.form for it in classes]).reshape(k, n)
        one = numpy.concatenate([numpy.ones(n), numpy.zeros(k + len(bought))])
        parts = [LinearConstraint(one, 1, 1)]
        # What a class pays: at least its form where it is owed to the house; where the house owes
        # it, at most its form if its flag is 1, and nothing if it is 0.
        sold = [at for at, it in enumerate(classes) if it.size < 0]
        pay = numpy.eye(k)
        flags = numpy.zeros((k, len(bought)))
        flags[bought, range(len(bought))] = 1
        above, below = numpy.maximum(forms.max(axis=1), 0), numpy.maximum(-forms.min(axis=1), 0)
        if sold:
            rows = numpy.hstack([-forms, pay, numpy.zeros((k, len(bought)))])[sold]
            parts.append(LinearConstraint(rows, 0, numpy.inf))
        if bought:
            rows = numpy.hstack([-forms, pay, below[:, None] * flags])[bought]
            parts.append(LinearConstraint(rows, -numpy.inf, below[bought]))
            rows = numpy.hstack([numpy.zeros((k, n)), pay, -above[:, None] * flags])[bought]
            parts.append(LinearConstraint(rows, -numpy.inf, 0))
        whole = numpy.concatenate([numpy.zeros(n + k), numpy.ones(len(bought))])
        ends = numpy.concatenate([numpy.ones(n), above, numpy.ones(len(bought))])
        left = deadline.left()
        found = milp(
            costs,
            integrality=whole,
            bounds=Bounds(0, ends),
            constraints=parts,
            options={} if left is None else {"time_limit": left},
        )
        if found.x is not None and self.owed(classes, slope, found.x[:n]) > 10 * NEAR:
            yield self.whole(found.x[:n])

    def whole(self, scaled: Numbers) -> Entries:
        """A state in whole numbers near one on the scale: with simple prices where they fit."""
        if scaled[0] < 1e-9:
            most = float(scaled[1:].max())
            prices = [_grid(float(it) / most) for it in scaled[1:]]
            first = 0
        else:
            prices = [_grid(float(it) * self.unit / float(scaled[0])) for it in scaled[1:]]
            first = 1
        common = 1
        for it in prices:
            common = common * it.denominator // _common(common, it.denominator)
        return (first * common, *(int(it * common) for it in prices))

    # Exact numbers.

    def measures(self) -> Iterator[list[State]]:
        """Measures near the weights: of simple masses, and of parts of 2^-40."""
        masses = [
            max(float(by), 0.0) * float(self.scaled(it)[0] or 1) for it, by in self.weighted()
        ]
        states = [it for it, _ in self.weighted()]
        origin: list[Entries] = [(1, *[0] * self.batch.underlyings)]
        yield [State(origin[0], Fraction(1))]
        if any(it[0] and mass for it, mass in zip(states, masses)):
            parts = [mass / self.ray(it) for it, mass in zip(states, masses)]
            yield _measure(states, [_simple(it, 10_000) for it in parts])
            yield _measure(states, [Fraction(round(it * MASS), MASS) for it in parts])

    def weighted(self) -> list[tuple[Entries, float]]:
        return [(it, float(by)) for it, by in zip(self.states, self.weights) if by > 0]

    def ray(self, state: Entries) -> float:
        """What a weight on the scale is divided by for a ray in ticks; 1 of a settlement."""
        return 1.0 if state[0] else sum(state[1:]) / self.unit

    def tries(self) -> Iterator[list[Fraction]]:
        """Fills near those that were found: simple ones, and with less and less owed."""
        fills = [min(max(float(it), 0.0), 1.0) for it in self.fills]
        quantities = [it.quantity for it in self.batch.orders]
        yield [_simple(it * of, off=1e-6) for it, of in zip(fills, quantities)]
        owing = self.numpy.bincount(self.owners, self.counts > 0, len(fills)) > 0
        for less in LESS:
            yield [
                _part(it * of, of, bool(is_owed)) * (1 - less if is_owed else 1)
                for it, of, is_owed in zip(fills, quantities, owing)
            ]


def _part(fill: float, quantity: int, is_owed: bool) -> Fraction:
    """A fill in parts of 2^-40, 0 or whole where it is near: rounded down where it is owed for."""
    if fill <= 1e-9 * quantity:
        return Fraction(0)
    scaled = Fraction(fill) * FILL
    return min(
        Fraction(scaled.__floor__() if is_owed else scaled.__ceil__(), FILL), Fraction(quantity)
    )


def _grid(price: float) -> Fraction:
    simple = _simple(price)
    return simple if simple.denominator <= 1_000 else Fraction(round(price * 2**20), 2**20)


def _common(a: int, b: int) -> int:
    while b:
        a, b = b, a % b
    return a
