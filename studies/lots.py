#!/usr/bin/python3
"""Lots: what it is worth that orders may be filled by any fraction.

    studies/lots.py [--batches N] [--workers N] [--out FOLDER] [--journals FOLDER]
                    [--scheduler ADDRESS] [--program FILE] [--seconds]

The exchange fills any fraction of an order. Beside it stand whole lots, where each fill is a whole
number of options, and all or nothing, where an order is filled whole or not at all. 60 orders for
the calls and puts of nine strikes, by beliefs around the model's price with noise of 8 ticks, have
quantities of 1, of 1 to 3, of 1 to 10 or of 1 to 30 options; and there are 20, 60 and 120 orders
of 1 to 10. Of each there are N batches (24). The greatest surpluses of whole lots and of all or
nothing are found by a mixed-integer program of HiGHS over the prices at which payoffs bend. What it
finds is proposed to the exchange, which judges in exact fractions what it leaves; that this is the
greatest, up to a hundred-thousandth, is the word of HiGHS. Also told is what the exchange's own
fills leave where each is rounded down to whole options and covered anew: nothing, where they are
not covered.

Means are over n batches; what is lost of the surplus has an interval of 95 percent by t and one by
resampling. The paper of Wang, Pennock, Devanur, Rothschild, Tao and Wellman (EC 2021) maximises
over fractions, as the exchange does; that it tells what whole lots lose is not known here.

--out writes lots.md and lots.svg into FOLDER, over tracked files in the whole study alone.
--journals keeps the cleared lines in FOLDER, and --seconds tells on standard error what each case
took. --workers are processes at once, and --scheduler is the address of one of dask.distributed,
each of whose workers has a checkout with the program, and its folders studies, python and tools in
PYTHONPATH; the bytes are the same. The program is FILE, or what RAGVISMO_EXCHANGE names, or what
./build makes.
"""
from __future__ import annotations

import math
import random
import statistics
from collections.abc import Sequence
from fractions import Fraction
from typing import Any, NamedTuple

import common
from chains import beliefs
from common import BadInput, Given, Report, Table
from ragvismo import Batch, Cleared, Exchange, NoCover, clear, solvers
from ragvismo.proposals import line_states

WHOLE, STRIKES, NOISE = 24, 9, 8
# What HiGHS may miss, as a part of the greatest surplus, and its seconds for a program.
GAP, SECONDS = 1e-5, 600
HEAD = (
    *("Orders", "Options an order", "n", "Any fraction", "Fills that are no whole number"),
    *("Whole lots", "lost, %", "resampled", "All or nothing", "lost, %", "resampled"),
    *("Rounded down", "lost, %"),
)
KINDS = ("whole lots", "all or nothing", "rounded down")


class Case(NamedTuple):
    """The orders of a batch, and the greatest quantity of one."""

    orders: int
    most: int


CASES = (
    *(Case(60, 1), Case(60, 3), Case(60, 10), Case(60, 30)),
    *(Case(20, 10), Case(120, 10)),
)


class Found(NamedTuple):
    """The surplus of any fractions and of each other kind, in ticks, and how many fills of the
    first are no whole number."""

    surplus: float
    others: dict[str, float]
    broken: int


def best_whole(batch: Batch, kind: str) -> list[Fraction]:
    """The fills of the greatest surplus in whole lots, or all or nothing, by HiGHS."""
    import numpy
    from scipy.optimize import Bounds, LinearConstraint, milp

    orders = batch.orders
    lots = numpy.array([it.quantity if kind == KINDS[1] else 1 for it in orders], dtype=float)
    most = numpy.array([1 if kind == KINDS[1] else it.quantity for it in orders], dtype=float)
    signs = numpy.array([it.sign for it in orders], dtype=float)
    prices = numpy.array([it.price for it in orders], dtype=float)
    states = line_states(batch)
    rows = numpy.array([[float(it.at(state)) for it in orders] for state in states]) * signs * lots
    owed = numpy.hstack([rows, -numpy.array([[float(state[0])] for state in states])])
    ends = Bounds(numpy.append(0 * most, -numpy.inf), numpy.append(most, numpy.inf))
    found = milp(
        numpy.append(-signs * prices * lots, 1.0),
        constraints=LinearConstraint(owed, -numpy.inf, 0),
        integrality=numpy.append(numpy.ones(len(orders)), 0),
        bounds=ends,
        options={"mip_rel_gap": GAP, "time_limit": SECONDS},
    )
    if found.status != 0:
        raise BadInput(f"HiGHS does not find the greatest surplus of {kind}: {found.message}")
    return [round(it) * Fraction(int(lot)) for it, lot in zip(found.x, lots)]


def judged(batch: Batch, fills: Sequence[Fraction], joint: Cleared, given: Given) -> Fraction:
    """What fills leave, by the judgement of the exchange; nothing where they are not covered."""
    try:
        proposal = solvers.certify(batch, fills, joint.certificate.measure)
    except NoCover:
        return Fraction(0)
    with Exchange(given.program) as exchange:
        exchange.open(account=1)
        exchange.deposit(account=1, amount=common.FUNDS)
        exchange.market(market=1)
        for order in batch.orders:
            exchange.place(order, market=1)
        found = exchange.propose(market=1, solver=proposal)
    assert found
    return found.surplus


def one(case: Case, number: int, given: Given) -> tuple[Found, list[Cleared]]:
    draw = random.Random(f"lots {case.orders} {number}")
    batch = beliefs(case.orders, STRIKES, NOISE, draw, most=case.most)
    joint = clear(batch, budget=common.BUDGET, path=given.program)
    if joint.mark != "optimal":
        raise BadInput(f"a batch of {case.orders} orders is not cleared optimally")
    fills = {kind: best_whole(batch, kind) for kind in KINDS[:2]}
    fills[KINDS[2]] = [Fraction(math.floor(it)) for it in joint.fills]
    others = {kind: float(judged(batch, it, joint, given)) for kind, it in fills.items()}
    broken = sum(it.denominator > 1 for it in joint.fills)
    return Found(float(joint.surplus), others, broken), [joint]


def lost(of: Sequence[Found], kind: str) -> list[float]:
    """What of each batch's surplus is lost, in percent; 0 where there is none."""
    return [100 * (1 - it.others[kind] / it.surplus) if it.surplus else 0.0 for it in of]


def row(case: Case, of: Sequence[Found]) -> list[object]:
    cells: list[object] = [case.orders, f"1 to {case.most}" if case.most > 1 else "1", len(of)]
    cells += [f"{statistics.mean(it.surplus for it in of):,.1f}"]
    cells += [f"{statistics.mean(it.broken for it in of):.1f}"]
    for kind in KINDS:
        losses = lost(of, kind)
        cells += [f"{statistics.mean(it.others[kind] for it in of):,.1f}", common.told(losses, 1)]
        cells += [common.ends(losses, 1)] if kind != KINDS[2] else []
    return cells


def draw_cases(found: dict[Case, list[Found]], panels: Sequence[Any]) -> None:
    for axes, mine, name in zip(
        panels, (CASES[:4], (CASES[4], CASES[2], CASES[5])), ("most", "orders")
    ):
        for at, (kind, look) in enumerate(zip(KINDS, ("k-o", "k--s", "k-.^"))):
            losses = [lost(found[case], kind) for case in mine]
            places = common.beside(range(len(mine)), at, len(KINDS))
            common.show(axes, places, losses, look, label=kind, markerfacecolor="w")
        axes.set_xticks(range(len(mine)), [getattr(case, name) for case in mine])
        axes.set_ylabel("surplus lost (%)")
    panels[0].set_xlabel("greatest quantity of an order (60 orders)")
    panels[1].set_xlabel("orders (quantities of 1 to 10)")
    panels[0].legend(frameon=False, ncols=3, loc="lower center", bbox_to_anchor=(0.5, 1))


def study(given: Given) -> Report:
    found = common.trials(one, CASES, given, "lots")
    rows = [row(case, of) for case, of in found.items()]
    table = Table(f"Mean surplus in ticks, {STRIKES} strikes, noise {NOISE}.", HEAD, rows)
    return Report([table], 2, lambda panels: draw_cases(found, panels))


if __name__ == "__main__":
    common.run(__doc__, WHOLE, study)
