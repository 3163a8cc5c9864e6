#!/usr/bin/python3
"""A solver of batches on one underlying, by the linear programming of scipy (HiGHS): book replies
in, propose lines out.

    exchange serve < day.commands | examples/solver.py

It fills single options alone and leaves bundles. To a book on several underlyings, or without
orders, it answers an empty line. docs/SOLVERS.md says why its numbers hold though those of HiGHS do
not.
"""

from __future__ import annotations

import json
import sys
from collections.abc import Sequence
from fractions import Fraction
from typing import Any

from scipy.optimize import linprog

FILL, MASS = 2**20, 2**32
State = tuple[int, int]
Object = dict[str, Any]


def nearest(number: float, unit: int, up: bool = False) -> Fraction:
    """A whole multiple of 1 / unit at most, or at least, as much."""
    scaled = float(number) * unit
    return Fraction(int(scaled) + (up and not scaled.is_integer()), unit)


def pays(form: Sequence[int], state: State) -> int:
    return max(form[0] * state[0] + form[1] * state[1], 0)


def sign(order: Object) -> int:
    return 1 if order["side"] == "buy" else -1


def states_of(orders: list[Object]) -> list[State]:
    """The settlement at price 0, those where an option bends, and the ray, each as (t, s)."""
    forms = [o["form"] for o in orders]
    bends = {Fraction(-strike, weight) for strike, weight in forms if strike * weight < 0}
    return [(1, 0), *((price.denominator, price.numerator) for price in sorted(bends)), (0, 1)]


def solved(orders: list[Object], rows: list[list[int]]) -> tuple[list[float], list[float]]:
    """Fills and the multipliers of the states, near the best: the last variable is the
    liability."""
    costs = [-sign(o) * o["price"] for o in orders] + [1]
    bounds = [(0, o["quantity"]) for o in orders] + [(None, None)]
    result = linprog(costs, A_ub=rows, b_ub=[0] * len(rows), bounds=bounds, method="highs")
    return list(result.x[:-1]), list(-result.ineqlin.marginals)


def measure_of(states: list[State], weights: list[float]) -> list[Object]:
    """The measure near the multipliers: the heaviest settlement takes what is left of 1."""
    masses = [nearest(max(w, 0) * (z[0] or 1), MASS) for w, z in zip(weights, states)]
    heaviest = max(range(len(states) - 1), key=masses.__getitem__)
    masses[heaviest] += 1 - sum(masses[:-1])
    points = [(z, mass / (z[0] or 1)) for z, mass in zip(states, masses) if mass]
    return [{"state": [str(it) for it in z], "weight": str(weight)} for z, weight in points]


def proposal(book: Object) -> Object:
    single = [o for o in book["orders"] if [leg["count"] for leg in o["legs"]] == [1]]
    plain = [{**o, "form": o["legs"][0]["form"]} for o in single]
    states = states_of(plain)
    rows = [[sign(o) * pays(o["form"], z) for o in plain] + [-z[0]] for z in states]
    found, weights = solved(plain, rows)
    near = [nearest(f, FILL, sign(o) < 0) for f, o in zip(found, plain)]
    fills = [min(f, Fraction(o["quantity"])) for f, o in zip(near, plain)]
    owed = [sum((a * f for a, f in zip(row, fills)), Fraction()) for row in rows]
    liability = max(net / z[0] for net, z in zip(owed, states) if z[0])
    premium = sum((sign(o) * o["price"] * f for o, f in zip(plain, fills)), Fraction())
    if premium < liability or owed[-1] > 0:
        fills, liability, premium = [Fraction()] * len(plain), Fraction(), Fraction()
    filled = dict(zip((o["order"] for o in plain), fills))
    return {
        "certificate": {"cover": "line", "measure": measure_of(states, weights)},
        "fills": [str(filled.get(o["order"], 0)) for o in book["orders"]],
        "liability": str(liability),
        "orders": [o["order"] for o in book["orders"]],
        "surplus": str(premium - liability),
    }


for line in sys.stdin:
    reply = json.loads(line)
    if reply["reply"] != "book":
        continue
    if reply["underlyings"] == 1 and reply["orders"]:
        text = json.dumps(proposal(reply), separators=(",", ":"))
        print(f"propose,{reply['market']},{text}", flush=True)
    else:
        print(flush=True)
