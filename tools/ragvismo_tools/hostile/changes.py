"""Proposals changed at random."""

from __future__ import annotations

import random
from typing import Any
from collections.abc import Iterator
from ragvismo_tools.proposed import Proposal
import json
from fractions import Fraction

from ragvismo_tools import proposed


# The keys and places that lead to a value within another.
Path = tuple[Any, ...]
Orders = list[dict[str, Any]]
ODD_TEXTS = (
    "-0",
    "01",
    "2/4",
    "1/1",
    "1/0",
    "-1/2",
    "1e3",
    " 1",
    "",
    str(2**127 - 1),
    str(2**127),
    f"-{2**127 - 1}",
    f"1/{2**127 - 1}",
    f"1/{2**127}",
    f"{2**127 - 1}/{2**127 - 2}",
    f"{2**64}/3",
)


ODD_NUMBERS = (
    -1,
    0,
    1,
    2,
    255,
    256,
    257,
    1024,
    1025,
    10**6,
    10**6 + 1,
    2**63,
    2**64,
    2**127,
)


def inner(value: Any, path: Path = ()) -> Iterator[Path]:
    """The path to each item and each value within a value, its own first."""
    yield path
    for key in value if type(value) is dict else range(len(value)) if type(value) is list else ():
        yield from inner(value[key], (*path, key))


def value_at(value: Any, path: Path) -> Any:
    for key in path:
        value = value[key]
    return value


def other_text(draw: random.Random, text: str) -> str:
    """A fraction near the one of this text, or an odd text."""
    try:
        old = Fraction(text)
    except (ValueError, ZeroDivisionError):
        return draw.choice(ODD_TEXTS)
    seventh, little = Fraction(1, 7), Fraction(1, 2**100 + 1)
    new = old + draw.choice((Fraction(1), Fraction(-1), seventh, -seventh, little, -2 * old, old))
    return draw.choice(ODD_TEXTS) if draw.random() < 0.2 else str(new)


def other_list(draw: random.Random, items: list[Any]) -> Any:
    """The list with an item fewer, or twice, or with two in each other's place; without any, or
    with what stands in none."""
    new, at = list(items), draw.randrange(len(items)) if items else 0
    kind = draw.randrange(5)
    if kind == 0:
        return new[:at] + new[at + 1 :]
    if kind == 1:
        return new[: at + 1] + new[at:]
    if kind == 2:
        to = draw.randrange(len(items)) if items else 0
        new[at : at + 1], new[to : to + 1] = new[to : to + 1], new[at : at + 1]
        return new
    return [] if kind == 3 else "line"


def other_value(draw: random.Random, value: Any) -> Any:
    """Another value in place of one."""
    if type(value) is str:
        return (
            [{"leaf": []}] if value == "line" and draw.random() < 0.5 else other_text(draw, value)
        )
    if type(value) is int:
        return draw.choice((value + 1, value - 1, *ODD_NUMBERS))
    if type(value) is list:
        return other_list(draw, value)
    return {**value, draw.choice((*value, "at")): draw.choice((1, "1", []))}


def scaled(draw: random.Random, proposal: Proposal, orders: Orders) -> Proposal:
    """Fills, liability and surplus times one factor, which leaves the cover a proof where it is at
    most 1 and no leaf has multipliers."""
    by = draw.choice(
        (Fraction(1, 2), Fraction(2, 3), Fraction(1, 2**60), Fraction(3, 2), Fraction(0))
    )

    def times(text: str) -> str:
        return str(by * Fraction(text))

    return {
        **proposal,
        "fills": [times(it) for it in proposal["fills"]],
        **{key: times(proposal[key]) for key in ("liability", "surplus")},
    }


def owed(draw: random.Random, proposal: Proposal, orders: Orders) -> Proposal:
    """More liability, or less, and as much less surplus, or more: the premium stays what both sum
    to."""
    by = draw.choice((Fraction(1, 3), Fraction(-1, 3), Fraction(1, 2**90), Fraction(-1, 2**90)))
    return {
        **proposal,
        "liability": str(Fraction(proposal["liability"]) + by),
        "surplus": str(Fraction(proposal["surplus"]) - by),
    }


def refilled(draw: random.Random, proposal: Proposal, orders: Orders) -> Proposal:
    """One order filled with more or less, and the surplus that its premium leaves."""
    at, by = draw.randrange(len(orders)), draw.choice(
        (Fraction(1, 5), Fraction(-1, 5), Fraction(-1, 2**80), Fraction(1))
    )
    fills = [
        str(Fraction(it) + by) if place == at else it for place, it in enumerate(proposal["fills"])
    ]
    premium = by * orders[at]["price"] * (1 if orders[at]["side"] == "buy" else -1)
    return {**proposal, "fills": fills, "surplus": str(Fraction(proposal["surplus"]) + premium)}


def split_point(draw: random.Random, proposal: Proposal, orders: Orders) -> Proposal:
    """A point of the measure in two, or with its state times a factor: another measure of the same
    prices."""
    points = list(proposal["certificate"]["measure"])
    at, by = draw.randrange(len(points)), Fraction(
        1, draw.choice((2, 3, 10**6, 2**61 - 1, 2**100 + 7))
    )
    state, weight = points[at]["state"], Fraction(points[at]["weight"])
    halves = [{"state": state, "weight": str(weight * it)} for it in (by, 1 - by)]
    times = [{"state": [str(int(it) * by.denominator) for it in state], "weight": str(weight * by)}]
    points[at : at + 1] = draw.choice((halves, times))
    return {**proposal, "certificate": {**proposal["certificate"], "measure": points}}


def changed_proposal(draw: random.Random, best: Proposal, orders: Orders) -> bytes:
    """The text of a proposal that claims what its premium leaves, half of them changed in up to
    three places, and one in five in bytes of its text."""
    new = (
        draw.choice((scaled, owed, refilled, split_point))(draw, best, orders)
        if draw.random() < 0.8
        else best
    )
    new = json.loads(json.dumps(new))
    for _ in range(draw.choice((0, 0, 0, 1, 2, 3))):
        places = [it for it in inner(new) if it]
        ends = [it for it in places if type(value_at(new, it)) in (str, int)]
        *way, last = draw.choice(ends if ends and draw.random() < 0.7 else places)
        place = value_at(new, tuple(way))
        place[last] = other_value(draw, place[last])
    text = bytearray(proposed.spelled(new).encode())
    for _ in range(draw.choice((0, 0, 0, 0, 1))):
        at = draw.randrange(len(text))
        text[at : at + draw.choice((0, 1, 1))] = draw.choice(
            (b"", bytes((draw.choice(b'0123456789"-/,:[]{}ax \xff'),)))
        )
    return bytes(text)
