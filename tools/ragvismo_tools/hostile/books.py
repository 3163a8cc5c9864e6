"""Random books that are proposed for: a trial of tools/hostile."""

from __future__ import annotations

import pathlib
from collections.abc import Sequence
from typing import Any
import json
import math
import random
import sys
from fractions import Fraction

from ragvismo_tools import proposed
from ragvismo_tools.hostile.proposals import SecondCheck
from ragvismo_tools.hostile.trial import expect, run


Reply = dict[str, Any]
Limits = dict[str, int]


# Random books: the weights, strikes, prices, quantities and counts are to a limit of their own in
# each.
def spread_number(draw: random.Random, most: int) -> int:
    """A whole number from 1 to a limit, of any number of digits."""
    return min(most, round(10 ** draw.uniform(0, math.log10(most))))


def random_leg(
    draw: random.Random, underlyings: int, prices: Sequence[int], most: Limits
) -> tuple[list[int], int]:
    """A leg, and what one of it pays at the prices: a strike is near what its weights are worth
    there, or anywhere."""
    weights = [
        draw.choice((0, 1, -1)) * spread_number(draw, most["weight"]) for _ in range(underlyings)
    ]
    weights = weights if any(weights) else [1] * underlyings
    worth = sum(weight * price for weight, price in zip(weights, prices))
    strike = draw.choice(
        (
            worth + draw.choice((1, -1)) * spread_number(draw, most["strike"]),
            draw.randint(-(10**9), 10**9),
        )
    )
    strike, turned = max(-(10**9), min(10**9, strike)), draw.choice((1, -1))
    form = [-turned * strike, *(turned * weight for weight in weights)]
    return form, max(turned * (worth - strike), 0)


def random_order(
    draw: random.Random, number: int, underlyings: int, prices: Sequence[int], most: Limits
) -> Reply:
    legs: list[Reply] = []
    worth, room = 0, spread_number(draw, most["quantity"])
    for _ in range(draw.choice((1, 1, 1, 2, 3, 4))):
        form, pays = random_leg(draw, underlyings, prices, most)
        count = draw.choice((1, 1, -1, spread_number(draw, most["count"])))
        legs.append({"count": count, "form": form})
        worth += count * pays
    quantity = max(1, min(room, 10**6 // sum(abs(leg["count"]) for leg in legs)))
    price = max(
        0, min(10**12, worth + draw.choice((1, -1)) * spread_number(draw, most["strike"]))
    )
    return {
        "account": draw.randint(1, 999_999_999),
        "legs": legs,
        "order": number,
        "price": price,
        "quantity": quantity,
        "side": draw.choice(("buy", "sell")),
    }


def random_book(draw: random.Random, line: int) -> Reply:
    """A book reply as `serve` prints it."""
    underlyings, count = draw.choice((1, 1, 2, 3, draw.randint(4, 8))), draw.choice(
        (0, 1, 2, draw.randint(3, 12), draw.randint(3, 40))
    )
    limits = {
        "weight": (1, 3, 1000),
        "strike": (10, 1000, 10**9),
        "quantity": (1, 10, 10**6),
        "count": (1, 3, 1000),
    }
    most = {name: draw.choice(values) for name, values in limits.items()}
    prices = [draw.randint(0, draw.choice((100, 10**6, 10**9))) for _ in range(underlyings)]
    numbers = sorted(draw.sample(range(1, 1_000_001), count))
    orders = [random_order(draw, number, underlyings, prices, most) for number in numbers]
    return {
        "line": line,
        "market": draw.randint(1, 999_999_999),
        "orders": orders,
        "reply": "book",
        "underlyings": underlyings,
    }


def no_book(draw: random.Random, text: bytes) -> bytes:
    """A line that is near a book's, and is none."""
    changes = (
        (b'"reply":"book"', b'"reply":"placed"'),
        (b'"orders":', b'"orders": '),
        (b'"underlyings":', b'"underlyings":0'),
        (b'"line":', b'"line":-'),
    )
    old, new = draw.choice(changes)
    return draw.choice(
        (text.replace(old, new, 1), text[:-1], text + b" ", b"book,1", b"\xff" + text)
    )


def proposed_soundly(book: Reply, line: bytes) -> bool:
    """Whether a line proposes more than nothing for a book; it is judged a bound for it by a check
    that shares no code."""
    head = b"propose,%d," % book["market"]
    expect(line.startswith(head), f"{line[:200]!r} for {proposed.spelled(book)}")
    text = line.removeprefix(head).removesuffix(b"\n")
    found = SecondCheck(book).fails(text, None)
    expect(found == "", f"{found}: {text[:2000]!r} for {proposed.spelled(book)}")
    return Fraction(json.loads(text)["surplus"]) > 0


def propose(program: pathlib.Path, quick: bool) -> tuple[int, str]:
    sys.setrecursionlimit(20_000)
    draw, filled, count = random.Random("propose"), 0, 100 if quick else 10_000
    for first in range(1, count + 1, 50):
        books = [random_book(draw, line) for line in range(first, first + 50)]
        texts = [proposed.spelled(book).encode() for book in books]
        others = [no_book(draw, text) for text in texts]
        lines = b"".join(b"%s\n%s\n" % pair for pair in zip(texts, others))
        status, out, said = run(program, "propose", lines)
        told = out.splitlines(True)
        expect(
            (status, said, len(told)) == (0, b"", len(books)),
            f"status {status}, {len(told)} lines, {said[-200:]!r}: {lines[:2000]!r}",
        )
        filled += sum(proposed_soundly(book, line) for book, line in zip(books, told))
    return (
        count,
        (
            f"each book is answered by a line that the second check calls a bound, {filled:,} of"
            " them with a surplus; as many lines that are no books by nothing"
        ),
    )
