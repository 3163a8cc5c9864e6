"""What is wrong with the text of a proposal, in words."""
from __future__ import annotations

import json
import math
import re
from collections.abc import Callable, Sequence
from itertools import pairwise
from typing import Any, NoReturn

LIMIT = 2**127 - 1
KEYS = ("certificate", "fills", "liability", "orders", "surplus")
WHOLE = re.compile(r"0|-?[1-9][0-9]*")
FRACTION = re.compile(r"(0|-?[1-9][0-9]*)|(-?[1-9][0-9]*)/([2-9]|[1-9][0-9]+)")
# The most nodes of a cover by cells, and the most classes in their lists.
MOST_CELLS, MOST_LISTED = 100_000, 1_000_000
MOST_NODES, MOST_POINTS = 20_000, 1_024
# How deep the lists and objects of a text may stand in one another.
DEPTH = 127


class Wrong(Exception):
    """The first thing that is wrong."""


def wrong(said: str) -> NoReturn:
    raise Wrong(said)


def shown(value: Any) -> str:
    text = json.dumps(value)
    return text if len(text) <= 40 else f"{text[:37]}.."


def size(digits: str) -> int:
    """The size of a number text; of a long one, some size above the limit."""
    return abs(int(digits[:42]))


def keyed(value: Any, at: str, keys: Sequence[str]) -> None:
    """An object with these keys and no other."""
    if type(value) is not dict:
        wrong(f"{at} is {shown(value)}; an object with {', '.join(keys)} may stand there")
    for key in keys:
        if key not in value:
            wrong(f"{at} has no {key}")
    over = next((key for key in value if key not in keys), None)
    if over is not None:
        wrong(f"{at} has {shown(over)}, and may have {', '.join(keys)} alone")


def listed(
    value: Any, at: str, item: Callable[[Any, str], None], least: int = 0, most: int | None = None
) -> None:
    """A list, each item of one kind; places count from 1."""
    if type(value) is not list:
        wrong(f"{at} is {shown(value)}; a list may stand there")
    if len(value) < least or (most is not None and len(value) > most):
        wrong(
            f"{at} has {len(value)} items, and may have"
            f" {f'{least} to ' if least else 'at most '}{most}"
        )
    for place, each in enumerate(value, 1):
        item(each, f"item {place} of {at}")


def whole(value: Any, at: str, least: int, greatest: int) -> None:
    if type(value) is not int or not least <= value <= greatest:
        wrong(f"{at} is {shown(value)}; a whole number from {least} to {greatest} may stand there")


def fraction(value: Any, at: str) -> None:
    """A text as the exchange prints a fraction."""
    if type(value) is not str or not FRACTION.fullmatch(value):
        wrong(f'{at} is {shown(value)}; a text like "0", "5" or "-3/7" may stand there')
    parts = [size(part) for part in value.split("/")]
    if max(parts) > LIMIT:
        wrong(f"{at} has a numerator or denominator above 2^127 - 1")
    if len(parts) == 2 and math.gcd(*parts) != 1:
        wrong(f"{at} is {shown(value)}, which is not in lowest terms")


def entry(value: Any, at: str) -> None:
    if (
        type(value) is not str
        or not WHOLE.fullmatch(value)
        or value.startswith("-")
        or size(value) > LIMIT
    ):
        wrong(
            f"{at} is {shown(value)}; the text of a whole number from 0 to 2^127 - 1 may stand"
            ' there, like "12"'
        )


def point(value: Any, at: str) -> None:
    keyed(value, at, ("state", "weight"))
    listed(value["state"], f"the state of {at}", entry, 2, 9)
    if all(each == "0" for each in value["state"]):
        wrong(f"the state of {at} is all 0")
    fraction(value["weight"], f"the weight of {at}")


def multiplier(value: Any, at: str) -> None:
    keyed(value, at, ("at", "by"))
    whole(value["at"], f"the place of {at}", 1, 1024)
    fraction(value["by"], f"the factor of {at}")


def node(value: Any, at: str) -> None:
    if type(value) is dict and "leaf" in value:
        keyed(value, at, ("leaf",))
        listed(value["leaf"], f"the leaf of {at}", multiplier)
    else:
        keyed(value, at, ("split",))
        whole(value["split"], f"the split of {at}", 1, 1024)


def classes(value: Any, at: str) -> None:
    """Classes that rise."""
    listed(value, at, lambda each, place: whole(each, place, 1, 1024))
    for one, after in pairwise(value):
        if one >= after:
            wrong(f"{at} has the class {after} behind {one}, and its classes rise")


def flat(value: Any, at: str) -> None:
    """Classes that rise, each before its multiplier."""
    listed(value, at, lambda each, place: None)
    if len(value) % 2:
        wrong(f"{at} ends with a class, behind which its multiplier is missing")
    classes(value[::2], f"the classes of {at}")
    listed(value[1::2], f"the multipliers of {at}", fraction)


def cell(value: Any, at: str) -> None:
    if type(value) is dict and "bound" in value:
        keyed(value, at, ("bound", "minus", "plus"))
        whole(value["bound"], f"the bound of {at}", 1, 1024)
        flat(value["minus"], f"the minus of {at}")
        flat(value["plus"], f"the plus of {at}")
    elif type(value) is dict and "leaf" in value:
        keyed(value, at, ("full", "leaf") if "full" in value else ("leaf",))
        flat(value["leaf"], f"the leaf of {at}")
        classes(value.get("full", [1]), f"the full of {at}")
        if value.get("full") == []:
            wrong(f"the full of {at} is empty, and is left out then")
    else:
        keyed(value, at, ("split",))
        whole(value["split"], f"the split of {at}", 1, 1024)


def at_most(value: Any, at: str, what: str, most: int) -> None:
    if len(value) > most:
        wrong(f"{at} has {len(value)} {what}, and may have {most}")


def cells(value: Any, at: str) -> None:
    keyed(value, at, ("cells",))
    listed(value["cells"], f"the cells of {at}", cell)
    at_most(value["cells"], at, "nodes", MOST_CELLS)
    lists = [each for it in value["cells"] for each in it.values() if type(each) is list]
    named = sum(type(each) is int for it in lists for each in it)
    if named > MOST_LISTED:
        wrong(f"the lists of {at} have {named} classes, and may have {MOST_LISTED}")


def cover(value: Any, at: str) -> None:
    if type(value) is dict:
        cells(value, at)
    elif type(value) is list:
        listed(value, at, node)
        at_most(value, at, "nodes", MOST_NODES)
    elif value not in ("line", "match"):
        wrong(
            f'{at} is {shown(value)}; "line", "match", a list of nodes, or an object with cells'
            " may stand there"
        )


def certificate(value: Any, at: str) -> None:
    keyed(value, at, ("cover", "measure"))
    cover(value["cover"], "the cover")
    listed(value["measure"], "the measure", point)
    at_most(value["measure"], "the measure", "points", MOST_POINTS)


def order(value: Any, at: str) -> None:
    whole(value, at, 1, 10**6)


def value_of(text: str) -> Any:
    """The JSON value of a text."""

    def number(digits: str) -> int | float:
        if digits == "-0":
            return -0.0
        return int(digits) if len(digits) < 30 else float(digits)

    def constant(name: str) -> NoReturn:
        raise ValueError(f"{name} is no number of JSON")

    def depth(value: Any) -> int:
        inner = value.values() if type(value) is dict else value if type(value) is list else ()
        return (type(value) in (dict, list)) + max(map(depth, inner), default=0)

    try:
        value = json.loads(text, parse_int=number, parse_constant=constant)
        deep = depth(value) > DEPTH
    except RecursionError:
        deep = True
    except ValueError as fault:
        wrong(f"it is no JSON: {fault}")
    return (
        wrong(f"its lists and objects stand more than {DEPTH} deep in one another")
        if deep
        else value
    )


def spelled(text: str, value: Any) -> None:
    """The text is the one that the exchange would print."""
    print_ = json.dumps(value, separators=(",", ":"), sort_keys=True)
    if print_ == text:
        return
    at = next(
        (place for place, (a, b) in enumerate(zip(text, print_)) if a != b),
        min(len(text), len(print_)),
    )
    there, better = (
        shown(each[at : at + 12]) if at < len(each) else "nothing" for each in (text, print_)
    )
    wrong(
        f"at its sign {at + 1} stands {there}, where the exchange spells {better} (no blanks, and"
        " keys in the order of their letters)"
    )


def fault_in(text: str) -> str | None:
    """What is wrong with the text of a proposal, if anything."""
    try:
        value = value_of(text)
        keyed(value, "the proposal", KEYS)
        certificate(value["certificate"], "the certificate")
        listed(value["fills"], "the fills", fraction)
        fraction(value["liability"], "the liability")
        listed(value["orders"], "the orders", order, most=256)
        fraction(value["surplus"], "the surplus")
        spelled(text, value)
    except Wrong as fault:
        return str(fault)
    return None
