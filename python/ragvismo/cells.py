"""Covers by cells: trees over the classes of a batch's options (docs/CERTIFICATES.md)."""

from __future__ import annotations

import math
from collections.abc import Iterable, Mapping, Sequence
from fractions import Fraction
from itertools import pairwise
from typing import Any, NamedTuple

from ragvismo.faults import Unproved

Form = tuple[int, ...]
Vector = list[Fraction]
Node = dict[str, Any]
# The lists of a node in which classes and multipliers stand in turn.
FLAT = ("minus", "plus", "leaf")
# A form of an option, and how much of it the house owes; of what it is owed, less than 0.
Owed = tuple[Form, Fraction]


class Kinked(NamedTuple):
    """What is owed, by classes: `slope` at z, and for each class its kink times the positive part
    of the class at z."""

    classes: list[Form]
    kinks: Vector
    slope: Vector


class Cell(NamedTuple):
    """A part of the states: the signs that hold there, and what bounds classes there."""

    signs: Mapping[int, int]
    bounds: Mapping[int, Vector]


def class_of(form: Sequence[int]) -> tuple[int, Form]:
    """The factor of a form, and its class: entries without a common divisor, of which the first
    weight that is not 0 is above 0."""
    lead = next(weight for weight in form[1:] if weight)
    factor = math.gcd(*form) * (1 if lead > 0 else -1)
    return factor, tuple(entry // factor for entry in form)


def classes_of(forms: Iterable[Sequence[int]]) -> list[Form]:
    """The classes of forms, in the order in which they first come."""
    return list(dict.fromkeys(class_of(form)[1] for form in forms))


def kinked(owed: Sequence[Owed]) -> Kinked:
    classes = classes_of(form for form, _ in owed)
    places = {each: place for place, each in enumerate(classes)}
    kinks = [Fraction(0)] * len(classes)
    slope = [Fraction(0)] * (len(classes[0]) if classes else 0)
    for form, size in owed:
        factor, each = class_of(form)
        kinks[places[each]] += size * abs(factor)
        if factor < 0:
            slope = [of - size * abs(factor) * entry for of, entry in zip(slope, each)]
    return Kinked(classes, kinks, slope)


def multipliers_in(flat: Sequence[Any]) -> dict[int, Fraction]:
    """The multipliers of a list of classes and multipliers in turn."""
    return {class_: Fraction(by) for class_, by in zip(flat[::2], flat[1::2])}


def named(node: Node) -> list[list[int]]:
    """The classes that a node names, list by list."""
    own = [[node[key]] for key in ("split", "bound") if key in node]
    return [*own, node.get("full", []), *(node.get(key, [])[::2] for key in FLAT)]


def do_rise(numbers: Sequence[int], most: int) -> bool:
    """Whether numbers rise, from 1 on and up to the most."""
    return all(one < after for one, after in pairwise([0, *numbers, most + 1]))


def check_shape(nodes: Sequence[Node], classes: int) -> None:
    """The nodes are those of one tree, over so many classes."""
    left = 1
    for node in nodes:
        if not left:
            raise Unproved("BatchShape", "nodes stand behind the end of the tree")
        if not all(do_rise(each, classes) for each in named(node)):
            raise Unproved("BatchShape", f"the classes of a node do not rise from 1 to {classes}")
        left += 1 if "split" in node else 0 if "bound" in node else -1
    if left:
        raise Unproved("BatchShape", "the tree ends before its leaves")


def check_cells(
    nodes: Sequence[Node], owed: Sequence[Owed], liability: Fraction, size: int
) -> None:
    """Walks a tree that has its shape; `Unproved` at the first node that may not stand there, or
    leaf that is not closed. A state has `size` entries."""
    batch = kinked(owed)
    most = [liability, *[Fraction(0)] * (size - 1)]
    ahead = [Cell({}, {})]  # of each subtree that is still to come
    for node in nodes:
        signs, bounds = ahead.pop()
        class_ = node.get("split", node.get("bound"))
        if class_ in signs:
            raise Unproved("Cover", f"class {class_} has a sign already")
        if "split" in node:
            ahead += [Cell({**signs, class_: sign}, bounds) for sign in (-1, 1)]
        elif "bound" in node:
            ahead += [Cell(signs, {**bounds, class_: bound_by(node, batch, signs)})]
        else:
            entries = leaf_entries(node, batch, signs, bounds, size)
            if any(entry > limit for entry, limit in zip(entries, most)):
                raise Unproved("Cover", f"a leaf with the entries {', '.join(map(str, entries))}")


def mixed(flat: Sequence[Any], classes: Sequence[Form], signs: Mapping[int, int]) -> Vector:
    """The sum of multipliers of classes with a sign."""
    entries = [Fraction(0)] * len(classes[0])
    for class_, by in multipliers_in(flat).items():
        if by < 0 or class_ not in signs:
            raise Unproved("Cover", f"the multiplier {by} of class {class_} in a bound")
        entries = [
            of + by * signs[class_] * entry for of, entry in zip(entries, classes[class_ - 1])
        ]
    return entries


def bound_by(node: Node, batch: Kinked, signs: Mapping[int, int]) -> Vector:
    """What bounds a class, by the multipliers of others."""
    above = mixed(node["plus"], batch.classes, signs)
    beside = mixed(node["minus"], batch.classes, signs)
    own = batch.classes[node["bound"] - 1]
    return [max(one, entry + other) for one, entry, other in zip(above, own, beside)]


def leaf_entries(
    node: Node,
    batch: Kinked,
    signs: Mapping[int, int],
    bounds: Mapping[int, Vector],
    size: int,
) -> Vector:
    """The entries of the vector that bounds what is owed in a leaf."""
    multipliers = multipliers_in(node["leaf"])
    for class_ in node.get("full", []):
        if class_ in multipliers or class_ in signs or batch.kinks[class_ - 1] >= 0:
            raise Unproved("Cover", f"class {class_} may not stand with its whole kink")
        multipliers[class_] = -batch.kinks[class_ - 1]
    for class_, by in multipliers.items():
        kink = batch.kinks[class_ - 1]
        if by < 0 or (class_ not in signs and (kink >= 0 or by > -kink)):
            raise Unproved("Cover", f"the multiplier {by} of class {class_}")
    return leaf_sums(batch, multipliers, signs, bounds, size)


def leaf_sums(
    batch: Kinked,
    multipliers: Mapping[int, Fraction],
    signs: Mapping[int, int],
    bounds: Mapping[int, Vector],
    size: int,
) -> Vector:
    """What bounds the sum of what is owed, by multipliers that may stand there."""
    entries = batch.slope or [Fraction(0)] * size
    for class_, (form, kink) in enumerate(zip(batch.classes, batch.kinks), 1):
        by, sign = multipliers.get(class_, Fraction(0)), signs.get(class_, 0)
        if not sign and kink > 0:
            bound = bounds.get(class_) or [Fraction(max(0, entry)) for entry in form]
            entries = [of + kink * entry for of, entry in zip(entries, bound)]
        elif factor := by * (sign or -1) + (kink if sign > 0 else 0):
            entries = [of + factor * entry for of, entry in zip(entries, form)]
    return entries
