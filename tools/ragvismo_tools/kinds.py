"""Kinds of values in reply lines, as the plain check reads them."""

from __future__ import annotations

from collections.abc import Callable
from typing import Any, Protocol
import math
import re
from fractions import Fraction

LIMIT = 2**127 - 1
WHOLE = re.compile(r"0|-?[1-9][0-9]*")
FRACTION = re.compile(r"(0|-?[1-9][0-9]*)|(-?[1-9][0-9]*)/([2-9]|[1-9][0-9]+)")


# A value of JSON, and an object of it.
Value = dict[str, Any]
Test = Callable[[Any], bool]


class Kind(Protocol):
    """A kind of values. Each walks over one value three times: its shape, the grammar of its texts,
    its ranges."""

    def shape(self, value: Any) -> None:
        ...

    def grammar(self, value: Any) -> None:
        ...

    def ranges(self, value: Any) -> None:
        ...


class Fault(Exception):
    """The first thing that is wrong with a line, by its name in the report."""


def demand(holds: object, reason: str) -> None:
    if not holds:
        raise Fault(reason)


def size(digits: str) -> int:
    """The size of a number text; of a long one, some size above every limit: Python reads no number
    of some thousand digits."""
    return abs(int(digits[:42]))


# Kinds of values. Each walks over one value three times: its shape, the grammar of its texts, its
# ranges.


class Number:
    def __init__(self, least: int, greatest: int) -> None:
        self.least, self.greatest = least, greatest

    def shape(self, value: Any) -> None:
        demand(type(value) is int and -(2**63) <= value < 2**64, "Shape")

    def grammar(self, value: Any) -> None:
        pass

    def ranges(self, value: Any) -> None:
        demand(self.least <= value <= self.greatest, "Range")


class Text:
    """A fraction, or a whole number alone, of a least value and a greatest size."""

    def __init__(self, fraction: bool, least: int | None = None, size: int = LIMIT) -> None:
        self.fraction, self.least, self.size = fraction, least, size

    def shape(self, value: Any) -> None:
        demand(type(value) is str, "Shape")

    def grammar(self, value: Any) -> None:
        demand((FRACTION if self.fraction else WHOLE).fullmatch(value), "Number")
        parts = [size(part) for part in value.split("/")]
        if len(parts) == 2 and max(parts) <= LIMIT:
            demand(math.gcd(*parts) == 1, "Number")

    def ranges(self, value: Any) -> None:
        demand(all(size(part) <= self.size for part in value.split("/")), "Range")
        demand(self.least is None or Fraction(value) >= self.least, "Range")


class Told:
    """A word, or else a text of this kind."""

    def __init__(self, text: Kind, *words: Any) -> None:
        self.text, self.words = text, words

    def shape(self, value: Any) -> None:
        self.text.shape(value)

    def grammar(self, value: Any) -> None:
        if value not in self.words:
            self.text.grammar(value)

    def ranges(self, value: Any) -> None:
        if value not in self.words:
            self.text.ranges(value)


class Word:
    def __init__(self, *words: Any) -> None:
        self.words = words

    def shape(self, value: Any) -> None:
        is_kind = isinstance(value, type(self.words[0])) and not isinstance(value, bool)
        demand(is_kind and value in self.words, "Shape")

    def grammar(self, value: Any) -> None:
        pass

    ranges = grammar


class Truth:
    """True or false."""

    def shape(self, value: Any) -> None:
        demand(type(value) is bool, "Shape")

    def grammar(self, value: Any) -> None:
        pass

    ranges = grammar


class Many:
    """A list of one kind; lengths of the shape, the most items of the range, and a further test of
    the range."""

    def __init__(
        self,
        kind: Kind,
        least: int = 0,
        most: int | None = None,
        range_most: int | None = None,
        test: Test | None = None,
    ) -> None:
        self.kind, self.least, self.most, self.range_most, self.test = (
            kind,
            least,
            most,
            range_most,
            test,
        )

    def shape(self, value: Any) -> None:
        demand(type(value) is list and len(value) >= self.least, "Shape")
        demand(self.most is None or len(value) <= self.most, "Shape")
        for item in value:
            self.kind.shape(item)

    def grammar(self, value: Any) -> None:
        for item in value:
            self.kind.grammar(item)

    def ranges(self, value: Any) -> None:
        demand(self.range_most is None or len(value) <= self.range_most, "Range")
        for item in value:
            self.kind.ranges(item)
        demand(self.test is None or self.test(value), "Range")


class Keys:
    """An object with exactly these keys, and a further test of the range."""

    def __init__(self, test: Test | None = None, **kinds: Kind) -> None:
        self.kinds, self.test = kinds, test

    def shape(self, value: Any) -> None:
        demand(type(value) is dict and value.keys() == self.kinds.keys(), "Shape")
        for key, kind in self.kinds.items():
            kind.shape(value[key])

    def grammar(self, value: Any) -> None:
        for key, kind in self.kinds.items():
            kind.grammar(value[key])

    def ranges(self, value: Any) -> None:
        for key, kind in self.kinds.items():
            kind.ranges(value[key])
        demand(self.test is None or self.test(value), "Range")


class Either:
    """One of several kinds, told by a test of the value."""

    def __init__(self, pick: Callable[[Any], Kind]) -> None:
        self.pick = pick

    def shape(self, value: Any) -> None:
        self.pick(value).shape(value)

    def grammar(self, value: Any) -> None:
        self.pick(value).grammar(value)

    def ranges(self, value: Any) -> None:
        self.pick(value).ranges(value)


class InTurn:
    """A list of two kinds in turn."""

    def __init__(self, first: Kind, second: Kind, test: Test) -> None:
        self.first, self.second, self.test = Many(first), Many(second), test

    def shape(self, value: Any) -> None:
        demand(type(value) is list and len(value) % 2 == 0, "Shape")
        self.first.shape(value[::2])
        self.second.shape(value[1::2])

    def grammar(self, value: Any) -> None:
        self.second.grammar(value[1::2])

    def ranges(self, value: Any) -> None:
        self.first.ranges(value[::2])
        self.second.ranges(value[1::2])
        demand(self.test(value[::2]), "Range")
