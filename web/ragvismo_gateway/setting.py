"""What an exchange begins with: markets, members with what they have, and a timetable.

A file of JSON tells it, as web/demonstration.json does:

    {"markets": [{"market": 1, "underlyings": 1}],
     "members": [{"name": "ana", "account": 101, "ticks": 1000, "lines": []}],
     "timetable": [{"at": 300, "line": "clear,1,2000"}, {"at": 600, "line": "end"}],
     "auctions": 120}

Each member opens its account, gets its ticks, and says its lines. The lines of the timetable are
the operator's, each said so many seconds after the beginning; at `end` the exchange ends. Each
market is closed, offered to solvers and cleared all so many seconds of `auctions`. What is left out
is not done.
"""

from __future__ import annotations

import json
import pathlib
import re
from collections.abc import Callable, Iterator
from typing import Any, NamedTuple

from ragvismo_gateway.members import NAME
from ragvismo_service.statuses import BadUse

END = "end"
Kinds = dict[str, Callable[[Any], Any]]
OPERATORS = re.compile(r"(market|deposit|close|reopen|clear|settle),[0-9,]+")
LINE = re.compile(r"[a-z0-9,-]+")
WEEK = 7 * 24 * 60 * 60


class Person(NamedTuple):
    """A member with an account, what is deposited there, and what it says first."""

    name: str
    account: int
    ticks: int
    lines: list[str]


class Step(NamedTuple):
    """A line of the operator, and after how many seconds it is said."""

    at: float
    line: str


class Setting(NamedTuple):
    """What a file tells; there are no auctions where their seconds are 0."""

    markets: list[tuple[int, int]]
    members: list[Person]
    timetable: list[Step]
    auctions: float

    def lines(self, operator: str) -> Iterator[tuple[str, str]]:
        """Who says what before it begins, in this order."""
        for market, underlyings in self.markets:
            yield operator, f"market,{market},{underlyings}"
        for person in self.members:
            yield person.name, f"open,{person.account}"
            if person.ticks:
                yield operator, f"deposit,{person.account},{person.ticks}"
        for person in self.members:
            yield from ((person.name, line) for line in person.lines)


EMPTY = Setting([], [], [], 0.0)


def number(least: int, most: int) -> Callable[[Any], int]:
    """What takes a whole number in a range; it raises ValueError."""

    def take(told: Any) -> int:
        if type(told) is not int or not least <= told <= most:
            raise ValueError(f"{told!r} is no number from {least} to {most}")
        return told

    return take


def text(form: re.Pattern[str]) -> Callable[[Any], str]:
    """What takes a text of a form; it raises ValueError."""

    def take(told: Any) -> str:
        if not isinstance(told, str) or not form.fullmatch(told):
            raise ValueError(f"{told!r} is not as it should be")
        return told

    return take


def seconds(told: Any) -> float:
    if not isinstance(told, (int, float)) or not 0 <= told <= WEEK:
        raise ValueError(f"{told!r} is no number of seconds")
    return float(told)


def all_of(take: Callable[[Any], Any]) -> Callable[[Any], list[Any]]:
    """What takes a list of which each is taken; it raises ValueError."""

    def taken(told: Any) -> list[Any]:
        if not isinstance(told, list):
            raise ValueError(f"{told!r} is no list")
        return [take(each) for each in told]

    return taken


NUMBER = number(1, 999_999_999)
MARKET: Kinds = {"market": NUMBER, "underlyings": number(1, 8)}
MEMBER: Kinds = {
    "name": text(NAME),
    "account": NUMBER,
    "ticks": number(0, 10**15),
    "lines": all_of(text(LINE)),
}
STEP: Kinds = {"at": seconds, "line": text(re.compile(f"{END}|{OPERATORS.pattern}"))}


def record(kinds: Kinds, told: Any, **usual: Any) -> dict[str, Any]:
    """An object with just these keys, of which those that are usual may be missing; raises
    ValueError."""
    if not isinstance(told, dict):
        raise ValueError(f"{told!r} is no object")
    given = {**usual, **told}
    if given.keys() != kinds.keys():
        raise ValueError(f"the keys are not {', '.join(kinds)}, but {', '.join(map(str, told))}")
    return {key: take(given[key]) for key, take in kinds.items()}


def markets_of(told: Any) -> tuple[int, int]:
    market, underlyings = record(MARKET, told).values()
    return market, underlyings


def person_of(told: Any) -> Person:
    return Person(**record(MEMBER, told, ticks=0, lines=[]))


def step_of(told: Any) -> Step:
    return Step(**record(STEP, told))


KINDS: Kinds = {
    "markets": all_of(markets_of),
    "members": all_of(person_of),
    "timetable": all_of(step_of),
    "auctions": seconds,
}


def read(path: pathlib.Path) -> Setting:
    """What a file tells; raises BadUse."""
    try:
        told = json.loads(path.read_bytes())
        usual: dict[str, Any] = EMPTY._asdict()
        setting = Setting(**record(KINDS, told, **usual))
    except (OSError, ValueError, RecursionError) as fault:
        raise BadUse(f"{path} tells no exchange: {fault}") from None
    names = [person.name for person in setting.members]
    if len(set(names)) < len(names):
        raise BadUse(f"{path} tells a member twice")
    return setting._replace(timetable=sorted(setting.timetable, key=lambda step: step.at))
