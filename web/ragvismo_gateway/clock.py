"""What is to come in each market, and when: for the clock of a page."""

from __future__ import annotations

import json
import pathlib
import time
from typing import Any, NamedTuple

from ragvismo_gateway.view import Market
from ragvismo_service.statuses import BadUse


class Clock(NamedTuple):
    """How often an auctioneer begins an auction, 0 where none does, and which lines of the operator
    are said when; all in milliseconds. And the markets of the auctioneer; none are all."""

    auctions: int = 0
    steps: tuple[tuple[int, str], ...] = ()
    auctioned: frozenset[int] = frozenset()

    def next(self, number: int, market: Market) -> dict[str, Any] | None:
        """What is done next in a market, and when; an auction that is due begins when there are
        orders."""
        now, found = now_in_milliseconds(), list[tuple[int, str]]()
        is_auctioned = self.auctions and (not self.auctioned or number in self.auctioned)
        if is_auctioned and market.phase == "open":
            found.append((market.began + self.auctions, "clear"))
        for at, line in self.steps:
            word, *fields = line.split(",")
            if at > now and fields[:1] == [str(number)]:
                found.append((at, word))
        if not found:
            return None
        at, word = min(found)
        return {"at": at, "does": word}


def now_in_milliseconds() -> int:
    return int(time.time() * 1000)


def read(path: str) -> tuple[tuple[int, str], ...]:
    """The steps that a file tells; raises BadUse."""
    try:
        return tuple(
            (int(at), str(line)) for at, line in json.loads(pathlib.Path(path).read_text())
        )
    except (OSError, ValueError, TypeError) as fault:
        raise BadUse(f"{path} tells no timetable: {fault}") from None
