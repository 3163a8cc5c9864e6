"""Reads whole journals: the batches, payouts and orders of a run, and the balances that follow.

Balances need no trust in a solver: an account begins with 0, deposits and withdrawals tell its
balance, a batch moves the cash of its filled orders, in whole ticks, rounded for the house, and a
settlement moves its payouts.
"""

from __future__ import annotations

import json
import os
import sys
from collections.abc import Callable, Iterator
from typing import Any, NamedTuple

from ragvismo import cleared
from ragvismo.cleared import Cleared
from ragvismo.faults import BadJournal

HOUSE = 0
# Replies that move nothing.
BESIDE = (
    "refused",
    "quoted",
    "priced",
    "margin",
    "book",
    "positions",
    "proposed",
    "closed",
    "reopened",
    "secured",
    "need",
    "tried",
)
Path = str | os.PathLike[str]
FAULTS = (
    KeyError,
    TypeError,
    ValueError,
    ZeroDivisionError,
    OverflowError,
    StopIteration,
    AttributeError,
    IndexError,
    RecursionError,
)


class Payout(NamedTuple):
    line: int
    market: int
    batch: int
    order: int
    account: int
    amount: int


class Balance(NamedTuple):
    """What an account has, or None where the lines do not tell it, and the line that moved or told
    it last."""

    amount: int | None
    line: int


class Journal:
    """What the lines that were taken tell."""

    def __init__(self) -> None:
        self.balances: dict[int, Balance] = {HOUSE: Balance(0, 0)}
        self.markets: dict[int, int] = {}
        self.settled: set[int] = set()
        self.placed: dict[int, int] = {}
        self.cancelled: set[int] = set()
        self.lapsed = 0
        self.batches: list[Cleared] = []
        self.payouts: list[Payout] = []
        self.last_order = 0
        self.house_is_told = False

    def take(self, reply: dict[str, Any], text: str) -> None:
        """Takes one reply, in order, with its line."""
        line, word = reply["line"], reply["reply"]
        if word == "opened":
            self.balances[reply["account"]] = Balance(0, line)
        elif word in ("deposited", "withdrawn"):
            self.tell(
                reply["account"],
                int(reply["balance"]),
                line,
                {"deposited": 1, "withdrawn": -1}[word],
            )
        elif word == "balance":
            self.tell(reply["account"], int(reply["balance"]), line, 0)
        elif word == "listed":
            self.markets[reply["market"]] = reply["underlyings"]
        elif word == "placed":
            self.follows(reply["order"], self.last_order, line)
            self.last_order = reply["order"]
            self.placed[reply["order"]] = line
        elif word == "cancelled":
            self.cancelled.add(reply["order"])
        elif word == "cleared":
            self.clear(cleared.read(reply, text))
        elif word == "settled":
            self.settle(reply)
        elif word not in BESIDE:
            raise ValueError("a reply of another word")

    def tell(self, account: int, amount: int, line: int, turn: int) -> None:
        """A line tells a balance after it rose (1), fell (-1) or stood (0)."""
        known = self.balances.get(account, Balance(None, 0)).amount
        if account != HOUSE and account not in self.balances:
            self.begins_late()
        moved = 0 if known is None else amount - known
        if known is not None and (moved > 0) - (moved < 0) != turn:
            told = f"line {line} tells a balance of account {account} that does not follow"
            raise BadJournal(f"{told}: lines are missing or changed")
        self.house_is_told |= account == HOUSE
        self.balances[account] = Balance(amount, line)

    def follows(self, number: int, last: int, line: int) -> None:
        """Orders and batches are numbered one by one."""
        if last and number != last + 1:
            raise BadJournal(
                f"line {line} has the number {number} after {last}: lines are missing or changed"
            )
        if not last and number != 1:
            self.begins_late()

    def begins_late(self) -> None:
        """The lines begin within a run: nobody knows what the house has until a line tells it."""
        if not self.house_is_told:
            self.balances[HOUSE] = Balance(None, self.balances[HOUSE].line)

    def move(self, account: int, amount: int, line: int) -> None:
        """An account gains an amount of the house."""
        for each, gain in ((account, amount), (HOUSE, -amount)):
            if each not in self.balances:
                self.begins_late()
            has = self.balances.get(each, Balance(None, 0)).amount
            self.balances[each] = Balance(None if has is None else has + gain, line)

    def clear(self, batch: Cleared) -> None:
        self.follows(batch.number, self.batches[-1].number if self.batches else 0, batch.line)
        for order in batch.orders:
            if order.fill:
                self.move(order.account, order.cash, batch.line)
        self.batches.append(batch)

    def settle(self, reply: dict[str, Any]) -> None:
        self.settled.add(reply["market"])
        self.lapsed += reply["lapsed"]
        for each in reply["payouts"]:
            paid = Payout(
                reply["line"],
                reply["market"],
                each["batch"],
                each["order"],
                each["account"],
                int(each["amount"]),
            )
            self.move(paid.account, paid.amount, paid.line)
            self.payouts.append(paid)


def lines(path: Path) -> Iterator[str]:
    """The lines of a journal; of standard input where the path is a minus."""
    if path == "-" and sys.stdin is None:
        raise BadJournal("there is no standard input")
    with open(0 if path == "-" else path, encoding="ascii", closefd=path != "-") as journal:
        yield from journal


def take_all(path: Path, take: Callable[[dict[str, Any], str], None]) -> None:
    """Takes the replies of a journal one by one, each with its line. Replies of messages are taken
    out of their answers, each once; what is told to questions is left out: of replies with one
    number the last is the line's. Raises `BadJournal` where the file cannot be read, or a line is
    no reply, or its number does not follow.
    """
    held: tuple[int, dict[str, Any], str] | None = None
    place, last, decode = 0, 0, json.JSONDecoder().raw_decode
    try:
        for number, text in enumerate(lines(path), 1):
            place = number
            answer, end = decode(text)
            if text[end:] not in ("\n", ""):
                raise ValueError("more than one object on a line")
            reply = answer.get("of", answer)
            if reply["reply"] == "gate" or answer.get("reply") == "asked":
                continue
            if reply is not answer and reply["line"] <= last:
                continue
            if reply["line"] < max(last, 1):
                told = f"line {place} of {path} has the number {reply['line']} after {last}"
                raise BadJournal(f"{told}: it is no journal of one run")
            if held and reply["line"] > last:
                place = held[0]
                take(*held[1:])
            last = reply["line"]
            held = (number, reply, text[:end] if reply is answer else "")
        if held:
            place = held[0]
            take(*held[1:])
    except UnicodeDecodeError:
        raise BadJournal(f"{path} is no journal: it is not ASCII") from None
    except FAULTS:
        raise BadJournal(f"line {place} of {path} is no reply line") from None
    except OSError as fault:
        raise BadJournal(f"{path} cannot be read: {fault.strerror}") from None


def read(path: Path) -> Journal:
    """All that a journal tells, or standard input where the path is a minus; `BadJournal`."""
    journal = Journal()
    take_all(path, journal.take)
    return journal


def read_batch(path: Path, number: int | None = None) -> Cleared:
    """The batch of a journal with a number, or its last; `BadJournal`, also where there is none."""
    found: list[Cleared] = []

    def take(reply: dict[str, Any], text: str) -> None:
        if reply["reply"] == "cleared" and number in (None, reply["batch"]):
            found[:] = [cleared.read(reply, text)]

    take_all(path, take)
    if not found:
        raise BadJournal(f"{path} clears no batch" + ("" if number is None else f" {number}"))
    return found[0]
