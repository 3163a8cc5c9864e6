"""Writes the command lines that begin the next exchange with what the accounts of a journal have.

    tools/carry-over JOURNAL > NEXT.commands

JOURNAL, or standard input where it is a minus, is the whole of what `exchange run` wrote, or
quotes, guarded or sessions. Each account whose last balance follows from the lines exactly and is
not below 0 is opened and gets its balance in deposits; each market that is not settled and owes
nothing is listed. All else cannot be carried, and is said on standard error, a line each: the
house's balance, debts, positions, live orders, balances that the lines do not tell. The status is 0
where all is carried, 1 where something is not, and 2 for bad use or a journal that is none.
"""
from __future__ import annotations

import sys
from collections.abc import Iterator

from ragvismo_tools.ending import ended, words_of
from ragvismo import journals
from ragvismo.exchange import GREATEST_DEPOSIT
from ragvismo.faults import BadJournal


def positions(journal: journals.Journal) -> dict[int, int]:
    """How many filled orders wait for the settlement of each market that has some."""
    counts: dict[int, int] = {}
    for batch in journal.batches:
        if batch.market not in journal.settled:
            counts[batch.market] = counts.get(batch.market, 0) + sum(
                order.fill > 0 for order in batch.orders
            )
    return {market: count for market, count in counts.items() if count}


def carried(journal: journals.Journal) -> Iterator[str]:
    """The lines of the next exchange."""
    for account, balance in sorted(journal.balances.items()):
        left = balance.amount
        if account == journals.HOUSE or left is None or left < 0:
            continue
        yield f"open,{account}"
        while left:
            yield f"deposit,{account},{min(left, GREATEST_DEPOSIT)}"
            left -= min(left, GREATEST_DEPOSIT)
    held = positions(journal)
    for market, underlyings in journal.markets.items():
        if market not in journal.settled and market not in held:
            yield f"market,{market},{underlyings}"


def left_behind(journal: journals.Journal) -> Iterator[str]:
    """What cannot be carried, and what may be done about it."""
    for account, balance in sorted(journal.balances.items()):
        name, amount = (
            "the house" if account == journals.HOUSE else f"account {account}"
        ), balance.amount
        if amount is None:
            yield (
                f"{name}: its balance does not follow from the lines; the command"
                f" balance,{account} at their end would tell it"
            )
        elif account == journals.HOUSE and amount:
            yield (
                f"the house has {amount}, and no command gives it that: it begins with 0, so keep"
                " the amount in books of your own"
            )
        elif amount < 0:
            advice = "let it deposit that before the end, or keep the debt in books of your own"
            yield f"account {account} owes {-amount} and is not opened: {advice}"
    for market, count in sorted(positions(journal).items()):
        yield (
            f"market {market} owes {count} position{'s' * (count > 1)} and is not listed: settle it"
            " before the end"
        )
    batched = {order.number for batch in journal.batches for order in batch.orders}
    waiting = [
        number
        for number in journal.placed
        if number not in batched and number not in journal.cancelled
    ]
    if len(waiting) > journal.lapsed:
        some = ", ".join(map(str, waiting[:10])) + (", .." if len(waiting) > 10 else "")
        among = f", {journal.lapsed} of which lapsed in a settlement" if journal.lapsed else ""
        yield f"live orders are to be placed anew: {some}{among}"


def main() -> int:
    words = words_of(__doc__)
    words.add_argument(
        "journal", metavar="JOURNAL", help="what the program wrote, or a minus for standard input"
    )
    journal = journals.read(words.parse_args().journal)
    for line in carried(journal):
        print(line)
    sys.stdout.flush()
    left = list(left_behind(journal))
    for line in left:
        print(f"carry-over: {line}", file=sys.stderr)
    return 1 if left else 0


def run() -> int:
    return ended(main, BadJournal)
