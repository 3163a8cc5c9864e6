#!/usr/bin/python3
"""Runs the studies of one market and of spreads on data of option quotes.

    studies/chain.py FILE.csv [--tick T] [--between LOW HIGH] [--discount D] [--at 1545|eod]
                     [--underlying] [--dividends D] [--journals FOLDER] [--program FILE]

FILE, or standard input where it is a minus, is read as `ragvismo.import_chain` says: the columns of
OptionMetrics (IvyDB) or of CBOE as they come, one chain for each underlying, expiration and time.
Prices are in ticks of T (0.01), in money of the settlement: quotes are divided by the discount D
(1), what one unit of money at settlement is worth now. --between takes the strikes from LOW to HIGH
alone. --at is the time of CBOE's quotes that is taken (1545). --underlying adds what is quoted of
the underlying, less the dividends D (0) before settlement. A chain of more than 255 orders is cut
to those around its middle. Of each chain it prints what was taken, what is matched jointly and each
option alone, and the standing and the implied spreads, in ticks, as studies/one_market.py and
studies/spreads.py do, with every line of a clear rechecked.

Nothing is kept of the data but, with --journals, the cleared lines. The program is FILE, or what
RAGVISMO_EXCHANGE names, or what ./build makes. Bad input gets one line on standard error and
status 2.
"""
from __future__ import annotations

import argparse
import pathlib
from collections.abc import Iterable

import common
import spreads
from common import BadInput, Given, Pair, Table
from ragvismo import Chain, Cleared, import_chain

TAKEN = ("Chain", "Orders", "Strikes (ticks)", "Exercise", "Units a contract", "Left out")
MATCHED = (
    *("Chain", "Orders that trade: joint", "alone", "Surplus: joint", "alone"),
    *("Quantity filled, %: joint", "alone", "Joint mark"),
)
QUOTED = (
    *("Chain", "Options", "Better", "Exact spread: own quotes", "whole book", "fall, %"),
    *("Whole: own quotes", "whole book", "fall, %"),
)

# What stands where a clear that would tell a price is not marked optimal.
UNTOLD = "not told"


def taken(chain: Chain) -> list[object]:
    """The cells of a row that tell what was taken of a chain, and what was not."""
    left = ", ".join(f"{count} {why}" for why, count in chain.left_out.items())
    strikes = "{} to {}".format(*chain.strikes) if chain.strikes else "none"
    exercise = f"{chain.exercise}, as European" if chain.exercise == "American" else chain.exercise
    about = [exercise or "not said", chain.multiplier or "not said", left or "none"]
    return [chain.name, len(chain.batch.orders), strikes, *about]


def matched(chain: Chain, pair: Pair) -> list[object]:
    """The cells of a row that tell what is matched of a chain."""
    sides = pair.joint, pair.each
    return [
        chain.name,
        *(sum(map(bool, it.fills)) for it in sides),
        *(f"{float(it.surplus):,.1f}" for it in sides),
        *(f"{common.filled_share(it):.1f}" for it in sides),
        pair.joint.mark,
    ]


def quoted(chain: Chain, found: spreads.Chain) -> list[object]:
    """The cells of a row that tell what the book of a chain says of prices, where it does."""
    better = sum(it.is_better for it in found.spreads)
    cells: list[object] = [chain.name, len(found.spreads), better if found.is_told else UNTOLD]
    for kind in ("exact", "whole"):
        own, whole = (it / max(len(found.spreads), 1) for it in found.spread(kind))
        told = [f"{whole:.2f}", f"{found.fall(kind):.1f}"] if found.is_told else [UNTOLD] * 2
        cells += [f"{own:.2f}", *told]
    return cells


def spreads_of(chain: Chain, pair: Pair, given: Given) -> tuple[spreads.Chain, list[Cleared]]:
    """What the book of a chain says of prices, and what was cleared for it."""
    try:
        return spreads.quote_chain(chain.batch, given)
    except spreads.NotOptimal:
        return spreads.unmarked(chain.batch, pair.joint), []


def report(chains: list[Chain], given: Given) -> Iterable[Table]:
    """The tables of the chains: what was taken, what is matched, and the spreads."""
    rows, more = [], []
    for place, it in enumerate(chains, 1):
        pair = common.clear_both(it.batch, given)
        found, lines = spreads_of(it, pair, given)
        common.audit([*pair, *lines], given, f"chain-{place}")
        rows.append(matched(it, pair))
        more.append(quoted(it, found))
    yield Table("What was taken.", TAKEN, list(map(taken, chains)))
    yield Table("What is matched, in ticks.", MATCHED, rows)
    yield Table("What the book says of prices, in ticks.", QUOTED, more)


def read(words: argparse.Namespace) -> list[Chain]:
    try:
        return import_chain(
            words.file,
            tick=words.tick,
            discount=words.discount,
            at=words.at,
            between=(words.between[0], words.between[1]),
            underlying=words.underlying,
            dividends=words.dividends,
        )
    except ValueError as fault:
        raise BadInput(str(fault)) from None


def main() -> None:
    words = common.words_of(__doc__)
    words.add_argument("file", type=pathlib.Path, metavar="FILE.csv")
    words.add_argument("--tick", default="0.01", metavar="T")
    words.add_argument("--between", nargs=2, default=("0", "1e9"), metavar=("LOW", "HIGH"))
    words.add_argument("--discount", default="1", metavar="D")
    words.add_argument("--at", choices=("1545", "eod"), default="1545")
    words.add_argument("--underlying", action="store_true")
    words.add_argument("--dividends", default="0", metavar="D")
    given = words.parse_args()
    tables = report(read(given), Given(given.program, given.journals))
    print("\n".join(map(str, tables)), end="")


if __name__ == "__main__":
    common.end_by(main)
