"""Quotes and margins: tables of tools/bench."""

from __future__ import annotations

import pathlib
import random
import re
import sys
from fractions import Fraction

from ragvismo_tools import counted, timing
from ragvismo_tools.batches import batch, opened
from ragvismo_tools.bench.clears import cleared
from ragvismo_tools.timing import least, run, spread, table


class Unmarked(Exception):
    """A clear that is not marked optimal."""


def probes(
    program: pathlib.Path, before: list[str], side: str, kind: str, strike: int
) -> tuple[str, list[int]]:
    """(price, units of each probe) of one side of a quote, by clears of the live orders with one
    order more (docs/MODEL.md)."""
    units = []

    def surplus(*further: str) -> Fraction:
        reply = run([program], ["run"], "\n".join([*before, *further, "clear,1,20000"]), keep=True)[
            1
        ]
        unit, mark = cleared(reply)
        units.append(unit)
        if mark != "optimal":
            raise Unmarked
        return Fraction(re.findall(r'"surplus":"([^"]*)"', reply)[-1])

    def raises(price: int) -> bool:
        return base < surplus(f"{side},40,1,{kind},{strike},{price},1,1")

    raising, other = (10**12, 0) if side == "buy" else (0, 10**12)
    try:
        base = surplus()
        if not raises(raising):
            return "never", units
        if raises(other):
            return str(other), units
        while abs(raising - other) > 1:
            middle = (raising + other) // 2
            raising, other = (middle, other) if raises(middle) else (raising, middle)
        return str(raising), units
    except Unmarked:
        return "unmarked", units


def quotes(program: pathlib.Path, quick: bool) -> None:
    """A quote is a bid and an ask, each by clears of the live orders with one order more; what is
    asked is an option that may be live. Its probes are done again as clears of run, which tell
    their units and must lead to the same prices. The same is asked by the line price of serve,
    which finds them along lines."""
    rows = []
    for orders in (20, 100, 255):
        seconds, along, counts, units, memory = [], [], [], [], 0.0
        prices: list[str] = []
        for number in range(2 if quick else 10 if orders < 255 else 5):
            draw = random.Random(f"quotes {orders} {number}")
            before = opened(40, 1) + batch(draw, orders, 100)
            kind, strike = draw.choice(("call", "put")), draw.randint(1, 100)
            whole = "\n".join(before + [f"quote,1,20000,{kind},{strike},1"])
            spent, used = least(program, ["quotes"], whole)
            seconds.append(spent - least(program, ["quotes"], "\n".join(before))[0])
            memory = max(memory, used)
            line = run([program], ["quotes"], whole, keep=True)[1].splitlines()[-1]
            found = [probes(program, before, side, kind, strike) for side in ("buy", "sell")]
            told = [line.split(f'"{word}":"')[1].split('"')[0] for word in ("bid", "ask")]
            if told != [price for price, _ in found]:
                sys.exit(f"bench: the quote is {told}, and by clears {found}")
            whole = "\n".join(before + [f"price,1,20000,1,{kind},{strike},1"])
            along.append(
                least(program, ["serve"], whole)[0]
                - least(program, ["serve"], "\n".join(before))[0]
            )
            line = run([program], ["serve"], whole, keep=True)[1].splitlines()[-1]
            implied = [line.split(f'"{word}":"')[1].split('"')[0] for word in ("ask", "bid")]
            if any(
                one != other for one, other in zip(told, implied) if "unmarked" not in (one, other)
            ):
                sys.exit(f"bench: the quote is {told}, and the prices are {implied}")
            prices += told
            counts.append(sum(len(each) for _, each in found))
            units.append(sum(sum(each) for _, each in found))
        said = ", ".join(
            f"{sum(it == word for it in prices)} {word}" for word in ("never", "unmarked")
        )
        rows.append(
            [
                orders,
                len(seconds),
                spread(seconds, ".4f"),
                spread(along, ".4f"),
                spread(units, ".0f"),
                spread(counts, ".0f"),
                said,
                f"{memory:.0f}",
            ]
        )
    head = [
        "Orders",
        "Quotes",
        "Seconds a quote",
        "Seconds by price",
        "Units",
        "Probes",
        "Prices",
        "MiB",
    ]
    table("Quotes of one option, bid and ask (least, mean, greatest)", head, rows)


def held_by_one(draw: random.Random, positions: int, underlyings: int) -> list[str]:
    """The lines after which account 2 has so many positions in market 1: each batch is one option
    that it buys, or a put that it sells, whose loss has a bound."""
    lines = opened(2, 1, underlyings)
    for _ in range(positions):
        weights = [draw.randint(0, 5) for _ in range(underlyings)]
        weights = weights if any(weights) else [1] * underlyings
        buyer, count = draw.choice((1, 2)), draw.randint(1, 10)
        option = f"{draw.choice(('call', 'put')) if buyer == 2 else 'put'},{draw.randint(1, 100)}"
        for side, account, price in (("buy", buyer, 1000), ("sell", 3 - buyer, 0)):
            lines.append(
                f"{side},{account},1,{option},{price},{count},{','.join(map(str, weights))}"
            )
        lines.append("clear,1,20000")
    return lines


def told_margin(program: pathlib.Path, before: list[str], budget: int) -> str:
    """What the reply to a request for the margin of account 2 tells, within a budget."""
    reply = run([program], ["guarded"], "\n".join(before + [f"margin,2,1,{budget}"]), keep=True)[1]
    told: list[str] = re.findall(r'"margin":"([^"]*)"', reply)
    return told[-1]


def wanted_units(program: pathlib.Path, before: list[str]) -> int | str:
    """The least budget at which a margin is told; none up to 20,000 is 'budget'."""
    low, high = 0, 20000
    if told_margin(program, before, high) == "budget":
        return "over 20000"
    while high - low > 1:
        middle = (low + high) // 2
        low, high = (
            (middle, high) if told_margin(program, before, middle) == "budget" else (low, middle)
        )
    return high


def searches(program: pathlib.Path, text: str) -> int:
    """How many searches a run makes: calls of the search of a branch, which is recursive and so
    never inlined, but its own."""
    names = ("pricing_oracle::branches::branch::",)
    return counted.counted(program, ["guarded"], text).calls(names, "pricing_oracle::branches::")[0]


def margin(program: pathlib.Path, quick: bool) -> None:
    """A search is one with the liability that the state before it wants; those of the clears before
    are left out."""
    rows = []
    for underlyings in (1, 2, 8):
        for positions in (20, 100) if quick else (20, 100, 256):
            before = held_by_one(
                random.Random(f"margin {underlyings} {positions}"), positions, underlyings
            )
            whole = "\n".join(before + ["margin,2,1,20000"])
            spent, used = least(program, ["guarded"], whole)
            seconds = spent - least(program, ["guarded"], "\n".join(before))[0]
            cleared_before = searches(program, "\n".join(before)) if underlyings > 1 else 0
            count = searches(program, whole) - cleared_before
            told = told_margin(program, before, 20000)
            said = told if told in ("unbounded", "wide", "budget") else "least"
            rows.append(
                [
                    underlyings,
                    positions,
                    f"{seconds:.4f}",
                    wanted_units(program, before),
                    count,
                    said,
                    f"{used:.0f}",
                ]
            )
    table(
        "Margins", ["Underlyings", "Positions", "Seconds", "Units", "Searches", "End", "MiB"], rows
    )


def held_and_offered(held: int, offered: int, underlyings: int) -> list[str]:
    """Account 1 holds so many options, each another, that account 2 sold, and offers so many. With
    one unit the clear's own run stops at once, so that each buy is filled whole by the sell of it.
    """

    def order(side: str, account: int, number: int, price: int) -> str:
        weights = [0] * underlyings
        for place in {number % underlyings, 3 * number % underlyings}:
            weights[place] = 1
        kind, strike = ("put", "call")[number % 2], 10 + number
        head = f"{side},{account},1,{kind},{strike},{price},1"
        return ",".join([head, *map(str, weights)])

    lines = [f"market,1,{underlyings}", "open,1", "open,2"]
    lines += [f"deposit,{account},100000000000" for account in (1, 2)]
    for number in range(held):
        lines += [order("buy", 1, number, 50), order("sell", 2, number, 5)]
    lines.append("clear,1,1")
    return lines + [order("sell", 1, held + number, 9) for number in range(offered)]


def an_order_more(program: pathlib.Path, before: list[str], count: int, accepted: int) -> float:
    """The seconds of an order after these lines, and of its cancel, in so many turns of one run."""
    weights = ",".join("1" * int(before[0].split(",")[2]))
    turns = [
        line
        for number in range(accepted + 1, accepted + 1 + count)
        for line in (f"sell,1,1,put,5,{3 + number % 7},1,{weights}", f"cancel,1,{number}")
    ]
    seconds = [
        run([program], ["serve"], "\n".join(lines))[0] for lines in ([*before, *turns], before)
    ]
    return (seconds[0] - seconds[1]) / count


def secured(program: pathlib.Path, quick: bool) -> None:
    """An order of an account, and its cancel, and what both take more where the account is secured:
    the least of some runs."""
    rows = []
    for underlyings, held, offered in ((1, 20, 20), (1, 100, 100), (8, 20, 0)):
        before = held_and_offered(held, offered, underlyings)
        count = (200 if quick else 2_000) // (1 if underlyings == 1 else 10)
        pairs = [
            [
                an_order_more(program, lines, count, 2 * held + offered)
                for lines in (before, [*before, "secure,1"])
            ]
            for _ in range(2 * timing.RUNS - 1)
        ]
        plain, more = (min(seconds) for seconds in zip(*pairs))
        taken = plain, more - plain
        rows.append([underlyings, held, offered, *(f"{1e6 * spent:.0f}" for spent in taken)])
    head = ["Underlyings", "Held", "Live", "Microseconds", "More where it is secured"]
    table("An order and its cancel of a secured account", head, rows)
