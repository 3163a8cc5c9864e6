"""Streams of commands, with clears and without: tables of tools/bench."""

from __future__ import annotations

import pathlib
import random
import sys

from ragvismo_tools import timing
from ragvismo_tools.batches import opened
from ragvismo_tools.bench.clears import instructions
from ragvismo_tools.timing import least, run, table


class Book:
    """Live orders, by the numbers that the exchange gives them."""

    def __init__(self, draw: random.Random, accounts: int, markets: int) -> None:
        self.draw, self.accounts, self.markets = draw, accounts, markets
        self.accepted = 0
        self.live: list[tuple[int, int, int]] = []
        self.lines: list[str] = []

    def place(self, market: int | None = None) -> None:
        market = market or self.accepted % self.markets + 1
        account = self.draw.randint(1, self.accounts)
        side, kind = self.draw.choice(("buy", "sell")), self.draw.choice(("call", "put"))
        strike, price = self.draw.randint(1, 100), self.draw.randint(1, 50)
        self.accepted += 1
        self.live.append((self.accepted, account, market))
        self.lines.append(
            f"{side},{account},{market},{kind},{strike},{price},{self.draw.randint(1, 10)},1"
        )

    def cancel(self) -> int:
        at = self.draw.randrange(len(self.live))
        order, account, market = self.live.pop(at)
        self.lines.append(f"cancel,{account},{order}")
        return market


def of_kind(kind: str, book: Book, count: int) -> list[str]:
    """So many commands of one kind."""
    draw, start = book.draw, len(book.lines)
    while len(book.lines) - start < count:
        account = draw.randint(1, book.accounts)
        now = (
            draw.choice(("order", "order", "order", "deposit", "withdraw", "balance"))
            if kind == "mixed"
            else kind
        )
        if now == "order":
            book.place(book.cancel())
        elif now in ("deposit", "withdraw"):
            book.lines.append(f"{now},{account},{draw.randint(1, 1000)}")
        elif now == "balance":
            book.lines.append(f"balance,{account}")
        elif now == "refused":
            book.lines.append(f"cancel,{account},{book.accepted + 1}")
        else:
            book.lines.append("walk,1,2")
    return book.lines[start : start + count]


# Accounts, markets and live orders.
Size = tuple[int, int, int]
SIZES: tuple[Size, ...] = (
    (10, 4, 100),
    (100, 4, 1000),
    (1000, 4, 1000),
    (1000, 64, 10000),
    (10000, 64, 100),
    (10000, 64, 10000),
)


def stream_texts(size: Size, kind: str, count: int) -> tuple[str, str]:
    """The beginning of a stream, and the whole of it with so many commands of one kind."""
    accounts, markets, live = size
    book = Book(random.Random(f"{accounts} {markets} {live} {kind}"), accounts, markets)
    for _ in range(live):
        book.place()
    start = opened(accounts, markets) + book.lines
    return "\n".join(start), "\n".join(start + of_kind(kind, book, count))


def stream(program: pathlib.Path, quick: bool) -> None:
    kinds = ("mixed", "deposit", "withdraw", "balance", "order", "refused", "syntax")
    count = 10_000 if quick else 100_000
    rows = []
    for size in SIZES[:: 5 if quick else 1]:
        row = [f"{it:,}" for it in size]
        for kind in kinds:
            start, whole = stream_texts(size, kind, count)
            seconds = least(program, ["run"], whole)[0] - least(program, ["run"], start)[0]
            row.append(f"{seconds / count * 1e6:.2f}")
        rows.append(row)
    table(
        "Commands of a stream (microseconds a command)",
        ["Accounts", "Markets", "Live orders", *kinds],
        rows,
    )


def stream_sides(program: pathlib.Path, before: pathlib.Path, quick: bool) -> None:
    """The same streams by an older program and by this one, by turns."""
    kinds = ("mixed", "deposit", "order")
    count = 10_000 if quick else 100_000
    rows = []
    for size in SIZES[:: 5 if quick else 1]:
        row = [f"{it:,}" for it in size]
        for kind in kinds:
            start, whole = stream_texts(size, kind, count)
            if len({run([each], ["run"], whole, keep=True)[1] for each in (before, program)}) > 1:
                sys.exit("bench: the programs do not answer the same")
            turns = [
                [run([each], ["run"], text)[0] for text in (whole, start)]
                for _ in range(timing.RUNS)
                for each in (before, program)
            ]
            for turn in (turns[::2], turns[1::2]):
                spent = min(it[0] for it in turn) - min(it[1] for it in turn)
                row.append(f"{spent / count * 1e6:.2f}")
            start, whole = stream_texts(size, kind, 10_000)
            for each in (before, program):
                spent = instructions(each, ["run"], whole) - instructions(each, ["run"], start)
                row.append(f"{spent * 100:,.0f}")
        rows.append(row)
    head = [
        "Accounts",
        "Markets",
        "Live orders",
        *(
            f"{kind}: {it}"
            for kind in kinds
            for it in ("before", "now", "instructions before", "now")
        ),
    ]
    table(
        "Commands of a stream, before and now (microseconds and instructions a command)", head, rows
    )


def with_clears(every: int, budget: int, lines: int) -> str:
    """A stream of orders with a clear after every so many."""
    book = Book(random.Random(f"stream {every}"), 40, 4)
    while len(book.lines) < lines:
        for _ in range(every):
            book.place(market=len(book.lines) // (every + 1) % 4 + 1)
        book.lines.append(f"clear,{book.live[-1][2]},{budget}")
    return "\n".join(opened(40, 4) + book.lines[:lines])


def clearing_stream(program: pathlib.Path, quick: bool) -> None:
    rows = []
    for every, budget in ((20, 2000), (100, 2000), (20, 1)):
        lines = 10_000 if quick else 100_000
        text = with_clears(every, budget, lines)
        seconds, memory = least(program, ["run"], text)
        out = run([program], ["run"], text, keep=True)[1]
        marks = [
            it.split('"mark":"')[1].split('"')[0] for it in out.splitlines() if '"mark":"' in it
        ]
        said = ", ".join(f"{marks.count(it):,} {it}" for it in sorted(set(marks)))
        rows.append(
            [
                f"{every} orders",
                f"{budget:,}",
                f"{len(marks):,}",
                f"{seconds:.2f}",
                f"{lines / seconds:,.0f}",
                said,
                f"{memory:.0f}",
            ]
        )
    head = ["Clear after every", "Budget", "Clears", "Seconds", "Lines a second", "Marks", "MiB"]
    table("A stream with clears", head, rows)
