"""Exact solvers beside a clear: a table of tools/bench."""

from __future__ import annotations

from collections.abc import Callable, Iterable, Sequence
import pathlib
import random
import re
import shutil
import sys
import tempfile
from fractions import Fraction
from functools import partial
from operator import mul
from typing import NamedTuple

from ragvismo_tools import timing
from ragvismo_tools.batches import batch, opened
from ragvismo_tools.bench.clears import cleared
from ragvismo_tools.timing import run, table


class Master:
    """The master program of a batch on one underlying (docs/MODEL.md). A quantity is a row, or a
    bound of its fill, which is the same program for a solver and less work."""

    def __init__(self, orders: Sequence[str], bounded: bool) -> None:
        said = [it.split(",") for it in orders]
        strikes = sorted({int(it[4]) for it in said})
        columns = [self.column(it[0], it[3], int(it[4]), int(it[5]), strikes) for it in said]
        self.costs, *rows = zip(*columns, [-1, *[-1] * len(strikes), 0])
        quantities = [int(it[6]) for it in said]
        self.bounds = quantities if bounded else []
        self.rows = (
            []
            if bounded
            else [
                ([int(j == at) for j in range(len(said) + 1)], it)
                for at, it in enumerate(quantities)
            ]
        )
        self.rows += [(list(it), 0) for it in rows if any(it)]

    @staticmethod
    def column(side: str, kind: str, strike: int, price: int, strikes: Sequence[int]) -> list[int]:
        """The cost of an order's fill, and its entries at the prices where a payoff bends and at
        the slope beyond them."""
        first, *pays = (
            max(it - strike if kind == "call" else strike - it, 0) for it in (0, *strikes)
        )
        entries = [price - first, *(it - first for it in pays), int(kind == "call")]
        return entries if side == "buy" else [-it for it in entries]

    def lp(self, costs: Sequence[int]) -> str:
        """An LP file of it with these costs."""
        lines = ["Maximize", " value: " + terms(enumerate(costs)), "Subject To"]
        lines += [
            f" r{at}: {terms(it for it in enumerate(row) if it[1])} <= {most}"
            for at, (row, most) in enumerate(self.rows)
        ]
        lines += ["Bounds", *(f" 0 <= x{at} <= {it}" for at, it in enumerate(self.bounds))]
        return "\n".join([*lines, "End", ""])

    def value_at(self, basis: str) -> Fraction:
        """The objective at a basis as glpsol writes it (its own numbers are rounded), in
        fractions."""
        states = [it.split()[:3] for it in basis.splitlines() if it[:2] in ("i ", "j ")]
        tight = [
            self.rows[int(at) - 1] for kind, at, state in states if kind == "i" and state != "b"
        ]
        columns = [state for kind, _, state in states if kind == "j"]
        free = [j for j, state in enumerate(columns) if state == "b"]
        x = [Fraction(self.bounds[j] if state == "u" else 0) for j, state in enumerate(columns)]
        sums = [
            [Fraction(row[j]) for j in free] + [most - sum(map(mul, row, x))] for row, most in tight
        ]
        for j, value in zip(free, solution(sums)):
            x[j] = value
        return sum(map(mul, self.costs, x), Fraction(0))


def terms(entries: Iterable[tuple[int, int]]) -> str:
    """A sum of an LP file, a few terms a line."""
    each = [f"{a:+} x{j}" for j, a in entries]
    return "\n  ".join(" ".join(each[at : at + 8]) for at in range(0, len(each), 8))


def solution(rows: list[list[Fraction]]) -> list[Fraction]:
    """What solves these equations, each with its right side last."""
    for at in range(len(rows)):
        pivot = next(it for it in range(at, len(rows)) if rows[it][at])
        rows[at], rows[pivot] = rows[pivot], rows[at]
        rows[at] = [it / rows[at][at] for it in rows[at]]
        for other in range(len(rows)):
            if other != at and (by := rows[other][at]):
                rows[other] = [a - by * b if b else a for a, b in zip(rows[other], rows[at])]
    return [it[-1] for it in rows]


Run = Callable[[], tuple[float, str]]


def told_value(master: Master, told: str) -> Fraction:
    """The optimum that QSopt_ex tells."""
    return Fraction(re.findall(r"Value = (\S+)", told)[0])


class Peer(NamedTuple):
    """An exact solver: its program, Debian's package, its words, and how its optimum is read."""

    command: str
    package: str
    words: tuple[str, ...]
    value: Callable[[Master, str], Fraction]


PEERS = {
    "QSopt_ex": Peer("esolver", "qsopt-ex", ("-L", "-O"), told_value),
    "glpsol --exact": Peer("glpsol", "glpk-utils", ("--exact", "--lp", "-w"), Master.value_at),
}


def peer_runs(folder: pathlib.Path, name: str, master: Master) -> tuple[list[Run], pathlib.Path]:
    """The runs of a peer, which leave what they tell in files of this folder: on a program with
    costs of 0, which it solves at once, and on this one; and the file of the last."""
    command, _, words, _ = PEERS[name]
    runs: list[Run] = []
    for kind, costs in (("empty", [0] * len(master.costs)), ("whole", master.costs)):
        file, told = folder / f"{kind}.lp", folder / f"{kind}.told"
        file.write_text(master.lp(costs))
        runs.append(partial(run, [command], [*words, str(told), str(file)], "", quiet=True))
    return runs, told


def installed() -> list[str]:
    """The peers that are here."""
    there = {name: shutil.which(command) for name, (command, *_) in PEERS.items()}
    for name in (it for it in PEERS if not there[it]):
        why = f"{PEERS[name].command} is not installed (Debian's package {PEERS[name].package})"
        print(f"bench: {name} is left out: {why}", file=sys.stderr)
    return [it for it in PEERS if there[it]]


def beside(
    program: pathlib.Path, names: Sequence[str], book: list[str]
) -> tuple[int, list[tuple[float, float]]]:
    """(units, times of the clear and of each peer with rows and with bounds), where all find the
    same surplus. A time is the seconds less those of the same run with nothing to solve, and those
    of the whole run."""
    before = opened(40, 1) + book
    whole = "\n".join([*before, "clear,1,20000"])
    reply = run([program], ["run"], whole, keep=True)[1]
    unit, mark = cleared(reply)
    surplus = Fraction(reply.split('"surplus":"')[1].split('"')[0])
    texts = "\n".join(before), whole
    runs: list[Run] = [partial(run, [program], ["run"], text) for text in texts]
    asked: list[tuple[str, Master, pathlib.Path]] = []
    with tempfile.TemporaryDirectory() as folder:
        for at, (name, bounded) in enumerate(
            (name, bounded) for name in names for bounded in (False, True)
        ):
            master, place = Master(book, bounded), pathlib.Path(folder, str(at))
            place.mkdir()
            more, told = peer_runs(place, name, master)
            runs += more
            asked.append((name, master, told))
        turns = [[each()[0] for each in runs] for _ in range(timing.RUNS)]
        for name, master, told in asked:
            value = PEERS[name].value(master, told.read_text())
            if mark != "optimal" or value != surplus:
                sys.exit(f"bench: the surplus is {surplus} ({mark}), and by {name} {value}")
    least_of = [min(it) for it in zip(*turns)]
    spent = [(each - empty, each) for empty, each in zip(least_of[::2], least_of[1::2])]
    return unit, spent


def peers(program: pathlib.Path, quick: bool) -> None:
    """A clear on one underlying, and the master program of its batch by exact solvers, by turns."""
    names, rows = installed(), []
    if not names:
        return
    for strikes in (100, 1_000, 2_000):
        for orders, batches in ((64, 10), (128, 5), (256, 3)):
            books = [
                batch(random.Random(f"clear {orders} {strikes} {it}"), orders, strikes)
                for it in range(1 if quick else batches)
            ]
            units, spent = zip(*(beside(program, names, it) for it in books))
            means = [[sum(it) / len(it) for it in zip(*times)] for times in zip(*spent)]
            told = [f"{seconds:.4f} ({whole:.4f})" for seconds, whole in means]
            rows.append(
                [orders, f"{strikes:,}", len(units), f"{sum(units) / len(units):.0f}", *told]
            )
    head = [
        "Orders",
        "Strikes up to",
        "Batches",
        "Units",
        "A clear",
        *(f"{it}, {form}" for it in names for form in ("rows", "bounds")),
    ]
    table(
        (
            "Beside exact solvers (mean seconds of a clear, and of solving its master program, less"
            " a run with nothing to solve)"
        ),
        head,
        rows,
    )
    print(
        "\nIn brackets the whole run. A clear also makes the sums of the verdict. Each optimum of a"
        " peer is the clear's surplus."
    )
