"""Joint clears, what they cost by seconds and by instructions: tables of tools/bench."""

from __future__ import annotations

import pathlib
from collections.abc import Sequence
import random
import sys

from ragvismo_tools import counted, timing
from ragvismo_tools.batches import batch, opened
from ragvismo_tools.timing import least, run, spread, table


def cleared(text: str) -> tuple[int, str]:
    """(units, mark) of the cleared line of an output."""
    line = next(it for it in text.splitlines() if '"reply":"cleared"' in it)
    return int(line.split('"units":')[1].split(",")[0]), line.split('"mark":"')[1].split('"')[0]


def clears(program: pathlib.Path, quick: bool) -> None:
    rows = []
    for strikes in (100, 1_000, 10_000, 1_000_000):
        for orders, batches in ((20, 20), (100, 10), (256, 5)):
            batches = 2 if quick else batches
            seconds, units, marks, memory = [], [], [], 0.0
            for number in range(batches):
                draw = random.Random(f"clear {orders} {strikes} {number}")
                before = opened(40, 1) + batch(draw, orders, strikes)
                whole = "\n".join(before + ["clear,1,20000"])
                spent, used = least(program, ["run"], whole)
                seconds.append(spent - least(program, ["run"], "\n".join(before))[0])
                memory = max(memory, used)
                unit, mark = cleared(run([program], ["run"], whole, keep=True)[1])
                units.append(unit)
                marks.append(mark)
            said = ", ".join(f"{marks.count(it)} {it}" for it in sorted(set(marks)))
            row = [
                orders,
                f"{strikes:,}",
                batches,
                spread(seconds, ".4f"),
                spread(units, ".0f"),
                said,
                f"{memory:.0f}",
            ]
            rows.append(row)
    head = ["Orders", "Strikes up to", "Batches", "Seconds a clear (least, mean, greatest)"]
    table("Joint clears", [*head, "Units (least, mean, greatest)", "Marks", "MiB"], rows)


def passes(program: pathlib.Path, quick: bool) -> None:
    """Which clears of the table of clears fit numbers of 64 bits."""
    rows = []
    for strikes in (100, 1_000, 10_000, 1_000_000):
        for orders, batches in ((20, 20), (100, 10), (256, 5)):
            told = []
            for number in range(2 if quick else batches):
                book = batch(random.Random(f"clear {orders} {strikes} {number}"), orders, strikes)
                told += run(
                    [program],
                    ["passes"],
                    "\n".join([*opened(40, 1), *book, "clear,1,20000"]),
                    keep=True,
                )[1].split()
            rows.append(
                [orders, f"{strikes:,}", len(told), told.count("narrow"), told.count("broad")]
            )
    table(
        "Joint clears by the numbers of their runs",
        ["Orders", "Strikes up to", "Batches", "Of 64 bits", "Of 128 bits"],
        rows,
    )


def instructions(program: pathlib.Path, words: Sequence[str], text: str) -> float:
    """How many instructions a run takes, in millions."""
    return counted.counted(program, words, text).instructions


def sides(program: pathlib.Path, before: pathlib.Path, quick: bool) -> None:
    """The same clears by an older program and by this one."""
    rows = []
    for orders, batches in ((20, 10), (100, 5), (256, 3)):
        spent: dict[pathlib.Path, list[float]] = {before: [], program: []}
        counts: dict[pathlib.Path, list[float]] = {before: [], program: []}
        units = []
        for number in range(1 if quick else batches):
            start = opened(40, 1) + batch(
                random.Random(f"clear {orders} 100 {number}"), orders, 100
            )
            whole = "\n".join(start + ["clear,1,20000"])
            replies = {run([each], ["run"], whole, keep=True)[1] for each in spent}
            if len(replies) > 1:
                sys.exit("bench: the programs do not answer the same")
            units.append(cleared(replies.pop())[0])
            for each in spent:
                empty = "\n".join(start)
                spent[each].append(least(each, ["run"], whole)[0] - least(each, ["run"], empty)[0])
                counts[each].append(
                    instructions(each, ["run"], whole) - instructions(each, ["run"], empty)
                )
        row = [orders, len(units), f"{sum(units) / len(units):,.0f}"]
        for seen, form in ((spent, ".4f"), (counts, ",.1f")):
            row += [format(sum(it) / len(it), form) for it in seen.values()]
        rows.append(row)
    head = [
        "Orders",
        "Batches",
        "Units",
        "Seconds before",
        "now",
        "Million instructions before",
        "now",
    ]
    table("Joint clears, before and now (means; strikes up to 100)", head, rows)


# The orders and the greatest strike of the batches that are counted.
FIXED = ((64, 100), (256, 100), (64, 1_000), (256, 1_000), (128, 2_000), (64, 10_000))


def fixed(programs: Sequence[pathlib.Path], quick: bool) -> None:
    """The instructions of six clears by each program."""
    rows = []
    for orders, strikes in FIXED[:2] if quick else FIXED:
        before = opened(40, 1) + batch(
            random.Random(f"clear {orders} {strikes} 0"), orders, strikes
        )
        whole, empty = "\n".join([*before, "clear,1,20000"]), "\n".join(before)
        replies = {run([each], ["run"], whole, keep=True)[1] for each in programs}
        if len(replies) > 1:
            sys.exit("bench: the programs do not answer the same")
        unit, mark = cleared(replies.pop())
        counts = [
            instructions(each, ["run"], whole) - instructions(each, ["run"], empty)
            for each in programs
        ]
        rows.append([orders, f"{strikes:,}", unit, mark, *(format(it, ",.1f") for it in counts)])
    head = [
        "Orders",
        "Strikes up to",
        "Units",
        "Mark",
        *(
            ["Million instructions before", "now"]
            if len(programs) > 1
            else ["Million instructions"]
        ),
    ]
    table("Six fixed batches", head, rows)


def several(program: pathlib.Path, quick: bool) -> None:
    """A round is one solve of a master program, a node one program of a search."""
    master = "constraint_generation::master_solve::solve_over::"
    rows, names = [], (master, "pricing_oracle::branches::branch::")
    for underlyings in (2, 3, 8):
        for orders, batches in ((10, 20), (20, 10), (40, 5)):
            seconds, units, marks, counts, memory = [], [], [], [], 0.0
            for number in range(2 if quick else batches):
                before = opened(40, 1, underlyings)
                before += batch(
                    random.Random(f"several {underlyings} {orders} {number}"),
                    orders,
                    100,
                    underlyings,
                )
                whole = "\n".join(before + ["clear,1,20000"])
                spent, used = least(program, ["run"], whole)
                seconds.append(spent - least(program, ["run"], "\n".join(before))[0])
                memory = max(memory, used)
                unit, mark = cleared(run([program], ["run"], whole, keep=True)[1])
                units.append(unit)
                marks.append(mark)
                counts.append(counted.counted(program, ["run"], whole).calls(names))
            said = ", ".join(f"{marks.count(it)} {it}" for it in sorted(set(marks)))
            rounds, nodes = (spread(it, ".0f") for it in zip(*counts))
            rows.append(
                [
                    underlyings,
                    orders,
                    len(units),
                    spread(seconds, ".4f"),
                    spread(units, ".0f"),
                    rounds,
                    nodes,
                    said,
                    f"{memory:.0f}",
                ]
            )
    head = ["Underlyings", "Orders", "Batches", "Seconds a clear", "Units", "Rounds", "Nodes"]
    table("Clears on several underlyings (least, mean, greatest)", [*head, "Marks", "MiB"], rows)


def fractions(program: pathlib.Path, quick: bool) -> None:
    print(f"\n## Fractions (nanoseconds a call)\n\n{timing.taken()}\n")
    print(run([program], ["fractions"], "", keep=True)[1], end="")
