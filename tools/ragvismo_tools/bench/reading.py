"""Lines that are read and judged: journals, trees, proposals, messages of sessions: tables of
tools/bench."""

from __future__ import annotations

import pathlib
from collections.abc import Iterator
from typing import Any
from ragvismo_tools.proposed import Proposal
import json
import random

from ragvismo_tools import proposed
from ragvismo_tools.batches import batch, opened
from ragvismo_tools.timing import least, run, table


def lines_of_kind(program: pathlib.Path, kind: str | int) -> list[str]:
    """Reply lines of one kind: short ones, or cleared lines of so many orders."""
    if isinstance(kind, str):
        return run([program], ["run"], "\n".join(opened(1000, 1)), keep=True)[1].splitlines()
    lines = []
    for number in range(3):
        before = opened(40, 1) + batch(random.Random(f"clear {kind} 100 {number}"), kind, 100)
        out = run([program], ["run"], "\n".join(before + ["clear,1,20000"]), keep=True)[1]
        lines.append(out.splitlines()[-1])
    return lines


def journals(program: pathlib.Path, quick: bool) -> None:
    """The check of journals: their lines are repeated, since each stands alone."""
    rows = []
    kinds: tuple[str | int, ...] = ("short", 20, 256)
    for kind in kinds:
        lines = lines_of_kind(program, kind)
        for mib in (1, 4) if quick else (16, 64, 255):
            piece = "".join(f"{it}\n" for it in lines).encode()
            text = piece * (mib * 2**20 // len(piece))
            seconds, memory = least(program, ["check"], text)
            count, size = text.count(b"\n"), len(text) / 2**20
            row = [kind if kind == "short" else f"{kind} orders", f"{size:.0f}", f"{count:,}"]
            rows.append(
                [
                    *row,
                    f"{seconds:.2f}",
                    f"{size / seconds:.0f}",
                    f"{count / seconds:,.0f}",
                    f"{memory:.0f}",
                ]
            )
    table(
        "The check of a journal",
        ["Lines", "MiB", "Count", "Seconds", "MiB a second", "Lines a second", "MiB held"],
        rows,
    )


def tree_line(depth: int, each: int, underlyings: int) -> str:
    """A cleared line whose sells cover its buys by a full tree of 2^(depth + 1) - 1 nodes; its
    measure is the price 0."""
    orders: list[dict[str, Any]] = []
    for number in range(1, 2 * each + 1):
        side, strike, weight = ("buy", 10, 1) if number <= each else ("sell", 0, 2)
        order = {"account": 1, "order": number, "price": 0, "quantity": 1, "side": side}
        orders.append({**order, "form": [-strike, *[weight] * underlyings]})
    leaf = {"leaf": [{"at": each + it, "by": "1"} for it in range(1, each + 1)]}
    measure = [{"state": ["1", *["0"] * underlyings], "weight": "1"}]
    certificate = {"cover": proposed.full_tree(depth, leaf), "measure": measure}
    about = {"batch": 1, "line": 1, "market": 1, "underlyings": underlyings, "units": 1}
    told = {"liability": "0", "mark": "optimal", "reply": "cleared", "surplus": "0", "version": 1}
    parts = {"certificate": certificate, "fills": ["1"] * (2 * each), "orders": orders}
    return proposed.spelled({**about, **told, **parts}) + "\n"


def trees(program: pathlib.Path, quick: bool) -> None:
    rows = []
    for depth, each, underlyings in (
        ((2, 4, 2), (3, 4, 2)) if quick else ((8, 32, 2), (8, 128, 2), (12, 32, 8), (12, 128, 8))
    ):
        line = tree_line(depth, each, underlyings)
        seconds, memory = least(program, ["check"], line, ends=(0, 6))
        said = run([program], ["check"], line, keep=True, ends=(0, 6))[1].strip()
        multipliers = 2**depth * each
        rows.append(
            [
                2 * each,
                underlyings,
                f"{2 ** (depth + 1) - 1:,}",
                f"{multipliers:,}",
                f"{len(line) / 2**20:.1f}",
                f"{seconds:.2f}",
                f"{memory:.0f}",
                f"`{said}`",
            ]
        )
    head = ["Orders", "Underlyings", "Nodes", "Multipliers", "MiB", "Seconds", "MiB held", "Report"]
    table("The check of a tree", head, rows)


def proposals_of(program: pathlib.Path, quick: bool) -> Iterator[tuple[list[str], Proposal]]:
    """(the lines before it, a proposal) by kind: what an optimal clear proves, full trees, and a
    tree as deep as 1,024 legs allow."""
    for underlyings, orders in ((1, 20), (1, 100), (1, 256), (2, 20)):
        before = [
            *opened(40, 1, underlyings),
            *batch(random.Random(f"clear {orders} 100 0"), orders, 100, underlyings),
        ]
        reply = run([program], ["run"], "\n".join([*before, "clear,1,20000"]), keep=True)[
            1
        ].splitlines()[-1]
        yield before, proposed.of_optimal(json.loads(reply))
    for depth, each in ((4, 8),) if quick else ((8, 32), (8, 128), (12, 32), (12, 128)):
        yield proposed.covered_by_tree(depth, each)
    yield proposed.deep_tree(256)


def proposals(program: pathlib.Path, quick: bool) -> None:
    """Seconds of one line: twenty of them less none, of proposals that are judged, and of the same
    ones for too few orders, which are read and not judged."""
    rows, many = [], 2 if quick else 20
    for before, proposal in proposals_of(program, quick):
        stale = {**proposal, "orders": proposal["orders"][1:]}
        begun, *ends = (
            (
                least(program, ["serve"], "\n".join([*before, *[proposed.line_of(1, it)] * many]))[
                    0
                ]
                if it
                else least(program, ["serve"], "\n".join(before))[0]
            )
            for it in (None, proposal, stale)
        )
        judged, read = ((it - begun) / many for it in ends)
        cover, size = proposal["certificate"]["cover"], len(proposed.line_of(1, proposal)) / 2**20
        leaves = [len(it.get("leaf", ())) for it in cover] if cover != "line" else []
        underlyings = len(proposal["certificate"]["measure"][0]["state"]) - 1
        rows.append(
            [
                len(proposal["orders"]),
                underlyings,
                f"{len(leaves):,}",
                f"{sum(leaves):,}",
                f"{size * 1024:,.1f}",
                f"{judged:.5f}",
                f"{read:.5f}",
                f"{size / judged:.1f}",
            ]
        )
    head = [
        "Orders",
        "Underlyings",
        "Nodes",
        "Multipliers",
        "KiB",
        "Seconds",
        "of these to read",
        "MiB a second",
    ]
    table("Proposals that are judged a bound", head, rows)


def messages(sessions: int, count: int, seed: int) -> tuple[str, str]:
    """Messages of sessions, interleaved at random, and their bodies. One in ten is sent again
    before its session's next one."""
    draw, said = random.Random(f"sessions {sessions} {seed}"), [0] * sessions
    lines: list[str] = []
    bodies: list[str] = []
    while len(lines) < count:
        session = draw.randrange(sessions)
        said[session] += 1
        body = (
            f"open,{session + 1}"
            if said[session] == 1
            else f"deposit,{session + 1},{said[session]}"
        )
        bodies.append(body)
        lines += [f"{session + 1},{said[session]},{body}"] * (2 if draw.random() < 0.1 else 1)
    return "\n".join(lines[:count]), "\n".join(bodies)


def sessions(program: pathlib.Path, quick: bool) -> None:
    """A million messages are two inputs, since one has at most 16 MiB; beside them what run does
    with their bodies alone."""
    rows = []
    for many in (10, 1_000, 10_000):
        count, spent, alone, bodies, memory = (10_000 if quick else 500_000), 0.0, 0.0, 0, 0.0
        for seed in (1, 2):
            text, inside = messages(many, count, seed)
            seconds, used = least(program, ["sessions"], text)
            spent, memory = spent + seconds, max(memory, used)
            alone, bodies = (
                alone + least(program, ["run"], inside)[0],
                bodies + inside.count("\n") + 1,
            )
        rows.append(
            [
                f"{many:,}",
                f"{2 * count:,}",
                f"{spent:.2f}",
                f"{2 * count / spent:,.0f}",
                f"{bodies / alone:,.0f}",
                f"{memory:.0f}",
            ]
        )
    table(
        "Messages of sessions, one in ten sent again",
        ["Sessions", "Messages", "Seconds", "Messages a second", "Lines a second of run", "MiB"],
        rows,
    )
