"""What the word propose finds, beside the reference run and the match of each bundle alone: a table
of tools/bench."""
import json
from collections.abc import Iterator
from fractions import Fraction
from random import Random
from typing import Any

from ragvismo_tools import timing
from ragvismo_tools.batches import batch, bundles, opened, realistic, wild
from ragvismo_tools.timing import held, run, table

Found = dict[str, Any]


def kinds(quick: bool) -> Iterator[tuple[str, int, list[list[str]]]]:
    """(name, underlyings, batches): the lines of each batch's orders."""
    many = 1 if quick else 3
    for strikes in (100, 10_000, 1_000_000):
        for orders in (100, 256):
            name = f"1 x {orders}, strikes to {strikes:,}"
            seeds = [Random(f"near 1 {orders} {strikes} {it}") for it in range(many)]
            yield name, 1, [batch(it, orders, strikes) for it in seeds]
    for underlyings in (2, 3, 8):
        for orders in (20, 40, 60, 100, 128, 256):
            seeds = [Random(f"near {underlyings} {orders} 100 {it}") for it in range(many)]
            yield f"{underlyings} x {orders}", underlyings, [
                batch(it, orders, 100, underlyings) for it in seeds
            ]
    for name, noise in (("realistic", 0.08), ("crossing", 0.15)):
        for underlyings, orders in ((3, 128), (3, 256), (8, 60), (8, 128), (8, 256)):
            seeds = [Random(f"near {name} {underlyings} {orders} {it}") for it in range(many)]
            yield f"{underlyings} x {orders}, {name}", underlyings, [
                realistic(it, orders, underlyings, noise) for it in seeds
            ]
    for underlyings in (1, 2, 3):
        for orders in (40, 100):
            seeds = [Random(f"near bundles {underlyings} {orders} {it}") for it in range(many)]
            yield f"{underlyings} x {orders} bundles", underlyings, [
                bundles(it, orders, underlyings) for it in seeds
            ]
    for underlyings in (1, 3):
        for orders in (20, 100):
            seeds = [Random(f"near wild {underlyings} {orders} {it}") for it in range(many)]
            yield f"{underlyings} x {orders}, whole limits", underlyings, [
                wild(it, orders, underlyings) for it in seeds
            ]


def nodes_of(cover: Any) -> int:
    """How many nodes a cover has: none where it is a word."""
    if isinstance(cover, str):
        return 0
    return len(cover["cells"] if isinstance(cover, dict) else cover)


def reply(program: object, lines: list[str], kind: str) -> Found:
    """The last reply of this kind that serve writes to the lines."""
    said = run([program], ["serve"], "\n".join(lines), keep=True)[1].splitlines()
    told: Found = json.loads(next(it for it in reversed(said) if f'"reply":"{kind}"' in it))
    return told


def solved(program: object, underlyings: int, orders: list[str]) -> Found:
    """What is proposed for the orders, and what the reference run and the match earn."""
    lines = [*opened(40, 1, underlyings), *orders]
    book = run([program], ["serve"], "\n".join([*lines, "book,1"]), keep=True)[1].splitlines()[-1]
    runs = [run([program], ["propose"], book, keep=True) for _ in range(timing.RUNS)]
    seconds, line = min(runs)[0], runs[0][1].strip()
    proposal = json.loads(line.split(",", 2)[2])
    cover = proposal["certificate"]["cover"]
    cleared = reply(program, [*lines, "clear,1,20000"], "cleared")
    return {
        "surplus": Fraction(proposal["surplus"]),
        "bound": Fraction(reply(program, [*lines, line], "proposed")["bound"]),
        "seconds": seconds,
        "memory": held(program, ["propose"], book, (0,)),
        "nodes": nodes_of(cover),
        "bytes": len(line),
        "mark": cleared["mark"],
        "reference": Fraction(cleared["surplus"]),
        "match": Fraction(reply(program, [*lines, "clear,1,1"], "cleared")["surplus"]),
    }


def gap(it: Found) -> float:
    return float((it["bound"] - it["surplus"]) / it["bound"]) if it["bound"] else 0.0


def ranged(found: list[Found], key: str, form: str) -> str:
    """The median and the most."""
    numbers = sorted(it[key] for it in found)
    return f"{numbers[len(numbers) // 2]:{form}}, {numbers[-1]:{form}}"


def held_between(it: Found) -> bool:
    """Whether an optimum is at least the surplus and at most the bound."""
    return it["mark"] != "optimal" or bool(it["surplus"] <= it["reference"] <= it["bound"])


def near(program: object, quick: bool) -> None:
    rows = []
    for name, underlyings, batches in kinds(quick):
        found = [solved(program, underlyings, it) for it in batches]
        gaps = sorted(map(gap, found))
        marks = [it["mark"] for it in found]
        row = [name, len(found), sum(it["surplus"] > 0 for it in found)]
        row.append(", ".join(f"{it:.0e}" for it in (gaps[0], gaps[len(gaps) // 2], gaps[-1])))
        row += [
            ranged(found, "seconds", ".3f"),
            ranged(found, "nodes", ",d"),
            ranged(found, "bytes", ",d"),
        ]
        row.append(", ".join(f"{marks.count(it)} {it}" for it in sorted(set(marks))))
        row.append("yes" if all(map(held_between, found)) else "NO")
        row.append(
            f"{max(float(it['match'] / it['bound']) if it['bound'] else 0.0 for it in found):.2f}"
        )
        rows.append([*row, f"{max(it['memory'] for it in found):.0f}"])
    head = [
        "Batches",
        "Count",
        "Filled",
        "Gap (least, median, most)",
        "Seconds (median, most)",
        "Nodes",
        "Bytes of the line",
    ]
    more = ["Reference run", "Optimum between", "Match / bound", "MiB"]
    table("What propose finds: gap is (bound - surplus) / bound", [*head, *more], rows)
