"""Changed and large proposals, each held against a second check: a trial of tools/hostile."""

from __future__ import annotations

import json
import pathlib
import random
import sys
from collections.abc import Iterator
from fractions import Fraction
from typing import Any

from ragvismo_tools import kinds, plain_check, proposed, timing
from ragvismo_tools.hostile.changes import changed_proposal
from ragvismo_tools.hostile.trial import LINE_LIMIT, expect, replies_of, run
from ragvismo_tools.places import TOP
from ragvismo_tools.proposed import Proposal


Reply = dict[str, Any]
# Commands of the batches whose proposals are changed: on one underlying, on two and on three, and
# of bundles.
BATCHES = ("butterfly", "basket", "basket_of_three", "spread")


class Batch:
    """The live orders of market 1 after an example's commands, as its book tells them, and the
    proposal of its optimal clear."""

    def __init__(self, program: pathlib.Path, name: str) -> None:
        lines = (TOP / f"examples/{name}.commands").read_bytes().splitlines(True)
        self.before = b"".join(
            lines[: next(at for at, line in enumerate(lines) if line.startswith(b"clear"))]
        )
        *_, book, cleared = replies_of(program, self.before + b"book,1\nclear,1,20000\n")
        self.book, self.best = json.loads(book), proposed.of_optimal(json.loads(cleared))


class SecondCheck:
    """Proposals for a batch by tools/plain-check, which shares no code with the program and knows
    no limit of fractions."""

    def __init__(self, book: Reply) -> None:
        self.book = book
        self.live = [each["order"] for each in book["orders"]]
        self.kind = kinds.Keys(
            certificate=plain_check.PROOF,
            liability=plain_check.FRACTIONS,
            surplus=plain_check.FRACTIONS,
            fills=kinds.Many(plain_check.FRACTIONS),
            orders=kinds.Many(plain_check.ORDER, range_most=256),
        )

    def value(self, text: bytes) -> Reply:
        value: Reply = plain_check.value_of(text)
        for walk in (self.kind.shape, self.kind.grammar, self.kind.ranges):
            walk(value)
        kinds.demand(proposed.spelled(value).encode() == text, "Spelling")
        return value

    def fails(self, text: bytes, bound: str | None) -> str:
        """Syntax, Stale, or the first condition that the proposal of this text fails; nothing where
        this is its bound, or where it has one and none is told."""
        try:
            value = self.value(text)
        except kinds.Fault:
            return "Syntax"
        if value["orders"] != self.live:
            return "Stale"
        told = {} if bound is None else {"bound": bound}
        try:
            plain_check.judge(
                {**self.book, **value, "orders": self.book["orders"], "mark": "bounded", **told}
            )
        except kinds.Fault as fault:
            return "" if bound is None and str(fault) == "Bound" else str(fault)
        return ""

    def agreed(self, text: bytes, reply: Reply) -> str:
        """What the program told of a proposal, which is what this check says of it, but for
        Wide."""
        reasons = {1: "Syntax", 20: "Stale", 21: str(reply.get("failed"))}
        told = reasons.get(reply.get("number", 0), "")
        found = self.fails(text, reply.get("bound"))
        expect(
            told == found
            or (told == "Wide" and found not in ("Syntax", "Stale", "BatchShape", "Fill")),
            f"{told} in place of {found}: {text[:2000]!r}",
        )
        return told or "proposed"


def changed_proposals(program: pathlib.Path, name: str, count: int, told: dict[str, int]) -> None:
    """Changed proposals for a batch and the clear after them, which is as the best of them
    prove."""
    batch, draw = Batch(program, name), random.Random(f"proposals {name}")
    check, least, most = SecondCheck(batch.book), None, None
    texts = [changed_proposal(draw, batch.best, batch.book["orders"]) for _ in range(count)]
    lines = [batch.before, *(b"propose,1,%s\n" % it for it in texts), b"clear,1,1\n"]
    replies = [
        json.loads(it) for it in replies_of(program, b"".join(lines))[batch.before.count(b"\n") :]
    ]
    expect(len(replies) == count + 1, f"{name}: not one reply for each line")
    for text, reply in zip(texts, replies):
        word = check.agreed(text, reply)
        told[word] = told.get(word, 0) + 1
        if word == "proposed":
            surplus, bound = Fraction(reply["surplus"]), Fraction(reply["bound"])
            least, most = min(least or bound, bound), max(most or surplus, surplus)
            kept = Fraction(reply["best_surplus"]), Fraction(reply["least_bound"])
            expect(
                (surplus, kept) == (Fraction(json.loads(text)["surplus"]), (most, least)),
                f"{name}: kept are {kept}, not {most} and {least}",
            )
    last = replies[-1]
    expect(
        (last["mark"], Fraction(last["surplus"]), Fraction(last["bound"]))
        == ("bounded", most, least),
        f"{name}: the clear is {last}",
    )
    expect(
        plain_check.report(proposed.spelled(last).encode(), "audit")["verdict"] == "yes",
        f"{name}: the clear does not hold: {last}",
    )


def padded(proposal: Proposal, size: int) -> str:
    """The text of so many bytes of a proposal with further points without weight."""
    point: dict[str, Any] = {"state": ["1", "0"], "weight": "0"}
    room = size - len(proposed.spelled(proposal))
    count, rest = divmod(room, len(proposed.spelled(point)) + 1)
    points = [*[point] * (count - 1), {**point, "state": ["1", "1" + "0" * rest]}]
    certificate = proposal["certificate"]
    return proposed.spelled(
        {**proposal, "certificate": {**certificate, "measure": [*certificate["measure"], *points]}}
    )


def large_proposals(program: pathlib.Path, quick: bool) -> int:
    """Texts at the limit of a line, trees that are wide and deep, and nested lists."""
    one, room = b"open,1\nmarket,1,1\nbuy,1,1,call,10,0,1,1\n", LINE_LIMIT - len(b"propose,1,")
    trees = proposed.covered_by_tree(*((6, 16) if quick else (11, 128))), proposed.deep_tree(243)
    filled = padded(proposed.unfilled([1], 1), room)
    cases = [
        (one, filled, "Syntax"),
        *(
            ("\n".join([*before, ""]).encode(), proposed.spelled(it), "proposed")
            for before, it in trees
        ),
        (one, "[" * room, "Syntax"),
        (one, '{"certificate":' * (room // 15), "Syntax"),
        (one, '"' + "9" * (room - 2) + '"', "Syntax"),
    ]
    for before, text, wanted in cases:
        *_, book, reply = replies_of(program, before + b"book,1\npropose,1,%s\n" % text.encode())
        told = SecondCheck(json.loads(book)).agreed(text.encode(), json.loads(reply))
        expect(told == wanted, f"{told} in place of {wanted}: {text[:200]}")
    status, out, said = run(program, "serve", one + b"propose,1,%s \n" % filled.encode())
    expect(
        (status, said, out.count(b"\n")) == (5, b"input too long\n", 3),
        f"a proposal past the limit: status {status}, {said[-200:]!r}",
    )
    return len(cases) + 1


def judged_long(quick: bool) -> Iterator[tuple[list[str], Proposal]]:
    """Batches whose lines are given, each with a proposal that takes long to judge: a full tree, a
    deep one, and for 256 bundles of four puts on eight underlyings, of which none is filled, a
    full tree over their classes and a measure of as many points as there may be."""
    yield proposed.covered_by_tree(*((6, 16) if quick else (11, 128)))
    yield proposed.deep_tree(60 if quick else 243)
    draw, depth = random.Random("judged"), 8 if quick else 15
    puts = [[f"1,put,{draw.randint(1, 10**9)}", *weights_of(draw)] for _ in range(1024)]
    bundles = [
        f"bundle,1,1,buy,0,1,4,{','.join(map(','.join, puts[at : at + 4]))}"
        for at in range(0, 1024, 4)
    ]
    points = [
        {"state": ["1", *(str(draw.randint(0, 10**9)) for _ in range(8))], "weight": "1/1024"}
        for _ in range(1024)
    ]
    unfilled = proposed.unfilled(list(range(1, 257)), 8)
    cells = {"cells": proposed.full_tree(depth, {"leaf": []})}
    certificate = {"cover": cells, "measure": points}
    yield ["open,1", "market,1,8", *bundles], {**unfilled, "certificate": certificate}


def weights_of(draw: random.Random) -> list[str]:
    return [str(draw.choice((-1, 1)) * draw.randint(1, 1000)) for _ in range(8)]


def judgements(program: pathlib.Path, quick: bool) -> tuple[int, float, float]:
    """How many of these are judged a bound, each within 3 seconds and in memory of at most 3 times
    its line beside its reading, the greatest seconds and the greatest memory in lines."""
    seconds, lines, count = 0.0, 0.0, 0
    for before, proposal in judged_long(quick):
        texts = [
            "\n".join([*before, proposed.line_of(1, it), ""])
            for it in (proposal, {**proposal, "orders": []})
        ]
        said = timing.run([program], ["serve"], texts[0], keep=True)[1].splitlines()[-1]
        expect('"reply":"proposed"' in said, f"not judged a bound: {said}")
        (took, holds), (reading, held) = (timing.least(program, ["serve"], it) for it in texts)
        seconds = max(seconds, took - reading)
        size = len(proposed.line_of(1, proposal)) / 2**20
        lines, count = max(lines, (holds - held) / max(size, 1)), count + 1
    expect(seconds <= 3 and lines <= 3, f"judged in {seconds:.2f} s, {lines:.1f} lines")
    return count, seconds, lines


def proposals(program: pathlib.Path, quick: bool) -> tuple[int, str]:
    sys.setrecursionlimit(20_000)
    told: dict[str, int] = {}
    count = 50 if quick else 2_500
    for name in BATCHES:
        changed_proposals(program, name, count, told)
    large = large_proposals(program, quick)
    long, seconds, lines = judgements(program, quick)
    most = ", ".join(
        f"{told[word]:,} {word}" for word in sorted(told, key=told.__getitem__, reverse=True)
    )
    return (
        len(BATCHES) * count + large + long,
        (
            f"{most}, each as the second check says; each clear as the best of them prove;"
            f" {large} large: judged, Syntax, or TooLong past the limit; {long} judged in at most"
            f" {seconds:.2f} s and {lines:.1f} times the line's memory beside their reading"
        ),
    )
