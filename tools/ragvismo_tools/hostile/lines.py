"""Lines of commands of every kind, and inputs at their limit: trials of tools/hostile."""

from __future__ import annotations

import pathlib
import json
import random

from ragvismo_tools.hostile.trial import INPUT_LIMIT, expect, run


WORDS = (
    "open",
    "deposit",
    "withdraw",
    "market",
    "buy",
    "sell",
    "bundle",
    "cancel",
    "clear",
    "settle",
    "balance",
)


OTHER_WORDS = ("call", "put", "")


LIMITS = (
    8,
    40,
    256,
    1000,
    10_000,
    20_000,
    10**6,
    999_999_999,
    10**9,
    10**12,
    10**15,
    2**31,
    2**32,
    2**63,
    2**64,
    2**127,
    10**60,
)


def odd_number(draw: random.Random) -> str:
    at = draw.choice(LIMITS) + draw.randint(-2, 2)
    odd = (f"0{at}", f"+{at}", f"{at}.0", "-0", "", '"', f'"{at}"', f" {at}")
    return draw.choice((str(at), str(-at), str(draw.randint(-3, 3)), *odd))


def random_line(draw: random.Random) -> bytes:
    likely = b'\x00\r,"-\xef\xbb\xbf09az' + bytes(range(256))
    return bytes(draw.choice(likely) for _ in range(draw.randint(0, 60))).replace(b"\n", b",")


def shuffled_line(draw: random.Random) -> bytes:
    words = WORDS + OTHER_WORDS
    return ",".join(
        draw.choice((draw.choice(words), str(draw.randint(0, 30))))
        for _ in range(draw.randint(1, 14))
    ).encode()


def limit_line(draw: random.Random) -> bytes:
    counts = {"open": 1, "balance": 1, "settle": draw.randint(2, 9)}
    word = draw.choice(WORDS)
    if word in ("buy", "sell"):
        fields = [
            odd_number(draw) if draw.random() < 0.3 else "1" for _ in range(draw.randint(6, 8))
        ]
        fields.insert(2, draw.choice(("call", "put")))
    elif word == "bundle":
        fields = ["1", "1", draw.choice(("buy", "sell")), "1", "1", str(draw.randint(0, 5))]
        fields += [
            it
            for _ in range(draw.randint(0, 4))
            for it in (odd_number(draw), "call", odd_number(draw), "1")
        ]
    else:
        fields = [
            odd_number(draw) if draw.random() < 0.5 else "1" for _ in range(counts.get(word, 2))
        ]
    return ",".join([word, *fields]).encode()


def commands(program: pathlib.Path, quick: bool) -> tuple[int, str]:
    """Every line that is not empty gets one reply line, by its number, and the run is Done."""
    count = 2_000 if quick else 100_000
    told: dict[str, int] = {}
    for kind in (random_line, shuffled_line, limit_line):
        draw = random.Random(kind.__name__)
        lines = [
            b"open,1",
            b"deposit,1,1000000",
            b"market,1,1",
            *(kind(draw) for _ in range(count)),
        ]
        status, out, said = run(program, "run", b"\n".join(lines))
        expect((status, said) == (0, b""), f"{kind.__name__}: status {status}, {said[-200:]!r}")
        replies = [json.loads(line) for line in out.splitlines()]
        filled = [number for number, line in enumerate(lines, 1) if line.removesuffix(b"\r")]
        expect(
            [it["line"] for it in replies] == filled,
            f"{kind.__name__}: not one reply for each line",
        )
        for reply in replies:
            word = reply.get("reason", "done")
            told[word] = told.get(word, 0) + 1
    most = ", ".join(
        f"{told[word]:,} {word}" for word in sorted(told, key=told.__getitem__, reverse=True)
    )
    return 3 * count, f"each run Done, one reply for each line: {most}"


def lengths(program: pathlib.Path, quick: bool) -> tuple[int, str]:
    """At the limit Done, one byte past it TooLong and nothing written."""
    for filler, replies in (
        (b"x", 1),
        (b"\n", 0),
        (b"\r", 1),
        (b",", 1),
        (b'"', 1),
        (b"1", 1),
        (b"\x00", 1),
        (b"\xff", 1),
    ):
        status, out, said = run(program, "run", filler * INPUT_LIMIT)
        expect(
            (status, said, out.count(b"\n")) == (0, b"", replies),
            f"{filler!r}: status {status}, {out[:100]!r}",
        )
        status, out, said = run(program, "run", filler * (INPUT_LIMIT + 1))
        expect(
            (status, out, said) == (5, b"", b"input too long\n"),
            f"{filler!r} past the limit: status {status}",
        )
    return (
        16,
        (
            "16 MiB: Done with one reply Syntax, or none for line feeds alone; one byte more:"
            " TooLong, nothing written"
        ),
    )
