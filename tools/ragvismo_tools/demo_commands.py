"""Writes the commands of which `exchange demo SEED COUNT` tells the summary.

    tools/demo-commands SEED COUNT | ./exchange run

40 accounts with a deposit each, one market on two underlyings, COUNT random orders, a clear after
every 20, a settlement. SEED is 0 to 4294967295 and COUNT 1 to 10000; other words get one line on
standard error and status 2.
"""

from __future__ import annotations

from collections.abc import Iterator
import sys

from ragvismo_tools.ending import ended

WEIGHTS = ((1, 0), (0, 1), (1, 1))


class Draws:
    """The draws of a seed: each is below the number that it is asked with."""

    def __init__(self, seed: int) -> None:
        self.x = seed

    def below(self, count: int) -> int:
        self.x = (6364136223846793005 * self.x + 1442695040888963407) % 2**64
        return self.x // 2**33 % count


def order(draws: Draws) -> str:
    account = 1 + draws.below(40)
    side = ("buy", "sell")[draws.below(2)]
    kind = ("call", "put")[draws.below(2)]
    weights = WEIGHTS[draws.below(3)]
    strike = (8 + draws.below(5)) * 100 * sum(weights)
    price, quantity = 20 + draws.below(400), 1 + draws.below(10)
    return f"{side},{account},1,{kind},{strike},{price},{quantity},{weights[0]},{weights[1]}"


def commands(seed: int, count: int) -> Iterator[str]:
    draws = Draws(seed)
    yield from (f"open,{account}" for account in range(1, 41))
    yield from (f"deposit,{account},1000000000000000" for account in range(1, 41))
    yield "market,1,2"
    for number in range(1, count + 1):
        yield order(draws)
        if number % 20 == 0 or number == count:
            yield "clear,1,2000"
    first = 800 + draws.below(401)
    yield f"settle,1,{first},{800 + draws.below(401)}"


def number(text: str, least: int, greatest: int) -> int | None:
    """The number of a text, or None where it is none of the range."""
    is_short = len(text) <= len(str(greatest))
    plain = is_short and text.isascii() and text.isdigit() and str(int(text)) == text
    return int(text) if plain and least <= int(text) <= greatest else None


def main(words: list[str]) -> int:
    if words == ["--help"]:
        print(__doc__)
        return 0
    seed, count = (
        (number(words[0], 0, 2**32 - 1), number(words[1], 1, 10_000))
        if len(words) == 2
        else (None, None)
    )
    if seed is None or count is None:
        print(
            "demo-commands: it wants SEED, 0 to 4294967295, and COUNT, 1 to 10000", file=sys.stderr
        )
        return 2
    print("\n".join(commands(seed, count)))
    return 0


def run() -> int:
    return ended(lambda: main(sys.argv[1:]))
