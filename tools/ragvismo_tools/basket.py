"""Writes the commands of one batch on several underlyings, drawn at random, and its clear.

    tools/basket SEED ORDERS UNDERLYINGS | tools/auction

40 accounts with a deposit each, a market, ORDERS (1 to 256) on 1 to 8 UNDERLYINGS with weights of 0
to 2 and strikes up to 100 for each weight, at limit prices around what they pay at one settlement
in the middle, and a clear of the greatest budget. SEED is any word. Other words get one line on
standard error and status 2.
"""
import random
import sys

from ragvismo_tools.ending import ended
from ragvismo_tools.batches import batch, opened


def within(word: str, most: int) -> bool:
    is_short = len(word) <= len(str(most))
    return is_short and word.isascii() and word.isdigit() and 1 <= int(word) <= most


def main() -> int:
    match sys.argv[1:]:
        case ["--help"]:
            print(__doc__)
        case [seed, orders, underlyings] if within(orders, 256) and within(underlyings, 8):
            draw = random.Random(f"basket {seed}")
            lines = [
                *opened(40, 1, int(underlyings)),
                *batch(draw, int(orders), 100, int(underlyings)),
                "clear,1,20000",
            ]
            print("\n".join(lines))
        case _:
            print(
                "basket: SEED ORDERS UNDERLYINGS are wanted; tools/basket --help says more",
                file=sys.stderr,
            )
            return 2
    return 0


def run() -> int:
    return ended(main)
