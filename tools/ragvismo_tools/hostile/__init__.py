"""Runs the program on faults and malicious input, and prints what docs/RELIABILITY.md tells.

    tools/hostile [NAME..] [--program FILE] [--quick]

    commands   lines of random bytes, of words in wrong places, of numbers at and past each limit
    lengths    inputs at the limit and past it: without a line feed, of line feeds alone
    pieces     the input by pieces of every size from 1 to 64 bytes, as a pipe gives them
    closed     a reader that goes after each number of bytes of the output
    full       a full disk: none of the output fits, and a file of each small size
    memory     less and less memory
    cuts       a journal cut at every byte, and checked
    bytes      each byte of the cleared lines of a journal changed to three others, and checked
    proposals  serve: proposals changed at random, each answer held against a second check, and the
               clear after them; proposals of 16 MiB, of deep trees and nested lists
    propose    random books over the whole limits, each proposed for by a line that a second check
               calls a bound, and lines that are no books, for which nothing is written
    alloc      each allocation refused in turn, alone, and with all later ones
    growth     likewise in cases_bench: a step that finds no memory changes nothing
    short      every read and write moves at most so many bytes
    faults     each read, and each write, fails in turn
    live       serve: pieces and pauses at random, lines and numbers of lines at their limits and
               past them, readers that go, and kill -9 at random places and starting again

With no NAME all are run but what lacks something, as a line on standard error says. The program is
the one that ./build makes, or FILE. It stands outside the gate. The trials alloc, growth, short and
faults load tools/faults.c before the C library, and need a C compiler. Each run has 2 GiB of memory
and 120 seconds. Ends with 0 where everything came out as said, with 1 where something did not, and
with 2 where it could not be tried.
"""

from __future__ import annotations

import os
import pathlib
import subprocess
import sys
from collections.abc import Callable

from ragvismo_tools.ending import ended, words_of
from ragvismo_tools.hostile import books, ends, faults, journals, lines, live, proposals
from ragvismo_tools.hostile.trial import Trial, Unexpected
from ragvismo_tools.places import PROGRAM

TRIALS: dict[str, Trial] = {
    "commands": lines.commands,
    "lengths": lines.lengths,
    "pieces": ends.pieces,
    "closed": ends.closed,
    "full": ends.full,
    "memory": ends.memory,
    "cuts": journals.cuts,
    "bytes": journals.changed_bytes,
    "proposals": proposals.proposals,
    "propose": books.propose,
    "alloc": faults.alloc,
    "growth": faults.growth,
    "short": faults.short,
    "faults": faults.faults,
    "live": live.live,
}
# Why a trial cannot be made here, if it cannot.
LACKING: dict[str, Callable[[], str]] = {
    **dict.fromkeys(("alloc", "short", "faults"), faults.lacks_compiler),
    "growth": faults.lacks_parts,
}


def tried(name: str, program: pathlib.Path, quick: bool) -> bool:
    """Whether a trial came out as said; its row is printed."""
    try:
        count, said = TRIALS[name](program, quick)
    except (Unexpected, subprocess.TimeoutExpired) as fault:
        print(f"| {name} | | UNEXPECTED: {fault} |", flush=True)
        return False
    print(f"| {name} | {count:,} | {said} |", flush=True)
    return True


def main() -> int:
    words = words_of(__doc__)
    words.add_argument("names", nargs="*", metavar="NAME")
    words.add_argument("--program", type=pathlib.Path, default=PROGRAM, metavar="FILE")
    words.add_argument("--quick", action="store_true", help="less of everything")
    given = words.parse_args()
    unknown = [it for it in given.names if it not in TRIALS]
    if unknown:
        words.error(f"no trial is named {unknown[0]}")
    if not os.access(given.program, os.X_OK):
        words.error(f"there is no program {given.program}, which ./build makes")
    print("| What | Tried | What came out |\n|---|---|---|", flush=True)
    failed = 0
    for name in given.names or TRIALS:
        lacking = LACKING.get(name, str)()
        if lacking and not given.names:
            print(f"hostile: {name} is left out: {lacking}", file=sys.stderr)
        else:
            failed += not tried(name, given.program.resolve(), given.quick)
    return 1 if failed else 0


def run() -> int:
    return ended(main)
