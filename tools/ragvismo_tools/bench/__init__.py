"""Measures the program and prints the tables of docs/PERFORMANCE.md, each with its day and machine.

    tools/bench [stream] [clears] [sides] [stream-sides] [clearing-stream] [fractions] [journals]
                [several] [trees] [sessions] [quotes] [margin] [secured] [passes] [peers]
                [live] [proposals] [near] [fixed] [--quick] [--runs N] [--program FILE]
                [--before FILE] [--parts FILE]

With no table named, the first six are printed but sides and stream-sides, which want an older
program as well (--before FILE), and but what lacks its program, as a line on standard error says.
These two clear the same batches, or run the same streams, with both programs in turn, and count
their instructions by valgrind, which does not depend on what else the machine does. The next six
measure the words check, sessions, quotes and guarded, and clears on several underlyings, where the
program has them; secured tells what an order of a secured account takes more than that of another,
as the least of five runs; passes counts by cases_bench which clears fit numbers of 64 bits. The
last sets exact solvers beside a clear: QSopt_ex (esolver) and glpsol --exact, which Debian has in
qsopt-ex and glpk-utils; one that is not installed is left out, and a line says so. Live prints four
tables of the word serve: a file through it beside run, a line and its reply over a pipe, starting
again, and memory. Proposals are lines of serve that are judged; near is what the word propose
finds. Fixed counts the instructions of six clears, which a change is compared by; with --before
FILE the older program's stand beside. Inputs are made from fixed seeds, so that anybody can take
the figures again: the program is the one that ./build makes (crates/exchange_cli/out/exchange_cli),
that of fractions and passes the one that `rt run` makes in crates/cases_bench. A time is the
processor time of a whole process, the least of three runs (or of --runs N), its output thrown away;
memory is the greatest that it held. With --quick there is one run, and less of everything.
"""

from __future__ import annotations

import argparse
import os
import pathlib
import sys
from collections.abc import Callable

from ragvismo_tools import timing
from ragvismo_tools.bench import asking, clears, live, near, peers, reading, streams
from ragvismo_tools.ending import Words, ended, words_of
from ragvismo_tools.places import PROGRAM, TOP

PARTS = TOP / "crates/cases_bench/out/cases_bench"
OF_PARTS = ("fractions", "passes")
Table = Callable[[pathlib.Path, bool], None]
# What is printed where no table is named, what is printed only where it is, and what wants an
# older program or takes one.
FIRST: dict[str, Table] = {
    "stream": streams.stream,
    "clears": clears.clears,
    "clearing-stream": streams.clearing_stream,
    "fractions": clears.fractions,
}
LATER: dict[str, Table] = {
    "journals": reading.journals,
    "several": clears.several,
    "trees": reading.trees,
    "sessions": reading.sessions,
    "quotes": asking.quotes,
    "margin": asking.margin,
    "secured": asking.secured,
    "passes": clears.passes,
    "peers": peers.peers,
    "live": live.live,
    "proposals": reading.proposals,
    "near": near.near,
}
SIDES = {"sides": clears.sides, "stream-sides": streams.stream_sides}


def words() -> Words:
    asked = words_of(__doc__)
    names = [*FIRST, *LATER, *SIDES, "fixed"]
    asked.add_argument("tables", nargs="*", choices=[[], *names], help="the tables to print")
    asked.add_argument("--quick", action="store_true", help="one run, and less of everything")
    about_runs = "a time is the least of so many runs"
    asked.add_argument("--runs", type=int, default=timing.RUNS, help=about_runs)
    asked.add_argument("--program", type=pathlib.Path, default=PROGRAM)
    about_before = "the older program of sides and fixed"
    asked.add_argument("--before", type=pathlib.Path, help=about_before)
    about_parts = f"the program of {' and '.join(OF_PARTS)}"
    asked.add_argument("--parts", type=pathlib.Path, default=PARTS, help=about_parts)
    return asked


def printed(name: str, given: argparse.Namespace, asked: Words) -> None:
    """Prints one table, or says why it is left out."""
    program = given.parts if name in OF_PARTS else given.program
    if not os.access(program, os.X_OK):
        maker = "rt run in crates/cases_bench" if program == given.parts else "./build"
        lacking = f"there is no program {program}, which {maker} makes"
        if given.tables or program == given.program:
            asked.error(lacking)
        print(f"bench: {name} is left out: {lacking}", file=sys.stderr)
    elif name in SIDES:
        before = given.before or asked.error(f"{name} wants --before FILE")
        SIDES[name](program, before, given.quick)
    elif name == "fixed":
        clears.fixed([given.before, program] if given.before else [program], given.quick)
    else:
        {**FIRST, **LATER}[name](program, given.quick)


def main() -> None:
    asked = words()
    given = asked.parse_args()
    timing.RUNS = 1 if given.quick else given.runs
    for name in given.tables or FIRST:
        printed(name, given, asked)
    if not os.access(timing.TIME, os.X_OK):
        why = f"there is no {timing.TIME} (Debian's package time)"
        print(f"bench: memory is left out, and stands as 0: {why}", file=sys.stderr)


def run() -> int:
    return ended(main)
