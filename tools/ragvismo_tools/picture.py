"""Draws one batch of a journal.

    tools/picture JOURNAL [--batch N] [--size page|column] [--limits LOW HIGH] [--title TEXT]
                          [--out FILE.svg]

JOURNAL, or standard input where it is a minus, is what `exchange run` or `serve` wrote. Without
--batch its last batch is drawn. Without --out the picture stands beside the journal, with the
ending svg (png and pdf go too), or, where git tracks such a file there or the journal is standard
input, in the folder trials of the checkout, and a line says where. It is 7 inches wide for a page,
as it is where no size is given, or 3.4 for a column. On one underlying: what the house keeps of the
premium after the net payoff, over the price at settlement, with the surplus below it, the bound
where the line tells one, and the measure; the bar beside the masses is the weight of the slope, by
which the measure prices how steeply a payoff rises beyond all prices. On two: the same as a map
over both prices, with the states of the measure by their numbers. On more the states alone, and
always below it the orders that traded. --limits are the least and greatest price that are shown,
--title takes the place of what is told above. Bad input gets one line on standard error and status
2.
"""
from __future__ import annotations

import logging
import os
import pathlib

from ragvismo_tools import tracked
from ragvismo_tools.ending import BadUse, ended, words_of
from ragvismo_tools.places import TOP
from ragvismo import journals, pictures
from ragvismo.faults import BadJournal


TRIALS = TOP / "trials"


def place_for(journal: pathlib.Path) -> pathlib.Path:
    """Where the picture of a journal stands if no place is named: beside it, but over no file that
    git tracks."""
    if journal == pathlib.Path("-"):
        return TRIALS / "batch.svg"
    beside = journal.with_suffix(".svg")
    return TRIALS / beside.name if tracked.is_tracked(beside) else beside


def main() -> None:
    words = words_of(__doc__)
    words.add_argument("journal", metavar="JOURNAL", type=pathlib.Path)
    words.add_argument("--batch", type=int, metavar="N")
    words.add_argument("--size", choices=pictures.LAYOUTS, default="page")
    words.add_argument("--limits", type=float, nargs=2, metavar=("LOW", "HIGH"))
    words.add_argument("--title", metavar="TEXT")
    words.add_argument("--out", type=pathlib.Path, metavar="FILE.svg")
    given = words.parse_args()
    logging.getLogger("matplotlib").setLevel(logging.ERROR)  # it warns while it is imported too
    try:
        import matplotlib
    except ImportError:
        raise BadUse("python3-matplotlib is missing; tools/setup installs it") from None
    matplotlib.use("Agg")
    batch = journals.read_batch(str(given.journal), given.batch)
    out = given.out or place_for(given.journal)
    if out.resolve() == given.journal.resolve():
        raise BadUse(f"the picture would overwrite {out}")
    limits = (given.limits[0], given.limits[1]) if given.limits else None
    try:
        pictures.save(batch, out, given.size, title=given.title, limits=limits)
    except ValueError as fault:
        raise BadUse(str(fault)) from None
    except OSError as fault:
        raise BadUse(f"{out} cannot be written: {fault.strerror}") from None
    if not given.out:
        print(os.path.relpath(out))


def run() -> int:
    return ended(main, BadJournal)
