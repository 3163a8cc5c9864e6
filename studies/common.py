"""What the studies share: words, trials over processes with every certificate rechecked, intervals,
tables, figures."""
from __future__ import annotations

import argparse
import importlib.util
import json
import logging
import pathlib
import random
import statistics
import sys
import time
from collections.abc import Callable, Hashable, Iterable, Sequence
from concurrent.futures import ProcessPoolExecutor
from functools import partial
from typing import Any, NamedTuple, NoReturn, TypeVar

logging.getLogger("matplotlib").setLevel(logging.ERROR)
sys.dont_write_bytecode = True
TOP = pathlib.Path(__file__).resolve().parent.parent
sys.path += [str(TOP / "python"), str(TOP / "tools")]
from ragvismo_tools import ending, tracked
from ragvismo import Batch, Cleared, Refused, clear, cleared, pictures, program
from ragvismo.exchange import command_of, refused
from ragvismo.faults import RagvismoError

BUDGET = 20_000
# What an account that holds all orders of a batch has, in ticks.
FUNDS = 10**15
# So many samples with replacement, of which the middle 95 percent are an interval.
SAMPLES = 2_000
# So many seconds a scheduler has to answer.
PATIENCE = 120
# Twice the width of a column: set into one, letters have half this size.
WIDTH, HEIGHT, LETTERS = 6.8, 2.7, 13
CaseOf = TypeVar("CaseOf", bound=Hashable)
Found = TypeVar("Found")


class BadInput(Exception):
    """What is wrong, in one line."""


class Given(NamedTuple):
    """How a study is asked for: the program, or None for the usual one, the folders for the cleared
    lines and for the results, or None, the batches of each case, the processes, whether it is told
    what each case took, and the scheduler of other machines, or None.
    """

    program: pathlib.Path | None
    journals: pathlib.Path | None
    batches: int = 1
    workers: int = 1
    out: pathlib.Path | None = None
    seconds: bool = False
    scheduler: str | None = None


class Pair(NamedTuple):
    """A batch cleared jointly, and with each bundle matched alone."""

    joint: Cleared
    each: Cleared

    @property
    def gain(self) -> float:
        """What joint clearing adds to the surplus, in ticks."""
        return float(self.joint.surplus - self.each.surplus)


class Table(NamedTuple):
    """A table with a line above it."""

    title: str
    head: Sequence[str]
    rows: Sequence[Sequence[object]]

    def __str__(self) -> str:
        lines = [self.head, ["---"] * len(self.head), *self.rows]
        return f"{self.title}\n\n" + "".join(f"| {' | '.join(map(str, it))} |\n" for it in lines)


class Report(NamedTuple):
    """The tables of a study, and what draws its figure into so many panels, one below the other."""

    tables: Sequence[Table]
    panels: int
    draw: Callable[[Sequence[Any]], None]


# Trials.


class Trial(NamedTuple):
    """What was found in one trial, the lines that were cleared in it, and what it took."""

    found: Any
    lines: list[str]
    seconds: float


def trials(
    one: Callable[[CaseOf, int, Given], tuple[Found, list[Cleared]]],
    cases: Sequence[CaseOf],
    given: Given,
    name: str,
) -> dict[CaseOf, list[Found]]:
    """What is found in each case with the number of each batch, over processes or machines: in one
    order and with the same seeds however many there are. `exchange audit` judges every line that
    was cleared.
    """
    asked = [(case, number) for case in cases for number in range(given.batches)]
    do = partial(_trial, one, given)
    if given.scheduler:
        made = _by_machines(do, asked, given.scheduler)
    elif given.workers == 1:
        made = list(map(do, asked))
    else:
        with ProcessPoolExecutor(given.workers) as pool:
            made = list(pool.map(do, asked))
    results: dict[CaseOf, list[Found]] = {case: [] for case in cases}
    spent: dict[CaseOf, list[float]] = {case: [] for case in cases}
    for (case, _), trial in zip(asked, made, strict=True):
        results[case].append(trial.found)
        spent[case].append(trial.seconds)
    for case, seconds in spent.items() if given.seconds else ():
        print(f"{case}: {sum(seconds):.1f} s, at most {max(seconds):.2f} s", file=sys.stderr)
    if given.journals:
        lines = [line for trial in made for line in trial.lines]
        (given.journals / f"{name}.replies").write_text("".join(f"{it}\n" for it in lines))
    return results


def _trial(
    one: Callable[[CaseOf, int, Given], tuple[Found, list[Cleared]]],
    given: Given,
    asked: tuple[CaseOf, int],
) -> Trial:
    start = time.perf_counter()
    found, lines = one(*asked, given)
    texts = [it.text for it in lines]
    program.check("".join(f"{it}\n" for it in texts), given.program)
    return Trial(found, texts, time.perf_counter() - start)


def _by_machines(do: Callable[[Any], Trial], asked: Sequence[Any], scheduler: str) -> list[Trial]:
    """The trials by the workers of a scheduler of dask.distributed, in the order of what is asked
    for."""
    try:
        distributed = importlib.import_module("distributed")
    except ImportError:
        raise BadInput("--scheduler wants python3-distributed; tools/setup installs it") from None
    with distributed.Client(scheduler, timeout=PATIENCE) as client:
        made: list[Trial] = client.gather(client.map(do, asked, pure=False))
    return made


def audit(found: Iterable[Cleared], given: Given, name: str) -> None:
    """Has `exchange audit` judge cleared lines, and keeps them where that is asked for."""
    text = "".join(f"{it.text}\n" for it in found)
    program.check(text, given.program)
    if given.journals:
        (given.journals / f"{name}.replies").write_text(text)


def clear_both(batch: Batch, given: Given) -> Pair:
    """Clears a batch jointly and each bundle alone."""
    joint = clear(batch, budget=BUDGET, path=given.program)
    return Pair(joint, clear(batch, "each", path=given.program))


def clear_together(batches: Iterable[Batch], given: Given, budget: int = BUDGET) -> list[Cleared]:
    """Clears batches on as many underlyings one after the other in one exchange, which is faster:
    as `clear` does each, but for the numbers of the orders, which run on. Each order is of account
    1."""
    listed = list(batches)
    lines = ["open,1", f"deposit,1,{FUNDS}", f"market,1,{listed[0].underlyings}" if listed else ""]
    for batch in listed:
        lines += [command_of(order, 1) for order in batch.orders]
        lines.append(f"clear,1,{budget}")
    text = "".join(f"{line}\n" for line in lines)
    found = []
    for command, line in zip(lines, program.run(text, "serve", given.program).splitlines()):
        reply = json.loads(line)
        if reply["reply"] == "refused":
            raise refused(command, reply)
        if reply["reply"] == "cleared":
            found.append(cleared.read(reply, line, given.program))
    return found


# Numbers.


def by_t(values: Sequence[float]) -> tuple[float, float]:
    """The mean, and the half width of its interval of 95 percent by Student's t; 0 for a single
    value."""
    from scipy.special import stdtrit

    if len(values) < 2:
        return statistics.mean(values), 0.0
    quantile = float(stdtrit(len(values) - 1, 0.975))
    return statistics.mean(values), quantile * statistics.stdev(values) / len(values) ** 0.5


def by_resampling(values: Sequence[float]) -> tuple[float, float]:
    """The middle 95 percent of the means of samples with replacement, from one seed."""
    draw, count = random.Random("resampling"), len(values)
    means = sorted(sum(draw.choices(values, k=count)) / count for _ in range(SAMPLES))
    return means[SAMPLES // 40], means[SAMPLES - 1 - SAMPLES // 40]


def told(values: Sequence[float], digits: int = 0) -> str:
    """The mean with the half width of its interval by t."""
    mean, reach = by_t(values)
    return f"{mean:,.{digits}f}" + (f" ± {reach:,.{digits}f}" if len(values) > 1 else "")


def ends(values: Sequence[float], digits: int = 0) -> str:
    """The ends of the interval of the mean by resampling."""
    low, high = by_resampling(values)
    return f"{low:,.{digits}f} to {high:,.{digits}f}"


def counts(words: Sequence[str]) -> str:
    """How often each word stands there."""
    return ", ".join(f"{words.count(it)} {it}" for it in sorted(set(words)))


def filled_share(cleared: Cleared) -> float:
    """The share of the quantity that is filled, in percent."""
    whole = sum(it.quantity for it in cleared.orders)
    return 100 * float(sum(cleared.fills)) / whole if whole else 0.0


def share(part: Iterable[float], whole: Iterable[float]) -> float:
    """The first sum in percent of the second; 0 where that is 0."""
    below = sum(whole)
    return 100 * sum(part) / below if below else 0.0


# Words.


class Words(argparse.ArgumentParser):
    """Words whose faults are told in one line."""

    def error(self, message: str) -> NoReturn:
        raise BadInput(f"{message}; {self.prog} --help says more")


def words_of(about: str | None) -> Words:
    """The words that every study has."""
    words = Words(description=about, formatter_class=argparse.RawDescriptionHelpFormatter)
    words.add_argument("--program", type=pathlib.Path, metavar="FILE")
    words.add_argument("--journals", type=pathlib.Path, metavar="FOLDER")
    return words


def asked(about: str | None, batches: int) -> Given:
    """What a study of made data is asked for, by its whole form; raises `BadInput`."""
    words = words_of(about)
    words.add_argument("--batches", type=int, default=batches, metavar="N")
    words.add_argument("--workers", type=int, default=1, metavar="N")
    words.add_argument("--out", type=pathlib.Path, metavar="FOLDER")
    words.add_argument("--seconds", action="store_true")
    words.add_argument("--scheduler", metavar="ADDRESS")
    given = Given(**vars(words.parse_args()))
    if given.batches < 2 or given.workers < 1:
        raise BadInput("--batches is at least 2, and --workers at least 1")
    if given.scheduler and given.workers > 1:
        raise BadInput("--workers are processes here, and --scheduler has its own")
    for folder in (given.out, given.journals):
        if folder and not folder.is_dir():
            raise BadInput(f"{folder} is no folder")
    for module in ["scipy"] + ["matplotlib"] * bool(given.out):  # before hours of trials
        if not importlib.util.find_spec(module):
            raise BadInput(f"python3-{module} is missing; tools/setup installs it")
    for file in results(given):
        if given.batches != batches and tracked.is_tracked(file):
            raise BadInput(f"{file} is tracked, and this is not the whole study")
    return given


def results(given: Given) -> list[pathlib.Path]:
    """The files of the tables and of the figure."""
    name = pathlib.Path(sys.argv[0]).stem
    return [given.out / f"{name}.md", given.out / f"{name}.svg"] if given.out else []


def run(about: str | None, batches: int, study: Callable[[Given], Report]) -> None:
    """Runs a study, prints its tables, and writes them and its figure where that is asked for."""

    def main() -> None:
        given = asked(about, batches)
        report = (importable(study) if given.scheduler else study)(given)
        text = "\n".join(map(str, report.tables))
        print(text, end="")
        if given.out:
            table, figure = results(given)
            table.write_text(text)
            save(report, figure)

    end_by(main)


def importable(study: Callable[[Given], Report]) -> Callable[[Given], Report]:
    """The study by its module's name, by which workers elsewhere find what it sends: their
    `__main__` is another one."""
    module = importlib.import_module(pathlib.Path(sys.argv[0]).stem)
    found: Callable[[Given], Report] = getattr(module, study.__name__)
    return found


def end_by(main: Callable[[], None]) -> NoReturn:
    """Ends as a study's main does; a fault of the input or of the program is one line, and 2."""
    try:
        sys.exit(ending.status_of(main))
    except (BadInput, RagvismoError, OSError) as fault:
        said = f"an order is refused: {fault}" if isinstance(fault, Refused) else fault
        print(f"{pathlib.Path(sys.argv[0]).stem}: {said}", file=sys.stderr)
        sys.exit(2)


# Figures.


def save(report: Report, path: pathlib.Path) -> None:
    """Draws the figure of a study into a file."""
    import matplotlib

    matplotlib.use("Agg")
    from matplotlib import pyplot

    look = {**pictures.LOOK, "font.size": LETTERS, "axes.titlesize": "medium"}
    with matplotlib.rc_context(look):
        size = WIDTH, 0.4 + HEIGHT * report.panels
        figure, axes = pyplot.subplots(
            report.panels, 1, figsize=size, layout="constrained", squeeze=False
        )
        report.draw([row[0] for row in axes])
        figure.savefig(path, metadata={"Date": None})
        pyplot.close(figure)


def beside(places: Iterable[float], at: int, of: int) -> list[float]:
    """Places a little beside one another for each of several lines, so that no interval stands on
    another one."""
    return [place + 0.12 * (at - (of - 1) / 2) for place in places]


def show(
    axes: Any, places: Sequence[float], values: Sequence[Sequence[float]], look: str, **more: Any
) -> None:
    """The means of values over their places, with intervals of 95 percent by t."""
    means = [by_t(it) for it in values]
    lines = {"markersize": 6, "capsize": 4, "lw": 1.6, "elinewidth": 1.2, **more}
    axes.errorbar(places, [it[0] for it in means], yerr=[it[1] for it in means], fmt=look, **lines)
