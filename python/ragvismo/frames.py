"""Journals as DataFrames."""

from __future__ import annotations

import gc
import operator
import pathlib
import re
from collections.abc import Callable
from dataclasses import dataclass, fields
from fractions import Fraction
from operator import itemgetter
from typing import TYPE_CHECKING, Any

from ragvismo import journals
from ragvismo.cleared import states_of
from ragvismo.faults import BadJournal
from ragvismo.orders import Leg, Option, cash_of
from ragvismo.program import Path

if TYPE_CHECKING:
    import pandas

SIZED = set(
    "account batch cash count filled leg line market number order orders price quantity state"
    " strike underlyings units".split()
)
# Fractions, and whole numbers of any length: exact objects, or floats where those are asked for.
EXACT = set("amount bound fill gap liability mass premium surplus weight".split())
ABOUT = ("order", "account", "side", "price", "quantity")
LEG = ("order", "leg", "count", "kind", "strike", "weights")
COLUMNS = {
    "batches": "batch line market mark run underlyings units orders filled premium liability"
    " surplus bound",
    "orders": "batch market order account side options price quantity fill premium cash",
    "legs": "batch order leg count kind strike weights",
    "measure": "batch state is_ray prices mass weight",
    "payouts": "line market batch order account amount",
    "refusals": "line number reason field need",
}


@dataclass(frozen=True)
class JournalFrames:
    """What a journal tells, as DataFrames. Amounts, fills and weights are `int` and `Fraction`, so
    that their sums are exact, or floats, which plot, where those were asked for.

    - `batches`: `batch`, `line`, `market`, `mark`, the mark of the exchange's own `run`,
      `underlyings`, `units`, how many `orders` and of them `filled`, and in ticks `premium`,
      `liability`, `surplus`, and the `bound` of any fills' surplus, None where none is told.
    - `orders`: those of the batches, with `batch`, `market`, `order`, `account`, `side`, `options`
      (the bundle in words), `price` (ticks), `quantity` and `fill` (bundles), `premium` (fill times
      price, above 0 of a buy: their sum is the batch's), and `cash`, what the account gets at the
      clear in whole ticks. `Batch.from_frame` reads those of one batch.
    - `legs`: `batch`, `order`, `leg` (from 1), `count`, `kind`, `strike` (ticks), `weights`.
    - `measure`: `batch`, `state` (from 1), `is_ray`, `prices` (ticks; of a ray its direction),
      `mass`, `weight`.
    - `payouts`: `line`, `market`, `batch`, `order`, `account`, `amount` (whole ticks, below 0 where
      the account pays).
    - `refusals`: `line`, `number`, `reason`, and `field` and `need` where they are told.
    """

    batches: "pandas.DataFrame"
    orders: "pandas.DataFrame"
    legs: "pandas.DataFrame"
    measure: "pandas.DataFrame"
    payouts: "pandas.DataFrame"
    refusals: "pandas.DataFrame"

    def write(self, folder: Path) -> None:
        """Writes each frame into a file of a folder, such as orders.csv; fractions stay exact."""
        for it in fields(self):
            getattr(self, it.name).to_csv(pathlib.Path(folder) / f"{it.name}.csv", index=False)

    @classmethod
    def read(cls, folder: Path, floats: bool = False) -> JournalFrames:
        """The frames that `write` wrote into a folder, with the same types."""
        import pandas

        texts = {
            name: pandas.read_csv(
                pathlib.Path(folder) / f"{name}.csv", dtype=str, keep_default_na=False
            )
            for name in COLUMNS
        }
        return cls(
            **{
                name: frame_of(
                    {it: list(map(_cell_of(it), text[it])) for it in COLUMNS[name].split()}, floats
                )
                for name, text in texts.items()
            }
        )


def read_journal(path: Path, floats: bool = False) -> JournalFrames:
    """The journal that `run`, `quotes`, `guarded`, `sessions` or `serve` wrote; `BadJournal`."""
    reader = _Reader()
    was_collecting = gc.isenabled()
    gc.disable()  # millions of objects are made, and none is let go
    try:
        journals.take_all(path, reader.take)
        return JournalFrames(
            **{name: frame_of(columns, floats) for name, columns in reader.frames.items()}
        )
    except (OverflowError, TypeError) as fault:
        raise BadJournal(f"{path} has a number that no reply line has: {fault}") from None
    finally:
        if was_collecting:
            gc.enable()


def frame_of(columns: dict[str, list[Any]], floats: bool = False) -> "pandas.DataFrame":
    """A frame of columns by name: numbers of a size that is known, fractions exact as objects, or
    as floats where those are asked for, NaN for None."""
    import numpy
    import pandas

    def array(name: str, cells: list[Any]) -> Any:
        if name == "field":
            return pandas.array(cells, dtype="Int64")
        if name in EXACT and floats:
            return numpy.array(
                [numpy.nan if it is None else float(it) for it in cells], dtype=float
            )
        # fromiter takes the objects as they are, where an array of a list would look into each
        if name in SIZED:  # of a number that is not whole it would drop the rest
            return numpy.fromiter(map(operator.index, cells), dtype="int64", count=len(cells))
        of: Any = bool if name == "is_ray" else object
        return numpy.fromiter(cells, dtype=of, count=len(cells))

    return pandas.DataFrame({name: array(name, cells) for name, cells in columns.items()})


def _cell_of(column: str) -> Callable[[str], Any]:
    """What reads the cells of a column of a file."""
    if column in SIZED or column == "amount":
        return int
    if column in EXACT:
        return lambda text: Fraction(text) if text else None
    if column == "prices":
        return lambda text: tuple(Fraction(*map(int, it)) for it in _PAIR.findall(text))
    readers: dict[str, Callable[[str], Any]] = {
        "weights": lambda text: tuple(map(int, re.findall(r"-?\d+", text))),
        "is_ray": lambda text: text == "True",
        "field": lambda text: int(text) if text else None,
        "need": lambda text: text or None,
    }
    return readers.get(column, str)


_PAIR = re.compile(r"Fraction\((-?\d+), (\d+)\)")


class _Exact(dict[str, Fraction]):
    """The fractions of texts, each made once."""

    def __missing__(self, text: str) -> Fraction:
        self[text] = made = Fraction(text)
        return made


class _Options(dict[tuple[int, ...], tuple[str, int, tuple[int, ...]]]):
    """Kind, strike and weights of the vectors of options, each made once."""

    def __missing__(self, form: tuple[int, ...]) -> tuple[str, int, tuple[int, ...]]:
        option = Option(form)
        self[form] = made = (option.kind, option.strike, option.weights)
        return made


class _Words(dict[tuple[int, ...], str]):
    """The words of options that count once, each made once."""

    def __missing__(self, form: tuple[int, ...]) -> str:
        self[form] = made = str(Option(form))
        return made


class _Reader:
    """The columns of each frame. A batch is taken column by column, since a journal may hold a
    million orders."""

    def __init__(self) -> None:
        self.frames: dict[str, dict[str, list[Any]]] = {
            name: {column: [] for column in columns.split()} for name, columns in COLUMNS.items()
        }
        self.exact, self.options, self.words = _Exact(), _Options(), _Words()

    def add(self, name: str, *row: Any) -> None:
        for column, cell in zip(self.frames[name].values(), row, strict=True):
            column.append(cell)

    def take(self, reply: dict[str, Any], text: str) -> None:
        """Takes one reply."""
        word = reply["reply"]
        if word == "cleared":
            self.take_orders(reply)
            self.take_legs(reply)
            self.take_batch(reply)
        elif word == "settled":
            for it in reply["payouts"]:
                about = it["batch"], it["order"], it["account"], int(it["amount"])
                self.add("payouts", reply["line"], reply["market"], *about)
        elif word == "refused":
            told = reply["line"], reply["number"], reply["reason"]
            self.add("refusals", *told, reply.get("field"), reply.get("need"))

    def take_orders(self, reply: dict[str, Any]) -> None:
        orders, columns = reply["orders"], self.frames["orders"]
        fills = [self.exact[text] for text in reply["fills"]]
        columns["batch"] += [reply["batch"]] * len(orders)
        columns["market"] += [reply["market"]] * len(orders)
        for name, cells in zip(ABOUT, zip(*map(itemgetter(*ABOUT), orders))):
            columns[name] += cells
        columns["options"] += map(self.words_of, orders)
        columns["fill"] += fills
        pairs = list(zip(orders, fills, strict=True))
        columns["premium"] += [
            fill * (it["price"] if it["side"] == "buy" else -it["price"]) for it, fill in pairs
        ]
        columns["cash"] += [cash_of(it["side"], fill, it["price"]) for it, fill in pairs]

    def words_of(self, order: dict[str, Any]) -> str:
        if "form" in order:
            return self.words[tuple(order["form"])]
        legs = [Leg(it["count"], Option(tuple(it["form"]))) for it in order["legs"]]
        return " and ".join(map(str, legs))

    def take_legs(self, reply: dict[str, Any]) -> None:
        columns = self.frames["legs"]
        if reply["version"] == 1:
            orders = [it["order"] for it in reply["orders"]]
            numbers = counts = [1] * len(orders)
            options = [self.options[tuple(it["form"])] for it in reply["orders"]]
        else:
            legs = [
                (it["order"], *each) for it in reply["orders"] for each in enumerate(it["legs"], 1)
            ]
            orders, numbers = [it[0] for it in legs], [it[1] for it in legs]
            counts = [it[2]["count"] for it in legs]
            options = [self.options[tuple(it[2]["form"])] for it in legs]
        columns["batch"] += [reply["batch"]] * len(orders)
        for name, cells in zip(LEG, (orders, numbers, counts, *zip(*options))):
            columns[name] += cells

    def take_batch(self, reply: dict[str, Any]) -> None:
        for number, it in enumerate(states_of(reply.get("certificate", {})), 1):
            self.add("measure", reply["batch"], number, it.is_ray, it.prices, it.mass, it.weight)
        liability, surplus = (self.exact[reply["liability"]], self.exact[reply["surplus"]])
        bound = reply.get("bound") or (reply["surplus"] if reply["mark"] == "optimal" else None)
        filled = sum(text != "0" for text in reply["fills"])
        about = reply["batch"], reply["line"], reply["market"], reply["mark"]
        told = reply.get("run", reply["mark"]), reply["underlyings"], reply["units"]
        amounts = liability + surplus, liability, surplus, bound and self.exact[bound]
        self.add("batches", *about, *told, len(reply["orders"]), filled, *amounts)
