"""Tables in pictures: the orders that traded, and the states of a measure."""

from __future__ import annotations

from collections.abc import Sequence
from fractions import Fraction
from functools import cache
from typing import Any, NamedTuple

from ragvismo.cleared import Cleared
from ragvismo.orders import FilledOrder

MOST_ROWS = 10
PADDING = 1.2  # of letters, left and right of a cell's text together
NEAR = 1e-6  # by which sums of inches may be off


class Layout(NamedTuple):
    """The width of a picture in inches, the size of its letters in points, and how many price
    labels fit side by side."""

    width: float
    letters: float
    labels: int

    def inches(self, text: str, smaller: float = 1) -> float:
        """The width of a text, in letters that are so many points smaller."""
        return _wide(text) * (self.letters - smaller) / 72

    @property
    def letter(self) -> float:
        """The height of a line in inches."""
        return self.letters / 72


@cache
def _wide(text: str) -> float:
    """The width of a text whose letters have the size 1."""
    from matplotlib.textpath import TextPath

    return float(TextPath((0, 0), text, size=100).get_extents().width) / 100 if text.strip() else 0


def brief(number: Fraction | int, most: int = 9) -> str:
    """A fraction as it stands, or what it is about where that is long."""
    if len(str(number)) <= most:
        return str(number)
    return f"≈ {float(number):.{min(6, most - 3)}g}"


def traded(cleared: Cleared) -> list[FilledOrder]:
    """The orders that traded."""
    return [order for order in cleared.orders if order.fill]


class Table(NamedTuple):
    """The rows of a table, the first of which is its head, and a line below it."""

    rows: list[list[str]]
    below: str

    def fitted(self, layout: Layout, wide: int) -> tuple[Table, list[float]]:
        """The table with the cells of its wide column broken so that no cell overflows, and the
        parts of the width that its columns have."""
        room = PADDING * layout.letter
        widths = [
            max(layout.inches(it) for cell in column for it in cell.split("\n")) + room
            for column in zip(*self.rows)
        ]
        most = layout.width * 0.97
        spare = most - sum(widths)
        if spare < 0:
            widths[wide] = max(widths[wide] + spare, 8 * layout.letter)
        rows = [
            [
                _broken(it, widths[at] - room, layout) if at == wide else it
                for at, it in enumerate(row)
            ]
            for row in self.rows
        ]
        widths = [it + max(spare, 0) / len(widths) for it in widths]
        return self._replace(rows=rows), [it / sum(widths) for it in widths]

    def lines(self) -> list[int]:
        """How many lines each row has."""
        return [1 + max(cell.count("\n") for cell in row) for row in self.rows]

    def height(self, layout: Layout) -> float:
        """Its height in inches: a line of a cell for each leg."""
        rows = self.lines() if len(self.rows) > 1 else []
        return (sum(rows) + 1.8 * bool(self.below) + 0.6 * len(rows)) * layout.letter


def _broken(text: str, width: float, layout: Layout) -> str:
    """A text with lines broken behind blanks where they are too wide."""
    lines: list[str] = []
    for line in text.split("\n"):
        parts = line.split(" ")
        lines.append(parts[0])
        for part in parts[1:]:
            longer = f"{lines[-1]} {part}"
            if layout.inches(longer) <= width + NEAR:
                lines[-1] = longer
            else:
                lines.append(part)
    return "\n".join(lines)


def of_orders(cleared: Cleared) -> Table:
    """Of the orders that traded the buys by falling and the sells by rising price, of each at most
    so many rows; without a row where nothing traded."""
    found = sorted(traded(cleared), key=lambda it: (-it.sign * it.price, it.number))
    shown = [
        it for side in ("buy", "sell") for it in [of for of in found if of.side == side][:MOST_ROWS]
    ]
    rows = [["order", "side", "bundle", "limit\n(ticks)", "quantity", "fill"]]
    for it in shown:
        legs = "\n".join(map(str, it.legs))
        about = [str(it.price), str(it.quantity), brief(it.fill)]
        rows.append([str(it.number), it.side, legs, *about])
    if not cleared.orders:
        return Table(rows, "the batch has no orders")
    if not found:
        return Table(rows, f"none of the {len(cleared.orders)} orders traded")
    more, rest = len(found) - len(shown), len(cleared.orders) - len(found)
    below = [f"{more} more traded"] * (more > 0)
    below += [f"{rest} of {len(cleared.orders)} orders did not trade"] * (rest > 0)
    return Table(rows, "; ".join(below))


def of_states(cleared: Cleared) -> Table:
    """The states of the measure, settlements by falling mass and then rays by falling weight, with
    their numbers in the measure."""
    states = sorted(
        enumerate(cleared.certificate.measure, 1),
        key=lambda it: (it[1].is_ray, -it[1].mass, -it[1].weight, it[0]),
    )
    rows = [["state", "prices (ticks)", "mass"]]
    for number, it in states[:MOST_ROWS]:
        place = f"({', '.join(brief(of, 7) for of in it.prices)})"
        part = f"weight {brief(it.weight)}" if it.is_ray else brief(it.mass)
        rows.append([str(number), f"ray along {place}" if it.is_ray else place, part])
    if not states:
        return Table(rows, f"no measure: the line has none (mark {cleared.mark})")
    more = len(states[MOST_ROWS:])
    return Table(rows, f"{more} more states, none heavier" if more else "")


def show(axes: Any, table: Table, layout: Layout, widths: Sequence[float], gid: str) -> Any:
    """Shows a table, and returns its cells by row and column."""
    axes.axis("off")
    below = 1.8 * layout.letter / table.height(layout) if table.below else 0.0
    if table.below:
        middle = 0.4 * below if len(table.rows) > 1 else 0.5
        text = {"ha": "center", "va": "center", "fontsize": layout.letters - 1}
        axes.text(0.5, middle, table.below, **text)
    if len(table.rows) == 1:
        return {}
    box = [0, below, 1, 1 - below]
    shown = axes.table(table.rows, colWidths=list(widths), cellLoc="center", bbox=box)
    shown.auto_set_font_size(False)
    shown.set_gid(gid)
    lines = table.lines()
    whole = sum(lines) + 0.6 * len(lines)
    for (row, _), cell in shown.get_celld().items():
        cell.set_text_props(fontsize=layout.letters - 1)
        look = {"linewidth": 0.3, "facecolor": "0.9" if row == 0 else "white"}
        cell.set(height=(lines[row] + 0.6) / whole, **look)
    return shown.get_celld()
