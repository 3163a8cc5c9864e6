"""Multipliers that close a leaf, by linear programs of few rows in exact numbers."""

from __future__ import annotations

from collections.abc import Sequence
from fractions import Fraction

# So many exchanges take the unknown that is farthest outside; behind them the first one, by which
# no program runs in a circle (Bland).
FARTHEST = 200


def least(
    base: Sequence[Fraction],
    columns: Sequence[Sequence[int]],
    ends: Sequence[Fraction | None],
    most: Fraction,
) -> list[Fraction] | None:
    """Multipliers from 0 to their ends, with which no entry of base plus multipliers times columns
    is above 0 but the first, which is at most `most`, or as little above it as it can be. None
    where no multipliers do.

    By the dual simplex method: all multipliers are 0 at first, and the entries that are too large
    are brought down one after the other.
    """
    program = _Program(base, columns, ends, most)
    for count in range(10**6):
        row = program.outside(count < FARTHEST)
        if row is None:
            return program.values[: len(columns)]
        if not program.exchange(row):
            break
    return None


class _Program:
    """Unknowns are the multipliers, by how much the first entry is above `most`, and how far each
    entry is below its limit. Those that are held at a bound have a column each; the others have a
    row, which tells them by those: an entry over `over` is by how much it falls as that one rises.
    The last row is by how much the excess rises.
    """

    def __init__(
        self,
        base: Sequence[Fraction],
        columns: Sequence[Sequence[int]],
        ends: Sequence[Fraction | None],
        most: Fraction,
    ) -> None:
        size, many = len(base), len(columns)
        self.over = 1
        self.table = [[*(it[at] for it in columns), -int(at == 0)] for at in range(size)]
        self.table.append([0] * many + [1])
        self.columns, self.rows = [*range(many + 1)], [*range(many + 1, many + 1 + size)]
        self.ends = [*ends, *[None] * (size + 1)]
        self.values = [*[Fraction(0)] * (many + 1), most - base[0], *(-it for it in base[1:])]

    def beyond(self, unknown: int) -> Fraction:
        """By how much an unknown is above its end, or (less than 0) below 0; else 0."""
        value, end = self.values[unknown], self.ends[unknown]
        if end is not None and value > end:
            return value - end
        return min(value, Fraction(0))

    def outside(self, farthest: bool) -> int | None:
        """The row of an unknown that is outside its bounds: of the farthest, or of the first."""
        found = [at for at, unknown in enumerate(self.rows) if self.beyond(unknown)]
        if not found:
            return None
        if farthest:
            return max(found, key=lambda at: abs(self.beyond(self.rows[at])))
        return min(found, key=self.rows.__getitem__)

    def exchange(self, row: int) -> bool:
        """Brings the unknown of a row to the bound that it is beyond, by the one at a bound that
        costs least; False where none can."""
        beyond = self.beyond(self.rows[row])
        sign = 1 if beyond > 0 else -1
        chosen: list[tuple[Fraction, int, int]] = []
        for at, (entry, cost) in enumerate(zip(self.table[row], self.table[-1])):
            unknown = self.columns[at]
            rises = not self.values[unknown]
            if entry and (entry * sign > 0) == rises and self.ends[unknown] != 0:
                chosen.append((abs(Fraction(cost, entry)), unknown, at))
        if not chosen:
            return False
        column = min(chosen)[-1]
        moved = beyond * self.over / self.table[row][column]
        for unknown, entries in zip(self.rows, self.table):
            self.values[unknown] -= moved * Fraction(entries[column], self.over)
        self.values[self.columns[column]] += moved
        self.turn(row, column)
        return True

    def turn(self, row: int, column: int) -> None:
        """Has a row and a column change places."""
        by, pivot = self.table[row], self.table[row][column]
        for at, entries in enumerate(self.table):
            if at != row:
                of = entries[column]
                if of:
                    turned = [(it * pivot - of * own) // self.over for it, own in zip(entries, by)]
                else:
                    turned = [it * pivot // self.over for it in entries]
                turned[column] = -of
                self.table[at] = turned
        by[column] = self.over
        self.over = pivot
        if pivot < 0:
            self.over = -pivot
            self.table = [[-it for it in entries] for entries in self.table]
        self.rows[row], self.columns[column] = self.columns[column], self.rows[row]
