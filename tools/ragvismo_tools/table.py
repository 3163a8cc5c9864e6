"""Prints what a journal tells as a table, or the certificate of one of its batches in words.

    tools/table JOURNAL [--of orders|fills|balances|batches|payouts] [--as csv|text]
    tools/table JOURNAL --certificate BATCH

JOURNAL, or standard input where it is a minus, is the whole of what `exchange run` wrote, or
quotes, guarded, sessions or serve. Orders are those of the batches, and by their numbers those that
were in none; fills are the orders that are filled, with the premium that the account gains in whole
ticks; balances are the last ones that follow from the lines. A certificate is computed in exact
fractions from the line of the batch alone: what is owed and due where it counts, and the measure;
of a cover by cells how many nodes it has, and the first that fails. Where a sum is not as it should
be, the words say "which fails" and the status is 1. Bad use has one line and status 2.
"""
from __future__ import annotations

import csv
import sys
from collections.abc import Callable, Iterator, Sequence
from fractions import Fraction
from typing import Any, NamedTuple

from ragvismo_tools.ending import BadUse, ended, words_of
from ragvismo import cells, journals
from ragvismo.cleared import Cleared
from ragvismo.faults import BadJournal, Unproved
from ragvismo.orders import Option

Rows = list[list[object]]
WORDS_OF_OPERATORS = {"add": "plus", "mul": "times", "div": "over", "whole": "taken in, beside"}


# Tables: the first row names the columns.


def orders(journal: journals.Journal) -> Rows:
    rows: Rows = [
        [
            "order",
            "state",
            "batch",
            "market",
            "account",
            "side",
            "options",
            "price",
            "quantity",
            "fill",
        ]
    ]
    told = {each.number: (batch, each) for batch in journal.batches for each in batch.orders}
    for number in sorted(told.keys() | journal.placed.keys()):
        if number in told:
            batch, it = told[number]
            about = (
                batch.number,
                batch.market,
                it.account,
                it.side,
                it.options(),
                it.price,
                it.quantity,
                it.fill,
            )
            rows.append([number, "cleared", *about])
        else:
            rows.append(
                [number, "cancelled" if number in journal.cancelled else "in no batch", *[""] * 8]
            )
    return rows


def fills(journal: journals.Journal) -> Rows:
    rows: Rows = [
        [
            "batch",
            "market",
            "order",
            "account",
            "side",
            "options",
            "price",
            "quantity",
            "fill",
            "premium",
        ]
    ]
    for batch in journal.batches:
        for it in batch.orders:
            if it.fill:
                about = (
                    it.number,
                    it.account,
                    it.side,
                    it.options(),
                    it.price,
                    it.quantity,
                    it.fill,
                    it.cash,
                )
                rows.append([batch.number, batch.market, *about])
    return rows


def balances(journal: journals.Journal) -> Rows:
    told = sorted(journal.balances.items())
    head: Rows = [["account", "balance", "line"]]
    return head + [
        [account, "unknown" if it.amount is None else it.amount, it.line] for account, it in told
    ]


def batches(journal: journals.Journal) -> Rows:
    head = "batch line market mark underlyings orders filled premium liability surplus units"
    rows: Rows = [[*head.split()]]
    for it in journal.batches:
        filled = sum(each.fill > 0 for each in it.orders)
        about = it.number, it.line, it.market, it.mark, it.underlyings, len(it.orders), filled
        rows.append([*about, it.surplus + it.liability, it.liability, it.surplus, it.units])
    return rows


def payouts(journal: journals.Journal) -> Rows:
    head: Rows = [["line", "market", "batch", "order", "account", "amount"]]
    return head + [
        [it.line, it.market, it.batch, it.order, it.account, it.amount] for it in journal.payouts
    ]


TABLES: dict[str, Callable[[journals.Journal], Rows]] = {
    "orders": orders,
    "fills": fills,
    "balances": balances,
    "batches": batches,
    "payouts": payouts,
}


def aligned(rows: Rows) -> Iterator[str]:
    """The rows as text: a column with words in it stands to the left, one of numbers alone to the
    right."""
    texts = [[str(cell) for cell in row] for row in rows]
    columns = list(zip(*texts))
    widths = [max(map(len, column)) for column in columns]
    has_words = [
        any(isinstance(row[at], str) and row[at] for row in rows[1:]) for at in range(len(columns))
    ]
    for row in texts:
        cells = (
            cell.ljust(width) if left else cell.rjust(width)
            for cell, width, left in zip(row, widths, has_words)
        )
        yield "  ".join(cells).rstrip()


# Certificates in words.


class Leg(NamedTuple):
    """One leg of an order that is filled or not: how many of its option the fill holds, and whether
    the house owes it."""

    place: int
    order: int
    held: Fraction
    option: Option
    is_owed: bool

    def name(self) -> str:
        return f"leg {self.place} (order {self.order}, {self.option})"


def many(count: int, name: str) -> str:
    return f"{count} {name}{'' if count == 1 else 's'}"


def legs_of(batch: Cleared) -> list[Leg]:
    counted = [(order, leg) for order in batch.orders for leg in order.legs]
    return [
        Leg(
            place,
            order.number,
            order.fill * abs(leg.count),
            leg.option,
            (leg.count > 0) == (order.side == "buy"),
        )
        for place, (order, leg) in enumerate(counted, 1)
    ]


class Telling:
    """The words of a certificate, and whether all of its sums are as they should be."""

    def __init__(self, batch: Cleared) -> None:
        self.batch, self.legs = batch, legs_of(batch)
        self.lines: list[str] = []
        self.holds = True

    def say(self, text: str, holds: bool = True) -> None:
        self.holds = self.holds and holds
        self.lines.append(text if holds else f"{text}, which fails")

    def tell(self) -> None:
        it = self.batch
        counts = (
            many(it.units, "unit"),
            many(len(it.orders), "order"),
            many(it.underlyings, "underlying"),
        )
        self.say(
            f"batch {it.number} of market {it.market}: mark {it.mark} after {', '.join(counts)}"
        )
        premium = sum((order.sign * order.fill * order.price for order in it.orders), Fraction(0))
        for order in it.orders:
            about = f"order {order.number}, a {order.side} of {order.options()} at {order.price}"
            fits = 0 <= order.fill <= order.quantity
            self.say(
                (
                    f"{about}: {order.fill} of {order.quantity} filled, premium"
                    f" {order.sign * order.fill * order.price}"
                ),
                fits,
            )
        is_left = premium - it.liability == it.surplus >= 0
        self.say(
            f"the premium is {premium} and the liability {it.liability}; {it.surplus} is left",
            is_left,
        )
        if it.bound is not None:
            cover = it.certificate.cover
            if isinstance(cover, dict):
                self.tell_cells(cover["cells"])
            else:
                tells = {"line": self.tell_line, "match": self.tell_balance}
                tells.get(str(cover), self.tell_tree)()
            self.tell_measure()
        else:
            self.tell_balance()

    def tell_net(self, where: str, state: Sequence[int]) -> None:
        """What is owed and due at a state, for one underlying of it."""
        scale = state[0] or 1
        owes, due = Fraction(0), Fraction(0)
        for leg in self.legs:
            amount = leg.held * leg.option.at(state) / scale
            owes, due = (owes + amount, due) if leg.is_owed else (owes, due + amount)
        most = self.batch.liability if state[0] else Fraction(0)
        self.say(
            f"{where}: owes {owes}, due {due}, which leaves {owes - due} to pay, at most {most}",
            owes - due <= most,
        )

    def tell_line(self) -> None:
        self.say(
            (
                "between these prices what is owed less what is due is straight, so they decide all"
                " prices:"
            ),
            self.batch.underlyings == 1,
        )
        forms = [leg.option.form for leg in self.legs]
        bends = {Fraction(-strike, weight) for strike, weight in forms if strike * weight < 0}
        for bend in sorted({Fraction(0), *bends}):
            self.tell_net(f"at a price of {bend}", (bend.denominator, bend.numerator))
        self.tell_net("for each tick of price beyond", (0, 1))

    def tell_tree(self) -> None:
        """The tree in preorder: for each leaf what it bounds, by entries."""
        self.say(
            (
                "a tree bounds what is owed less what is due, at each leaf by a number and one for"
                " each price:"
            ),
            self.batch.underlyings > 1,
        )
        open_sides: list[tuple[int, dict[int, bool], str]] = [(0, {}, "")]
        cover = self.batch.certificate.cover
        for node in cover if isinstance(cover, list) else []:
            if not open_sides:
                self.say("a node is over", False)
                return
            depth, signs, where = open_sides.pop()
            start = "  " * depth + where
            if "split" in node:
                place = node["split"]
                sound = self.is_leg(place) and self.legs[place - 1].is_owed and place not in signs
                self.say(f"{start}split at {self.legs[place - 1].name()}", sound)
                open_sides.append((depth + 1, {**signs, place: False}, "where it pays nothing: "))
                open_sides.append((depth + 1, {**signs, place: True}, "where it pays: "))
            else:
                self.tell_leaf(start, signs, node["leaf"])
        if open_sides:
            self.say(f"{len(open_sides)} sides of splits are missing", False)

    def is_leg(self, place: int) -> bool:
        return 1 <= place <= len(self.legs)

    def tell_leaf(
        self, start: str, signs: dict[int, bool], multipliers: list[dict[str, Any]]
    ) -> None:
        factors = {each["at"]: Fraction(each["by"]) for each in multipliers}
        sums = [Fraction(0)] * (self.batch.underlyings + 1)
        sound = list(factors) == sorted(factors) and len(factors) == len(multipliers)
        sound = sound and all(map(self.is_leg, factors))
        for leg in self.legs:
            factor, sign = factors.get(leg.place, Fraction(0)), signs.get(leg.place)
            within = (factor == 0 or sign is not None) if leg.is_owed else factor <= leg.held
            sound = sound and factor >= 0 and within
            for at, entry in enumerate(leg.option.form):
                if leg.is_owed and sign is None:
                    sums[at] += leg.held * max(entry, 0)
                else:
                    sums[at] += (leg.held + factor) * entry if sign else -factor * entry
        used = ", ".join(
            f"{by} times {self.legs[at - 1].name()}"
            for at, by in factors.items()
            if self.is_leg(at)
        )
        rest = ", ".join(map(str, sums[1:]))
        most = (
            f"{sums[0]}, at most {self.batch.liability}, and {rest} for the prices, each at most 0"
        )
        said = f"{start}leaf with {used or 'no multiplier'}: {most}"
        self.say(
            said, sound and sums[0] <= self.batch.liability and all(each <= 0 for each in sums[1:])
        )

    def tell_cells(self, nodes: list[cells.Node]) -> None:
        """A tree over classes, which may have many thousand nodes."""
        owed = [(it.option.form, it.held if it.is_owed else -it.held) for it in self.legs]
        told, is_sound = "each leaf by at most the liability, and at most 0 for each price", True
        try:
            cells.check_shape(nodes, len(cells.classes_of(form for form, _ in owed)))
            cells.check_cells(nodes, owed, self.batch.liability, self.batch.underlyings + 1)
        except Unproved as fault:
            told, is_sound = fault.why, False
        about = f"a tree of {many(len(nodes), 'node')} over classes of options"
        self.say(f"{about} bounds what is owed less what is due: {told}", is_sound)

    def tell_measure(self) -> None:
        certificate = self.batch.certificate
        self.say(
            "a measure on prices gives each order a price, and no fills leave more than the gains"
            " from it:"
        )
        for it in certificate.measure:
            place = ", ".join(map(str, it.prices))
            shape = place if len(it.prices) == 1 else f"({place})"
            where = (
                f"weight {it.weight} along the ray {shape}"
                if it.is_ray
                else f"mass {it.mass} at the price {shape}"
            )
            is_sound = it.weight >= 0 and min(it.entries) >= 0 and any(it.entries)
            self.say(where, is_sound and len(it.prices) == self.batch.underlyings)
        mass = sum((it.mass for it in certificate.measure), Fraction(0))
        self.say(f"the masses sum to {mass}, and they should to 1", mass == 1)
        bound = Fraction(0)
        for order in self.batch.orders:
            price = certificate.price(order)
            gain = max(Fraction(0), order.sign * (order.price - price))
            bound += order.quantity * gain
            told = f"gain {gain}, times {order.quantity} is {order.quantity * gain}"
            self.say(f"order {order.number} at {order.price} has the price {price}: {told}")
        name = "surplus" if self.batch.mark == "optimal" else "bound"
        self.say(
            f"the gains sum to {bound}, and the {name} is {self.batch.bound}",
            bound == self.batch.bound,
        )

    def tell_balance(self) -> None:
        """A batch without the mark: of each bundle as much is bought as sold, so nothing is
        owed."""
        wide = self.batch.wide
        if wide:
            step = f"{wide['left']} {WORDS_OF_OPERATORS[wide['operator']]} {wide['right']}"
            self.say(f"the joint run met a step with a number above 2^127 - 1: {step}")
        sides: dict[str, list[Fraction]] = {}
        for order in self.batch.orders:
            sides.setdefault(order.options(), [Fraction(0), Fraction(0)])[
                order.side == "sell"
            ] += order.fill
        self.say(
            "each bundle is matched by itself, and no more is claimed than that nothing is owed:",
            self.batch.liability == 0,
        )
        for name, (bought, sold) in sides.items():
            self.say(f"{name}: {bought} bought, {sold} sold", bought == sold)


def main() -> int:
    words = words_of(__doc__)
    words.add_argument(
        "journal", metavar="JOURNAL", help="what the program wrote, or a minus for standard input"
    )
    words.add_argument(
        "--of", choices=TABLES, default="batches", help="what the table is of (batches)"
    )
    words.add_argument(
        "--as",
        choices=("csv", "text"),
        default="text",
        dest="shape",
        help="how it is written (text)",
    )
    words.add_argument(
        "--certificate",
        metavar="BATCH",
        type=int,
        help="the batch whose certificate is told in words",
    )
    given = words.parse_args()
    journal = journals.read(given.journal)
    if given.certificate is not None:
        found = [batch for batch in journal.batches if batch.number == given.certificate]
        if not found:
            raise BadUse(f"{given.journal} clears no batch {given.certificate}")
        telling = Telling(found[0])
        try:
            telling.tell()
        except (KeyError, TypeError, ValueError, ZeroDivisionError, IndexError):
            raise BadUse(f"the certificate of batch {given.certificate} is none") from None
        print("\n".join(telling.lines))
        return 0 if telling.holds else 1
    rows = TABLES[given.of](journal)
    if given.shape == "csv":
        csv.writer(sys.stdout, lineterminator="\n").writerows(rows)
    else:
        print("\n".join(aligned(rows)))
    return 0


def run() -> int:
    return ended(main, BadJournal)
