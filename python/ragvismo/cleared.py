"""Cleared batches and their certificates, as reply lines tell them. Amounts are exact ticks."""

from __future__ import annotations

import json
from collections.abc import Iterable
from dataclasses import dataclass
from fractions import Fraction
from typing import TYPE_CHECKING, Any, Literal, NamedTuple, get_args

from ragvismo import program
from ragvismo.orders import Batch, FilledOrder, Leg, Option, Order

if TYPE_CHECKING:
    import pandas

Mark = Literal["optimal", "bounded", "wide", "budget"]
# A cover as lines tell it: a word, line or match; the nodes of a tree; or under `cells` those of a
# tree over classes.
Cover = str | list[dict[str, Any]] | dict[str, list[dict[str, Any]]]


class State(NamedTuple):
    """A state (t, s) of a measure: at t of at least 1 the settlement at the prices s / t, at t = 0
    the ray along s."""

    entries: tuple[int, ...]
    weight: Fraction

    @property
    def is_ray(self) -> bool:
        return self.entries[0] == 0

    @property
    def mass(self) -> Fraction:
        """The state's part of the measure: masses sum to 1, and a ray has none."""
        return self.weight * self.entries[0]

    @property
    def prices(self) -> tuple[Fraction, ...]:
        """The prices of the underlyings in ticks; of a ray the direction in which they rise."""
        return tuple(Fraction(entry, self.entries[0] or 1) for entry in self.entries[1:])


def price_by(measure: Iterable[State], of: Option | Order) -> Fraction:
    """The price that a measure gives an option or a bundle, in ticks."""
    return sum((state.weight * of.at(state.entries) for state in measure), Fraction(0))


@dataclass(frozen=True)
class Certificate:
    """What proves a cleared line: the cover and the measure, both empty where the mark is neither
    `optimal` nor `bounded`.

    `cover` is a word, the nodes of a tree, or those of a tree over classes (docs/CERTIFICATES.md).
    `text` is the whole line, and `path` the program that told it, where that is known.
    """

    cover: Cover
    measure: list[State]
    text: str
    path: program.Path | None = None

    def price(self, of: Option | Order) -> Fraction:
        """The price that the measure gives an option or a bundle, listed in the batch or not, in
        ticks."""
        return price_by(self.measure, of)

    def check(self, timeout: float | None = None) -> None:
        """Asks `exchange audit`, which solves nothing, whether the fills cover the surplus at every
        price, at the mark `optimal` whether none cover more, and at `bounded` whether none cover
        more than the bound. Raises `CheckFailed` where it says no, `NoProgram` where it is not
        there, and `TimedOut` after so many seconds."""
        program.check(self.text + "\n", self.path, timeout)


@dataclass(frozen=True)
class Cleared:
    """A cleared batch: the answer to a clear.

    `run` is the mark that the exchange's own run had, and `units` the turns of the solver that it
    took; `mark` is that of the line, which differs where a proposal was taken (`bounded`).
    `premium` less `liability` is the `surplus`, what the house keeps whatever the prices. `bound`
    is what no fills leave more than: the surplus at the mark `optimal`, above it maybe at
    `bounded`, else None. `wide` is the step that a number was too large for, at the mark `wide`.
    `text` is the reply line.
    """

    number: int
    line: int
    market: int
    mark: Mark
    run: Mark
    underlyings: int
    units: int
    liability: Fraction
    surplus: Fraction
    bound: Fraction | None
    orders: list[FilledOrder]
    certificate: Certificate
    wide: dict[str, str]

    @property
    def text(self) -> str:
        return self.certificate.text

    @property
    def gap(self) -> Fraction | None:
        """By how much the greatest surplus may be above this one, in ticks: the bound less the
        surplus, 0 at the mark `optimal`, and None where there is no bound."""
        return None if self.bound is None else self.bound - self.surplus

    @property
    def fills(self) -> list[Fraction]:
        """The fill of each order, in bundles."""
        return [it.fill for it in self.orders]

    @property
    def premium(self) -> Fraction:
        """Fill times limit price over the buys, less the same over the sells, in ticks."""
        return self.surplus + self.liability

    def kept(self, state: tuple[int | Fraction, ...]) -> Fraction:
        """What the house keeps of the premium after the net payoff at a settlement (1, prices), in
        ticks."""
        return self.premium - sum(it.sign * it.fill * it.at(state) for it in self.orders)

    def to_batch(self) -> Batch:
        """The orders as they stood before the clear, to be cleared anew."""
        names = ("side", "price", "quantity", "legs", "account")
        return Batch(Order(**{name: getattr(it, name) for name in names}) for it in self.orders)

    def to_frame(self, floats: bool = False) -> "pandas.DataFrame":
        """The orders with their fills: `order`, `account`, `side`, `options` (the bundle in words),
        `price`, `quantity`, `fill`, `premium` (fill times price, above 0 of a buy), `cash` (what
        the account gets at the clear, in whole ticks). `Batch.from_frame` reads it. Fractions are
        exact, or floats where those are asked for, which plot."""
        from ragvismo.frames import frame_of

        columns = "order account side options price quantity fill premium cash".split()
        rows = [
            (
                *(it.number, it.account, it.side, it.options(), it.price, it.quantity),
                *(it.fill, it.premium, it.cash),
            )
            for it in self.orders
        ]
        return frame_of(
            dict(zip(columns, map(list, zip(*rows)))) or dict.fromkeys(columns, []), floats
        )


def read(reply: dict[str, Any], text: str = "", path: program.Path | None = None) -> Cleared:
    """The cleared batch of a reply, told by a program. A reply that is none is a KeyError,
    TypeError, ValueError, or another of their kind."""
    fills, orders = [Fraction(each) for each in reply["fills"]], []
    if len(fills) != len(reply["orders"]) or reply["mark"] not in get_args(Mark):
        raise ValueError("as many fills as orders, and a mark")
    for each, fill in zip(reply["orders"], fills):
        legs = legs_of(each)
        if any(
            len(it.option.form) != reply["underlyings"] + 1 or not any(it.option.form[1:])
            for it in legs
        ):
            raise ValueError("an option of the market")
        about = {name: each[name] for name in ("account", "side", "price", "quantity")}
        orders.append(FilledOrder(number=each["order"], fill=fill, legs=legs, **about))
    certificate = reply.get("certificate", {})
    bounds = {"bounded": reply.get("bound"), "optimal": reply["surplus"]}
    bound = bounds.get(reply["mark"])
    return Cleared(
        number=reply["batch"],
        run=reply.get("run", reply["mark"]),
        liability=Fraction(reply["liability"]),
        surplus=Fraction(reply["surplus"]),
        bound=None if bound is None else Fraction(bound),
        orders=orders,
        certificate=Certificate(
            certificate.get("cover", []), states_of(certificate), text or spelled(reply), path
        ),
        wide=reply.get("wide", {}),
        **{name: reply[name] for name in ("line", "market", "mark", "underlyings", "units")},
    )


def legs_of(order: dict[str, Any]) -> tuple[Leg, ...]:
    """The legs of an order of a reply; a single option stands there without a count."""
    if "legs" not in order:
        return (Leg(1, Option(tuple(order["form"]))),)
    return tuple(Leg(leg["count"], Option(tuple(leg["form"]))) for leg in order["legs"])


def states_of(certificate: dict[str, Any]) -> list[State]:
    """The measure of a certificate of a reply, empty where it has none."""
    return [
        State(tuple(map(int, it["state"])), Fraction(it["weight"]))
        for it in certificate.get("measure", [])
    ]


def spelled(reply: dict[str, Any]) -> str:
    """A reply in the one spelling of a line."""
    return json.dumps(reply, sort_keys=True, separators=(",", ":"))
