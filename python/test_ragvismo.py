"""Tests the package, as a part of tools/test: `tools/test Models` runs the first class here."""

from __future__ import annotations

import importlib.util
import json
import os
import pathlib
import random
import re
import subprocess
import sys
import tempfile
import unittest
from collections.abc import Callable, Iterator
from fractions import Fraction
from typing import Any, TypeVar, get_args
from unittest import mock

sys.path.append(str(pathlib.Path(__file__).resolve().parent))
import ragvismo
from ragvismo import (
    Batch,
    Cleared,
    Exchange,
    Option,
    Order,
    Proposal,
    bundle,
    buy,
    call,
    clear,
    clear_many,
    cleared,
    program,
    put,
    sell,
)
from ragvismo.clearing import Mechanism
from ragvismo.orders import Side

TOP = pathlib.Path(__file__).resolve().parent.parent
PYTHON = "/usr/bin/python3"
JOURNALS = sorted((TOP / "examples").glob("*.replies"))
# Runs the cells of a notebook in turn, and prints what each tells, its last value at the end.
CELLS = """
import ast, contextlib, io, json, sys
told, names = [], {"__name__": "__main__"}
for source in json.load(sys.stdin):
    tree, text = ast.parse(source), io.StringIO()
    last = tree.body.pop() if isinstance(tree.body[-1], ast.Expr) else None
    with contextlib.redirect_stdout(text):
        exec(compile(tree, "cell", "exec"), names)
        value = eval(compile(ast.Expression(last.value), "cell", "eval"), names) if last else None
    told.append(text.getvalue() + ("" if value is None else repr(value)))
print(json.dumps(told))
"""
Tested = TypeVar("Tested", bound="Callable[..., Any]")


def has_program() -> bool:
    try:
        return bool(program.find())
    except ragvismo.NoProgram:
        return False


def wants(module: str) -> Callable[[Tested], Tested]:
    found = importlib.util.find_spec(module)
    return unittest.skipUnless(found, f"python3-{module} is missing; tools/setup installs it")


def wants_program(tested: Tested) -> Tested:
    skip: Callable[[Tested], Tested] = unittest.skipUnless(has_program(), "no program is built")
    return skip(tested)


def example(name: str, number: int | None = None) -> Cleared:
    """A cleared batch of the examples."""
    return ragvismo.read_batch(TOP / f"examples/{name}.replies", number)


def butterfly() -> Batch:
    return example("butterfly").to_batch()


def options(draw: random.Random, orders: int) -> Batch:
    """Orders for few options at few prices, so that many meet."""
    kinds = [call(draw.randint(0, 4)), put(draw.randint(0, 4)), call(9)]
    sides: tuple[Side, ...] = get_args(Side)
    made: list[Order] = [
        draw.choice((buy, sell))(draw.choice(kinds), draw.randint(0, 9), draw.randint(1, 4))
        for _ in range(orders)
    ]
    spread = [(1, call(2)), (-1, call(7))]
    made += (bundle(draw.choice(sides), spread, draw.randint(0, 5), 2) for _ in range(3))
    return Batch(made)


def basket(draw: random.Random, underlyings: int, orders: int) -> Batch:
    """Orders on weighted sums of prices around 10."""
    made: list[Order] = []
    while len(made) < orders:
        weights = [draw.choice((0, 0, -1, 1, 2)) for _ in range(underlyings)]
        if any(weights):
            strike = draw.randint(0, 20) * sum(weights) // 2
            option = draw.choice((call, put))(strike, *weights)
            side = draw.choice((buy, sell))
            made.append(side(option, draw.randint(0, 9), draw.randint(1, 5)))
    return Batch(made)


def slow(batch: Batch) -> Proposal | None:
    """A solver that finds nothing in time."""
    raise ValueError(f"{len(batch.orders)} orders are too many")


def counted(batch: Batch, **words: object) -> int:
    """What stands for a clear: how many orders the batch has."""
    return len(batch.orders)


class Models(unittest.TestCase):
    def test_options_and_their_payoffs(self) -> None:
        cases: tuple[tuple[Option, str, tuple[int | Fraction, ...], int | Fraction], ...] = (
            (call(10), "call 10", (12,), 2),
            (put(10), "put 10", (Fraction(7, 2),), Fraction(13, 2)),
            (call(10, 2), "call 10 with weight 2", (4,), 0),
            (put(-5, 1, -1), "put -5 on (1, -1)", (1, 8), 2),
            (call(0, -1, 2), "put 0 on (1, -2)", (1, 3), 5),
        )
        for option, words, prices, paid in cases:
            self.assertEqual((str(option), option.payoff(*prices)), (words, paid))
            again = (call if option.kind == "call" else put)(option.strike, *option.weights)
            self.assertEqual(again, option)

    def test_bundles_in_words_are_read_back(self) -> None:
        legs = [(1, call(10, 1, -1)), (-2, put(-12, 0, 3)), (1000, call(0, 1, 0))]
        for order in (bundle("buy", legs, 3), sell(put(5), 1), buy(call(7, 2), 1)):
            self.assertEqual(ragvismo.orders.legs_of(order.options()), order.legs)
        for words in (
            "",
            "call",
            "call x",
            "2 of",
            "call 5 on 1",
            "call 5 and",
            "call 5 on (0, 0)",
        ):
            with self.assertRaises(ValueError):
                ragvismo.orders.legs_of(words)

    def test_what_is_no_option_and_no_order(self) -> None:
        """What is wrong is told where it is made, and not as a StopIteration of a clear."""
        wrong: tuple[tuple[type[Exception], Callable[[], object]], ...] = (
            (TypeError, lambda: call(5.5)),  # type: ignore[arg-type]
            (TypeError, lambda: call(5, 0.5)),  # type: ignore[arg-type]
            (ValueError, lambda: call(5, 0)),
            (ValueError, lambda: put(5, 0, 0)),
            (TypeError, lambda: buy("call", 3)),  # type: ignore[arg-type]
            (TypeError, lambda: buy(call(5), 2.5)),  # type: ignore[arg-type]
            (TypeError, lambda: sell(call(5), 2, 1.0)),  # type: ignore[arg-type]
            (ValueError, lambda: bundle("bid", [(1, call(5))], 2)),  # type: ignore[arg-type]
            (ValueError, lambda: bundle("buy", [], 2)),
            (ValueError, lambda: bundle("buy", [(1, call(5)), (1, call(5, 1, 1))], 2)),
            (ValueError, lambda: Batch([buy(call(5), 2), buy(call(5, 1, 1), 2)])),
        )
        for fault, make in wrong:
            with self.assertRaises(fault):
                make()
        self.assertEqual(ragvismo.Option((5, 0)).kind, "call")

    @wants("numpy")
    def test_whole_numbers_of_other_kinds(self) -> None:
        import numpy

        of: Any = numpy.int64
        self.assertEqual(buy(call(of(5), of(1)), of(3), of(2)), buy(call(5), 3, 2))
        self.assertEqual(
            ragvismo.exchange.command_of(buy(call(True), True), 1), "buy,1,1,call,1,1,1,1"
        )

    def test_each_bundle_alone(self) -> None:
        """The first of two equal buys is filled first, equal prices do not trade, and legs in
        another order are another bundle."""
        one, other = [(1, call(2)), (-1, call(7))], [(-1, call(7)), (1, call(2))]
        orders = [
            *(buy(call(5), 7, 2), buy(call(5), 7, 2), sell(call(5), 6, 3), sell(call(5), 7, 1)),
            *(bundle("buy", one, 4), bundle("sell", other, 2), bundle("sell", one, 3)),
        ]
        self.assertEqual(ragvismo.double_auction(orders), [2, 1, 3, 0, 1, 0, 1])

    def test_marks_bounds_and_gaps(self) -> None:
        for name, about in (
            ("butterfly", ("optimal", "optimal", Fraction(6, 7), 0)),
            ("proposals", ("bounded", "budget", Fraction(6, 7), Fraction(3, 7))),
            ("joint", ("budget", "budget", None, None)),
        ):
            it = example(name)
            self.assertEqual((it.mark, it.run, it.bound, it.gap), about)
            self.assertEqual(sum(of.premium for of in it.orders), it.premium)

    def test_batches_that_cannot_be_made(self) -> None:
        """What the batches raise comes behind the answers before it, and names its place."""

        def made() -> Iterator[Batch]:
            yield from [Batch([])] * 5
            raise ragvismo.BadFrame("row 7")

        for workers in (1, 2):
            found: list[object] = []
            with mock.patch.object(ragvismo.clearing, "clear", counted):
                with self.assertRaises(ragvismo.BadFrame) as caught:
                    found.extend(clear_many(made(), workers=workers))
            self.assertEqual((found, str(caught.exception)), ([0] * 5, "batch 5: row 7"))

    def test_a_function_keeps_its_own_time(self) -> None:
        """What it takes is none of what the program may take, of which a stand-in tells a line."""
        hours = [0.0]

        def finds_nothing(batch: Batch) -> None:
            hours[0] += 1

        with tempfile.TemporaryDirectory() as folder:
            told, answers = (pathlib.Path(folder) / name for name in ("told", "answers"))
            told.write_text(example("butterfly").text + "\n")
            answers.write_text(f'#!/bin/sh\nsed "s/.*/{{}}/; \\$d"\ncat "{told}"\n')
            answers.chmod(0o700)
            clock = mock.Mock(monotonic=lambda: 3600 * hours[0])
            with mock.patch.object(program, "time", clock):
                found = clear(butterfly(), solver=finds_nothing, timeout=3_000, path=answers)
        self.assertEqual((found.surplus, hours), (Fraction(6, 7), [1]))

    def test_a_program_that_is_not_there(self) -> None:
        for path in ("none", str(TOP)):
            with self.assertRaises(ragvismo.NoProgram):
                Exchange(path)

    def test_faults_are_told_in_one_line(self) -> None:
        fault = ragvismo.Refused("propose,1," + 1000 * "x", "Unproved", 21, None, None, "Cover")
        fault.batch = 3
        self.assertEqual(
            str(fault)[:57], "batch 3: Unproved (21, failed Cover): propose,1,xxxxxxxxx"
        )
        self.assertLess(len(str(fault)), 260)


@wants_program
class Clearing(unittest.TestCase):
    def test_each_answer_has_its_type(self) -> None:
        with Exchange() as exchange:
            exchange.open(account=1)
            exchange.open(account=2)
            self.assertEqual(exchange.deposit(account=1, amount=100), 100)
            self.assertEqual(exchange.withdraw(account=1, amount=10), 90)
            exchange.market(market=1)
            self.assertEqual(exchange.sell(account=2, market=1, option=put(12), price=4), 1)
            quoted = exchange.quote(market=1, option=put(12))
            self.assertEqual((quoted.bid, quoted.ask), ("never", 5))
            self.assertEqual(exchange.price(market=1, option=put(12)), quoted)
            tried = exchange.try_order(market=1, side="buy", option=put(12), price=5, quantity=3)
            self.assertEqual(tried, (1, 1, "optimal"))
            spread = [(1, call(10)), (-1, call(12))]
            number = exchange.bundle(account=1, market=1, side="buy", legs=spread, price=2)
            self.assertEqual(exchange.balance(account=1), (90, 2))
            exchange.cancel(account=1, order=number)
            exchange.buy(account=1, market=1, option=put(12), price=5)
            book = exchange.book(market=1)
            self.assertEqual([it.number for it in book.orders], [1, 3])
            self.assertEqual(book.batch.orders[0].legs, sell(put(12), 4).legs)
            found = exchange.clear(market=1)
            self.assertEqual((found.fills, found.surplus, found.mark), ([1, 1], 1, "optimal"))
            [position] = exchange.positions(account=2, market=1)
            about = position.batch, position.order, position.side, position.fill
            self.assertEqual(about, (1, 1, "sell", 1))
            self.assertEqual(exchange.margin(account=2, market=1), (12, (1, 0)))
            refusals: dict[tuple[Any, ...], Callable[[], object]] = {
                ("Margin", 14, None, "13"): lambda: exchange.withdraw(account=2, amount=1),
                ("Range", 8, 2, None): lambda: exchange.open(account=0),
                ("Range", 8, 5, None): lambda: exchange.try_order(
                    market=1, side="sell", option=put(12), price=-1
                ),
                ("Funds", 9, None, None): lambda: exchange.buy(
                    account=1, market=1, option=call(1), price=500
                ),
            }
            for told, asked in refusals.items():
                with self.assertRaises(ragvismo.Refused) as caught:
                    asked()
                refused = caught.exception
                self.assertEqual(
                    (refused.reason, refused.number, refused.field, refused.need), told
                )
            with self.assertRaises(TypeError):
                exchange.deposit(account=1, amount=0.5)  # type: ignore[arg-type]
            settled = exchange.settle(market=1, prices=[11])
            self.assertEqual([(it.order, it.amount) for it in settled.payouts], [(1, -1), (3, 1)])
        again = program.run("".join(f"{line}\n" for line in exchange.commands), "serve")
        self.assertEqual(again.splitlines(), exchange.replies)
        with self.assertRaises(ragvismo.Ended):
            exchange.open(account=3)

    def live(self, exchange: Exchange) -> None:
        """The butterfly as live orders of market 1."""
        exchange.open(account=1)
        exchange.open(account=2)
        exchange.deposit(account=1, amount=100)
        exchange.market(market=1)
        for order in butterfly().orders:
            exchange.place(order, market=1)

    def test_proposals_to_a_live_exchange(self) -> None:
        measure = example("butterfly").certificate.measure
        half = [Fraction(1, 2), Fraction(1, 7), Fraction(5, 14)]
        with Exchange() as exchange:
            self.live(exchange)
            given = ragvismo.solvers.certify(butterfly(), half, measure)
            proposed = exchange.propose(market=1, solver=given)
            self.assertEqual(
                proposed, (Fraction(3, 7), Fraction(6, 7), Fraction(3, 7), Fraction(6, 7))
            )
            proposed = exchange.propose(market=1)
            assert proposed
            self.assertLess(proposed.least_bound - proposed.best_surplus, Fraction(1, 10**6))
            self.assertIsNone(exchange.propose(market=1, solver=lambda batch: None))
            exchange.market(market=2, underlyings=2)
            self.assertIsNone(exchange.propose(market=2, solver=ragvismo.solvers.highs))
            wrong = Proposal(given.fills, Fraction(-1), "line", given.measure)
            with self.assertRaises(ragvismo.Refused) as caught:
                exchange.propose(market=1, solver=wrong)
            self.assertEqual((caught.exception.number, caught.exception.failed), (21, "Cover"))
            found = exchange.clear(market=1, budget=1)
        self.assertEqual((found.mark, found.run, found.units), ("bounded", "budget", 1))
        self.assertEqual((found.surplus, found.bound), proposed[2:])
        found.certificate.check()

    @wants("pandas")
    def test_how_deep_a_market_is(self) -> None:
        """The fills of a further order follow its limit, and nothing is placed."""
        with Exchange() as exchange:
            exchange.open(account=1)
            exchange.market(market=1)
            for price, quantity in ((4, 3), (6, 2)):
                exchange.sell(account=1, market=1, option=put(12), price=price, quantity=quantity)
            about: dict[str, Any] = {"market": 1, "option": put(12), "quantity": 9}
            found = exchange.depth(prices=[7, 5, 3, 5], **about)
            self.assertEqual(
                [(it.price, it.fill, it.mark) for it in found.asks],
                [(3, 0, "optimal"), (5, 3, "optimal"), (7, 5, "optimal")],
            )
            self.assertEqual([it.fill for it in found.bids], [0, 0, 0])
            self.assertEqual(len(exchange.book(market=1).orders), 2)
            self.assertEqual(exchange.depth(prices=[], **about).asks, ())
        frame = found.to_frame(floats=True)
        self.assertEqual(list(frame.columns), ["side", "price", "fill", "mark"])
        self.assertEqual(frame.fill[frame.side == "buy"].tolist(), [0.0, 3.0, 5.0])

    def test_a_closed_market_of_a_live_exchange(self) -> None:
        with Exchange() as exchange:
            self.live(exchange)
            self.assertEqual(exchange.close_market(market=1), 3)
            refusals: list[Callable[[], object]] = [
                lambda: exchange.buy(account=1, market=1, option=call(10), price=7),
                lambda: exchange.cancel(account=2, order=3),
                lambda: exchange.close_market(market=1),
            ]
            for asked in refusals:
                with self.assertRaises(ragvismo.Refused) as caught:
                    asked()
                self.assertEqual((caught.exception.number, caught.exception.reason), (23, "Closed"))
            exchange.reopen_market(market=1)
            with self.assertRaises(ragvismo.Refused) as caught:
                exchange.reopen_market(market=1)
            self.assertEqual((caught.exception.number, caught.exception.reason), (24, "Open"))
            exchange.cancel(account=2, order=3)

    def test_a_secured_account_of_a_live_exchange(self) -> None:
        with Exchange() as exchange:
            exchange.open(account=2)
            exchange.deposit(account=2, amount=4)
            exchange.market(market=1)
            self.assertEqual(exchange.secure(account=2), 0)
            with self.assertRaises(ragvismo.Refused) as caught:
                exchange.sell(account=2, market=1, option=put(10), price=7)
            self.assertEqual((caught.exception.number, caught.exception.reason), (14, "Margin"))
            exchange.deposit(account=2, amount=1)
            exchange.sell(account=2, market=1, option=put(10), price=7)
            self.assertEqual(exchange.need(account=2), (5, 5, True))

    def test_solvers_where_the_run_gives_up(self) -> None:
        """Each solver's fills hold for audit, and none is above another's bound."""
        draw = random.Random(5)
        batches = [butterfly(), *(basket(draw, 2, 12) for _ in range(2)), options(draw, 20)]
        solvers: list[Any] = ["exchange"]
        if importlib.util.find_spec("scipy"):
            solvers.append(ragvismo.solvers.highs)
        for batch in batches:
            best = clear(batch)
            for solver in solvers:
                found = clear(batch, solver=solver, budget=1)
                found.certificate.check()
                if found.mark == "bounded":
                    assert found.bound is not None and found.gap is not None
                    self.assertLess(found.gap, Fraction(1, 10**3))
                    self.assertLessEqual(best.surplus, found.bound)
                    if best.mark == "optimal":
                        self.assertLessEqual(found.surplus, best.surplus)
        self.assertEqual(clear(butterfly(), solver=lambda batch: None, budget=1).mark, "budget")
        with self.assertRaises(ValueError):
            clear(butterfly(), "each", solver="exchange")
        with self.assertRaises(ValueError):
            clear(butterfly(), solver="other")  # type: ignore[arg-type]

    def test_a_program_that_ends(self) -> None:
        with Exchange() as exchange:
            exchange.open(account=1)
            exchange._process.kill()
            with self.assertRaises(ragvismo.Ended):
                exchange.open(account=2)
            for command in ("", "\r", "open,1\nopen,2", "\ufeffopen,1"):
                with self.assertRaises(ValueError):
                    exchange.ask(command)

    def test_each_bundle_alone_is_the_exchanges_match(self) -> None:
        """The auction of this package fills as the exchange does with a budget of one unit, where
        it falls back to a match."""
        draw = random.Random(2)
        fell_back = 0
        for _ in range(6):
            batch = options(draw, 12)
            joint, each = clear(batch), clear(batch, "each")
            self.assertEqual(each.fills, ragvismo.double_auction(batch.orders))
            fell_back += clear(batch, budget=1).mark == "budget"
            self.assertLessEqual(each.surplus, joint.surplus)
            each.certificate.check()
            joint.certificate.check()
        self.assertGreater(fell_back, 3)

    def test_a_joint_run_that_ends_within_a_unit(self) -> None:
        """A put that never pays is bid for: jointly the buy is filled, and alone it waits."""
        cases: tuple[tuple[list[Order], list[int]], ...] = (
            ([], []),
            ([buy(put(0), 6)], [0]),
            ([buy(put(0), 6), sell(put(0), 4)], [1, 1]),
        )
        for orders, fills in cases:
            batch = Batch(orders)
            self.assertEqual(clear(batch, budget=1).mark, "optimal")
            each = clear(batch, "each")
            self.assertEqual((each.fills, each.mark), (fills, "budget"))
            each.certificate.check()

    def test_a_changed_line_fails_the_check(self) -> None:
        text = example("butterfly").text
        with self.assertRaises(ragvismo.CheckFailed) as caught:
            cleared.read(json.loads(text.replace('"2/7"', '"3/7"'))).certificate.check()
        self.assertEqual((caught.exception.reason, caught.exception.line), ("Cover", 1))

    @wants("pandas")
    @wants("matplotlib")
    def test_what_the_researchers_document_shows(self) -> None:
        import pandas

        shown = re.findall(r"```python\n(.*?)```", (TOP / "docs/RESEARCH.md").read_text(), re.S)
        rows = [
            *(("buy", "call", 10, 7, 3), ("sell", "call", 10, 6, 1)),
            *(("sell", "call", 5, 8, 2), ("sell", "call", 12, 4, 2)),
        ]
        columns = ["side", "kind", "strike", "price", "quantity"]
        names: dict[str, Any] = {"orders": pandas.DataFrame(rows, columns=columns)}
        with tempfile.TemporaryDirectory() as folder:
            for text in shown:
                exec(text.replace("batch.pdf", f"{folder}/batch.pdf"), names)
            self.assertGreater(os.path.getsize(f"{folder}/batch.pdf"), 0)
        self.assertGreater(names["joint"].surplus, names["each"].surplus)

    def test_many_batches_are_answered_as_each_is(self) -> None:
        """By one process and by several, jointly and each bundle alone, line for line."""
        draw = random.Random(3)
        batches = [options(draw, 8), Batch([buy(put(0), 6, account=2)]), options(draw, 8)]
        for mechanism in get_args(Mechanism):
            alone = [clear(it, mechanism).text for it in batches]
            for workers in (1, 2):
                found = clear_many(iter(batches), mechanism, workers=workers)
                self.assertEqual([it.text for it in found], alone)
        self.assertEqual(list(clear_many([])), [])

    def test_many_batches_come_one_by_one(self) -> None:
        """The iterator takes no more than it must, and what is wrong names its batch."""
        taken: list[int] = []

        def made() -> Any:
            for number in range(100):
                taken.append(number)
                yield butterfly()

        found = clear_many(made())
        next(found), next(found)
        self.assertEqual(len(taken), 2)
        found = clear_many(made(), workers=2)
        next(found)
        found.close()  # type: ignore[attr-defined]
        self.assertLess(len(taken), 10)
        wrong = [butterfly(), Batch([buy(call(5), 3), buy(call(5), 3, account=0)])]
        for workers in (1, 2):
            with self.assertRaises(ragvismo.Refused) as caught:
                list(clear_many(wrong, workers=workers))
            self.assertEqual((caught.exception.batch, caught.exception.field), (1, 2))
            self.assertIn("batch 1: Range", str(caught.exception))
            with self.assertRaises(ValueError) as raised:
                list(clear_many(wrong, solver=slow, workers=workers))
            self.assertEqual(raised.exception.__notes__, ["batch 0"])

    def test_time_limits(self) -> None:
        """What takes longer is told; a live exchange goes on, and answers the next call."""
        with tempfile.TemporaryDirectory() as folder:
            waits = pathlib.Path(folder) / "waits"
            waits.write_text(
                "#!/bin/sh\n"
                f'while ! [ -e "{folder}/go" ]; do sleep 0.02; done\n'
                f'exec "{program.find()}" "$@"\n'
            )
            waits.chmod(0o700)
            with self.assertRaises(ragvismo.TimedOut) as caught:
                list(clear_many([butterfly(), butterfly()], timeout=0.05, path=waits))
            self.assertEqual(caught.exception.batch, 0)
            with Exchange(waits, timeout=0.05) as exchange:
                with self.assertRaises(ragvismo.TimedOut):
                    exchange.open(account=3)
                (pathlib.Path(folder) / "go").touch()
                exchange.timeout = None
                self.live(exchange)
                self.assertEqual(exchange.balance(account=2).reserved, 0)
                self.assertEqual(len(exchange.commands), len(exchange.replies))

    @wants("pandas")
    def test_exact_bids_and_asks(self) -> None:
        """On both sides of a bound one clear trades and one does not, at any quantity; the whole
        ticks are those that price tells."""
        draw = random.Random(9)
        batch = Batch(butterfly().orders[1:])
        bounds = ragvismo.price_bounds(batch, call(10))
        self.assertEqual((bounds.bid, bounds.ask), ("never", Fraction(36, 7)))
        books = [(options(draw, 9), call(3)), (basket(draw, 2, 6), call(5, 1, 1))]
        for book, option in [(batch, call(10)), *books]:
            bounds = ragvismo.price_bounds(book, option)
            base = clear(book).surplus
            with Exchange() as exchange:
                exchange.open(account=1)
                exchange.open(account=2)
                exchange.deposit(account=1, amount=10**9)
                exchange.market(market=1, underlyings=book.underlyings)
                for order in book.orders:
                    exchange.place(order, market=1)
                for quantity in (1, 7):
                    price = exchange.price(market=1, option=option, quantity=quantity)
                    self.assertEqual(price, (bounds.whole_bid, bounds.whole_ask))
            for side, bound in (("buy", bounds.ask), ("sell", bounds.bid)):
                if isinstance(bound, str):
                    continue
                for step in (-1, 0, 1):
                    at = 7 * bound.numerator + step
                    legs = [(7 * bound.denominator, option)]
                    more = bundle("buy" if side == "buy" else "sell", legs, at)
                    raised = clear(Batch([*book.orders, more])).surplus > base
                    self.assertEqual(raised, step == (1 if side == "buy" else -1), (side, step))

    def printed(self, source: str, given: str = "") -> str:
        environment = {
            **os.environ,
            "PYTHONPATH": str(TOP / "python"),
            "MPLBACKEND": "Agg",
            "COLUMNS": "80",
            "PYTHONDONTWRITEBYTECODE": "1",
        }
        command = [PYTHON, "-c", source]
        ran = subprocess.run(command, capture_output=True, env=environment, input=given, text=True)
        self.assertEqual(ran.returncode, 0, ran.stderr)
        return ran.stdout

    def test_the_readme(self) -> None:
        text = (TOP / "python/README.md").read_text()
        shown = re.search(r"```python\n(.*?)```\n\n```\n(.*?)```", text, re.S)
        assert shown
        session, printed = shown.groups()
        self.assertEqual(len(session.splitlines()), 10)
        self.assertIn(printed, self.printed(session))

    def test_the_tour_shows_what_its_cells_tell(self) -> None:
        if not all(map(importlib.util.find_spec, ("pandas", "matplotlib", "scipy"))):
            self.skipTest("a package is missing; tools/setup installs it")
        tour = json.loads((TOP / "python/tour.ipynb").read_text())
        cells = [it for it in tour["cells"] if it["cell_type"] == "code"]
        sources = ["".join(it["source"]) for it in cells]
        told = json.loads(self.printed(CELLS, json.dumps(sources)))
        for source, cell, text in zip(sources, cells, told, strict=True):
            outputs = cell["outputs"]
            shown = ["".join(it.get("text") or it["data"]["text/plain"]) for it in outputs]
            self.assertEqual("\n".join(it.rstrip() for it in shown), text.rstrip(), source)


if __name__ == "__main__":
    unittest.main()
