"""Tests solvers and certificates by exact fractions, without the program."""

from __future__ import annotations

import json
import pathlib
import random
import sys
import unittest
from fractions import Fraction
from typing import Any
from unittest import mock

sys.path.append(str(pathlib.Path(__file__).resolve().parent))
import ragvismo
from ragvismo import (
    Batch,
    NoCover,
    Proposal,
    State,
    Unproved,
    buy,
    bundle,
    call,
    clear,
    exact,
    put,
    sell,
    solvers,
)
from ragvismo.proposals import net_of, premium_of
from test_ragvismo import basket, butterfly, example, has_program, options, wants

EXAMPLES = (
    *(("butterfly", None), ("spread", None), ("one_option", None), ("basket", None)),
    *(("basket_of_three", None), ("demo", 1), ("demo", 2), ("demo", 3), ("book", 2)),
)
ORIGIN = State((1, 0), Fraction(1))


def drawn_states(draw: random.Random, underlyings: int) -> "list[tuple[int, ...]]":
    """Settlements and rays."""
    return [
        (draw.choice((0, 1, 1, 3)), *(draw.randint(0, 60) for _ in range(underlyings)))
        for _ in range(200)
    ]


def few_of_many(draw: random.Random, underlyings: int, orders: int) -> Batch:
    """Orders on one to three underlyings each, with strikes around 10 for each of them."""
    made = []
    for _ in range(orders):
        chosen = draw.sample(range(underlyings), draw.randint(1, 3))
        weights = [draw.choice((-1, 1, 1, 2)) if at in chosen else 0 for at in range(underlyings)]
        option = draw.choice((call, put))(draw.choice((8, 10, 12)) * sum(weights), *weights)
        made.append(draw.choice((buy, sell))(option, draw.randint(2, 9), draw.randint(1, 5)))
    return Batch(made)


class Rechecks(unittest.TestCase):
    """`Proposal.check` says of each fault which condition fails."""

    def given(self) -> Proposal:
        it = example("butterfly")
        return Proposal(tuple(it.fills), it.liability, "line", tuple(it.certificate.measure))

    def failed(self, batch: Batch, proposal: Proposal) -> str:
        with self.assertRaises(Unproved) as caught:
            proposal.check(batch)
        return caught.exception.failed

    def test_what_lines_tell_holds(self) -> None:
        for name, number in [*EXAMPLES, ("hundred", None), ("proposals", None)]:
            it = example(name, number)
            told = it.certificate
            proposal = Proposal(tuple(it.fills), it.liability, told.cover, tuple(told.measure))
            proposal.check(it.to_batch())
            self.assertEqual(proposal.surplus(it.to_batch()), it.surplus)
            self.assertEqual(proposal.bound(it.to_batch()), it.bound)

    def test_a_line_is_spelled_as_the_exchange_does(self) -> None:
        it = example("proposals")
        told = (pathlib.Path(__file__).parent.parent / "examples/proposals.commands").read_text()
        line = next(line for line in told.splitlines() if line.startswith("propose"))
        proposal = Proposal(tuple(it.fills), it.liability, "line", tuple(it.certificate.measure))
        self.assertEqual(proposal.line(1, it.to_batch(), [1, 2, 3]), line)

    def test_faults_on_one_underlying(self) -> None:
        batch, given = butterfly(), self.given()
        one, two, three = given.fills
        first, *rest = given.measure
        for other, condition in (
            (Proposal((one, two), Fraction(0), "line", given.measure), "BatchShape"),
            (Proposal((2 * one, two, three), Fraction(0), "line", given.measure), "Fill"),
            (Proposal((one, -two, three), Fraction(0), "line", given.measure), "Fill"),
            (Proposal(given.fills, Fraction(-1), "line", given.measure), "Cover"),
            (Proposal((one, two, Fraction(0)), Fraction(0), "line", given.measure), "Cover"),
            (Proposal(given.fills, Fraction(1), "line", given.measure), "Cover"),
            (Proposal(given.fills, Fraction(0), "cells", given.measure), "BatchShape"),
            (Proposal(given.fills, Fraction(0), "match", given.measure), "Cover"),
            (Proposal(given.fills, Fraction(0), "line", tuple(rest)), "Measure"),
            (
                Proposal(
                    given.fills,
                    Fraction(0),
                    "line",
                    (*given.measure, State((0, 1), Fraction(-1))),
                ),
                "Measure",
            ),
            (
                Proposal(given.fills, Fraction(0), "line", (*given.measure, State((0, 0), one))),
                "Measure",
            ),
        ):
            self.assertEqual(self.failed(batch, other), condition, other)
        nothing = Proposal((Fraction(0),) * 3, Fraction(0), "match", given.measure)
        nothing.check(batch)
        self.assertEqual(nothing.surplus(batch), 0)

    def test_faults_of_trees(self) -> None:
        it = example("demo", 2)
        batch, measure = it.to_batch(), tuple(it.certificate.measure)
        text = json.dumps(it.certificate.cover)
        nodes = json.loads(text)
        leaf = next(at for at, node in enumerate(nodes) if node.get("leaf"))
        place = nodes[leaf]["leaf"][0]["at"]
        beyond = {"at": 1 + sum(len(order.legs) for order in batch.orders), "by": "1"}
        for cover in (
            nodes[:-1],
            [*nodes, {"leaf": []}],
            [{"split": 0}, *nodes[1:]],
            [{"split": nodes[0]["split"]}, {"split": nodes[0]["split"]}, *nodes[1:]],
            [{"leaf": []} if at == leaf else node for at, node in enumerate(nodes)],
            json.loads(text.replace(f'{{"at": {place}, "by": "', f'{{"at": {place}, "by": "-')),
            json.loads(text.replace(f'{{"at": {place}, "by": "', f'{{"at": {place}, "by": "9')),
            *(
                json.loads(text.replace(f'{{"at": {place}, ', f'{more}, {{"at": {place}, '))
                for more in (f'{{"at": {place}, "by": "-1"}}', '{"at": 0, "by": "1"}')
            ),
            [
                {**node, "leaf": [*node["leaf"], beyond]} if at == leaf else node
                for at, node in enumerate(nodes)
            ],
        ):
            proposal = Proposal(tuple(it.fills), it.liability, cover, measure)
            self.assertEqual(self.failed(batch, proposal), "Cover", cover)
        long = [{"split": 1}] * 2_000
        proposal = Proposal(tuple(it.fills), it.liability, long, measure)
        self.assertEqual(self.failed(batch, proposal), "Cover")
        most = 2_000_000 // sum(len(order.legs) for order in batch.orders)
        for count, condition in ((most, "Cover"), (most + 1, "BatchShape")):
            proposal = Proposal(tuple(it.fills), it.liability, [{"split": 1}] * count, measure)
            self.assertEqual(self.failed(batch, proposal), condition)

    def test_faults_of_a_match(self) -> None:
        option, other = call(10), call(12)
        batch = Batch([buy(option, 6, 2), sell(option, 4, 1), sell(other, 1, 1)])
        origin = (ORIGIN,)
        Proposal((Fraction(1), Fraction(1), Fraction(0)), Fraction(0), "match", origin).check(batch)
        for fills, liability in (((1, 1, 0), -1), ((2, 1, 0), 0), ((1, 0, 1), 0)):
            proposal = Proposal(tuple(map(Fraction, fills)), Fraction(liability), "match", origin)
            self.assertEqual(self.failed(batch, proposal), "Cover", fills)

    def test_faults_of_cells(self) -> None:
        """A call on both underlyings against one on the first and the second itself."""
        both, one, second = call(10, 1, 1), call(10, 1, 0), call(0, 0, 1)
        batch = Batch([buy(both, 3), sell(one, 1), sell(second, 1)])
        first: dict[str, Any] = {"leaf": [2, "1", 3, "1"]}
        last: dict[str, Any] = {"leaf": []}

        def proposed(*nodes: Any) -> Proposal:
            origin = (State((1, 0, 0), Fraction(1)),)
            return Proposal((Fraction(1),) * 3, Fraction(0), {"cells": list(nodes)}, origin)

        split = {"split": 1}
        proposed(split, first, last).check(batch)
        proposed(split, {"full": [2, 3], "leaf": []}, last).check(batch)
        proposed(split, {"bound": 2, "minus": [], "plus": [1, "1"]}, first, last).check(batch)
        for condition, node in (
            ("Cover", {"leaf": [2, "2", 3, "1"]}),
            ("Cover", {"leaf": [2, "-1", 3, "1"]}),
            ("Cover", {"full": [1], "leaf": []}),
            ("Cover", {"full": [2, 3], "leaf": [3, "1"]}),
            ("Cover", split),
            ("BatchShape", {"leaf": [4, "1"]}),
            ("BatchShape", {"leaf": [3, "1", 2, "1"]}),
            ("BatchShape", {"leaf": [2, "-1", 2, "1", 3, "1"]}),
            ("BatchShape", {"full": [2, 2], "leaf": [3, "1"]}),
            ("BatchShape", {"bound": 2, "minus": [], "plus": []}),
        ):
            ends = (first, last, last) if node == split else (last,)
            self.assertEqual(self.failed(batch, proposed(split, node, *ends)), condition, node)
        for condition, nodes in (
            ("Cover", (first,)),
            ("Cover", (last,)),
            ("Cover", ({"split": 3}, first, last)),
            ("BatchShape", (split, first)),
            ("BatchShape", (split, first, last, last)),
            ("BatchShape", ({"split": 4}, first, last)),
        ):
            self.assertEqual(self.failed(batch, proposed(*nodes)), condition, nodes)


@wants("scipy")
class ExactPrograms(unittest.TestCase):
    """`exact.least` beside HiGHS."""

    def test_drawn_programs(self) -> None:
        from scipy.optimize import linprog

        draw = random.Random(9)
        ended = {"none": 0, "most": 0, "above": 0}
        for number in range(300):
            rows, many = draw.randint(1, 5), draw.randint(0, 9)
            base = [Fraction(draw.randint(-9, 9), draw.choice((1, 3, 8))) for _ in range(rows)]
            columns = [[draw.randint(-3, 3) for _ in range(rows)] for _ in range(many)]
            ends = [draw.choice((None, Fraction(draw.randint(1, 9), 7))) for _ in range(many)]
            found = exact.least(base, columns, ends, Fraction(-1))
            lines = [[float(it[at]) for it in columns] + [-(at == 0)] for at in range(rows)]
            near = linprog(
                [0] * many + [1],
                A_ub=lines,
                b_ub=[-float(it) - (at == 0) for at, it in enumerate(base)],
                bounds=[*((0, None if it is None else float(it)) for it in ends), (0, None)],
                method="highs",
            )
            self.assertEqual(found is None, near.x is None, number)
            if found is None:
                ended["none"] += 1
                continue
            for by, end in zip(found, ends):
                self.assertTrue(0 <= by and (end is None or by <= end), number)
            entries = [
                own + sum(by * it[at] for by, it in zip(found, columns))
                for at, own in enumerate(base)
            ]
            self.assertLessEqual(max(entries[1:], default=Fraction(0)), 0, number)
            above = max(entries[0] + 1, Fraction(0))
            self.assertAlmostEqual(float(above), near.fun, msg=str(number))
            ended["above" if above else "most"] += 1
        self.assertGreater(min(ended.values()), 20, ended)

    def test_no_program_runs_in_a_circle(self) -> None:
        """By Bland's rule alone the same is found."""
        draw = random.Random(10)
        for _ in range(100):
            base = [Fraction(draw.choice((0, 0, 1, -1))) for _ in range(4)]
            columns = [[draw.choice((0, 1, -1)) for _ in base] for _ in range(8)]
            ends = [draw.choice((None, Fraction(1))) for _ in columns]
            both = []
            for farthest in (exact.FARTHEST, 0):
                with mock.patch.object(exact, "FARTHEST", farthest):
                    both.append(exact.least(base, columns, ends, Fraction(0)))
            firsts = [
                None
                if it is None
                else max(sum(by * of[0] for by, of in zip(it, columns)), -base[0])
                for it in both
            ]
            self.assertEqual(*firsts)


@wants("scipy")
class Certificates(unittest.TestCase):
    def test_optimal_fills_need_no_more_than_they_did(self) -> None:
        for name, number in EXAMPLES:
            it = example(name, number)
            found = solvers.certify(it.to_batch(), it.fills, it.certificate.measure)
            self.assertEqual(found.surplus(it.to_batch()), it.surplus, name)
            self.assertEqual(found.bound(it.to_batch()), it.bound, name)

    def test_fills_that_meet_are_a_match(self) -> None:
        """On several underlyings; where only what they owe meets, the cover is one leaf."""
        option, other = call(10, 1, 1), call(7, 1, -1)
        batch = Batch([buy(option, 6, 2), sell(option, 4, 1), sell(option, 3, 3), buy(other, 5)])
        found = solvers.certify(batch, [2, 1, 1, 0], [State((1, 0, 0), Fraction(1))])
        self.assertEqual((found.cover, found.surplus(batch)), ("match", 5))
        twice = [(2, option), (-1, put(10, 1, 1))]
        batch = Batch([bundle("buy", twice, 9), sell(option, 4, 2), buy(put(10, 1, 1), 1)])
        found = solvers.certify(batch, [1, 2, 1], [State((1, 0, 0), Fraction(1))])
        self.assertEqual((found.cover, found.surplus(batch)), ({"cells": [{"leaf": []}]}, 2))

    def test_covers_on_several_underlyings_are_cells(self) -> None:
        """With fewer nodes than the tree of signs, and bounds by classes with a sign among them."""
        it = example("hundred")
        found = solvers.certify(it.to_batch(), it.fills, it.certificate.measure)
        assert isinstance(found.cover, dict) and isinstance(it.certificate.cover, list)
        nodes = found.cover["cells"]
        self.assertLess(len(nodes), len(it.certificate.cover))
        self.assertTrue(any("bound" in node for node in nodes))
        self.assertTrue(any("full" in node for node in nodes))
        self.assertLess(it.surplus - found.surplus(it.to_batch()), Fraction(1, 10**6))

    def test_many_random_orders_have_a_cover(self) -> None:
        """64 orders on eight underlyings, each on one to three of them: the cover leaves as good as
        all of the bound, and the exchange takes it."""
        batch = few_of_many(random.Random(3), 8, 64)
        found = solvers.highs(batch)
        assert isinstance(found.cover, dict)
        self.assertGreater(found.surplus(batch), 60)
        self.assertLess(found.bound(batch) - found.surplus(batch), found.bound(batch) / 10**7)
        self.assertLess(len(found.cover["cells"]), 500)
        if has_program():
            cleared = clear(batch, solver=lambda _: found, budget=1)
            self.assertEqual(
                (cleared.fills, cleared.bound), (list(found.fills), found.bound(batch))
            )
            cleared.certificate.check()

    def test_a_cover_holds_at_drawn_states(self) -> None:
        """The liability is enough wherever one looks, and at most a grain above the worst."""
        draw = random.Random(4)
        for underlyings in (1, 2, 3):
            batch = basket(draw, underlyings, 14)
            sells = [Fraction(it.quantity if it.side == "sell" else 0) for it in batch.orders]
            measure = [State((1, *[0] * underlyings), Fraction(1))]
            try:
                found = solvers.certify(batch, sells, measure)
            except NoCover:
                found = solvers.certify(batch, [0] * 14, measure)
            for state in drawn_states(draw, underlyings):
                owed = net_of(batch.orders, found.fills, state)
                self.assertLessEqual(owed, found.liability * state[0])

    def test_what_has_no_cover(self) -> None:
        """Where it cannot: a slope, a ray, a loss, a tree that is too large."""
        two = State((1, 0, 0), Fraction(1))
        spread = bundle("sell", [(1, call(5, 1, 0)), (-1, call(5, 0, 1))], 1)
        cases: tuple[tuple[Batch, list[int], State, str], ...] = (
            (Batch([buy(call(5), 9)]), [1], ORIGIN, "1 more for each tick"),
            (Batch([buy(put(5), 4)]), [1], ORIGIN, "leave -1 at the worst price"),
            (Batch([buy(call(5, 1, 0), 9)]), [1], two, "along the ray"),
            (Batch([spread]), [1], two, "along the ray"),
        )
        for batch, fills, state, why in cases:
            with self.assertRaises(NoCover) as caught:
                solvers.certify(batch, fills, [state])
            self.assertIn(why, str(caught.exception))
        grain = Fraction(1, 2**50)
        one, other = call(5, 1, 0), call(7, 1, 2)
        batch = Batch([buy(one, 9), sell(one, 1), buy(other, 9), sell(call(4, 1, 2), 1)])
        with self.assertRaises(NoCover) as caught:
            solvers.certify(batch, [Fraction(1, 2) + grain, Fraction(1, 2), 1, 1], [two])
        self.assertIn("by less than floats tell", str(caught.exception))
        solvers.certify(batch, [Fraction(1, 2) - grain, Fraction(1, 2), 1, 1], [two])
        it = example("demo", 3)
        with self.assertRaises(NoCover) as caught:
            solvers.certify(it.to_batch(), it.fills, it.certificate.measure, nodes=5)
        self.assertIn("more than 5 nodes", str(caught.exception))
        with self.assertRaises(ragvismo.TimedOut):
            solvers.certify(it.to_batch(), it.fills, it.certificate.measure, timeout=0)

    def test_what_is_no_fill_and_no_measure(self) -> None:
        batch = butterfly()
        cases: tuple[tuple[list[int], list[State], str], ...] = (
            ([1, 1], [ORIGIN], "BatchShape"),
            ([2, 0, 0], [ORIGIN], "Fill"),
            ([0, 0, 0], [], "Measure"),
            ([0, 0, 0], [State((2, 0), Fraction(1))], "Measure"),
        )
        for fills, measure, condition in cases:
            with self.assertRaises(Unproved) as caught:
                solvers.certify(batch, fills, measure)
            self.assertEqual(caught.exception.failed, condition)
        on_two = example("basket")
        with self.assertRaises(Unproved) as caught:
            solvers.certify(on_two.to_batch(), on_two.fills, [ORIGIN])
        self.assertEqual(caught.exception.failed, "BatchShape")

    def test_measures_from_floats(self) -> None:
        states = [(1, 0), (2, 5), (0, 1)]
        found = solvers.measure_of(states, [0.3333333, 0.33333335, 4.1])
        self.assertEqual(sum(it.mass for it in found), 1)
        self.assertAlmostEqual(float(found[2].weight), 4.1)


@wants("scipy")
class Highs(unittest.TestCase):
    def test_the_examples_are_solved(self) -> None:
        """To the last fraction, as the exchange does."""
        for name, number in EXAMPLES:
            it = example(name, number)
            found = solvers.highs(it.to_batch())
            self.assertEqual(found.surplus(it.to_batch()), it.surplus, name)
            self.assertEqual(found.bound(it.to_batch()), it.bound, name)

    def test_drawn_batches_are_near(self) -> None:
        draw = random.Random(6)
        batches = [options(draw, 40), *(basket(draw, it, 16) for it in (1, 2, 3, 8))]
        for batch in batches:
            found = solvers.highs(batch)
            found.check(batch)
            gap = found.bound(batch) - found.surplus(batch)
            self.assertLessEqual(float(gap), 1e-6 * float(found.bound(batch) + 1))

    def test_spreads_owe_nothing_on_rays(self) -> None:
        """Bundles whose legs come to nothing there meet to the last fraction, and so do prices that
        are far above their difference."""
        legs = [(1000, call(5)), (-1000, call(6)), (1, put(3)), (-1, put(2))]
        spread, most = [(1, call(2)), (-1, call(7))], 10**9
        for orders, surplus in (
            ([bundle("buy", legs, 12, 5), bundle("sell", legs, 10, 3)], 6),
            ([bundle("buy", spread, 5, 2), bundle("sell", spread, 1, 2)], 8),
            (
                [buy(call(most), 10**12, 10**6), sell(call(most - 1), 10**12 - 5, 10**6)],
                5 * 10**6,
            ),
        ):
            found = solvers.highs(Batch(orders))
            self.assertEqual(found.surplus(Batch(orders)), surplus)
            self.assertEqual(found.bound(Batch(orders)), surplus)

    def test_amounts_of_every_size(self) -> None:
        """Four orders in finer ticks and for more options leave as much in proportion."""
        for tick, many in (
            (1, 10**6),
            (1_000, 10**3),
            (10**5, 10**4),
            (10**7, 1),
            (10**7, 10**6),
        ):
            batch = Batch(
                [
                    buy(call(10 * tick), 6 * tick, many),
                    sell(call(5 * tick), 8 * tick, many),
                    buy(put(12 * tick), 9 * tick, many),
                    sell(put(15 * tick), 7 * tick, many),
                ]
            )
            found, greatest = solvers.highs(batch), Fraction(19, 5) * tick * many
            self.assertGreater(found.surplus(batch), greatest * (1 - Fraction(1, 10**6)))
            self.assertLess(found.bound(batch), greatest * (1 + Fraction(1, 10**6)))

    def test_leaves_that_floats_do_not_close(self) -> None:
        """A batch on four underlyings with a leaf whose multipliers in floats are far from those
        that close it in fractions: in some of its directions nothing is owed at all."""
        draw = random.Random(77)
        for _ in range(7):
            number = draw.choice([1, 1, 2, 2, 3, 4, 8])
            if number == 1 and draw.random() < 0.5:
                batch = options(draw, draw.randint(1, 60))
            else:
                batch = basket(draw, number, draw.randint(1, 24))
        found = solvers.highs(batch)
        self.assertEqual((len(batch.orders), batch.underlyings), (21, 4))
        gap = found.bound(batch) - found.surplus(batch)
        self.assertLess(gap, found.bound(batch) / 10**6)

    def test_what_a_run_gave_up(self) -> None:
        """100 orders on three underlyings: at least the fills that were proposed then, and near."""
        it = example("hundred")
        found = solvers.highs(it.to_batch())
        self.assertGreater(found.surplus(it.to_batch()), it.surplus - Fraction(1, 10**6))
        gap = found.bound(it.to_batch()) - found.surplus(it.to_batch())
        self.assertLess(gap, Fraction(1, 10**6))

    def test_a_time_that_is_too_short(self) -> None:
        """Nothing is filled, and the bound holds."""
        it = example("demo", 3)
        found = solvers.highs(it.to_batch(), timeout=0)
        found.check(it.to_batch())
        self.assertEqual((sum(found.fills), found.surplus(it.to_batch())), (0, 0))
        self.assertGreaterEqual(found.bound(it.to_batch()), it.surplus)

    def test_batches_with_nothing_to_do(self) -> None:
        for batch in (Batch([]), Batch([buy(call(5), 0)]), Batch([sell(call(5, 1, 1), 3)])):
            found = solvers.highs(batch)
            found.check(batch)
            self.assertEqual(premium_of(batch, found.fills), 0)

    def test_climbing_alone_is_not_the_end(self) -> None:
        """The mixed-integer program finds what climbing does not."""
        it = example("demo", 3)
        with mock.patch.object(solvers, "STARTS", 0):
            found = solvers.highs(it.to_batch())
        self.assertEqual(found.surplus(it.to_batch()), it.surplus)


if __name__ == "__main__":
    unittest.main()
