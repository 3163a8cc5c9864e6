"""Tests the studies in small form, as a part of tools/test: `tools/test Studies` is one class."""
from __future__ import annotations

import importlib.util
import json
import math
import os
import pathlib
import random
import re
import subprocess
import sys
import tempfile
import time
import unittest
from collections.abc import Callable, Hashable, Iterable
from decimal import Decimal
from fractions import Fraction
from operator import mul
from typing import Any, TypeVar
from unittest import mock

HERE = pathlib.Path(__file__).resolve().parent
sys.path += [str(HERE), str(HERE.parent / "python")]
import books
import chain
import chains
import combinations
import common
import lots
import one_market
import over_time
import payments
import spreads
import strikes
from ragvismo import Batch, Chain, Cleared, buy, call, price_bounds, program, put, sell
from ragvismo.prices import order_at
from ragvismo_tools import tracked
from test_ragvismo import PYTHON, TOP, example, wants, wants_program

NAMES = ("one_market", "spreads", "strikes", "combinations", "payments", "over_time", "lots")
PLAIN = common.Given(None, None)
# The butterfly of README.md in money, and beside it a bid and an ask for the call in the middle.
BUTTERFLY = ("C,5,,8,1,1", "C,10,6,,1,1", "C,12,0,4.00,1,1")
WIDE = ("C,5,,8,1,1", "C,10,5,9,1,1", "C,12,0,4.00,1,1")
HEAD = "cp_flag,strike,best_bid,best_offer,bid_size,offer_size"


NUMBER = re.compile(r"(?<![\w.])-?\d[\d,]*(?:\.\d+)?")
INTERVAL = re.compile(rf"({NUMBER.pattern})\s±\s({NUMBER.pattern})")
RESULT = re.compile(r"\[table\]\(../studies/results/(\w+)\.md\)")


def numbers(texts: Iterable[str]) -> list[float]:
    return [float(it.replace(",", "")) for it in texts]


def row_of(cells: "list[object]") -> str:
    """A row of a table as it stands in a file."""
    return f"| {' | '.join(map(str, cells))} |\n"


Case = TypeVar("Case", bound=Hashable)
Found = TypeVar("Found")


@wants_program
@wants("matplotlib")
@wants("scipy")
class Studies(unittest.TestCase):
    """Each study in small form, and of its kept tables one row as the whole study makes it."""

    def by_command(self, name: str) -> None:
        """Two batches of each case, with all that a study writes, the same by two processes."""
        with tempfile.TemporaryDirectory() as given:
            folder = pathlib.Path(given)
            words = ["--batches", "2", "--workers", "2", "--out", given, "--journals", given]
            ran = subprocess.run([HERE / f"{name}.py", *words], capture_output=True, text=True)
            self.assertEqual((ran.returncode, ran.stderr), (0, ""))
            self.assertEqual(ran.stdout, (folder / f"{name}.md").read_text())
            self.assertIn("<svg", (folder / f"{name}.svg").read_text())
            journal = next(folder.glob("*.replies"))
            self.assertGreater(program.check(journal.read_text())["batches"], 1)

    def drawn(self, report: common.Report) -> None:
        with tempfile.TemporaryDirectory() as folder:
            common.save(report, pathlib.Path(folder) / "drawn.svg")

    def whole(
        self,
        one: Callable[[Case, int, common.Given], tuple[Found, list[Cleared]]],
        case: Case,
        batches: int,
    ) -> list[Found]:
        """A case as the whole study has it."""
        return common.trials(one, [case], PLAIN._replace(batches=batches), "one")[case]

    def committed(self, name: str, *cells: object) -> None:
        self.assertIn(row_of(list(cells)), (HERE / f"results/{name}.md").read_text())

    def test_one_market(self) -> None:
        pairs = self.whole(one_market.one, ("orders", 20), one_market.WHOLE)
        self.committed("one_market", "orders", 20, *one_market.measures(pairs))
        with mock.patch.object(one_market, "VARIED", {"noise": (8,), "orders": (20, 40)}):
            self.drawn(one_market.study(PLAIN._replace(batches=2)))

    def test_spreads(self) -> None:
        found = self.whole(spreads.one, ("strikes", 3), spreads.WHOLE)
        self.committed("spreads", "strikes", 3, *spreads.measures(found))
        cases = {"noise": (2,), "strikes": (3,)}
        with mock.patch.multiple(spreads, VARIED=cases, USUAL={"noise": 2, "strikes": 3}):
            self.drawn(spreads.study(PLAIN._replace(batches=2)))

    def test_exact_bounds_are_those_of_the_package(self) -> None:
        batch = chains.quotes(3, 8, random.Random("bounds"))
        for spread in spreads.quote_chain(batch, PLAIN)[0].spreads[:3]:
            self.assertEqual(spread.bounds, price_bounds(batch, spread.option))

    def test_strikes(self) -> None:
        self.by_command("strikes")
        grid, free = (self.whole(strikes.one, count, strikes.WHOLE) for count in (4, 0))
        self.committed("strikes", *strikes.row(4, grid, free))

    def test_combinations(self) -> None:
        """Of the gaps, which a solver of floats leaves, only that they are small; and which of
        several greatest fills it finds may move what is filled a little."""
        case = combinations.Case("names", 2, 20)
        found = [it for it in self.whole(combinations.one, case, combinations.WHOLE) if it]
        self.assertLess(max(it.gap for it in found), 1e-4)
        table = (HERE / "results/combinations.md").read_text()
        count, marks, _, _, *rest = combinations.measures(found)
        told = re.escape(row_of([*case, count, marks, "gap", "gap", *rest]))
        self.assertRegex(table, told.replace("gap", r"[\de.-]+"))
        _, kept, _ = re.findall(re.escape(row_of([*case])[:-1]) + r"(.*) \|\n", table)
        for one, other in zip(combinations.filled(found), kept.split("|"), strict=True):
            self.assertAlmostEqual(float(str(one)), float(other), delta=1)
        with mock.patch.object(combinations, "SIZES", {2: (20,), 3: (20,)}):
            self.drawn(combinations.study(PLAIN._replace(batches=2)))

    def test_payments(self) -> None:
        of = self.whole(payments.one, payments.Case(20, 0), payments.WHOLE)
        self.committed("payments", *payments.first_row(20, of))
        for found in of:
            self.assertAlmostEqual(found.gains[1], found.surplus)
        with mock.patch.multiple(payments, ORDERS=(20, 30), SHADES=(0, 2)):
            self.drawn(payments.study(PLAIN._replace(batches=2)))

    def test_over_time(self) -> None:
        joint, each = (over_time.Case(1, way) for way in over_time.WAYS)
        days, alone = (self.whole(over_time.one, it, over_time.WHOLE) for it in (joint, each))
        for case, of in ((joint, days), (each, alone)):
            self.committed("over_time", *over_time.row(case, of, days, alone))
        with mock.patch.object(over_time, "AUCTIONS", (1, 4)):
            self.drawn(over_time.study(PLAIN._replace(batches=2)))

    def test_lots(self) -> None:
        case = lots.Case(20, 10)
        found = self.whole(lots.one, case, lots.WHOLE)
        self.committed("lots", *lots.row(case, found))
        for it in found:
            self.assertGreaterEqual(it.surplus, it.others["whole lots"])
            self.assertGreaterEqual(it.others["whole lots"], it.others["all or nothing"])
        self.drawn(
            common.Report(
                [], 2, lambda panels: lots.draw_cases({it: found for it in lots.CASES}, panels)
            )
        )

    def test_intervals(self) -> None:
        """By Student's t of three values, whose quantile is 4.303; and by resampling."""
        self.assertEqual(common.told([1.0, 2.0, 3.0], 2), "2.00 ± 2.48")
        self.assertEqual(common.ends([1.0, 2.0, 3.0], 2), "1.00 to 3.00")
        self.assertEqual((common.told([5.0]), common.ends([5.0, 5.0])), ("5", "5 to 5"))

    def test_the_model_prices_as_it_should(self) -> None:
        """A call less a put is the middle less the strike, and two prices are those of tables."""
        for strike in (600, 1000, 1400):
            of_call, of_put = chains.worth(call(strike)), chains.worth(put(strike))
            self.assertAlmostEqual(of_call - of_put, chains.MIDDLE - strike)
            self.assertGreater(min(of_call, of_put), 0)
        self.assertAlmostEqual(chains.worth(call(1000)), 79.656, 3)
        self.assertAlmostEqual(books.worth(call(100, 1), [100]), 7.979, 3)
        prices = 90, 105
        for weights in ((1, 1), (2, -1), (-1, 2), (-1, 0), (-1, -1), (0, -2)):
            mean = sum(map(mul, weights, prices))
            for strike in (mean - 30, mean, mean + 10):
                of_call, of_put = (books.worth(it(strike, *weights), prices) for it in (call, put))
                self.assertAlmostEqual(of_call - of_put, mean - strike)
                turned = books.worth(put(-strike, *(-it for it in weights)), prices)
                self.assertAlmostEqual(of_call, turned)
            self.assertAlmostEqual(
                books.worth(call(mean, *weights), prices), 7.979 * math.hypot(*weights), 2
            )

    def test_bad_use(self) -> None:
        """All studies read their words by the same lines."""
        uses = [["--batches", "1"], ["--workers", "0"], ["--program", "none"]]
        if tracked.is_tracked(HERE / "results/lots.md"):
            uses.append(["--batches", "3", "--out", str(HERE / "results")])
        for words in uses:
            ran = subprocess.run([HERE / "lots.py", *words], capture_output=True, text=True)
            found = ran.returncode, ran.stdout, ran.stderr.count("\n")
            self.assertEqual(found, (2, "", 1), words)
        for name in NAMES:
            self.assertIn(f"studies/{name}.py", (HERE / f"{name}.py").read_text())
            self.assertTrue(os.access(HERE / f"{name}.py", os.X_OK), name)


# Each trial is sent and answered as bytes, the last one first.
STAND_IN = """
import pickle


class Client:
    def __init__(self, address, timeout):
        assert (address, timeout) == ("tcp://here:8786", 120)

    def __enter__(self):
        return self

    def __exit__(self, *fault):
        pass

    def map(self, do, asked, pure):
        return [pickle.dumps((do, it)) for it in asked]

    def gather(self, sent):
        answers = {}
        for it in reversed(sent):
            do, asked = pickle.loads(it)
            answers[it] = pickle.dumps(do(asked))
        return [pickle.loads(answers[it]) for it in sent]
"""

# The parts of dask wait so long for one another, and are not stopped for the memory they take.
PATIENT = {f"DASK_DISTRIBUTED__COMM__TIMEOUTS__{it}": "600s" for it in ("CONNECT", "TCP")}
WORKER = ("--nthreads", 1, "--no-nanny", "--memory-limit", 0)


class Machines(unittest.TestCase):
    """Studies by the workers of dask.distributed, and by what stands in for it."""

    def setUp(self) -> None:
        held = tempfile.TemporaryDirectory()
        self.addCleanup(held.cleanup)
        self.folder = pathlib.Path(held.name)

    def ran(
        self, *words: str, study: str = "strikes", path: str = ""
    ) -> "subprocess.CompletedProcess[str]":
        command = [PYTHON, "-B", str(HERE / f"{study}.py"), "--batches", "2", *words]
        environment = {**os.environ, **PATIENT, "PYTHONPATH": path}
        return subprocess.run(command, capture_output=True, text=True, env=environment)

    def written(
        self, name: str, *words: str, study: str = "strikes", path: str = ""
    ) -> dict[str, bytes]:
        """The files that a study writes."""
        out = self.folder / f"{study}-{name}"
        out.mkdir()
        ran = self.ran("--out", str(out), "--journals", str(out), *words, study=study, path=path)
        self.assertEqual(ran.returncode, 0, ran.stderr)
        return {it.name: it.read_bytes() for it in sorted(out.iterdir())}

    def begun(self, name: str, *words: object) -> "subprocess.Popen[bytes]":
        """A part of dask, ended after the test."""
        paths = os.pathsep.join(str(TOP / it) for it in ("studies", "python", "tools"))
        module = ["-m", f"distributed.cli.{name}", "--no-dashboard"]
        command = [PYTHON, "-B", *module, *map(str, words)]
        environment = {**os.environ, **PATIENT, "PYTHONPATH": paths}
        process = subprocess.Popen(command, stderr=subprocess.DEVNULL, env=environment)
        self.addCleanup(process.wait)
        self.addCleanup(process.terminate)
        return process

    def scheduler(self) -> str:
        """The address of a scheduler with two workers."""
        told = self.folder / "scheduler.json"
        self.begun("dask_scheduler", "--host", "127.0.0.1", "--port", 0, "--scheduler-file", told)
        for _ in range(2):
            place = "--scheduler-file", told, "--local-directory", self.folder
            self.begun("dask_worker", *place, *WORKER)
        for _ in range(6_000):
            if told.exists() and told.read_text().endswith("}"):
                break
            time.sleep(0.1)
        return str(json.loads(told.read_text())["address"])

    @wants_program
    @wants("matplotlib")
    @wants("scipy")
    def test_other_machines_give_the_same_bytes(self) -> None:
        (self.folder / "distributed.py").write_text(STAND_IN)
        here = self.written("here", "--workers", "2")
        there = self.written("there", "--scheduler", "tcp://here:8786", path=str(self.folder))
        self.assertEqual(there, here)
        if importlib.util.find_spec("distributed"):
            self.assertEqual(self.written("dask", "--scheduler", self.scheduler()), here)

    @wants_program
    @wants("matplotlib")
    @wants("scipy")
    @wants("distributed")
    def test_each_new_study_by_processes_and_machines(self) -> None:
        address = self.scheduler()
        for study in ("payments", "over_time", "lots"):
            alone = self.written("alone", study=study)
            self.assertEqual(len(alone), 3)
            self.assertEqual(self.written("two", "--workers", "2", study=study), alone)
            self.assertEqual(self.written("dask", "--scheduler", address, study=study), alone)

    def test_what_its_results_want_is_tried_first(self) -> None:
        out = ["lots.py", "--out", str(self.folder)]
        for missing, words in (("scipy", out[:1]), ("scipy", out), ("matplotlib", out)):
            found = mock.Mock(side_effect=lambda name: name != missing)
            with mock.patch.object(importlib.util, "find_spec", found):
                with mock.patch.object(sys, "argv", words):
                    with self.assertRaises(common.BadInput) as caught:
                        common.asked(None, 2)
            self.assertIn(f"python3-{missing} is missing", str(caught.exception))

    def test_what_is_missing_is_told(self) -> None:
        (self.folder / "distributed.py").write_text("raise ImportError")
        one, other = ["--scheduler", "tcp://here:8786"], ["--workers", "2"]
        for words, said in ((one, "wants python3-distributed"), (one + other, "has its own")):
            ran = self.ran(*words, path=str(self.folder))
            self.assertEqual((ran.returncode, ran.stdout, ran.stderr.count("\n")), (2, "", 1))
            self.assertIn(said, ran.stderr)


class Claims(unittest.TestCase):
    """What docs/RESEARCH.md says of a study is what its table says."""

    def test_claims_are_of_the_tables(self) -> None:
        """Each interval, and each number of three digits and more, rounded as it is told."""
        told = (TOP / "docs/RESEARCH.md").read_text().split("\n\n")
        named = [(found[1], it) for it in told if (found := RESULT.search(it))]
        self.assertEqual(sorted(name for name, _ in named), sorted(NAMES))
        for name, paragraph in named:
            table = (HERE / f"results/{name}.md").read_text()
            intervals = list(map(numbers, INTERVAL.findall(table)))
            for claim in INTERVAL.findall(paragraph):
                digits = len(claim[0].partition(".")[2])
                rounded = [[round(it, digits) for it in of] for of in intervals]
                self.assertIn(numbers(claim), rounded, (name, claim))
            whole = {round(it) for it in numbers(NUMBER.findall(table))}
            for number in numbers(NUMBER.findall(paragraph)):
                self.assertTrue(abs(number) < 100 or number in whole, (name, number))


class ChainData(unittest.TestCase):
    def test_a_book_without_optimal_clears_tells_no_prices(self) -> None:
        """Neither as if it added nothing, nor as an end for the other chains of a file."""
        optimal, stopped = example("joint", 1), example("joint", 3)
        orders = [buy(call(10), 5), sell(call(10), 8)]
        about: dict[str, Any] = dict.fromkeys(("multiplier", "exercise", "strikes"))
        made = Chain(
            {"file": "made"}, Batch(orders), Decimal(1), discount=Fraction(1), left_out={}, **about
        )
        pair = common.Pair(stopped, stopped)
        for answers in ([[stopped]], [[optimal], [stopped]]):
            with mock.patch.multiple(
                common,
                clear_both=lambda *_: pair,
                clear_together=mock.Mock(side_effect=answers),
                audit=mock.DEFAULT,
            ):
                told = list(chain.report([made], PLAIN))[2].rows[0]
            untold = [chain.UNTOLD] * 2
            self.assertEqual(told, ["made", 1, chain.UNTOLD, "3.00", *untold, "5.00", *untold])

    def ran(self, text: str, *words: str) -> "subprocess.CompletedProcess[str]":
        with tempfile.TemporaryDirectory() as folder:
            path = pathlib.Path(folder) / "made.csv"
            path.write_text(text)
            return subprocess.run([HERE / "chain.py", path, *words], capture_output=True, text=True)

    def test_a_price_that_no_order_can_have_is_not_told(self) -> None:
        """As `price_bounds` has it: it is no bound yet."""
        way, base = spreads.Way(call(9), "buy", Fraction(1, 10**7), is_raised=True), example(
            "joint", 1
        )
        self.assertIsNone(order_at(way.side, way.option, way.price))
        with self.assertRaises(spreads.NotOptimal):
            spreads.moved(way, None, base, iter(()))
        found = way._replace(is_found=True)
        self.assertEqual(spreads.moved(found, None, base, iter(())), found)

    @wants_program
    def test_two_chains_of_one_file(self) -> None:
        """The butterfly trades, jointly alone; with a lower bid the book implies an ask of 36/7."""
        rows = [f"2019-01-18,{row}" for row in BUTTERFLY] + [f"2019-02-15,{row}" for row in WIDE]
        ran = self.ran("\n".join([f"exdate,{HEAD}", *rows]))
        self.assertEqual((ran.returncode, ran.stderr), (0, ""))
        lines = ran.stdout.splitlines(keepends=True)
        surplus = [3, 0, "85.7", "0.0", "66.7", "0.0", "optimal"]
        self.assertIn(row_of(["2019-01-18", *surplus]), lines)
        spreads = [1, 1, "400.00", "14.29", "96.4", "402.00", "16.00", "96.0"]
        self.assertIn(row_of(["2019-02-15", *spreads]), lines)
        taken = [3, "500 to 1200", "not said", "not said", "none"]
        self.assertIn(row_of(["2019-01-18", *taken]), lines)

    @wants_program
    def test_contracts_are_no_chains(self) -> None:
        """Contracts by their symbols, in thousandths, of one underlying are one chain."""
        rows = (
            "A 190118C5000,A,C,5000,,8",
            "A 190118C10000,A,C,10000,6,",
            "A 190118C12000,A,C,12000,0,4",
            "A 190118P9000000,A,P,9000000,1,",
        )
        head = "symbol,exercise_style,cp_flag,strike_price,best_bid,best_offer"
        ran = self.ran("\n".join([head, *rows]), "--tick", "1", "--between", "5", "12")
        self.assertEqual((ran.returncode, ran.stderr), (0, ""))
        left = "1 rows with other strikes"
        taken = ["A", 3, "5 to 12", "American, as European", "not said", left]
        self.assertIn(row_of(list(taken)), ran.stdout)
        self.assertIn("| A | 3 | 0 | 0.9 | 0.0 |", ran.stdout)

    def test_bad_input(self) -> None:
        uses: tuple[tuple[str, tuple[str, ...], str], ...] = (
            ("cp_flag,strike,best_bid\nC,5,6", (), "no column best_offer"),
            ("cp_flag,best_bid,best_offer\nC,5,6", (), "no column strike"),
            (f"{HEAD}\nC,5,6,7,1,1", ("--tick", "0"), "a tick is above 0"),
            (f"{HEAD}\nC,5,6,7,1,1", ("--discount", "x"), "'x' is no number"),
            (f"{HEAD}\nC,5,6,7,1,1", ("--discount", "0"), "is not above 0"),
            (f"{HEAD}\nC,5,6,7,1,1", ("--between", "a", "5"), "'a' is no number"),
            (f"{HEAD}\nC,5,6,7,1,1", ("--at", "noon"), "invalid choice"),
        )
        for text, words, said in uses:
            ran = self.ran(text, *words)
            found = ran.returncode, ran.stdout, ran.stderr.count("\n")
            self.assertEqual(found, (2, "", 1), ran.stderr)
            self.assertIn(said, ran.stderr)
        missing = subprocess.run([HERE / "chain.py", "none.csv"], capture_output=True, text=True)
        self.assertEqual((missing.returncode, missing.stderr.count("\n")), (2, 1))


if __name__ == "__main__":
    unittest.main()
