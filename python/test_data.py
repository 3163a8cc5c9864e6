"""Tests what is read and written as data: frames, prices, chains of quotes."""

from __future__ import annotations

import cProfile
import gzip
import io
import pathlib
import sys
import tempfile
import unittest
from decimal import Decimal
from fractions import Fraction
from typing import Any

sys.path.append(str(pathlib.Path(__file__).resolve().parent))
import ragvismo
from ragvismo import (
    BadChain,
    BadFrame,
    Batch,
    Chain,
    bundle,
    buy,
    call,
    import_chain,
    journals,
    put,
    sell,
)
from test_ragvismo import JOURNALS, TOP, butterfly, example, wants

IVYDB = "secid,date,symbol,symbol_flag,exdate,last_date,cp_flag,strike_price,best_bid,best_offer"
IVYDB += ",volume,open_interest,optionid,am_settlement,contract_size,ss_flag,exercise_style"
CBOE = "underlying_symbol,quote_date,root,expiration,strike,option_type,open,high,low,close"
CBOE += ",trade_volume,bid_size_1545,bid_1545,ask_size_1545,ask_1545,underlying_bid_1545"
CBOE += ",underlying_ask_1545,bid_size_eod,bid_eod,ask_size_eod,ask_eod,underlying_bid_eod"
CBOE += ",underlying_ask_eod,vwap,open_interest,delivery_code"


def ivydb(
    contract: str, kind: str, strike: int, bid: str, offer: str, morning: int = 1, style: str = "E"
) -> str:
    about = f"108105,2019-01-02,{contract},1,2019-01-18,,{kind},{strike},{bid},{offer}"
    return f"{about},10,100,9,{morning},100,0,{style}"


def cboe(kind: str, strike: str, late: str, close: str) -> str:
    """`late` and `close` are each: bid size, bid, ask size, ask, bid and ask of the underlying."""
    return f"AAPL,2019-01-02,AAPL,2019-01-18,{strike},{kind},0,0,0,0,7,{late},{close},0,1,"


def orders_of(chain: Chain) -> list[tuple[object, ...]]:
    return [(it.side, it.options(), it.price, it.quantity) for it in chain.batch.orders]


class Chains(unittest.TestCase):
    def read(self, head: str, *rows: str, **more: Any) -> list[Chain]:
        with tempfile.TemporaryDirectory() as folder:
            path = pathlib.Path(folder) / "made.csv"
            path.write_text("\n".join([head, *rows]))
            return import_chain(path, **more)

    def test_ivydb_as_it_comes(self) -> None:
        """Contracts of one root are one chain; the weekly ones, settled in the evening, another."""
        rows = [
            ivydb("SPX 190118C2500000", "C", 2500000, "31.5", "32.4"),
            ivydb("SPX 190118P2500000", "P", 2500000, "0", "31"),
            ivydb("SPXW 190118C2500000", "C", 2500000, "31.6", "32.5", 0, "A"),
            ivydb("SPX 190118C2600000", "C", 2600000, "", "0.45"),
        ]
        first, second = self.read(IVYDB, *rows)
        self.assertEqual(
            orders_of(first),
            [
                *(("buy", "call 250000", 3150, 1), ("sell", "call 250000", 3240, 1)),
                *(("sell", "put 250000", 3100, 1), ("sell", "call 260000", 45, 1)),
            ],
        )
        self.assertEqual((first.exercise, first.multiplier), ("European", 100))
        self.assertEqual((second.exercise, len(second.batch.orders)), ("American", 2))
        self.assertEqual(first.about["secid"], "108105")
        self.assertNotIn("symbol", first.about)
        self.assertEqual(first.strikes, (250000, 260000))
        self.assertEqual(first.money(200), 200)

    @wants("pandas")
    def test_a_frame_is_read_as_its_file(self) -> None:
        import pandas

        rows = [
            ivydb("SPX 190118C2500000", "C", 2500000, "31.5", "32.4"),
            ivydb("SPX 190118P2500000", "P", 2500000, "", "31.05"),
        ]
        text = "\n".join([IVYDB, *rows])
        [by_file], [by_frame] = self.read(IVYDB, *rows), import_chain(
            pandas.read_csv(io.StringIO(text))
        )
        self.assertEqual(by_frame.batch, by_file.batch)
        with tempfile.TemporaryDirectory() as folder:
            path = pathlib.Path(folder) / "made.csv.gz"
            path.write_bytes(gzip.compress(text.upper().encode()))
            self.assertEqual(import_chain(path)[0].batch, by_file.batch)

    @wants("pandas")
    def test_cells_of_frames_name_chains_as_those_of_files(self) -> None:
        """Days, and numbers that are floats since one of them is missing; a root that is told by
        the contract alone keeps its options apart."""
        import pandas

        rows = {
            "secid": [108105.0, 108105.0, 108105.0],
            "symbol": ["SPX 190118C2500000", "SPXW 190118C2500000", "SPXW 190118P2500000"],
            "exdate": pandas.to_datetime(["2019-01-18"] * 3),
            "root": [None, None, None],
            "cp_flag": ["C", "C", "P"],
            "strike_price": [2500000.0] * 3,
            "best_bid": [31.5, 31.25, float("nan")],
            "best_offer": [32.5, 32.0, 31.0],
        }
        frame = pandas.DataFrame(rows)
        of_frame = import_chain(frame)
        text = frame.assign(secid=108105).to_csv(index=False).splitlines()
        of_file = self.read(text[0], *text[1:])
        self.assertEqual(of_frame, of_file)
        names = [it.name for it in of_frame]
        self.assertEqual(names, ["108105 SPX 2019-01-18", "108105 SPXW 2019-01-18"])
        named = import_chain(frame.assign(root=[None, "SPXW", None]))
        self.assertEqual([len(it.batch.orders) for it in named], [2, 3])

    def test_cboe_as_it_comes(self) -> None:
        """Sizes are contracts, two times of a day stand in a row, and the underlying is a call."""
        rows = [
            cboe("C", "155.000", "10,4.10,12,4.20,157.90,157.92", "5,4.05,6,4.30,157.80,157.85"),
            cboe("P", "155.000", "10,2.10,0,2.20,157.90,157.92", "5,1.05,6,1.30,157.80,157.85"),
            cboe("P", "155.555", "1,1,1,2,157.90,157.92", "1,1,1,2,157.80,157.85"),
        ]
        [late] = self.read(CBOE, *rows)
        call_155, put_155 = "call 15500", "put 15500"
        self.assertEqual(
            orders_of(late),
            [("buy", call_155, 410, 10), ("sell", call_155, 420, 12), ("buy", put_155, 210, 10)],
        )
        self.assertEqual(
            late.left_out,
            {
                "orders whose size is not from 1 to 10^6": 1,
                "rows whose strike is no whole number of ticks up to 10^9": 1,
            },
        )
        self.assertIsNone(late.exercise)
        [close] = self.read(CBOE, *rows, at="eod", underlying=True, dividends="0.8", tick="0.005")
        self.assertEqual(close.left_out, {})
        self.assertEqual(
            orders_of(close)[-2:], [("buy", "call 0", 31400, 1), ("sell", "call 0", 31410, 1)]
        )

        for most in (1, 2, 3):
            [few] = self.read(CBOE, *rows, underlying=True, most=most)
            self.assertEqual(len(few.batch.orders), min(most, 2))
        unquoted = cboe("C", "155.000", "0,0,0,0,157.90,157.92", "0,0,0,0,157.80,157.85")
        [alone] = self.read(CBOE, unquoted, underlying=True, most=1)
        self.assertEqual([it.side for it in alone.batch.orders], ["buy"])

    def test_interest(self) -> None:
        """A quote in money of the settlement is dearer, rounded so that nobody pays more."""
        row = ivydb("SPX 190118C2500000", "C", 2500000, "31.5", "32.4")

        def discount(about: dict[str, str]) -> str:
            return {"2019-01-18": "0.999"}[about["exdate"]]

        for given in ("0.999", 0.999, Decimal("0.999"), discount):
            [chain] = self.read(IVYDB, row, discount=given)
            self.assertEqual([it.price for it in chain.batch.orders], [3153, 3244])
        self.assertEqual(chain.money(1000), 1000 * Fraction(999, 1000))
        [finer] = self.read(IVYDB, row, discount=0.999, tick="0.0001")
        self.assertEqual([it.price for it in finer.batch.orders], [315315, 324325])

    def test_which_symbol_names_what(self) -> None:
        """A ticker names an underlying where nothing else does, and a contract never."""
        head = "symbol,exdate,cp_flag,strike,best_bid,best_offer"
        rows = ["A,x,C,5,1,2", "A,x,C,6,1,2", "B,x,C,5,1,2"]
        self.assertEqual([it.name for it in self.read(head, *rows)], ["A x", "B x"])
        rows = ["A 190118C5000,x,C,5,1,2", "A 190118P6000,x,P,6,1,2"]
        [chain] = self.read(head, *rows)
        self.assertEqual((chain.name, len(chain.batch.orders)), ("A x", 4))
        rows = ["AAQ.AE,x,1,C,5,1,2", "AAQ.AF,x,1,C,6,1,2"]
        [chain] = self.read("symbol,exdate,secid,cp_flag,strike,best_bid,best_offer", *rows)
        self.assertEqual(len(chain.batch.orders), 4)

    def test_empty_lines_are_no_chain(self) -> None:
        head = "exdate,cp_flag,strike,best_bid,best_offer"
        rows = ["x,C,5,1,2", "", "x,P,5,1,2", ",,,,", " ", ""]
        [chain] = self.read(head, *rows, discount=lambda about: {"x": "0.5"}[about["exdate"]])
        self.assertEqual((len(chain.batch.orders), chain.left_out), (4, {}))

    def test_a_long_chain_is_cut(self) -> None:
        """To the strikes around that at which call and put cost the same, a whole strike each."""
        rows = [
            f"{kind},{strike},{bid},{bid + 2}"
            for strike in range(100, 300)
            for kind, bid in (("C", 300 - strike), ("P", strike - 20))
        ]
        head = "cp_flag,strike,best_bid,best_offer"
        [chain] = self.read(head, *rows, tick=1)
        self.assertEqual((len(chain.batch.orders), chain.strikes), (252, (129, 191)))
        self.assertEqual(chain.left_out, {"orders beyond the greatest number": 548})
        [chain] = self.read(head, *["C,5,1,4", "C,5,2,3"] * 200, tick=1, most=2)
        self.assertEqual([it.price for it in chain.batch.orders], [2, 3])
        [chain] = self.read(head, *rows, tick=1, between=(150, 152))
        self.assertEqual(len(chain.batch.orders), 12)

    def test_what_cannot_be_read(self) -> None:
        for head, why in (
            ("cp_flag,strike,best_bid", "no column best_offer"),
            ("strike,best_bid,best_offer", "no column cp_flag"),
            ("", "no column strike, cp_flag, best_bid, best_offer"),
        ):
            with self.assertRaises(BadChain) as caught:
                self.read(head, "1,2,3")
            self.assertIn(why, str(caught.exception))
        with self.assertRaises(BadChain):
            import_chain("none.csv")
        with tempfile.TemporaryDirectory() as folder:
            for name, broken in (("a.csv.gz", b"strike"), ("b.csv", b"\xff\xfe\x00,")):
                path = pathlib.Path(folder) / name
                path.write_bytes(broken)
                with self.assertRaises(BadChain):
                    import_chain(path)
        rows = ["C,x,1,2", "X,5,1,2", "C,5,-1,nan", "C", "C,5,1,2,3", "C,1e999999999,1,2"]
        rows += ["C,5,1e999999999,1e-999999999", "C,5,0.5,1e13", "C,1e10,1,2"]
        [chain] = self.read(
            "cp_flag,strike,best_bid,best_offer", *rows, tick=1, between=(0, 10**15)
        )
        self.assertEqual((len(chain.batch.orders), sum(chain.left_out.values())), (2, 7))
        wrongs: list[dict[str, Any]] = [{"tick": 0}, {"tick": "x"}, {"most": 0}, {"discount": 0}]
        wrongs.append({"at": "noon"})
        for wrong in wrongs:
            with self.assertRaises(ValueError):
                self.read("cp_flag,strike,best_bid,best_offer", "C,5,1,2", **wrong)


@wants("pandas")
class Frames(unittest.TestCase):
    def test_a_batch_from_a_frame(self) -> None:
        import pandas

        rows: dict[str, Any] = {
            "side": ["buy", "sell"],
            "kind": ["C", "put"],
            "strike": [10, 12.0],
            "price": [6, 4],
            "quantity": [1, 2],
        }
        batch = Batch.from_frame(pandas.DataFrame(rows))
        self.assertEqual(batch.orders, (buy(call(10), 6), sell(put(12), 4, 2)))
        for text in ("(1, -1)", "[ 1 -1]", "1,-1"):
            weighted = {**rows, "weights": [(1, -1), text]}
            found = Batch.from_frame(pandas.DataFrame(weighted)).orders
            self.assertEqual(found, (buy(call(10, 1, -1), 6), sell(put(12, 1, -1), 4, 2)))
        nothing = float("nan")
        for name, wrong, why in (
            ("strike", [10, 10.5], "10.5 is no whole number"),
            ("kind", ["C", "X"], "'X' is none of call, put, c, p"),
            ("side", ["buy", "bid"], "'bid' is none of buy, sell"),
            ("price", [6, nothing], "nan is missing"),
            ("quantity", pandas.array([1, None], dtype="Int64"), "<NA> is missing"),
            ("side", ["buy", None], "None is missing"),
            ("price", [6, "x"], "'x' is no whole number"),
            ("weights", [(1,), (0,)], "a weight that is not 0"),
            ("weights", ["(1)", "(1.5)"], "'(1.5)' is no sequence of whole numbers"),
            ("weights", [(1,), ()], "there is no weight"),
            ("weights", [(1,), (1, 1)], "2 underlyings, and the first row is on 1"),
            ("options", ["call 5", "call"], "'call' is no option in words"),
            ("options", ["call 5", "call 5 on (1, 1)"], "2 underlyings, and the first row is on 1"),
            ("options", ["call 5", nothing], "nan is missing"),
            ("legs", [[(1, call(5))], [(1, "call")]], "a leg has an option"),
            ("legs", [[(1, call(5))], []], "are all on as many underlyings"),
            ("legs", [[(1, call(5))], [(nothing, call(5))]], "nan is no whole number"),
        ):
            frame = pandas.DataFrame({**rows, name: wrong}, index=["first", "second"])
            with self.assertRaises(BadFrame) as caught:
                Batch.from_frame(frame)
            self.assertTrue(isinstance(caught.exception, ValueError))
            told = str(caught.exception)
            self.assertTrue(told.startswith(f"row 'second', column {name}: "), told)
            self.assertIn(why, told)
        with self.assertRaises(KeyError):
            Batch.from_frame(pandas.DataFrame(rows).drop(columns="price"))

    def test_frames_are_read_back(self) -> None:
        """Those of a batch, of a cleared one and of a journal, also from a file."""
        import pandas

        legs = [(1, call(10, 1, -1)), (-2, put(12, 0, 3))]
        batch = Batch([bundle("buy", legs, 3, 4, account=7), sell(call(5, 1, 1), 2)])
        cleared = example("basket")
        day = ragvismo.read_journal(TOP / "examples/demo.replies")
        second = day.orders[day.orders.batch == 2]
        for frame, orders in (
            (batch.to_frame(), batch),
            (Batch([]).to_frame(), Batch([])),
            (cleared.to_frame(), cleared.to_batch()),
            (cleared.to_frame(floats=True), cleared.to_batch()),
            (second, example("demo", 2).to_batch()),
        ):
            self.assertEqual(Batch.from_frame(frame), orders)
            text = frame.to_csv(index=False)
            self.assertEqual(Batch.from_frame(pandas.read_csv(io.StringIO(text))), orders)

    def test_a_journal_is_written_and_read(self) -> None:
        import pandas

        for path in JOURNALS:
            for floats in (False, True):
                day = ragvismo.read_journal(path, floats)
                with tempfile.TemporaryDirectory() as folder:
                    ragvismo.read_journal(path).write(folder)
                    again = ragvismo.JournalFrames.read(folder, floats)
                for name in ragvismo.frames.COLUMNS:
                    pandas.testing.assert_frame_equal(getattr(day, name), getattr(again, name))

    def test_sums_are_those_of_the_journal(self) -> None:
        for path in JOURNALS:
            read, journal = ragvismo.read_journal(path), journals.read(path)
            orders = [order for batch in journal.batches for order in batch.orders]
            states = [state for batch in journal.batches for state in batch.certificate.measure]
            for name in ("surplus", "premium", "bound", "run", "mark"):
                told = [getattr(batch, name) for batch in journal.batches]
                self.assertEqual(list(read.batches[name]), told)
            self.assertEqual(list(read.orders.fill), [order.fill for order in orders])
            self.assertEqual(list(read.orders.options), [order.options() for order in orders])
            self.assertEqual(list(read.orders.cash), [order.cash for order in orders])
            self.assertEqual(sum(read.orders.premium), sum(read.batches.premium))
            counts = [leg.count for order in orders for leg in order.legs]
            self.assertEqual(list(read.legs["count"]), counts)
            self.assertEqual(list(read.measure.mass), [state.mass for state in states])
            amounts = [paid.amount for paid in journal.payouts]
            self.assertEqual(list(read.payouts.amount), amounts)
            if path.stem != "questions":
                own = [it for it in path.read_text().splitlines() if '"reply":"asked"' not in it]
                refused = sum('"reply":"refused"' in it for it in own)
                self.assertEqual(len(read.refusals), refused, path.name)

    @wants("matplotlib")
    def test_floats_plot(self) -> None:
        import matplotlib
        from matplotlib import pyplot

        matplotlib.use("Agg")
        day = ragvismo.read_journal(TOP / "examples/demo.replies", floats=True)
        cleared = example("butterfly")
        frames = [
            (day.batches, ["surplus", "bound", "premium", "liability"]),
            (day.orders, ["fill", "premium", "cash"]),
            (day.measure, ["mass", "weight"]),
            (cleared.to_frame(floats=True), ["fill", "premium"]),
            (ragvismo.state_prices(cleared, floats=True), ["price_1", "mass", "weight"]),
            (ragvismo.implied_distribution(cleared).options([5, 9], floats=True), ["call", "put"]),
        ]
        for frame, columns in frames:
            self.assertEqual({str(frame[it].dtype) for it in columns} - {"int64"}, {"float64"})
            pyplot.close(frame.plot(y=columns).figure)
        read = ragvismo.read_journal(TOP / "examples/proposals.replies", floats=True)
        self.assertAlmostEqual(read.batches.bound[0] - read.batches.surplus[0], 3 / 7)

    def test_a_long_journal_is_read_in_few_calls(self) -> None:
        """20 calls of functions for an order and the line that places it, of at most 40: they are
        counted, since seconds depend on what else the machine does."""
        order = '{"account":1,"form":[-10,1],"order":%d,"price":6,"quantity":1,"side":"buy"}'
        placed, line = '{"line":%d,"order":%d,"reply":"placed"}\n', 0
        with tempfile.TemporaryDirectory() as folder:
            path = pathlib.Path(folder) / "long"
            with open(path, "w") as journal:
                for batch in range(1, 41):
                    numbers = range(250 * batch - 249, 250 * batch + 1)
                    journal.writelines(
                        placed % (line + at, number) for at, number in enumerate(numbers, 1)
                    )
                    line += 251
                    fills = ",".join(f'"1/{2 + it % 7}"' for it in numbers)
                    about = f'"fills":[{fills}],"liability":"0","line":{line}'
                    listed = ",".join(order % number for number in numbers)
                    rest = '"mark":"budget","market":1,"orders":[%s],"reply":"cleared"' % listed
                    rest += ',"surplus":"0","underlyings":1,"units":1,"version":1'
                    journal.write(f'{{"batch":{batch},{about},{rest}}}\n')
            ragvismo.read_journal(TOP / "examples/demo.replies")  # imports what it wants
            profile = cProfile.Profile()
            read = profile.runcall(ragvismo.read_journal, path)
            profile.create_stats()
        self.assertEqual((len(read.batches), len(read.orders), line), (40, 10_000, 10_040))
        self.assertLess(sum(it[1] for it in profile.stats.values()), 40 * len(read.orders))

    def fault(self, text: str) -> str:
        """What is said of a text that is no journal."""
        with tempfile.NamedTemporaryFile("w", encoding="utf-8") as journal:
            journal.write(text)
            journal.flush()
            with self.assertRaises(ragvismo.BadJournal) as caught:
                ragvismo.read_journal(journal.name)
        return str(caught.exception)

    def test_what_is_no_journal(self) -> None:
        for text in (
            '{"line":1}',
            "[]",
            "é",
            '{"line":1,"reply":"cleared"}',
            '{"account":1,"line":0,"reply":"opened"}',
            '{"lapsed":0,"line":1,"market":1,"payouts":[{"account":1,"amount":1e999,"batch":1,'
            '"order":1}],"reply":"settled"}',
        ):
            self.fault(text)

    def test_numbers_that_no_column_holds(self) -> None:
        """Neither cut to whole ones nor another exception."""
        text = (TOP / "examples/butterfly.replies").read_text()
        for other in ("6.5", str(2**63), "1e2", '"6"'):
            told = self.fault(text.replace('"price":6,', f'"price":{other},'))
            self.assertIn("no reply line", told)

    def test_the_line_of_a_fault_is_told(self) -> None:
        opened, spoiled = (
            '{"account":%d,"line":%d,"reply":"opened"}',
            '{"line":2,"reply":"settled"}',
        )
        lines = [opened % (1, 1), spoiled, opened % (2, 3)]
        self.assertIn("line 2 of", self.fault("\n".join(lines)))
        gate = '{"line":9,"number":15,"reason":"Malformed","reply":"gate"}'
        self.assertIn("line 2 of", self.fault("\n".join([*lines[:2], gate, ""])))


@wants("pandas")
class Prices(unittest.TestCase):
    def test_the_butterfly(self) -> None:
        cleared = example("butterfly")
        implied = ragvismo.implied_distribution(cleared)
        self.assertEqual((sum(implied.masses.values()), implied.slope), (1, 4))
        self.assertEqual(
            (implied.price(call(10)), implied.below(12), implied.mean()),
            (Fraction(36, 7), Fraction(3, 7), Fraction(76, 7)),
        )
        table = implied.options([0, 5, 10, 12, 20])
        for strike, of_call, of_put in table.itertuples(index=False):
            self.assertEqual(of_call - of_put, implied.mean() - strike)
            self.assertEqual(cleared.certificate.price(put(strike)), of_put)
        self.assertEqual(sum(ragvismo.state_prices(cleared).mass), 1)

    def test_gains_come_to_the_surplus(self) -> None:
        for name in ("butterfly", "spread", "basket", "basket_of_three"):
            cleared = example(name)
            gains = [
                it.quantity * max(Fraction(0), it.sign * (it.price - cleared.certificate.price(it)))
                for it in cleared.orders
            ]
            self.assertEqual(sum(gains), cleared.surplus, name)

    def test_without_a_measure(self) -> None:
        with self.assertRaises(ragvismo.NoMeasure):
            ragvismo.state_prices(example("joint"))
        with self.assertRaises(ValueError):
            ragvismo.implied_distribution(example("basket"))

    def test_whole_ticks_beside_a_bound(self) -> None:
        for bid, ask, whole in (
            (Fraction(5, 2), Fraction(5, 2), (2, 3)),
            (Fraction(2), Fraction(3), (1, 4)),
            ("never", "unmarked", ("never", "unmarked")),
            (Fraction(10**12 + 5), Fraction(-4), (10**12, 0)),
        ):
            bounds = ragvismo.PriceBounds(bid, ask)  # type: ignore[arg-type]
            self.assertEqual((bounds.whole_bid, bounds.whole_ask), whole)

    def test_an_order_at_an_exact_price(self) -> None:
        options = [call(10), put(5, 1, -3), call(10**9)]
        for option in options:
            for price in (Fraction(36, 7), Fraction(1, 999_983), Fraction(3), Fraction(1, 2_000)):
                order = ragvismo.prices.order_at("buy", option, price)
                if order is None:
                    self.assertGreater(price.denominator * max(option.weights), 1_000)
                    continue
                state = (1, *[7 * 10**9] * len(option.weights))
                self.assertEqual(order.at(state) * price, order.price * option.at(state))
                self.assertEqual(len(butterfly().orders), 3)


if __name__ == "__main__":
    unittest.main()
