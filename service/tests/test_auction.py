"""Auctions: an auctioneer closes, asks solvers and clears, however often it is killed, and the best
that was offered counts."""

from __future__ import annotations

import contextlib
import io
import itertools
import json
import re
import subprocess
import sys
import threading
import time
import unittest
from fractions import Fraction
from typing import Any

import redis

from ragvismo_service.auctioneer import Auctioneer, Terms
from ragvismo_service.books import FIRST_SOLVER, Books, clock
from ragvismo_service.markets import Market
from ragvismo_service.places import Place
from ragvismo_service.statuses import Status
from ragvismo_service.store import Store
from tests.standing import HERE, ORDERS, Given, Service, free_port

OWN = 9
# Proposals for the orders of a market: one that holds, one that leaves the most, and one that lies.
MEASURE = (
    '[{"state":["1","0"],"weight":"3/7"},{"state":["1","12"],"weight":"4/7"},'
    '{"state":["0","1"],"weight":"4"}]'
)
HALF, WHOLE = ("3/7", ["1/2", "1/7", "5/14"]), ("6/7", ["1", "2/7", "5/7"])
LIE = "4/7", HALF[1]
# A solver of a book of the butterfly, whichever numbers its orders have.
SOLVER = r"""#!/usr/bin/python3 -ES
import json, sys
for line in sys.stdin:
    book = json.loads(line)
    if book["orders"]:
        numbers = [order["order"] for order in book["orders"]]
        told = {"certificate": {"cover": "line", "measure": MEASURE}, "fills": FILLS,
                "liability": "0", "orders": numbers, "surplus": "SURPLUS"}
        text = json.dumps(told, separators=(",", ":"))
        print("propose,%d,%s" % (book["market"], text), flush=True)
"""
# A solver's tool on a machine that has no program.
ELSEWHERE = """
import pathlib, sys
sys.path[:0] = sys.argv[1:3]
from ragvismo_service import words
words.PROGRAM = pathlib.Path("/none")
from ragvismo_service import solver
sys.argv[1:] = sys.argv[3:]
sys.exit(solver.main())
"""
# How long a solver has to answer here.
PATIENT = "--seconds", "600"
# What is said in a market, a letter for each line.
LETTERS = {"close": "c", "book": "b", "propose": "p", "clear": "C", "reopen": "o", "settle": "s"}
AUCTIONS = re.compile("^(c(o|bp*C))*s$")


class Killed(Exception):
    """An auctioneer was killed."""


class Mortal(Store):
    """The connection of one that is killed at one of its writes, before it or after it; some hours
    are added to the clock."""

    def __init__(self, place: Place, writes: int, is_after: bool) -> None:
        super().__init__(place, 60, "test")
        self.writes, self.is_after, self.hours = writes, is_after, 0

    def say(self, *words: bytes, kept: bool = False) -> Any:
        if words[0] == b"TIME":
            seconds, micros = super().say(*words, kept=kept)
            return [b"%d" % (int(seconds) + 3600 * self.hours), micros]
        if words[0] != b"XADD":
            return super().say(*words, kept=kept)
        self.writes -= 1
        if self.writes == 0 and not self.is_after:
            raise Killed
        told = super().say(*words, kept=kept)
        if self.writes == 0 and self.is_after:
            raise Killed
        return told


class Standing(Service):
    """An exchange whose operator has two accounts."""

    def setUp(self) -> None:
        super().setUp()
        if not self.is_real:
            self.skipTest("./build has not made the program")
        self.start_sequencer()
        self.trader = self.session(3)
        for line in ("open,1", "open,2", "deposit,1,100000"):
            self.trader.ask(line)

    def list_market(self, market: int) -> None:
        """Lists a market, with the orders of the butterfly."""
        self.trader.ask(f"market,{market},1")
        self.place_orders(market)

    def place_orders(self, market: int) -> None:
        for line in ORDERS:
            self.assertEqual(self.trader.ask(line.format(market))["reply"], "placed")

    def place_if_open(self, market: int) -> None:
        for line in ORDERS:
            reply = self.trader.ask(line.format(market))
            self.assertIn(reply.get("reason", ""), ("", "Closed"))

    def start(self, tool: str, *words: object) -> subprocess.Popen[str]:
        """A tool that runs; what it prints and says is in files."""
        call = [str(HERE / tool), *self.at, *map(str, words)]
        with open(self.folder / "printed", "a") as out, open(self.folder / "said", "a") as log:
            process = subprocess.Popen(call, stdout=out, stderr=log, text=True)
        self.sequencers.append(process)
        return process

    def read(self, name: str) -> str:
        return (self.folder / name).read_text()

    def auctioneer(self, *words: object) -> subprocess.Popen[str]:
        times = "--every", "0.2", "--solve", "2", "--budget", "1"
        return self.start("auctioneer", *times, *words)

    def solver(self, session: int, surplus: str, fills: list[str]) -> subprocess.Popen[str]:
        text = SOLVER.replace("MEASURE", MEASURE).replace("FILLS", json.dumps(fills))
        script = self.script(f"solver-{session}", text.replace("SURPLUS", surplus))
        return self.start("solver", session, "--solver", script, *PATIENT)

    def log(self) -> list[tuple[int, str, dict[str, Any]]]:
        """What was taken: session, body and reply of each message, once."""
        found, line = [], 0
        for entry, (_, answer) in zip(self.entries(), self.published()):
            told = json.loads(answer)
            if "of" in told and told["of"]["line"] > line:
                line = told["of"]["line"]
                body = entry.text.split(b",", 2)[2].decode(errors="replace")
                found.append((told["session"], body, told["of"]))
        return found

    def replies(self, kind: str) -> list[dict[str, Any]]:
        return [reply for _, _, reply in self.log() if reply["reply"] == kind]

    def said_of(self, market: int) -> str:
        """What auctioneers said of a market, for themselves and for solvers, a letter for each
        line that was not refused since it came late."""
        lines = [
            body.split(",", 2)
            for session, body, reply in self.log()
            if session in (OWN, *range(FIRST_SOLVER, FIRST_SOLVER + 10))
            and reply.get("reason") not in ("Closed", "Stale")
        ]
        return "".join(LETTERS[word] for word, of, *_ in lines if int(of) == market)

    def books(self) -> list[dict[str, Any]]:
        """What solvers were told."""
        return [
            {**json.loads(fields[b"reply"]), "until": int(fields.get(b"until", 0)), "id": id}
            for id, fields in self.redis.xrange("ragvismo:books")
        ]

    def offers(self) -> int:
        """How many solvers offer something for the book that was told last."""
        texts = [self.redis.get(key) for key in self.redis.scan_iter("ragvismo:proposals/*")]
        ids = [it["id"] + b" " for it in self.books()[-1:]]
        return sum(text.startswith(id) for id in ids for text in texts)

    def auctioneer_after(self, offers: int) -> subprocess.Popen[str]:
        """One that goes on with an auction when so many solvers have offered, however late they
        are: another one began it, which would wait for an hour, and is killed."""
        first = self.auctioneer(1, "--solve", "3600")
        self.until(lambda: self.offers() == offers, 600)
        self.kill(first)
        # Else it would be waited for as long as the solvers were told.
        self.redis.delete("ragvismo:books")
        return self.auctioneer(1, "--solve", "0.1")

    def connected(self, tool: str) -> int:
        names = [client["name"] for client in self.redis.client_list()]
        return names.count(f"ragvismo-{tool}/ragvismo")

    def is_open(self, market: int) -> bool:
        return bool(self.trader.ask(ORDERS[0].format(market))["reply"] == "placed")


class Auction(Standing):
    def test_an_auction(self) -> None:
        """The program is the solver; then one order comes, and then the market is settled."""
        self.list_market(1)
        self.start("solver", FIRST_SOLVER, "--program", self.program, *PATIENT)
        auctioneer = self.auctioneer_after(1)
        self.until(lambda: bool(self.replies("cleared")))
        [cleared] = self.replies("cleared")
        self.assertEqual((cleared["mark"], cleared["run"]), ("bounded", "budget"))
        self.assertGreater(Fraction(cleared["surplus"]), Fraction(5, 7))
        self.assertEqual(self.said_of(1), "cbpC")
        self.until(lambda: len(self.books()) == 2)
        book, result = self.books()
        self.assertEqual((book["reply"], book["market"], result["reply"]), ("book", 1, "cleared"))
        self.assertEqual([order["account"] for order in book["orders"]], [1, 1, 1])
        self.assertEqual((result["surplus"], result["orders"]), (cleared["surplus"], [1, 2, 3]))
        self.assertEqual(json.loads(self.read("printed"))["surplus"], cleared["surplus"])
        time.sleep(0.5)
        self.assertEqual(self.said_of(1), "cbpC")
        self.assertTrue(self.is_open(1))
        self.until(lambda: len(self.replies("cleared")) == 2)
        ran = self.tool("auctioneer", 1, "--settle", "11")
        self.assertEqual((ran.returncode, auctioneer.wait(120)), (0, 0), ran.stderr)
        self.assertRegex(self.said_of(1), "^cbpCcbp?Cs$")

    def test_four_solvers(self) -> None:
        """One is silent, one floods, one lies and one is good: what the good one offers counts, and
        the audit says so."""
        self.list_market(1)
        self.start("solver", FIRST_SOLVER, "--solver", "grep silent")
        self.start("solver", FIRST_SOLVER + 1, "--solver", "yes propose,1,", *PATIENT)
        self.solver(FIRST_SOLVER + 2, *LIE)
        self.solver(FIRST_SOLVER + 3, *WHOLE)
        self.solver(FIRST_SOLVER + 4, *HALF)
        self.until(lambda: self.connected("solver") == 5, 600)
        flood = Flood(self.redis, f"ragvismo:proposals/{FIRST_SOLVER + 5}")
        flood.start()
        self.addCleanup(flood.stop)
        self.auctioneer_after(5)
        self.until(lambda: bool(self.replies("cleared")))
        [cleared] = self.replies("cleared")
        self.assertEqual((cleared["surplus"], cleared["mark"]), (WHOLE[0], "bounded"))
        offered = [it["surplus"] for it in self.replies("proposed")]
        self.assertEqual(sorted(offered), [HALF[0], WHOLE[0]])
        self.assertEqual({it["reason"] for it in self.replies("refused")}, {"Syntax", "Unproved"})
        self.assertEqual(self.audited()["bounded"], 1)

    def audited(self) -> dict[str, Any]:
        """What the program says of all replies."""
        replies = b"".join(answer + b"\n" for _, answer in self.published())
        ran = subprocess.run([self.program, "audit"], input=replies, capture_output=True)
        self.assertEqual(ran.returncode, 0, ran.stdout)
        told: dict[str, Any] = json.loads(ran.stdout)
        return told

    def test_the_solvers_of_an_exchange(self) -> None:
        """Of one whose name is a pattern, and whose keys others match."""
        for name in ("a[b]*", "ab1", "a[b]*x"):
            for session in ("7", "1000000", "01", "x", "9999999999"):
                self.redis.set(f"{name}:proposals/{session}", "1-1 propose,1,{}\n1-2 propose,1,")
        books = Books(Store(Place(port=self.port, name="a[b]*"), 60, "test"))
        self.assertEqual(books.solvers(), [1000000])
        self.assertEqual(books.offer(1000000, b"1-1", 1, 100), b"propose,1,{}")
        for id, market, longest in ((b"1-3", 1, 100), (b"1-1", 2, 100), (b"1-1", 1, 11)):
            self.assertEqual(books.offer(1000000, id, market, longest), b"")
        self.assertEqual(books.offer(1000001, b"1-1", 1, 100), b"")

    def test_what_somebody_else_closed(self) -> None:
        """It is left alone, and so is a market without orders, or that is not listed."""
        self.list_market(1)
        self.trader.ask("market,2,1")
        other = self.session(1)
        other.ask("close,1")
        self.auctioneer(1, 2, 3)
        self.until(lambda: self.connected("auctioneer") == 1)
        time.sleep(3)
        self.assertEqual((self.said_of(1), self.said_of(2)), ("", ""))
        other.ask("reopen,1")
        self.trader.ask("market,3,1")
        self.place_if_open(3)
        self.until(lambda: {it["market"] for it in self.replies("cleared")} == {1, 3})
        self.assertEqual((self.said_of(1), self.said_of(2)), ("cbC", ""))

    def test_orders_that_were_cancelled(self) -> None:
        self.list_market(1)
        for account, order in ((1, 1), (2, 2), (2, 3)):
            self.trader.ask(f"cancel,{account},{order}")
        self.auctioneer(1)
        self.until(lambda: bool(self.replies("reopened")))
        time.sleep(1)
        self.assertEqual(self.said_of(1), "co")

    def test_what_is_refused(self) -> None:
        self.list_market(1)
        for words, said in (
            ((1, "--settle", "1,2"), "WeightCount"),
            ((7, "--settle", "1"), "there is no market 7"),
            ((1, 2, "--settle", "1"), "one market"),
            ((0,), "is no market"),
            ((1, "--session", 10), "is no session of the operator's"),
        ):
            ran = self.tool("auctioneer", *words)
            self.assertEqual(ran.returncode, Status.BAD_USE, ran.stderr)
            self.assertIn(said, ran.stderr.splitlines()[-1])


class Elsewhere(unittest.TestCase):
    """A solver on a machine that has no program."""

    def test_a_command_of_ones_own(self) -> None:
        """It needs none: what is missing here is Redis."""
        folders = str(HERE), str(HERE.parent / "tools")
        call = [sys.executable, "-B", "-c", ELSEWHERE, *folders, str(FIRST_SOLVER)]
        call += ["--at", str(free_port()), "--patience", "0.1"]
        for words, status, said in (
            (("--solver", "cat"), Status.NO_REDIS, "no Redis answers"),
            ((), Status.BAD_USE, "there is no program /none"),
        ):
            ran = subprocess.run([*call, *words], capture_output=True, text=True)
            self.assertEqual(ran.returncode, status, ran.stderr)
            self.assertIn(said, ran.stderr.splitlines()[-1])


class Clock(Service):
    """The clock of Redis."""

    def test_a_clock_that_is_put_back(self) -> None:
        """By an hour: the next auction begins, and one under way goes on, as soon as always."""
        store, hour = Store(self.place, 60, "test"), 3_600_000
        auctioneer, now = Auctioneer(store, Terms((1,))), clock(store)
        terms, market = auctioneer.terms, Market(now + hour, has_orders=True)
        self.assertEqual(auctioneer.first_line(1, market, now), b"")
        self.assertEqual(auctioneer.first_line(1, market, clock(store) + terms.every), b"close,1")
        book = b"%d-1" % (now + hour)
        auctioneer.books.tell(book, b"{}", now + hour)
        self.assertEqual(auctioneer.books.until(book), now + hour)
        for _ in range(2):
            until = auctioneer.asking(1, book, clock(store)).until
            self.assertLessEqual(until, clock(store) + terms.solve)
            self.assertGreater(until, now)

    def test_an_auctioneer_that_waits_longer(self) -> None:
        """Solvers are waited for as long as one told them, though another would wait less."""
        store = Store(self.place, 60, "test")
        auctioneer, now = Auctioneer(store, Terms((1,))), clock(store)
        book, until = b"%d-1" % now, now + 10 * Terms((1,)).solve
        auctioneer.books.tell(book, b"{}", until)
        for _ in range(2):
            self.assertEqual(auctioneer.asking(1, book, clock(store)).until, until)


class Flood(threading.Thread):
    """A solver that writes without an end."""

    def __init__(self, connection: redis.Redis, key: str) -> None:
        super().__init__(daemon=True)
        self.redis, self.key, self.is_stopped = connection, key, False

    def run(self) -> None:
        while not self.is_stopped:
            books = self.redis.xrevrange("ragvismo:books", count=1)
            for id in [id for id, _ in books] or [b"1-1"]:
                self.redis.set(
                    self.key, (id + b" propose,1,\xff\x1b{}\n") * 1000 + b"x" * 1_000_000
                )

    def stop(self) -> None:
        self.is_stopped = True
        self.join()


class Kills(Standing):
    """Auctioneers that are killed, and several at once."""

    def life(self, market: int, writes: int, is_after: bool) -> bool:
        """One auctioneer, which is killed at one of its writes; whether it lived to see its market
        cleared, and told so."""
        store = Mortal(self.place, writes, is_after)
        auctioneer = Auctioneer(store, Terms((market,), every=0, solve=3_600_000, budget=1))
        try:
            with contextlib.redirect_stdout(io.StringIO()):
                auctioneer.begin()
                while not self.is_told(market):
                    # When solvers have offered, the time is over.
                    store.hours = 2 * self.offer(market)
                    auctioneer.turn()
        except Killed:
            return False
        return True

    def is_told(self, market: int) -> bool:
        return any(it["reply"] == "cleared" and it["market"] == market for it in self.books())

    def offer(self, market: int) -> bool:
        """Has two solvers offer as soon as they are told the book of a market; whether they were
        told."""
        found = [it for it in self.books() if (it["reply"], it["market"]) == ("book", market)]
        for book in found:
            numbers = json.dumps([it["order"] for it in book["orders"]], separators=(",", ":"))
            for session, (surplus, fills) in enumerate((HALF, WHOLE), FIRST_SOLVER):
                told = json.dumps(fills, separators=(",", ":"))
                proposal = (
                    f'{{"certificate":{{"cover":"line","measure":{MEASURE}}},"fills":{told},'
                    f'"liability":"0","orders":{numbers},"surplus":"{surplus}"}}'
                )
                text = f"{book['id'].decode()} propose,{market},{proposal}"
                self.redis.set(f"ragvismo:proposals/{session}", text)
        return bool(found)

    def test_at_each_write(self) -> None:
        """Killed before or after any line or news, it goes on: nothing is said or told twice, and
        the market is open again."""
        for market, (write, is_after) in enumerate(
            itertools.product(range(1, 9), (False, True)), 1
        ):
            with self.subTest(write=write, is_after=is_after):
                self.list_market(market)
                lived = self.life(market, write, is_after)
                self.assertEqual(lived, write == 8)
                self.assertTrue(lived or self.life(market, 0, False))
                self.assertEqual(self.said_of(market), "cbppC")
                self.assertEqual(self.replies("cleared")[-1]["surplus"], WHOLE[0])
                self.assertEqual(len(self.books()), 2 * market)
                self.assertTrue(self.is_open(market))
        own = [it for it in self.entries() if not it.text.startswith(b"3,")]
        self.assertEqual(len(own), 5 * market)

    def test_a_clear_that_is_refused(self) -> None:
        """The market is opened again."""
        self.list_market(1)
        auctioneer = Auctioneer(
            Store(self.place, 60, "test"), Terms((1,), every=100, solve=10, budget=0)
        )
        auctioneer.begin()
        while not self.replies("reopened"):
            auctioneer.turn()
        self.assertEqual(self.said_of(1), "cbCo")

    def test_two_that_are_killed(self) -> None:
        """Two at once, one of which is killed and started again, and at times Redis too, do as one
        does."""
        self.list_market(1)
        self.list_market(2)
        self.solver(FIRST_SOLVER, *WHOLE)
        running = [self.auctioneer(1, 2, "--solve", "0.5") for _ in range(2)]
        for turn in range(20 if Given.is_long else 3):
            time.sleep(self.random.uniform(0.5, 2))
            if turn % 4 == 1:
                self.stop_redis()
                self.start_redis()
            self.assertIsNone(running[0].poll())
            running[0].kill()
            running[0].wait()
            running = [*running[1:], self.auctioneer(1, 2, "--solve", "0.5")]
            for market in (1, 2):
                self.place_if_open(market)
        for market in (1, 2):
            ran = self.tool("auctioneer", market, "--settle", "11", "--solve", "0.5")
            self.assertEqual(ran.returncode, 0, ran.stderr)
            self.assertRegex(self.said_of(market), AUCTIONS)
        self.assertEqual([it.wait(120) for it in running], [0, 0])
        self.until(self.all_answered)
        self.assertEqual(self.published(), self.computed())
        ids = [book["id"] for book in self.books()]
        self.assertEqual(len(ids), len(set(ids)))
