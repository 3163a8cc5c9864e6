"""What is told of an exchange: figures for Prometheus, and to systemd that a tool is alive."""

from __future__ import annotations

import contextlib
import importlib.util
import os
import pathlib
import re
import shutil
import socket
import subprocess
import time
import unittest
import urllib.request
from unittest import mock

from ragvismo_service import files, journal, metrics, watching
from ragvismo_service.chain import FIRST_HEAD, Answered, head_after
from ragvismo_service.figures import Figures
from ragvismo_service.following import Follower
from ragvismo_service.messages import Entry
from ragvismo_service.places import Place
from ragvismo_service.segments import OpenSegment
from ragvismo_service.statuses import Ended, Status
from ragvismo_service.store import Store
from tests.standing import HERE, Service, free_port

ORDER = '"account":1,"form":[0,1],"quantity":1,"order":'
FILLED = f'{{{ORDER}1,"price":7,"side":"buy"}},{{{ORDER}2,"price":5,"side":"sell"}}'
CLEARED = f'"fills":["1/2","1/2"],"line":8,"mark":"optimal","market":4,"orders":[{FILLED}]'
PAID = ",".join(
    f'{{"account":1,"amount":"{amount}","batch":1,"order":{order}}}'
    for order, amount in ((2, -3), (1, 1))
)
# Messages and the replies of an exchange to them.
DAY = (
    ("open,1", '{"account":1,"line":1,"reply":"opened"}'),
    ("market,4,1", '{"line":2,"market":4,"reply":"listed","underlyings":1}'),
    ("buy,1,4,call,10,7,1,1", '{"line":3,"order":1,"reply":"placed"}'),
    ("sell,1,4,call,10,5,1,1", '{"line":4,"order":2,"reply":"placed"}'),
    ("sell,1,4,call,10,6,1,1", '{"line":5,"order":3,"reply":"placed"}'),
    ("bundle,1,4,sell,6,1,1,call,9,1", '{"line":6,"order":4,"reply":"placed"}'),
    ("cancel,1,4", '{"line":7,"order":4,"reply":"cancelled"}'),
    ("clear,4,9", f'{{"batch":1,{CLEARED},"reply":"cleared"}}'),
    ("withdraw,1,9", '{"line":9,"number":2,"reason":"Funds","reply":"refused"}'),
)


def answered(number: int, body: str, reply: str, session: int = 7) -> Answered:
    entry = Entry(b"1-1", f"{session},{number},{body}".encode(), None)
    return Answered(
        entry, f'{{"number":{number},"of":{reply},"session":{session}}}'.encode(), FIRST_HEAD
    )


class Counted(unittest.TestCase):
    def after(self, *more: tuple[str, str]) -> Figures:
        figures = Figures()
        for number, (body, reply) in enumerate((*DAY, *more), 1):
            figures.take(answered(number, body, reply))
        return figures

    def test_a_day(self) -> None:
        """The buyer pays 7/2, rounded up, and the seller gets 5/2, rounded down."""
        figures = self.after()
        self.assertEqual((figures.house, figures.live), (4 - 2, {3: 4}))
        used = {
            "accounts": 1,
            "batches": 1,
            "live_orders_of_a_market": 1,
            "markets": 1,
            "messages": 9,
        }
        used |= {"messages_of_a_session": 9, "orders": 4, "sessions": 1}
        self.assertEqual(figures.used, used)
        self.assertEqual(figures.ratios()["markets"], 1 / 64)

    def test_a_repeated_message_counts_once(self) -> None:
        figures = self.after()
        self.assertIsNone(figures.take(answered(8, *DAY[7])))
        self.assertEqual((figures.house, figures.used["messages"]), (2, 10))

    def test_a_settlement(self) -> None:
        """The orders of a market lapse, of which one named it in quotation marks."""
        quoted = 'buy,1,"4",call,10,5,1,1', '{"line":10,"order":5,"reply":"placed"}'
        self.assertEqual(self.after(quoted).used["live_orders_of_a_market"], 2)
        settled = f'{{"lapsed":2,"line":11,"market":4,"payouts":[{PAID}],"reply":"settled"}}'
        figures = self.after(quoted, ("settle,4,13", settled))
        self.assertEqual((figures.house, figures.live), (4, {}))
        self.assertEqual(figures.used["live_orders_of_a_market"], 0)

    def test_phases(self) -> None:
        """When a market was closed, until it is open again."""
        closed = "close,4", '{"line":10,"market":4,"orders":1,"reply":"closed"}'
        reopened = "reopen,4", '{"line":11,"market":4,"reply":"reopened"}'
        self.assertEqual(self.after(closed).closed, {4: 1})
        self.assertEqual(self.after(closed, reopened).closed, {})

    def test_what_the_house_is_told_to_have(self) -> None:
        told = '{"account":0,"balance":"100","line":10,"reply":"balance","reserved":"0"}'
        self.assertEqual(self.after(("balance,0", told)).house, 100)

    def test_an_answer_that_no_sequencer_wrote(self) -> None:
        with self.assertRaises(Ended) as told:
            Figures().take(answered(1, "open,1", '{"reply":"opened"}'))
        self.assertEqual(told.exception.status, Status.FORGED)


@unittest.skipUnless(
    importlib.util.find_spec("prometheus_client"),
    "python3-prometheus-client is missing; tools/setup installs it",
)
class Clears(unittest.TestCase):
    """What is told of clears, by mark."""

    def test_marks(self) -> None:
        """Each is told before the first clear, so that a rule sees it come; a try is none."""
        told, seen = metrics.Metrics(Store(Place(), 1, "test")), watching.Seen()

        def counts() -> list[float | None]:
            name = "ragvismo_clears_total"
            marks = "optimal", "bounded", "wide", "budget"
            return [told.registry.get_sample_value(name, {"mark": it}) for it in marks]

        self.assertEqual(counts(), [0, 0, 0, 0])
        tried = '{"fill":"1","line":9,"mark":"budget","market":4,"reply":"tried","surplus":"1"}'
        for number, (body, reply) in enumerate((*DAY, ("try,4,9,buy,1,1,call,1,1", tried)), 1):
            for take in (told.take, seen.take):
                take(answered(number, body, reply), True)
        self.assertEqual(counts(), [1, 0, 0, 0])
        self.assertEqual((seen.kinds["optimal"], seen.kinds["tried"]), (1, 1))
        self.assertEqual(len(seen.times["clears"]), 1)


class Busy(Service):
    """A log to which an answer comes for each that is read."""

    def setUp(self) -> None:
        super().setUp()
        self.count, self.head, self.end = 0, FIRST_HEAD, time.monotonic() + 120

    def come(self, *_: object) -> None:
        self.assertLess(time.monotonic(), self.end, "it reads for ever")
        self.count += 1
        fields = {"session": 7, "number": self.count, "body": "x"}
        # All came on one day, which is long over.
        id = self.redis.xadd("ragvismo:in", fields, id=f"{self.count}-0")
        answer = b'{"reply":"gate"}'
        line = b"%b,7,%d,x" % (id, self.count)
        self.head = head_after(self.head, line, answer)
        self.redis.xadd("ragvismo:out", {"answer": answer, "chain": self.head}, id=id)

    def test_how_it_is(self) -> None:
        """It is told all the same, with how long the first waits that has no answer, though who
        reads is far behind that."""
        for _ in range(3):
            self.come()
        follower = Follower(Store(self.place, 60, "test"), self.come)
        follower.begin()
        follower.wait(0.1)
        self.assertLess(follower.history.count, self.count)
        state = follower.state()
        self.assertEqual((state.entries, state.lag, state.waited), (self.count, 0, 0.0))
        since = time.time()
        self.append(session=7, number=1, body="y")
        time.sleep(0.2)
        state = follower.state()
        self.assertEqual((state.entries, state.lag), (self.count + 1, 1))
        self.assertTrue(0.2 <= state.waited < time.time() - since + 1)

    def test_its_journal(self) -> None:
        """It ends with what was answered when it began."""

        def size(_: object) -> int:
            self.come()
            return 0

        for _ in range(3):
            self.come()
        folder = self.folder / "journal"
        files.make(folder)
        with mock.patch.object(OpenSegment, "size", size):
            last = journal.write_new(folder, Store(self.place, 60, "test"), 1)
        self.assertEqual((last.entries, self.count), (3, 5))


class Metrics(Service):
    def start_metrics(self) -> None:
        self.listen = free_port()
        words = [
            str(HERE / "metrics"),
            *self.at,
            "--listen",
            f"127.0.0.1:{self.listen}",
            "--every",
            "0.1",
        ]
        self.sequencers.append(subprocess.Popen(words, stderr=subprocess.PIPE, text=True))

    def told(self) -> dict[str, float]:
        """What is told now."""
        try:
            with urllib.request.urlopen(
                f"http://127.0.0.1:{self.listen}/metrics", timeout=120
            ) as page:
                lines = [
                    line for line in page.read().decode().splitlines() if not line.startswith("#")
                ]
        except OSError:
            return {}
        return {name: float(value) for name, _, value in (line.rpartition(" ") for line in lines)}

    def test_figures(self) -> None:
        sequencer = self.start_sequencer()
        session = self.session(7)
        session.ask("open,1")
        session.answer(9, "balance,0")
        self.append(session="7,7", number=1, body="x")
        self.until(self.all_answered)
        self.redis.xadd("ragvismo:questions", {"session": 7, "body": "balance,1"})
        self.start_metrics()
        self.until(lambda: self.told().get("ragvismo_entries") == 3)
        session.answer(1, "open,1")
        self.until(lambda: self.told()["ragvismo_answer_seconds_count"] == 1)
        self.until(lambda: self.told()["ragvismo_lag_entries"] == 0)
        told = self.told()
        for name, value in (
            ("ragvismo_lag_entries", 0),
            ("ragvismo_sequencers", 1),
            ("ragvismo_followers", 0),
            ("ragvismo_questions", 1),
            ('ragvismo_refusals_total{reason="Form"}', 1),
            ('ragvismo_refusals_total{reason="Ahead"}', 1),
            ('ragvismo_limit_used_ratio{limit="sessions"}', 1 / 10_000),
            ("ragvismo_live_orders", 0),
            ("ragvismo_longest_closed_seconds", 0),
            ("ragvismo_house_balance_ticks", 0),
            ("ragvismo_redis_copies", 0),
        ):
            self.assertEqual(told[name], value, name)
        self.assertEqual(
            sum(value for name, value in told.items() if name.startswith("ragvismo_replies_total")),
            3,
        )
        self.kill(sequencer)
        session.append(2, b"open,2")
        self.until(lambda: self.told()["ragvismo_oldest_wait_seconds"] > 0.2)
        # The figures of one look come to be told one after another.
        names = "ragvismo_lag_entries", "ragvismo_sequencers"
        self.until(lambda: [self.told()[name] for name in names] == [1, 0])
        self.rules_are_of(self.told())
        self.redis.xtrim("ragvismo:in", 1, approximate=False)
        self.assertEqual(self.sequencers[-1].wait(120), Status.CUT)

    def rules_are_of(self, told: dict[str, float]) -> None:
        """Each figure of the rules is told."""
        names = {name.partition("{")[0] for name in told}
        rules = (HERE / "alerts.yml").read_text()
        self.assertEqual(set(re.findall(r"ragvismo_\w+", rules)) - names, set())
        if shutil.which("promtool"):
            ran = subprocess.run(
                ["promtool", "check", "rules", HERE / "alerts.yml"], capture_output=True, text=True
            )
            self.assertEqual(ran.returncode, 0, ran.stdout + ran.stderr)

    def test_a_port_that_is_taken(self) -> None:
        self.tool_ends(Status.BAD_USE, "cannot listen at", "metrics", "--listen", self.port)


@unittest.skipUnless(
    importlib.util.find_spec("systemd"), "python3-systemd is missing; tools/setup installs it"
)
class Watchdog(Service):
    """What systemd is told of a sequencer."""

    def test_alive(self) -> None:
        """It is while nothing is to be done, and not while the program has a message and is
        silent."""
        asked = self.folder / "asked"
        silent = self.script("silent", f"#!/bin/sh\nread -r line\ntouch {asked}\nread -r line\n")
        with socket.socket(socket.AF_UNIX, socket.SOCK_DGRAM) as told:
            told.bind(str(self.folder / "notify"))
            told.settimeout(120)
            os.environ["NOTIFY_SOCKET"] = str(self.folder / "notify")
            self.addCleanup(os.environ.pop, "NOTIFY_SOCKET")
            self.start_sequencer(silent)
            said: set[bytes] = set()
            while said != {b"READY=1", b"WATCHDOG=1"}:
                said.add(told.recv(100))
            told.setblocking(False)

            def words() -> int:
                """How many came since the last call; who tells waits where ten do."""
                count = 0
                with contextlib.suppress(BlockingIOError):
                    while told.recv(100):
                        count += 1
                return count

            self.append(session=7, number=1, body="open,1")
            self.until(lambda: words() >= 0 and asked.exists())
            words()
            time.sleep(2.5)
            self.assertEqual(words(), 0)

    def test_units(self) -> None:
        """The watchdog of each unit that has one waits longer than a tool does for Redis or the
        program; and those that compute beside the sequencer give way."""
        giving = set[str]()
        for unit in (HERE / "systemd").glob("*.service"):
            settings = dict(re.findall(r"(?m)^(\w+)=(.*)$", unit.read_text()))
            path = pathlib.Path(
                settings["ExecStart"].split()[0].replace("/opt/ragvismo", str(HERE.parent))
            )
            self.assertTrue(os.access(path, os.X_OK), path)
            # A weight counts beside the others of a slice, and each template has one of its own.
            if "CPUWeight" in settings:
                giving.add(path.name)
                self.assertEqual(
                    (settings["CPUWeight"], settings["Slice"]), ("idle", "system.slice")
                )
            if settings.get("Type") == "notify":
                self.assertGreater(int(settings["WatchdogSec"]), 60, unit)
        self.assertEqual(giving, {"follower", "day-end"})
