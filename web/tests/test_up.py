"""web/up: one command to a page, and Ctrl-C ends all."""

from __future__ import annotations

import json
import os
import pathlib
import signal
import subprocess
import sys
import tempfile
import unittest
from typing import Any

from tests import TOP, WEB, wants
from tests.trading import IS_SKIPPED, PROGRAM, WHY, Visitor, free_port, wait_for

if not IS_SKIPPED:
    sys.path.insert(0, str(TOP / "python"))
    from ragvismo_gateway.setting import EMPTY, Person, Step
    from ragvismo_gateway.up import Exchange
    from ragvismo_service.places import Place
    from ragvismo_service.statuses import BadUse


def heed_interrupts() -> None:
    """Ctrl-C counts, also where the tests run in the background of a shell, which ignores it."""
    signal.signal(signal.SIGINT, signal.SIG_DFL)


@unittest.skipIf(IS_SKIPPED, WHY)
class Up(unittest.TestCase):
    def setUp(self) -> None:
        held = tempfile.TemporaryDirectory(prefix="ragvismo-up-", ignore_cleanup_errors=True)
        self.addCleanup(held.cleanup)
        self.folder, self.port, self.redis = pathlib.Path(held.name), free_port(), free_port()

    def up(self, setting: dict[str, Any]) -> tuple[subprocess.Popen[str], dict[str, str]]:
        """An exchange that begins so, and the passwords that it printed."""
        (self.folder / "setting.json").write_text(json.dumps(setting))
        words = [str(WEB / "up"), str(self.folder / "all"), "--program", str(PROGRAM)]
        more = ["--port", str(self.port), "--redis", str(self.redis)]
        process = subprocess.Popen(
            [*words, *more, "--experiment", str(self.folder / "setting.json")],
            stdout=subprocess.PIPE,
            stderr=subprocess.DEVNULL,
            text=True,
            preexec_fn=heed_interrupts,
            start_new_session=True,
        )
        self.addCleanup(process.kill)
        assert process.stdout
        self.addCleanup(process.stdout.close)
        told: dict[str, str] = {}
        for line in process.stdout:
            if line.startswith("the page is at"):
                break
            name, secret = line.split()
            told[name] = secret
        return process, told

    def end(self, process: subprocess.Popen[str]) -> None:
        """By Ctrl-C, which a terminal gives to all of its processes; then nobody listens."""
        os.killpg(process.pid, signal.SIGINT)
        self.assertEqual(process.wait(600), 130)
        for port in (self.port, self.redis):
            with self.assertRaises(OSError):
                Visitor(port).get("/")

    def test_two_days(self) -> None:
        """The demonstration, whose orders are all placed; nobody clears it here."""
        setting = json.loads((WEB / "demonstration.json").read_text())
        setting["auctions"] = 0
        process, secrets = self.up(setting)
        wait_for(self.port)
        self.assertEqual(list(secrets), ["operator", "ana", "ben", "eva"])
        ana = Visitor(self.port)
        self.assertEqual(ana.login("ana", secrets["ana"]).json()["accounts"], [101])
        self.assertEqual(ana.get("/balance/101")["balance"], "1000")
        self.assertEqual(len(ana.get("/book/1")["orders"]), 6)
        self.assertEqual(ana.line("withdraw,101,400").status, 200)
        self.assertIn(b"<title>Ragvismo</title>", ana.ask("GET", "/").body)
        self.end(process)
        self.assertTrue((self.folder / "all/journal/000001.messages").exists())
        process, again = self.up(setting)
        wait_for(self.port)
        self.assertEqual(again, secrets)
        self.assertEqual(ana.get("/balance/101")["balance"], "600")
        self.assertEqual(len(ana.get("/book/1")["orders"]), 6)
        self.end(process)
        setting["timetable"] = [{"at": 1, "line": "settle,1,8"}]
        ran = self.refused(setting)
        self.assertIn("began with another experiment", ran.stderr.splitlines()[-1])

    def refused(self, setting: Any) -> subprocess.CompletedProcess[str]:
        """A call with a setting that it does not take."""
        path = self.folder / "setting.json"
        path.write_text(json.dumps(setting))
        words = [str(WEB / "up"), str(self.folder / "all"), "--program", str(PROGRAM)]
        words += ["--port", str(self.port), "--redis", str(self.redis)]
        words += ["--experiment", str(path)]
        ran = subprocess.run(words, capture_output=True, text=True)
        self.assertEqual(ran.returncode, 2, ran.stderr)
        return ran

    def test_a_folder_has_one_setting(self) -> None:
        """Its members and its timetable are not those of another one."""
        exchange = Exchange(self.folder, Place(), 1, PROGRAM)
        first = EMPTY._replace(markets=[(1, 1)], members=[Person("ana", 1, 100, [])])
        for auctions in (0.0, 60.0):
            exchange.check_same(first._replace(auctions=auctions))
        for other in (EMPTY, first._replace(timetable=[Step(1.0, "settle,1,8")])):
            with self.assertRaises(BadUse):
                exchange.check_same(other)

    @wants(modules=("pandas",))
    def test_an_experiment(self) -> None:
        """It says its timetable, and ends with tables."""
        members = [
            {"name": "ana", "account": 1, "ticks": 100, "lines": ["buy,1,1,put,10,5,1,1"]},
            {"name": "eva", "account": 2, "ticks": 100, "lines": ["sell,2,1,put,12,4,1,1"]},
        ]
        steps = [(1, "clear,1,100"), (2, "settle,1,8"), (3, "end")]
        setting = {
            "markets": [{"market": 1, "underlyings": 1}],
            "members": members,
            "timetable": [{"at": at, "line": line} for at, line in steps],
        }
        process, _ = self.up(setting)
        self.assertEqual(process.wait(600), 0)
        read = "import sys, ragvismo; it = ragvismo.JournalFrames.read(sys.argv[1])"
        tell = "print(*it.batches.surplus, *it.payouts.amount)"
        words = [sys.executable, "-c", f"{read}; {tell}", str(self.folder / "all/tables")]
        environment = {**os.environ, "PYTHONPATH": str(TOP / "python")}
        ran = subprocess.run(words, env=environment, capture_output=True, text=True, check=True)
        self.assertEqual(ran.stdout, "5/3 2 -4\n")

    def test_what_tells_no_exchange(self) -> None:
        for setting in ([], {"market": []}, {"members": [{"name": "<b>", "account": 1}]}):
            self.assertEqual(self.refused(setting).stderr.count("\n"), 1)
