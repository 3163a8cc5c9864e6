"""The end of a day: journal, verify, audit, backup and carry-over, by one call."""

from __future__ import annotations

import contextlib
import hashlib
import hmac
import json
import pathlib
import shlex
import shutil
import subprocess
from unittest import mock

from client import Session
from ragvismo_service import backups
from ragvismo_service.chain import FIRST_HEAD
from ragvismo_service.day_end import carried
from ragvismo_service.figures import Figures
from ragvismo_service.history import History
from ragvismo_service.program import Rule
from ragvismo_service.statuses import Ended, Status
from ragvismo_service.store import Store
from tests.standing import HERE, Service, free_port

NO = '{"line":1,"reason":"Shape","verdict":"no"}'
# A tool of the operator's that signs what it reads, as gpg or openssl do.
SIGNER = """#!/usr/bin/python3 -ES
import hashlib, hmac, sys
print(hmac.new(b"of the operator", sys.stdin.buffer.read(), hashlib.sha256).hexdigest())
"""


class Copies(Service):
    """A copy of a log, without the program."""

    def setUp(self) -> None:
        super().setUp()
        self.sequencer = self.start_sequencer()
        for number in range(1, 4):
            self.session(7, number).ask(f"open,{number}")
        self.until(self.all_answered)
        self.store, self.copy = Store(self.place, 5, "test"), self.folder / "copies" / "day"

    def head(self) -> bytes:
        return bytes(self.redis.xrevrange("ragvismo:out", count=1)[0][1][b"chain"])

    def test_a_copy_is_a_log(self) -> None:
        for _ in range(2):
            holds = backups.made(self.store, self.copy, self.head())
            self.assertEqual((holds.answers, holds.head), (3, self.head()))
        self.assertEqual([it.name for it in self.copy.parent.iterdir()], ["day"])

    def test_a_copy_of_another_log(self) -> None:
        with self.assertRaises(Ended) as told:
            backups.made(self.store, self.copy, b"1" * 64)
        self.assertEqual(told.exception.status, Status.CHANGED)
        self.assertFalse(self.copy.exists())

    def test_a_copy_of_a_log_that_was_cut(self) -> None:
        self.redis.xtrim("ragvismo:in", 1, approximate=False)
        with self.assertRaises(Ended) as told:
            backups.made(self.store, self.copy, FIRST_HEAD)
        self.assertEqual(told.exception.status, Status.CUT)

    def test_redis_that_gives_no_copy(self) -> None:
        self.redis.acl_setuser(
            "me", enabled=True, nopass=True, keys=["*"], commands=["+ping", "+client"]
        )
        with self.assertRaisesRegex(Ended, "Redis gave no copy|Redis refuses"):
            backups.made(
                Store(self.place.of(f"redis://me@127.0.0.1:{self.port}"), 5, "test"),
                self.copy,
                FIRST_HEAD,
            )


class Carried(Service):
    """What the next exchange begins with."""

    def test_a_tool_that_fails(self) -> None:
        """It is no one that left something behind, and writes no next exchange without accounts."""
        path, left = self.folder / "next.messages", "carry-over: the house has 5\n"
        for status, said, is_carried in (
            (0, "", True),
            (1, left, True),
            (1, "Traceback\nMemoryError\n", False),
            (2, left, False),
            (-9, "", False),
        ):
            ran = subprocess.CompletedProcess([], status, b"", said.encode())
            path.unlink(missing_ok=True)
            with mock.patch("ragvismo_service.day_end.over_replies", return_value=ran):
                with contextlib.suppress(Ended):
                    carried(self.folder, self.program, Rule.MEMBERS)
            self.assertEqual(path.exists(), is_carried)


class DayEnd(Service):
    # The folder of the exchange beside those of others.
    instance = "first"

    def unit(self) -> list[str]:
        """What the unit of the night calls."""
        text = (HERE / "systemd/ragvismo-day-end@.service").read_text()
        [line] = [
            line.partition("=")[2] for line in text.splitlines() if line.startswith("ExecStart=")
        ]
        return shlex.split(
            line.replace("/opt/ragvismo", str(HERE.parent))
            .replace("/var/lib/ragvismo", str(self.folder))
            .replace("%i", self.instance)
        )

    def call(self, *words: object) -> list[str]:
        """The call of the unit, without its user."""
        given = self.unit()
        at = given.index("--at")
        given[at : at + 4] = [*self.at, "--program", str(self.program)]
        return [*given, *map(str, words)]

    def end_day(self, *words: object) -> subprocess.CompletedProcess[str]:
        return subprocess.run(self.call(*words), capture_output=True, text=True, timeout=600)

    def setUp(self) -> None:
        super().setUp()
        if not self.is_real or not shutil.which("parallel"):
            self.skipTest("the program or GNU parallel is missing")

    def test_days(self) -> None:
        """An empty exchange, then one with proposals, repeats and an entry that is no message; its
        copy goes on by itself."""
        self.assertEqual(self.end_day().returncode, 0)
        self.start_sequencer()
        session = self.session(7)
        for line in (HERE.parent / "examples/proposals.commands").read_text().splitlines():
            session.ask(line)
        session.answer(1, "open,1")
        self.append(session="7,7", number=1, body="x")
        self.until(self.all_answered)
        ran = self.end_day("--backups", self.folder / "copies")
        self.assertEqual((ran.returncode, ran.stderr), (0, ""))
        steps = [line.partition(":")[0] for line in ran.stdout.splitlines()]
        self.assertEqual(steps[:5], ["journal", "verify", "audit", "backup", "carry-over"])
        carried = (self.folder / "first/journal/next.messages").read_text()
        self.assertIn("7,1,open,1\n1,1,deposit,1,", carried)
        [copy] = (self.folder / "copies").iterdir()
        self.goes_on(copy, session.number)

    def test_a_day_that_is_signed(self) -> None:
        """The sum after the day is signed by a tool of the operator's, and tells later whether the
        log has that day yet."""
        sequencer = self.start_sequencer()
        self.session(7).ask("open,1")
        ran = self.end_day("--sign", self.script("signer", SIGNER))
        self.assertEqual((ran.returncode, ran.stderr), (0, ""))
        head, signature = (
            (self.folder / f"first/journal/000001.{it}").read_text() for it in ("sum", "signature")
        )
        self.assertRegex(ran.stdout, r"\nsign: \S+/000001.signature is of \S+/000001.sum\nbackup")
        told = hmac.new(b"of the operator", head.encode(), hashlib.sha256).hexdigest()
        self.assertEqual(signature, told + "\n")
        self.session(7, 2).ask("open,2")
        self.assertEqual(self.tool("verify", "--head", head.strip()).returncode, 0)
        self.kill(sequencer)
        self.redis.flushall()
        self.start_sequencer()
        self.session(7).ask("open,3")
        ran = self.tool("verify", "--head", head.strip())
        self.assertEqual(ran.returncode, Status.CHANGED, ran.stderr)

    def test_a_day_that_nobody_signs(self) -> None:
        refuses = self.script("refuses", "#!/bin/sh\necho no key >&2\nexit 1\n")
        ran = self.end_day("--sign", refuses)
        self.assertEqual((ran.returncode, ran.stderr.count("\n")), (Status.NO, 1), ran.stderr)
        self.assertIn("signs nothing: no key", ran.stderr)
        self.assertNotIn("backup", ran.stdout)
        ran = self.end_day("--sign", "/none")
        self.assertEqual((ran.returncode, ran.stderr.count("\n")), (Status.BAD_USE, 1))

    def test_what_the_house_has(self) -> None:
        """It is what the exchange says after each line, by the figures of all before."""
        self.start_sequencer()
        session = self.session(7)
        for path in (HERE.parent / "examples").glob("*.commands"):
            for line in path.read_text().splitlines():
                session.ask(line)
                session.ask("balance,0")
        figures, told = Figures(), 0
        for page in History(Store(self.place, 5, "test")).pages():
            for answered in page:
                has = figures.house
                reply = figures.take(answered)
                if reply and reply["reply"] == "balance" and not reply["account"]:
                    told += 1
                    self.assertEqual(has, int(reply["balance"]), answered.entry)
        self.assertGreater(told, 20)
        self.assertNotEqual(figures.house, 0)

    def test_the_next_exchange(self) -> None:
        """It begins with what the owners had, who own their accounts again; once, however often it
        is begun with that."""
        self.start_sequencer()
        operator, owner, other = (self.session(number, 1) for number in (9, 12, 13))
        for session, lines in (
            (operator, ("market,1,1", "market,2,1", "open,1")),
            (owner, ("open,7", "open,8")),
            (other, ("open,3",)),
            (operator, ("secure,1", "deposit,7,100", "deposit,8,2000000000", "deposit,3,5")),
            (owner, ("buy,7,1,call,10,6,1,1", "withdraw,8,1")),
            (operator, ("settle,1,10",)),
        ):
            for line in lines:
                self.assertNotEqual(session.ask(line)["reply"], "refused", line)
        ran = self.end_day()
        self.assertEqual((ran.returncode, ran.stderr), (0, ""))
        path = self.folder / "first/journal/next.messages"
        self.at = ["--at", f"{self.port}/second"]
        self.start_sequencer()
        for _ in range(2):
            ran = self.tool("begin", path)
            self.assertEqual((ran.returncode, ran.stderr), (0, ""))
        self.assertEqual(self.redis.xlen("second:in"), len(path.read_text().splitlines()))
        place = self.place.of(f"{self.port}/second")
        sessions = {number: Session(place, number) for number in (1, 9, 12, 13)}
        for number, line, told in (
            (1, "balance,7", "100"),
            (1, "balance,8", "1999999999"),
            (13, "withdraw,7,1", "NotAllowed"),
            (12, "withdraw,7,1", "99"),
            (13, "withdraw,3,5", "0"),
            (9, "withdraw,1,1", "Funds"),
            (1, "close,2", "closed"),
        ):
            reply = sessions[number].ask(line)
            self.assertEqual(reply.get("reason", reply.get("balance", reply["reply"])), told, line)
        self.assertEqual(self.tool("begin", path).returncode, 0)
        self.instance = "second"
        ran = self.end_day()
        self.assertEqual((ran.returncode, ran.stderr), (0, ""))
        path.write_text(path.read_text().replace("12,1,open,7", "12,1,open,9"))
        self.tool_ends(Status.NO, "is another one there", "begin", path)
        path.write_text("12,1\n")
        self.tool_ends(Status.BAD_USE, "is no message", "begin", path)

    def goes_on(self, copy: pathlib.Path, number: int) -> None:
        """An exchange that is started from a copy answers the next message."""
        words = [
            str(HERE / "up"),
            str(copy),
            "--port",
            str(free_port()),
            "--program",
            str(self.program),
        ]
        with subprocess.Popen(
            words, stdout=subprocess.PIPE, stderr=subprocess.DEVNULL, text=True
        ) as up:
            assert up.stdout
            try:
                client = up.stdout.readline().partition(": ")[2].split()
                client[client.index("1")] = "7"
                ran = subprocess.run(
                    client, input="balance,0\n", capture_output=True, text=True, cwd=HERE.parent
                )
            finally:
                up.terminate()
        self.assertEqual(json.loads(ran.stdout)["line"], number, ran.stderr)

    def test_one_at_a_time(self) -> None:
        """Two would write to the same copy, of which one would tell that it holds."""
        self.start_sequencer()
        self.session(7).ask("open,1")
        held = self.folder / "held"
        held.touch()
        wait = f'[ "$1" = audit ] && while [ -e {held} ]; do sleep 0.1; done\n'
        slow = self.script("slow", f'#!/bin/sh\n{wait}exec {self.program} "$@"\n')
        words = self.call("--program", slow)
        with subprocess.Popen(words, stdout=subprocess.PIPE, text=True) as first:
            assert first.stdout
            try:
                self.assertRegex(first.stdout.readline(), "^journal: ")
                second = self.end_day()
            finally:
                held.unlink()
            told = first.communicate()[0]
        self.assertEqual((second.returncode, second.stdout), (Status.HELD, ""), second.stderr)
        self.assertEqual(first.returncode, 0)
        self.assertIn("\ncarry-over: ", told)

    def test_a_journal_that_was_changed(self) -> None:
        self.start_sequencer()
        self.session(7).ask("open,1")
        self.assertEqual(self.end_day().returncode, 0)
        (self.folder / "first/journal/000001.replies").write_text("{}\n")
        ran = self.end_day()
        self.assertEqual(
            (ran.returncode, ran.stdout, ran.stderr.count("\n")),
            (Status.CHANGED, "", 1),
            ran.stderr,
        )

    def test_an_audit_that_says_no(self) -> None:
        self.start_sequencer()
        self.session(7).ask("open,1")
        self.until(self.all_answered)
        liar = self.script("liar", f"#!/bin/sh\ncat >/dev/null\necho '{NO}'\nexit 6\n")
        ran = self.end_day("--program", liar)
        self.assertEqual((ran.returncode, ran.stderr.count("\n")), (Status.NO, 1), ran.stderr)
        self.assertNotIn("backup", ran.stdout)

    def test_an_audit_that_fails(self) -> None:
        """It says neither yes nor no."""
        self.start_sequencer()
        self.session(7).ask("open,1")
        self.until(self.all_answered)
        for status, ends, said in (
            (70, Status.PROGRAM_ENDED, "status 70, out of memory"),
            (2, Status.BAD_USE, "does not know the word audit"),
        ):
            fails = self.script(f"fails-{status}", f"#!/bin/sh\ncat >/dev/null\nexit {status}\n")
            ran = self.end_day("--program", fails)
            self.assertEqual((ran.returncode, ran.stderr.count("\n")), (ends, 1), ran.stderr)
            self.assertIn(said, ran.stderr)
            self.assertNotIn("backup", ran.stdout)
