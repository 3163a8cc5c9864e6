"""Followers: what is asked of them is answered as the exchange would, as of an entry that is
told, however many there are and whichever is killed."""

from __future__ import annotations

import json
import os
import pathlib
import signal
import subprocess
import sys
import time
import unittest
from unittest import mock

from ragvismo_service import processes
from ragvismo_service.follower import Answerer
from ragvismo_service.processes import OF_GROUP
from ragvismo_service.program import Program, Rule
from ragvismo_service.questions import TRIES, Asked, Asker
from ragvismo_service.statuses import Ended, Status
from ragvismo_service.store import Store
from tests.standing import HERE, Question, Service

# The owner of the accounts, one who owns none, and the operator.
OWNER, OTHER, OPERATOR = 12, 13, 1
ASKED = (
    (OWNER, "balance,7"),
    (OTHER, "balance,7"),
    (OPERATOR, "positions,7,1"),
    (OTHER, "book,1"),
    (OTHER, "price,1,1000,1,call,10,1"),
    (OTHER, "try,1,100,buy,6,1,call,10,1"),
    (OTHER, "open,9"),
    (OTHER, "nothing"),
)


GIVES_WAY = """
import os, sys
sys.path.insert(0, sys.argv[1])
from ragvismo_service.processes import OF_GROUP, give_way
give_way(bool(sys.argv[2]))
group = OF_GROUP.exists() and OF_GROUP.read_text().strip()
print(os.nice(0), os.sched_getscheduler(0) == os.SCHED_IDLE, group)
"""


ENDS = """
import concurrent.futures, os, sys, time
sys.path.insert(0, sys.argv[1])
from ragvismo_service.processes import end_with
parent = os.getpid(), 3
with concurrent.futures.ProcessPoolExecutor(1, initializer=end_with, initargs=parent) as pool:
    print(pool.submit(os.getpid).result(), flush=True)
    time.sleep(1000)
"""


def is_gone(process: int) -> bool:
    """Whether a process has ended, though nobody may have asked for its status yet."""
    try:
        return ") Z " in pathlib.Path(f"/proc/{process}/stat").read_text()
    except OSError:
        return True


class Processes(unittest.TestCase):
    def told(self, is_leader: bool, idle: str = "") -> str:
        """What becomes of a process that gives way, in a session of its own or in this one."""
        words = [sys.executable, "-B", "-c", GIVES_WAY, str(HERE), idle]
        ran = subprocess.run(
            words, capture_output=True, text=True, check=True, start_new_session=is_leader
        )
        return ran.stdout

    def test_giving_way(self) -> None:
        """Of a group of others just the process itself does."""
        nice = min(os.nice(0) + 10, 19)
        self.assertRegex(self.told(True), f"^{nice} False (False|.* nice 10)$")
        self.assertRegex(self.told(True, "idle"), f"^{nice} True (False|.* nice 19)$")
        own = OF_GROUP.read_text().strip() if OF_GROUP.exists() else "False"
        self.assertEqual(self.told(False), f"{nice} False {own}\n")

    def test_giving_way_after_another_group(self) -> None:
        """Linux does not take it at once, where another process has said so just now."""
        group, leads = mock.Mock(), mock.patch("os.getsid", return_value=os.getpid())
        group.write_text.side_effect = BlockingIOError, None
        with mock.patch("os.nice"), leads, mock.patch.object(processes, "OF_GROUP", group):
            processes.give_way(False)
        self.assertEqual(group.write_text.mock_calls, 2 * [mock.call("10")])

    def test_ending_with_another(self) -> None:
        """A process that is killed leaves none of those that it started."""
        words = [sys.executable, "-B", "-c", ENDS, str(HERE)]
        with subprocess.Popen(words, stdout=subprocess.PIPE, text=True) as parent:
            assert parent.stdout
            child = int(parent.stdout.readline())
            self.assertFalse(is_gone(child))
            parent.kill()
        until = time.monotonic() + 120
        while not is_gone(child):
            self.assertLess(time.monotonic(), until)
            time.sleep(0.01)


class Busy(Service):
    """A log to which an answer comes whenever a follower looks for the last."""

    def test_beginning(self) -> None:
        """It takes questions all the same."""
        self.start_sequencer()
        session, end, look = self.session(7, 1), time.monotonic() + 120, Answerer.last_answer

        def last_answer(answerer: Answerer) -> bytes:
            self.assertLess(time.monotonic(), end, "it reads for ever")
            session.ask(f"open,{session.number}")
            return look(answerer)

        program = Program(self.program, 60, Rule.MEMBERS)
        answerer = Answerer(Store(self.place, 60, "test"), lambda: program)
        with mock.patch.object(Answerer, "last_answer", last_answer):
            answerer.begin()
        self.assertGreater(answerer.history.count, 0)
        self.assertTrue(self.redis.xinfo_groups("ragvismo:questions"))
        program.end()
        program.stdout.close()


class Following(Service):
    def setUp(self) -> None:
        super().setUp()
        if not self.is_real:
            self.skipTest("./build has not made the program")
        self.start_sequencer()
        self.asker = Asker(Store(self.place, 60, "test"))
        self.owner = self.session(OWNER)

    def call(self, program: pathlib.Path | None = None) -> list[str]:
        return [str(HERE / "follower"), *self.at, "--program", str(program or self.program)]

    def start_follower(self, program: pathlib.Path | None = None) -> subprocess.Popen[str]:
        """A follower, as soon as it takes questions."""
        process = subprocess.Popen(self.call(program), stderr=subprocess.PIPE, text=True)
        self.sequencers.append(process)
        assert process.stderr
        while "answers are read" not in (line := process.stderr.readline()):
            self.assertTrue(line, "it ended")
        return process

    def ask(self, session: int, body: str) -> Asked:
        return self.asker.ask(session, body.encode(), 600)

    def question(self, session: int, body: str) -> Question:
        return Question(session, body.encode(), self.ask(session, body))

    def place_orders(self) -> None:
        """A market with orders of two accounts that are secured."""
        operator = self.session(OPERATOR)
        operator.ask("market,1,1")
        for line in ("open,7", "open,8"):
            self.owner.ask(line)
        for line in ("deposit,7,100", "deposit,8,100"):
            operator.ask(line)
        for line in ("buy,7,1,call,10,6,1,1", "sell,8,1,put,5,8,1,1", "sell,8,1,put,12,4,1,1"):
            self.assertEqual(self.owner.ask(line)["reply"], "placed")

    def test_answers_are_the_program_s(self) -> None:
        """Each as of its entry, before the first message and between others, by two followers."""
        self.start_follower()
        first = self.question(OPERATOR, "balance,0")
        self.assertEqual((first.told.entry, first.told.told()["of"]["line"]), (b"0-0", 1))
        self.place_orders()
        self.start_follower()
        asked = [first]
        for _ in range(3):
            asked += [self.question(*it) for it in ASKED]
            self.owner.ask("cancel,7,9")
        self.assertEqual([it.told.answer for it in asked], self.replayed(asked))
        replies = [it.told.told()["of"] for it in asked[1 : 1 + len(ASKED)]]
        said = [reply.get("reason", reply["reply"]) for reply in replies]
        names = "balance", "NotAllowed", "positions", "book", "priced", "tried"
        self.assertEqual(said, [*names, "NotAsked", "Syntax"])
        self.until(self.none_is_left)
        self.assertEqual(self.published(), self.computed())

    def test_it_gives_way(self) -> None:
        """A follower and its program do, and no sequencer."""
        nice = os.nice(0)
        lower = min(nice + 10, 19)
        for process, given in ((self.start_follower(), lower), (self.sequencers[0], nice)):
            for each in (process.pid, self.program_of(process)):
                self.assertEqual(os.getpriority(os.PRIO_PROCESS, each), given)
        idle = subprocess.Popen([*self.call(), "--idle"], stderr=subprocess.DEVNULL)
        self.addCleanup(idle.wait)
        self.addCleanup(idle.kill)
        self.until(lambda: os.sched_getscheduler(idle.pid) == os.SCHED_IDLE)

    def test_who_asked_before_is_answered_by_what_it_said(self) -> None:
        """A question knows of every message that was answered before it was asked."""
        self.start_follower()
        self.owner.ask("open,7")
        for number in range(1, 20):
            line = self.owner.ask(f"balance,{number}")["line"]
            self.assertEqual(self.ask(OWNER, "balance,7").told()["of"]["line"], line + 1)

    def test_a_follower_that_lags_says_so(self) -> None:
        """While its program stands still the log goes on; what it answers is of before."""
        follower = self.start_follower()
        self.owner.ask("open,7")
        before = self.ask(OWNER, "balance,7")
        program = self.program_of(follower)
        os.kill(program, signal.SIGSTOP)
        id = self.asker.put(OWNER, b"balance,7")
        self.until(self.is_asked)
        self.owner.ask("open,8")
        os.kill(program, signal.SIGCONT)
        [told] = self.told_to(id)
        self.assertEqual((told.entry, told.answer), (before.entry, before.answer))
        self.assertLess(told.entry, self.entries()[-1].id)
        self.assertEqual(self.ask(OWNER, "balance,7").entry, self.entries()[-1].id)

    def is_asked(self) -> bool:
        """Whether a follower waits for its program to answer a question."""
        return any(client["cmd"] == "xclaim" for client in self.redis.client_list())

    def told_to(self, id: bytes) -> list[Asked]:
        found = list[Asked]()

        def is_told() -> bool:
            found.extend(it for it in self.asker.read(1) if it.question == id)
            return bool(found)

        self.until(is_told)
        return found

    def none_is_left(self) -> bool:
        """Whether no question waits: it is taken out when it is told what was asked."""
        return bool(self.redis.xlen("ragvismo:questions") == 0)

    def test_a_follower_that_is_killed(self) -> None:
        """What it was asked is answered by another one."""
        first = self.start_follower()
        self.owner.ask("open,7")
        self.ask(OWNER, "balance,7")
        program = self.program_of(first)
        os.kill(program, signal.SIGSTOP)
        id = self.asker.put(OWNER, b"balance,7")
        self.until(self.is_asked)
        first.kill()
        os.kill(program, signal.SIGKILL)
        self.kill(first)
        self.start_follower()
        [told] = self.told_to(id)
        self.assertEqual(told.told()["of"]["reply"], "balance")
        self.until(self.none_is_left)

    def test_a_question_that_ends_programs(self) -> None:
        """It is tried some times and no more."""
        self.owner.ask("open,7")
        self.redis.delete("ragvismo:program")
        fragile = self.script("fragile", f'#!/bin/sh\nsed -u /end/Q | {self.program} "$@"\n')
        id = self.asker.put(OWNER, b"end")
        for _ in range(TRIES):
            follower = self.start_follower(fragile)
            self.assertEqual(follower.wait(120), Status.PROGRAM_ENDED)
        self.start_follower()
        [told] = self.told_to(id)
        self.assertEqual(told.told()["reason"], "Tried")

    def test_what_is_no_question(self) -> None:
        self.start_follower()
        for fields, reason in (
            ({"session": "7", "body": "balance,7", "number": "1"}, "Fields"),
            ({"session": "7", "body": "balance\n,7"}, "Form"),
            ({"session": "7,1", "body": "balance,7"}, "Form"),
            ({"session": "7", "body": "x" * (1 << 24)}, "Long"),
        ):
            id = self.redis.xadd("ragvismo:questions", fields)
            [told] = self.told_to(id)
            self.assertEqual(told.told()["reason"], reason)
        told = self.ask(0, "balance,7")
        self.assertEqual(told.told()["reason"], "Malformed")

    def test_another_answer_than_the_program_s(self) -> None:
        """A follower ends where its program would have answered otherwise."""
        self.owner.ask("open,7")
        liar = self.script("liar", f'#!/bin/sh\n{self.program} "$@" | sed -u s/opened/listed/\n')
        ran = self.tool("follower", "--program", liar)
        self.assertEqual(ran.returncode, Status.OTHER_PROGRAM, ran.stderr)
        self.redis.delete("ragvismo:program")
        ran = self.tool("follower", "--program", liar)
        self.assertEqual(ran.returncode, Status.DIFFERS, ran.stderr)
        self.assertIn("ANOTHER ANSWER", ran.stderr.splitlines()[-1])

    def test_what_no_follower_told(self) -> None:
        for fields in ({"x": 1}, {"question": "1-1", "entry": "1-1", "answer": "{}"}):
            id = self.redis.xadd("ragvismo:told", fields)
            with self.assertRaises(Ended) as told:
                [asked] = self.asker.read(60)
                asked.told()
            self.assertEqual(told.exception.status, Status.FORGED, id)

    def test_nobody_follows(self) -> None:
        with self.assertRaises(Ended) as told:
            self.asker.ask(OWNER, b"balance,7", 0.1)
        self.assertEqual(told.exception.status, Status.LAGS)
        ran = self.tool("ask", OWNER, "--patience", "0.1", input="balance,7\n")
        self.assertEqual((ran.returncode, ran.stderr.count("\n")), (Status.LAGS, 1), ran.stderr)

    def test_the_tool_asks(self) -> None:
        self.start_follower()
        self.owner.ask("open,7")
        ran = self.tool("ask", OWNER, input="balance,7\n\nopen,8\n")
        self.assertEqual(ran.returncode, 0, ran.stderr)
        told = [json.loads(line) for line in ran.stdout.splitlines()]
        self.assertEqual([it["of"].get("reason") for it in told], [None, "NotAsked"])
        self.assertEqual(told[0]["entry"], self.entries()[-1].id.decode())
