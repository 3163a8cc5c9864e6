"""The journal, the watch, the client, and starting an exchange."""

from __future__ import annotations

import json
import os
import pathlib
import re
import shlex
import signal
import socket
import subprocess
import time
import unittest
from typing import Any

import redis

from client import Refused, Session
from ragvismo_service import files
from ragvismo_service.messages import LONGEST_LINE
from ragvismo_service.places import Place
from ragvismo_service.statuses import Status
from ragvismo_service.words import password
from tests.standing import HERE, Service, free_port

# What a client says of an answer that comes late, which is no fault.
WAITS = re.compile(r"(?m)^.* waits for its answer\n")


def listens(port: int) -> bool:
    """Whether somebody does at a port of this machine."""
    with socket.socket() as one:
        return one.connect_ex(("127.0.0.1", port)) == 0


class Tools(Service):
    def test_the_journal(self) -> None:
        self.start_sequencer()
        session, folder = self.session(7), self.folder / "a" / "journal"
        for number in range(1, 11):
            session.ask(f"open,{number}")
            session.answer(number, f"open,{number}")
            session.answer(number, "another")
            self.append(session="7,7", number=number, body="x")
            if number in (3, 7):
                self.assertEqual(self.tool("journal", folder, "--size", 1).returncode, 0)
        self.until(self.all_answered)
        self.tool("journal", folder, "--size", 1)
        lines = (folder / "segments").read_text().splitlines(keepends=True)
        self.assertEqual(len(lines), 40)
        told = json.loads(lines[-1])
        self.assertEqual(
            self.tool("journal", folder, "--verify").stdout, f"40 segments stand: {told['head']}\n"
        )
        self.assertIn(told["head"], self.tool("verify").stdout)
        self.run_again(folder)
        (folder / "000002.replies").rename(folder / "kept")
        self.tool_ends(Status.CUT, "000002.replies is missing", "journal", folder, "--verify")
        (folder / "000002.replies").write_text("")
        self.tool_ends(Status.CHANGED, "000002.replies was changed", "journal", folder, "--verify")
        (folder / "kept").rename(folder / "000002.replies")
        (folder / "segments").write_text("".join(lines[:2] + lines[3:]))
        self.tool_ends(Status.CHANGED, "after segment 2", "journal", folder, "--verify")
        self.tool_ends(Status.FILE_FAULT, "/dev/null", "journal", "/dev/null/journal")

    def run_again(self, folder: pathlib.Path) -> None:
        """What the journal keeps of the messages, given to the program as its help says, writes
        what it keeps of the replies; not what a day's end wrote there for the next exchange."""
        (folder / "next.messages").write_text("7,1,open,1\n")
        [told] = re.findall("(?m)^ +(sed .*) [|]", self.tool("journal", "--help").stdout)
        program = shlex.quote(str(self.program))
        given = told.replace("FOLDER", str(folder)) + f" | {program} serve members"
        ran = subprocess.run(
            given, shell=True, env={**os.environ, "LC_ALL": "C"}, capture_output=True
        )
        replies = b"".join(it.read_bytes() for it in sorted(folder.glob("*.replies")))
        self.assertEqual(ran.stdout, replies)
        told = [answer + b"\n" for _, answer in self.published() if b'"service"' not in answer]
        self.assertEqual(replies, b"".join(told))

    def test_segments_are_bounded(self) -> None:
        self.start_sequencer()
        for number in range(1, 101):
            self.append(session="7,7", number=number, body="x")
        self.until(self.all_answered)
        self.tool("journal", self.folder / "journal", "--size", 1000)
        sizes = [it.stat().st_size for it in (self.folder / "journal").glob("*.messages")]
        self.assertGreater(len(sizes), 5)
        self.assertLess(max(sizes), 1200)

    def test_a_journal_that_was_cut_off(self) -> None:
        self.start_sequencer()
        self.session(7).ask("open,1")
        folder = self.folder / "journal"
        self.tool("journal", folder)
        self.session(7, 2).ask("open,2")
        self.tool("journal", folder)
        whole = {it.name: it.read_bytes() for it in folder.iterdir()}
        for left in (1, len(whole["segments"].splitlines(keepends=True)[0]) + 40):
            for name, text in whole.items():
                (folder / name).write_bytes(text)
            (folder / "segments").write_bytes(whole["segments"][:left])
            (folder / "000002.replies").write_bytes(b"{")
            self.assertEqual(self.tool("journal", folder, "--verify").returncode, 0)
            self.assertEqual(self.tool("journal", folder).returncode, 0)
            self.assertEqual(self.tool("journal", folder, "--verify").returncode, 0)
            listed = (folder / "segments").read_bytes()
            self.assertTrue(
                whole["segments"].startswith(listed) or json.loads(listed)["entries"] == 2, listed
            )

    def test_one_journal_at_a_time(self) -> None:
        self.start_sequencer()
        for number in range(1, 301):
            self.append(session=7, number=number, body=f"open,{number}")
        self.until(self.all_answered)
        words = [
            str(HERE / "journal"),
            str(self.folder / "journal"),
            "--at",
            str(self.port),
            "--size",
            "1",
        ]
        calls = [subprocess.Popen(words, stderr=subprocess.PIPE, text=True) for _ in range(3)]
        said = [call.communicate()[1] for call in calls]
        self.assertIn(0, [call.returncode for call in calls])
        for call, told in zip(calls, said):
            self.assertIn(call.returncode, (0, Status.HELD), told)
        self.assertRegex(
            self.tool("journal", self.folder / "journal", "--verify").stdout,
            "^300 segments stand: ",
        )

    def test_watch(self) -> None:
        sequencer = self.start_sequencer()
        session, place = self.session(7), self.folder / "place"
        session.ask("open,1")
        with self.assertRaises(Refused):
            session.number = 5
            session.ask("open,2")
        told = r"2 entries, 0 not answered; 1 sequencers; 1 Ahead, 1 (opened|taken)\n"
        self.sequencers.append(
            subprocess.Popen(
                [HERE / "sequencer", "--at", f"{self.port}/second", "--program", self.program],
                stderr=subprocess.PIPE,
                text=True,
            )
        )
        Session(f"{self.port}/second", 1, 1).ask("open,1")
        for _ in range(2):
            self.assertRegex(self.tool("watch", "--once", "--place", place).stdout, told)
        self.kill(sequencer)
        self.append(session=7, number=2, body="open,2")
        time.sleep(0.2)
        ran = self.tool("watch", "--once", "--place", place, "--longest", "0.1")
        self.assertRegex(
            ran.stdout, r"^3 entries, 1 not answered, the oldest for [0-9.]+ s; 0 sequencers; "
        )
        self.assertEqual((ran.returncode, ran.stderr.count("\n")), (Status.LAGS, 1))
        self.assertEqual(self.tool("watch", "--most", "0").returncode, Status.LAGS)
        self.assertEqual(self.tool("watch", "--once", "--most", "1").returncode, 0)
        kept = json.loads(place.read_text())
        self.assertEqual(
            (kept["count"], kept["last"]), (2, self.redis.xrevrange("ragvismo:out")[0][0].decode())
        )
        place.write_text(place.read_text().replace(kept["head"], "0" * 64))
        self.tool_ends(Status.CHANGED, "has another sum", "watch", "--once", "--place", place)
        place.write_text("{}")
        self.tool_ends(Status.BAD_USE, "does not tell", "watch", "--once", "--place", place)

    def test_a_client_of_lines(self) -> None:
        self.start_sequencer()
        ran = self.tool("client.py", 7, input="open,1\n\nbalance,1\n")
        self.assertEqual(
            [json.loads(it)["line"] for it in ran.stdout.splitlines()], [1, 2], ran.stderr
        )
        self.assertEqual(self.tool("client.py", 7, "--at", "x").returncode, 2)
        ran = self.tool("client.py", 7, input="open,2\n")
        self.assertEqual(
            [json.loads(it)["line"] for it in ran.stdout.splitlines()], [3], ran.stderr
        )
        closed = f"{HERE / 'client.py'} 8 --at {self.port} | true"
        ran = subprocess.run(
            closed, shell=True, input="open,3\nopen,4\n", stderr=subprocess.PIPE, text=True
        )
        self.assertEqual(WAITS.sub("", ran.stderr), "")

    def test_a_client_that_numbers_its_lines(self) -> None:
        """A file that is sent three times, at first in part, counts once."""
        self.start_sequencer()
        lines = ["open,1\n", "deposit,1,1000\n", "deposit,1,500\n"]
        for count in (2, 3, 3):
            ran = self.tool("client.py", 5, "--numbered", input="\n".join(lines[:count]))
            self.assertEqual((ran.returncode, WAITS.sub("", ran.stderr)), (0, ""))
        self.assertEqual(json.loads(ran.stdout.splitlines()[-1])["line"], 3)
        self.assertEqual(
            sum(b'"line":' in answer and b'"of"' in answer for _, answer in self.published()), 5
        )
        for other in (["open,2\n"], [*lines[:2], "deposit,1,7\n"], [*lines[:2]]):
            ran = self.tool("client.py", 5, "--numbered", input="".join(other))
            self.assertEqual(ran.returncode, Status.NO, ran.stdout)
            self.assertIn("session 5 has other messages", ran.stderr)

    def test_a_message_that_is_too_long(self) -> None:
        """It is not appended, and its number is the next one's."""
        self.start_sequencer()
        session = self.session(7)
        for body, reason in ((b"x" * LONGEST_LINE, "Long"), (b"a\nb", "Form")):
            with self.assertRaises(Refused) as told:
                session.ask(body)
            self.assertEqual(told.exception.args[0], {"reason": reason, "reply": "service"})
        self.assertEqual(self.redis.xlen("ragvismo:in"), 0)
        self.assertEqual(session.ask("open,1")["line"], 1)

    def test_a_client_without_redis(self) -> None:
        ran = self.tool("client.py", 7, "--at", free_port(), "--patience", "1", input="open,1\n")
        self.assertEqual(ran.returncode, Status.NO_REDIS)
        self.assertIn("got no answer for 1 s", ran.stderr)

    def test_bad_use(self) -> None:
        none = ["--program", "/none"]
        calls = (
            ["sequencer", *none],
            ["up", *none],
            ["bench", *none],
            ["sequencer", "--at", "x"],
            ["journal"],
            ["journal", "x", "--size", "0"],
            ["journal", "/none", "--verify"],
            ["watch", "--odd"],
            ["watch", "--every", "x"],
            ["verify", "more"],
            ["rehearse", "/none"],
            ["client.py", "0"],
            ["auctioneer"],
            ["solver", "9"],
            ["up", "--auction", "0"],
            ["users"],
            ["up", "--port", "0"],
        )
        for words in calls:
            ran = subprocess.run([HERE / words[0], *words[1:]], capture_output=True, text=True)
            self.assertEqual(
                (ran.returncode, ran.stdout, ran.stderr.count("\n")), (2, "", 1), ran.stderr
            )

    def test_a_port_that_is_no_redis(self) -> None:
        words = [
            "/usr/bin/python3",
            "-m",
            "http.server",
            "--bind",
            "127.0.0.1",
            str(port := free_port()),
        ]
        with subprocess.Popen(
            words, stdout=subprocess.DEVNULL, stderr=subprocess.DEVNULL, cwd=self.folder
        ) as other:
            try:
                self.until(lambda: listens(port))
                ran = self.tool("verify", "--at", port, "--patience", "1")
            finally:
                other.kill()
        self.assertEqual(ran.returncode, Status.NO_REDIS)
        self.assertNotIn("Traceback", ran.stderr)


class Up(unittest.TestCase):
    """An exchange that is started by one call."""

    def setUp(self) -> None:
        self.held = Service("stop")
        self.held.setUp()
        self.addCleanup(self.held.doCleanups)
        self.folder, self.program = self.held.folder / "log", self.held.program

    def start(self, *more: str) -> subprocess.Popen[str]:
        """A call, which tells how it is spoken to."""
        words = [*self.words(free_port()), *more]
        up = subprocess.Popen(
            words,
            stdout=subprocess.PIPE,
            stderr=subprocess.DEVNULL,
            text=True,
            start_new_session=True,
        )
        self.addCleanup(up.communicate)
        self.addCleanup(up.kill)
        assert up.stdout
        said, _, call = up.stdout.readline().partition(": ")
        self.assertEqual(said, "the exchange is up")
        self.client_words = call.split()
        return up

    def words(self, port: int) -> list[str]:
        return [
            str(HERE / "up"),
            str(self.folder),
            "--port",
            str(port),
            "--program",
            str(self.program),
        ]

    def client(self, line: str) -> dict[str, Any]:
        ran = subprocess.run(
            self.client_words, input=line, capture_output=True, text=True, cwd=HERE.parent
        )
        return dict(json.loads(ran.stdout))

    def redis(self, user: str) -> redis.Redis:
        """The Redis of the call, as one of its users."""
        port = Place.of(self.client_words[self.client_words.index("--at") + 1]).port
        return redis.Redis(
            port=port, username=user, password=password(f"{self.folder / user}.password")
        )

    def test_up(self) -> None:
        for line in (1, 2):
            up = self.start()
            self.assertEqual(self.client("open,1\n")["line"], line)
            up.terminate()
            self.assertEqual(up.wait(), 128 + signal.SIGTERM)

    def test_who_may_move_an_account(self) -> None:
        """Its owner; with --sessions anybody; and an exchange keeps to the rule that it began
        with."""
        if not self.held.is_real:
            self.skipTest("./build has not made the program")
        for more, reason in (((), "NotAllowed"), (("--sessions",), "Funds")):
            self.folder = self.held.folder / reason
            up = self.start(*more)
            self.client("open,1\n")
            self.client_words[self.client_words.index("1")] = "12"
            self.assertEqual(self.client("withdraw,1,1\n")["reason"], reason)
            up.terminate()
            up.wait()
        self.assertEqual(self.start().wait(120), Status.OTHER_PROGRAM)

    def test_an_auctioneer_and_a_solver(self) -> None:
        """They are started where auctions are asked for, and end with the call."""
        up = self.start("--auction", "1", "2")
        tools = "sequencer", "follower", "auctioneer", "solver"
        wanted = {f"ragvismo-{tool}/ragvismo" for tool in tools}
        watch = self.redis("watch")

        def are_there() -> bool:
            self.assertIsNone(up.poll())
            return wanted <= {client["name"] for client in watch.client_list()}

        self.held.until(are_there, 600)
        up.terminate()
        self.assertEqual(up.wait(), 128 + signal.SIGTERM)

    def test_two_in_one_folder(self) -> None:
        """The second is refused; and a call that is killed takes its Redis with it, so that the
        next goes on alone."""
        up = self.start()
        self.client("open,1\n")
        words = self.words(free_port())
        ran = subprocess.run(words, capture_output=True, text=True)
        self.assertEqual((ran.returncode, ran.stdout), (Status.HELD, ""), ran.stderr)
        self.assertIn("another process writes to", ran.stderr)
        for line in (2, 3):
            up.kill()
            up.wait()
            # Its Redis may take longer to end than the next call waits for the lock.
            files.lock(self.folder, 120).close()
            up = self.start()
            self.assertEqual(self.client("open,1\n")["line"], line)

    def test_redis_ends(self) -> None:
        up = self.start()
        os.kill(self.redis("watch").info("server")["process_id"], signal.SIGKILL)
        self.assertEqual(up.wait(120), Status.NO_REDIS)

    def test_another_redis_at_the_port(self) -> None:
        words = self.words(self.held.port)
        ran = subprocess.run(words, capture_output=True, text=True)
        self.assertEqual((ran.returncode, ran.stdout), (Status.NO_REDIS, ""), ran.stderr)

    def test_a_log_that_was_cut(self) -> None:
        up = self.start("--followers", "0")
        self.client("open,1\n")
        self.redis("gateway").xadd("ragvismo:in", {"x": 1}, maxlen=1, approximate=False)
        self.assertEqual(up.wait(120), Status.CUT)
