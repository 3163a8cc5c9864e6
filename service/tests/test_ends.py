"""Each fault has its end, and nothing wrong is published."""

from __future__ import annotations

import json
import os
import pathlib
import re
import signal
import socket
import subprocess
import sys
import time
from unittest import mock

import redis

from client import Broken, Session
from ragvismo_service.program import Program, Rule
from ragvismo_service.statuses import NOT_AGAIN, Status
from tests.standing import HERE, STAND_IN, Service


class Ends(Service):
    def test_entries_that_are_no_messages(self) -> None:
        self.append(session=7, number=1, body="open,1")
        faults = {
            self.append(body="open,1"): "Fields",
            self.append(session=7, number=1, body="x", more=1): "Fields",
            self.redis.execute_command(
                "XADD",
                "ragvismo:in",
                "*",
                *("session", 7, "number", 1, "body", "open,5", "body", "open,6"),
            ): "Fields",
            self.append(session=7, number=1, body="open,1\nopen,2"): "Form",
            self.append(session="?7", number="balance", body="0"): "Malformed",
            self.append(session="7,1", number=1, body="x"): "Form",
            self.append(session=7, number=1, body=b"x" * (1 << 24)): "Long",
        }
        self.append(session="x", number=1, body="open,1")
        self.append(session=7, number=2, body="open,2")
        self.start_sequencer()
        self.until(self.all_answered)
        published = dict(self.published())
        for id, reason in faults.items():
            self.assertEqual(
                published[id],
                b'{"entry":"%b","reason":"%b","reply":"service"}' % (id, reason.encode()),
            )
        kinds = [json.loads(answer) for answer in published.values()]
        self.assertEqual((kinds[-2]["reason"], kinds[-1]["of"]["line"]), ("Malformed", 2))
        self.assertRegex(self.tool("verify").stdout, "^10 answers hold, to ")
        self.assertEqual(self.tool("journal", self.folder / "journal").returncode, 0)
        # There are two where a day ends meanwhile.
        messages = (self.folder / "journal").glob("*.messages")
        self.assertLess(sum(it.stat().st_size for it in messages), 1000)
        self.assertRegex(
            self.tool("journal", self.folder / "journal", "--verify").stdout,
            "^[12] segments stand: ",
        )

    def test_another_answer(self) -> None:
        id = self.append(session=7, number=1, body="open,1")
        self.redis.xadd("ragvismo:out", {"answer": "{}", "chain": "0" * 64}, id=id)
        said = f"ANOTHER ANSWER than this machine's stands under {id.decode()}"
        self.ends(self.start_sequencer(), Status.DIFFERS, said)
        self.assertEqual(self.published(), [(id, b"{}")])

    def test_another_program(self) -> None:
        first = self.start_sequencer()
        self.session(7).ask("open,1")
        other = self.script("other", STAND_IN.replace('b"one"', 'b"two"'))
        self.ends(self.start_sequencer(other), Status.OTHER_PROGRAM, "another program")
        ran = self.tool("rehearse", other, "--switch")
        self.assertEqual(
            (ran.returncode, ran.stdout.splitlines()[0]), (1, "0 answers are the same"), ran.stderr
        )
        same = self.script("same", f'#!/bin/sh\nexec {self.program} "$@"\n')
        ran = self.tool("rehearse", same, "--switch")
        handed_over = "1 answers are the same\nthe exchange is answered by this program now\n"
        self.assertEqual((ran.returncode, ran.stdout), (0, handed_over), ran.stderr)
        self.append(session=7, number=2, body="open,2")
        self.ends(first, Status.OTHER_PROGRAM, "handed over")
        self.start_sequencer(same)
        self.session(7, 3).ask("open,3")
        self.assertEqual(self.published(), self.computed())

    def test_handing_over_while_answers_come(self) -> None:
        """An answer that comes while the last is compared is compared too, before the exchange is
        handed over."""
        self.start_sequencer()
        self.session(7).ask("open,1")
        asked = self.folder / "asked"
        wait = f"touch {asked}\nwhile [ -e {asked} ]; do sleep 0.1; done\n"
        waits = self.script("waits", f'#!/bin/sh\n{wait}exec {self.program} "$@"\n')
        words = [str(HERE / "rehearse"), str(waits), "--at", str(self.port), "--switch"]
        with subprocess.Popen(words, stdout=subprocess.PIPE, text=True) as rehearsal:
            self.until(asked.exists)
            self.session(7, 2).ask("open,2")
            asked.unlink()
            told = rehearsal.communicate(timeout=120)[0]
        self.assertEqual(
            told, "2 answers are the same\nthe exchange is answered by this program now\n"
        )

    def test_the_program_that_is_named_is_run(self) -> None:
        """`--program x` is the one here, though another x stands first on the path; and it is the
        file that is summed."""
        elsewhere = self.folder / "elsewhere"
        elsewhere.mkdir()
        (elsewhere / "x").write_text("#!/bin/sh\nexit 9\n")
        (elsewhere / "x").chmod(0o755)
        self.script(
            "x",
            self.program.read_text()
            if not self.is_real
            else f'#!/bin/sh\nexec {self.program} "$@"\n',
        )
        for number, name in enumerate(("x", "./x"), 1):
            command = [str(HERE / "sequencer"), "--at", f"{self.port}/{number}", "--program", name]
            path = {**os.environ, "PATH": f"{elsewhere}:{os.environ['PATH']}"}
            self.sequencers.append(
                subprocess.Popen(
                    command, cwd=self.folder, env=path, stderr=subprocess.PIPE, text=True
                )
            )
            Session(f"{self.port}/{number}", 7, 1).ask("open,1")

    def test_the_program_ends(self) -> None:
        self.append(session=7, number=1, body="open,1")
        self.append(session=7, number=2, body="open,2")
        answer = '{"number":1,"of":{},"session":7}'
        cut = self.script(
            "cut", f"#!/bin/sh\nread line\necho '{answer}'\nprintf '{{\"numb'\nexit 70\n"
        )
        self.ends(
            self.start_sequencer(cut), Status.PROGRAM_ENDED, "the program ended with status 70"
        )
        self.assertEqual(len(self.published()), 1)

    def test_the_program_answers_too_much(self) -> None:
        self.append(session=7, number=1, body="open,1")
        two = self.script("two", "#!/bin/sh\nread line\nprintf '{}\\n{}\\n'\nexec cat\n")
        self.ends(self.start_sequencer(two), Status.PROGRAM_ENDED, "more than it was asked")
        self.assertEqual(self.published(), [])

    def test_the_program_hangs(self) -> None:
        """From its first message on, since in so little time a slow machine answers none."""
        sequencer = self.start_sequencer(None, "--patience", "1")
        # Its program runs by then.
        self.until(lambda: bool(self.redis.exists("ragvismo:program")))
        program = self.program_of(sequencer)
        os.kill(program, signal.SIGSTOP)
        self.append(session=7, number=1, body="open,1")
        self.ends(sequencer, Status.HANGS, "the program answered nothing for 1 s")
        self.until(lambda: not pathlib.Path(f"/proc/{program}").exists())
        self.start_sequencer()
        self.until(self.all_answered)
        self.assertEqual(self.published(), self.computed())

    def cut_log(self, text: bytes) -> None:
        """Redis starts again, and its file ends where it had a text last."""
        self.stop_redis()
        [log] = (self.folder / "appendonlydir").glob("*.incr.aof")
        os.truncate(log, log.read_bytes().rindex(text) + 3)
        self.start_redis()

    def test_a_user_who_has_many_pipes(self) -> None:
        """A program runs though its pipes are not made wider."""
        with mock.patch("fcntl.fcntl", side_effect=PermissionError):
            program = Program(self.program, 60, Rule.MEMBERS)
        [[answer]] = program.answers([b"7,1,open,1\n"])
        self.assertEqual(json.loads(answer)["session"], 7)
        program.end()
        program.stdout.close()

    def lose_end(self, *more: str) -> None:
        """The log is cut in the middle of an append that was answered, as at a crash without fsync,
        and messages are appended before the sequencer looks again. Who had read more ends."""
        sequencer = self.start_sequencer()
        self.session(7).ask("open,1")
        os.kill(sequencer.pid, signal.SIGSTOP)
        self.append(session=7, number=2, body="open,2")
        os.kill(sequencer.pid, signal.SIGCONT)
        self.until(self.all_answered)
        watch = self.start_watch()
        self.until_told(watch, "2 entries, 0 not answered")
        os.kill(sequencer.pid, signal.SIGSTOP)
        self.cut_log(b"open,2")
        self.assertEqual((self.redis.xlen("ragvismo:in"), self.redis.xlen("ragvismo:out")), (1, 1))
        for body in more:
            self.append(session=7, number=2, body=body)
        os.kill(sequencer.pid, signal.SIGCONT)
        self.ends(sequencer, Status.LOST, "start again")
        self.start_sequencer()
        self.until(self.all_answered)
        self.assertEqual(self.published(), self.computed())
        if more:
            watch.communicate(timeout=120)
            self.assertEqual(watch.returncode, Status.LOST)

    def test_a_log_that_lost_its_end(self) -> None:
        self.lose_end()

    def test_a_log_that_lost_its_end_and_went_on(self) -> None:
        self.lose_end("open,3", "open,4")

    def reads(self) -> int:
        """How often a sequencer has read the log."""
        return int(self.redis.info("commandstats")["cmdstat_xrange"]["calls"])

    def test_a_log_that_lost_an_answer(self) -> None:
        """And not the message, so that nothing was taken out."""
        sequencer = self.start_sequencer()
        self.session(7).ask("open,1")
        # Who reads again was told with the read before that the answer stands.
        reads = self.reads()
        self.until(lambda: self.reads() >= reads + 2)
        os.kill(sequencer.pid, signal.SIGSTOP)
        self.cut_log(b"chain")
        self.assertEqual((self.redis.xlen("ragvismo:in"), self.redis.xlen("ragvismo:out")), (1, 0))
        self.append(session=7, number=2, body="open,2")
        os.kill(sequencer.pid, signal.SIGCONT)
        self.ends(sequencer, Status.LOST, "start again")
        self.start_sequencer()
        self.until(self.all_answered)
        self.assertEqual(self.published(), self.computed())

    def test_a_log_that_lost_what_was_not_answered(self) -> None:
        """Who had read it goes on without it."""
        sequencer, watch = self.start_sequencer(), self.start_watch()
        self.session(7).ask("open,1")
        self.kill(sequencer)
        self.append(session=7, number=2, body="open,2")
        self.until_told(watch, "2 entries, 1 not answered")
        self.cut_log(b"open,2")
        self.append(session=7, number=2, body="open,3")
        self.append(session=7, number=3, body="open,4")
        self.start_sequencer()
        self.until_told(watch, "3 entries, 0 not answered")
        self.assertIsNone(watch.poll())

    def test_a_beginning_that_was_lost(self) -> None:
        """What Redis lost of it is appended again."""
        path = self.folder / "next.messages"
        path.write_text("7,1,open,1\n1,1,deposit,1,5\n")
        call = [str(HERE / "begin"), str(path), *self.at]
        self.sequencers.append(subprocess.Popen(call, stderr=subprocess.PIPE, text=True))
        begin = self.sequencers[-1]
        self.until(lambda: any(it["cmd"] == "xread" for it in self.redis.client_list()))
        self.cut_log(b"open,1")
        self.append(session=8, number=1, body="open,8")
        self.start_sequencer()
        self.assertEqual(begin.wait(120), 0)
        self.assertEqual([it.text for it in self.entries()][1:], path.read_bytes().splitlines())

    def test_a_cut_append(self) -> None:
        with socket.create_connection(("127.0.0.1", self.port)) as cut:
            cut.sendall(b"*9\r\n$4\r\nXADD\r\n$11\r\nragvismo:in\r\n$1\r\n*\r\n$7\r\nsess")
        self.start_sequencer()
        self.session(7).ask("open,1")
        self.assertEqual(self.redis.xlen("ragvismo:in"), 1)
        self.assertEqual(self.published(), self.computed())

    def test_a_full_disk(self) -> None:
        """Redis ends where it cannot write, and nothing that it did not write is told or answered:
        a sequencer goes on when it is there again, and one that waits for less long has ended."""
        self.stop_redis()
        room = (
            "import resource, os, sys; resource.setrlimit(resource.RLIMIT_FSIZE, (20000, 20000));"
            "os.execvp(sys.argv[1], sys.argv[1:])"
        )
        self.server = subprocess.Popen(
            [sys.executable, "-c", room, *self.redis_words()], restore_signals=False
        )
        self.until(self.answers)
        sequencer, told = self.start_sequencer(None, "--patience", "600"), []
        try:
            for number in range(1, 1000):
                told.append(self.append(session=7, number=number, body="open,1"))
        except redis.ConnectionError:
            pass
        self.server.wait(120)
        # Its program is asked nothing, which in so little time a slow machine does not answer.
        other = self.start_sequencer(None, "--patience", "1")
        self.ends(other, Status.NO_REDIS, "no Redis answers")
        self.start_redis()
        taken = [id for id, _ in self.redis.xrange("ragvismo:in")]
        self.assertEqual(taken[: len(told)], told)
        self.until(self.all_answered)
        self.assertEqual(self.published(), self.computed())
        self.assertIsNone(sequencer.poll())

    def test_memory_that_is_full(self) -> None:
        self.append(session=7, number=1, body="open,1")
        self.redis.config_set("maxmemory", 1)
        self.ends(self.start_sequencer(), Status.NO_REDIS, "Redis refuses")
        self.assertEqual(self.published(), [])
        with self.assertRaisesRegex(Broken, "Redis refuses"):
            self.session(7).ask("open,1")

    def test_long_messages_come_page_by_page(self) -> None:
        """Many long messages take the memory of a few, though short ones came before."""
        self.append(session=7, number=1, body=b"x" * (10 << 20))
        for number in range(2, 1001):
            self.append(session=7, number=number, body="x")
        for number in range(1001, 1021):
            self.append(session=7, number=number, body=b"x" * (3 << 20))
        self.redis.config_set("client-output-buffer-limit", f"normal {24 << 20} 0 0")
        sequencer = self.start_sequencer()
        self.until(self.all_answered, 600)
        status = pathlib.Path(f"/proc/{sequencer.pid}/status").read_text()
        [most] = [int(line.split()[1]) for line in status.splitlines() if line.startswith("VmHWM")]
        self.assertLess(most, 120_000)
        self.redis.config_set("client-output-buffer-limit", "normal 0 0 0")
        self.assertEqual(self.published(), self.computed())

    def test_messages_that_are_too_long_one_after_another(self) -> None:
        """Each is below the limit of Redis for a command, and together they are above that for
        replies (288 MB), here both with a hundredth."""
        for number in range(1, 301):
            self.append(session=7, number=number, body="x")
        for _ in range(3):
            self.append(session=7, number=1, body=b"x" * 1_280_000)
        self.redis.config_set("client-output-buffer-limit", "normal 2880000 0 0")
        self.start_sequencer()
        self.until(lambda: bool(self.redis.xlen("ragvismo:out") == 303))
        for _ in range(3):
            self.append(session=7, number=1, body=b"x" * 1_280_000)
        self.until(lambda: bool(self.redis.xlen("ragvismo:out") == 306))
        self.redis.config_set("client-output-buffer-limit", "normal 0 0 0")
        self.assertEqual(self.published(), self.computed())

    def test_a_first_message_that_is_long(self) -> None:
        """It is not read with each message after it."""
        self.append(session=7, number=1, body=b"x" * (1 << 20))
        self.start_sequencer()
        self.until(self.all_answered)
        session, told = self.session(8), "total_net_output_bytes"
        before, since = self.redis.info("stats")[told], time.monotonic()
        for number in range(1, 101):
            session.ask(f"open,{number}")
        # Redis tells it thrice a second while it is the last one too, and once when it is not.
        most = 10 + 3 * (time.monotonic() - since)
        self.assertLess((self.redis.info("stats")[told] - before) / (1 << 20), most)

    def test_what_is_logged(self) -> None:
        self.append(session=7, number=1, body="open,1")
        sequencer = self.start_sequencer()
        self.until(self.all_answered)
        self.stop_redis()
        self.start_redis()
        self.session(7, 2).ask("open,2")
        sequencer.terminate()
        told = sequencer.communicate()[1]
        for said in (
            "started at",
            "1 entries, 0 of them answered",
            "entries are read, after",
            "no Redis answers at",
            "answers again",
        ):
            self.assertIn(said, told)

    def test_statuses(self) -> None:
        """The units and the documents know the statuses."""
        # Those that run no program compare no answers.
        others = NOT_AGAIN - {Status.DIFFERS, Status.OTHER_PROGRAM}
        for tool, ends in (
            ("sequencer", NOT_AGAIN),
            ("follower", NOT_AGAIN),
            ("auctioneer", others),
            ("metrics", others),
            ("gateway", others),
        ):
            unit = (HERE / f"systemd/ragvismo-{tool}@.service").read_text()
            [told] = [
                line.partition("=")[2]
                for line in unit.splitlines()
                if line.startswith("RestartPreventExitStatus")
            ]
            self.assertEqual({int(it) for it in told.split()}, ends, tool)
        document = (HERE.parent / "docs/OPERATING.md").read_text()
        known = {
            int(number): bold for bold, number in re.findall(r"(?m)^- (\**)status (\d+)", document)
        }
        self.assertEqual(set(known), set(Status) - {Status.DONE})
        self.assertEqual({number for number, bold in known.items() if bold}, set(NOT_AGAIN))
