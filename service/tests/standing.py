"""What the tests stand on: a Redis of its own for each, sequencers, clients, and a stand-in for the
program."""

from __future__ import annotations

import collections
import json
import os
import pathlib
import random
import socket
import subprocess
import sys
import tempfile
import threading
import time
import unittest
from collections.abc import Callable, Container
from typing import Any, NamedTuple

import redis

HERE = pathlib.Path(__file__).resolve().parents[1]
sys.path.insert(0, str(HERE))
from client import Session
from ragvismo_service.messages import START_ID, Entry, malformed
from ragvismo_service.places import Place
from ragvismo_service.questions import Asked
from ragvismo_service.statuses import Status
from ragvismo_service.words import PROGRAM

# It keeps the rules of the gate, and its reply to a body is a sum over all bodies so far.
STAND_IN = r"""#!/usr/bin/python3 -ES
import hashlib, sys
kept, total, count, VERSION = {}, b"", 0, b"one"
for line, message in enumerate(sys.stdin.buffer, 1):
    session, number, body = message.rstrip(b"\r\n").split(b",", 2)
    told = b'"line":%d,' % line, b'"reply":"gate","session":%b}' % session
    if not (session.isdigit() and number.isdigit() and body):
        answer = b'{"line":%d,"number":15,"reason":"Malformed","reply":"gate"}' % line
    else:
        last, was, reply = kept.get(session, (0, b"", b""))
        expected, number = b'{"expected":%d,' % (last + 1), int(number)
        if number > last + 1:
            answer = expected + told[0] + b'"number":17,"reason":"Ahead",' + told[1]
        elif number < last:
            answer = expected + told[0] + b'"number":16,"reason":"Old",' + told[1]
        elif number == last and body != was:
            answer = expected + told[0] + b'"number":18,"reason":"Changed",' + told[1]
        else:
            if number > last:
                count, total = count + 1, hashlib.sha256(total + VERSION + body).digest()
                reply = b'{"line":%d,"reply":"taken","total":"%b"}' % (count, total.hex().encode())
                kept[session] = number, body, reply
            answer = b'{"number":%d,"of":%b,"session":%b}' % (number, reply, session)
    sys.stdout.buffer.write(answer + b"\n")
    sys.stdout.buffer.flush()
"""

# A call that others sell in parts: what is charged leaves a surplus of 6/7.
ORDERS = "buy,1,{0},call,10,6,1,1", "sell,2,{0},call,5,8,1,1", "sell,2,{0},call,12,4,1,1"


class Given:
    """What the call of the tests says."""

    program, is_long, rounds = PROGRAM, False, 0


def knows_members(program: pathlib.Path) -> bool:
    words = [str(program), "serve", "members"]
    if not os.access(program, os.X_OK):
        return False
    return subprocess.run(words, stdin=subprocess.DEVNULL, capture_output=True).returncode == 0


# The names of the ports that tests of this process were given, which are held until it ends.
HELD: list[socket.socket] = []


def free_port() -> int:
    """A port that nobody else takes: other tests see that its name is held, and below 32768 the
    system gives none to a client or to who asks for any."""
    for port in random.sample(range(10_000, 30_000), 1_000):
        name = socket.socket(socket.AF_UNIX)
        try:
            name.bind(f"\0ragvismo-port-{port}")
            with socket.socket() as one:
                one.bind(("127.0.0.1", port))
        except OSError:
            name.close()
            continue
        HELD.append(name)
        return port
    raise OSError("no port is free")


class Service(unittest.TestCase):
    """A Redis of its own, and sequencers."""

    def setUp(self) -> None:
        # What has been killed may have children that write there yet.
        held = tempfile.TemporaryDirectory(prefix="ragvismo-service-", ignore_cleanup_errors=True)
        self.addCleanup(held.cleanup)
        self.folder = pathlib.Path(held.name)
        self.program = Given.program
        self.is_real = knows_members(self.program)
        if not self.is_real:
            self.program = self.script("stand-in", STAND_IN)
        self.port, self.random = free_port(), random.Random(44)
        self.sequencers: list[subprocess.Popen[str]] = []
        self.redis, self.place = redis.Redis(port=self.port), Place.of(str(self.port))
        self.at = ["--at", str(self.port)]
        self.addCleanup(self.stop)
        self.start_redis()

    def stop(self) -> None:
        for process in self.sequencers:
            process.kill()
            process.wait()
            for pipe in (process.stdout, process.stderr):
                if pipe:
                    pipe.close()
        self.stop_redis()

    def script(self, name: str, text: str) -> pathlib.Path:
        path = self.folder / name
        path.write_text(text)
        path.chmod(0o755)
        return path

    def redis_settings(self) -> dict[str, object]:
        return {
            "port": self.port,
            "bind": "127.0.0.1",
            "dir": self.folder,
            "appendonly": "yes",
            "appendfsync": "always",
            "save": "",
            "loglevel": "warning",
            "logfile": "redis.log",
        }

    def redis_words(self) -> list[str]:
        words = [
            word
            for key, value in self.redis_settings().items()
            for word in (f"--{key}", *str(value).split())
        ]
        return ["redis-server", *words]

    def start_redis(self) -> None:
        self.server = subprocess.Popen(self.redis_words())
        self.until(self.answers)

    def stop_redis(self) -> None:
        self.server.kill()
        self.server.wait()

    def answers(self) -> bool:
        try:
            return bool(self.redis.ping())
        except redis.ConnectionError:
            return False

    def until(self, holds: Callable[[], bool], seconds: float = 120) -> None:
        end = time.monotonic() + seconds
        while not holds():
            self.assertLess(time.monotonic(), end, "it took too long")
            time.sleep(0.01)

    def start_sequencer(
        self, program: pathlib.Path | None = None, *words: str
    ) -> subprocess.Popen[str]:
        command = [
            str(HERE / "sequencer"),
            *self.at,
            "--program",
            str(program or self.program),
            *words,
        ]
        self.sequencers.append(subprocess.Popen(command, stderr=subprocess.PIPE, text=True))
        return self.sequencers[-1]

    def kill(self, sequencer: subprocess.Popen[str]) -> None:
        self.sequencers.remove(sequencer)
        sequencer.kill()
        sequencer.communicate()

    def program_of(self, sequencer: subprocess.Popen[str]) -> int:
        """The process of a sequencer's program."""
        children = pathlib.Path(f"/proc/{sequencer.pid}/task/{sequencer.pid}/children")
        self.until(lambda: bool(children.read_text().split()))
        return int(children.read_text().split()[0])

    def session(self, number: int, first: int = 1) -> Session:
        return Session(self.place, number, first, patience=600)

    def append(self, **fields: Any) -> bytes:
        id: bytes = self.redis.xadd("ragvismo:in", fields)
        return id

    def entries(self) -> list[Entry]:
        told = self.redis.xrange("ragvismo:in")
        return [
            Entry.of([id, [it for pair in fields.items() for it in pair]]) for id, fields in told
        ]

    def published(self) -> list[tuple[bytes, bytes]]:
        return [(id, fields[b"answer"]) for id, fields in self.redis.xrange("ragvismo:out")]

    def computed(self) -> list[tuple[bytes, bytes]]:
        """The answers of one run of the program to all messages of the log."""
        entries = self.entries()
        lines = b"".join(entry.text + b"\n" for entry in entries if not entry.fault)
        ran = subprocess.run([self.program, "serve", "members"], input=lines, capture_output=True)
        answers = iter(ran.stdout.splitlines())
        return [
            (entry.id, malformed(entry.id, entry.fault) if entry.fault else next(answers))
            for entry in entries
        ]

    def all_answered(self) -> bool:
        return bool(self.redis.xlen("ragvismo:out") == self.redis.xlen("ragvismo:in"))

    def replayed(self, asked: list[Question]) -> list[bytes]:
        """What one run of the program answers to questions, each asked after the entry that its
        answer was told with."""
        after = collections.defaultdict[bytes, list[int]](list)
        for at, question in enumerate(asked):
            after[question.told.entry].append(at)
        lines, kept = list[bytes](), dict[int, int]()
        for id, text in [
            (START_ID, b""),
            *((it.id, it.text * (not it.fault)) for it in self.entries()),
        ]:
            lines += [text] if text else []
            for at in after[id]:
                kept[at] = len(lines)
                lines.append(b"?%d,%b" % (asked[at].session, asked[at].body))
        text = b"".join(line + b"\n" for line in lines)
        ran = subprocess.run([self.program, "serve", "members"], input=text, capture_output=True)
        answers = ran.stdout.splitlines()
        return [answers[kept[at]] for at in range(len(asked))]

    def check(self, traders: list[Trader], others: Container[int] = ()) -> None:
        """Each message counted once, each trader was told what stands in the log, and that is what
        one run answers. Sessions of others may have messages too."""
        self.until(self.all_answered)
        published = self.published()
        self.assertEqual(published, self.computed())
        first: dict[tuple[int, int], dict[str, object]] = {}
        for _, answer in published:
            told = json.loads(answer)
            if "of" in told:
                self.assertEqual(
                    first.setdefault((told["session"], told["number"]), told["of"]), told["of"]
                )
        for trader in traders:
            told = [first[trader.session.session, number] for number, _ in trader.told]
            self.assertEqual(told, [of for _, of in trader.told])
        said = [session for session, _ in first if session not in others]
        self.assertEqual(len(said), sum(len(trader.told) for trader in traders))
        self.assertEqual(len({reply["line"] for reply in first.values()}), len(first))
        self.assertRegex(self.tool("verify").stdout, f"^{len(published)} answers hold, to ")

    def ends(self, sequencer: subprocess.Popen[str], status: Status, said: str) -> None:
        """A sequencer ends with a status, and its last line says why."""
        told = sequencer.communicate(timeout=120)[1]
        self.assertEqual(sequencer.returncode, status, told)
        self.assertNotIn("Traceback", told)
        self.assertRegex(told.splitlines()[-1], "^sequencer: ")
        self.assertIn(said, told.splitlines()[-1])

    def start_watch(self, *words: str) -> subprocess.Popen[str]:
        """A watch that looks often."""
        call = [str(HERE / "watch"), *(words or self.at), "--every", "0.1"]
        pipe = subprocess.PIPE
        self.sequencers.append(subprocess.Popen(call, stdout=pipe, stderr=pipe, text=True))
        return self.sequencers[-1]

    def until_told(self, watch: subprocess.Popen[str], said: str) -> None:
        """Waits until a watch says that."""

        def is_told() -> bool:
            assert watch.stdout
            line = watch.stdout.readline()
            self.assertTrue(line, f"it ended before it said {said}")
            return said in line

        self.until(is_told)

    def tool(self, name: str, *words: object, **more: Any) -> subprocess.CompletedProcess[str]:
        at = [] if "--at" in words else self.at
        command = [str(HERE / name), *at, *map(str, words)]
        return subprocess.run(command, capture_output=True, text=True, timeout=600, **more)

    def tool_ends(self, status: Status, said: str, name: str, *words: object) -> None:
        """A tool ends with a status and one line on standard error."""
        ran = self.tool(name, *words)
        self.assertEqual((ran.returncode, ran.stderr.count("\n")), (status, 1), ran.stderr)
        self.assertIn(said, ran.stderr)


class Question(NamedTuple):
    """What was asked for a session, and what was told to it."""

    session: int
    body: bytes
    told: Asked


class Trader(threading.Thread):
    """A client that also repeats messages and sends wrong numbers; it remembers what it was
    told."""

    def __init__(self, session: Session, messages: int, seed: int) -> None:
        super().__init__(daemon=True)
        self.session, self.messages, self.random = session, messages, random.Random(seed)
        self.told: list[tuple[int, dict[str, Any]]] = []
        self.is_stopped = False
        self.fault: Exception | None = None

    def body(self) -> str:
        account = self.random.randrange(1, 50)
        bodies = (
            f"open,{account}",
            f"deposit,{account},{self.random.randrange(1, 1000)}",
            f"balance,{account}",
            f"withdraw,{account},{self.random.randrange(1, 500)}",
        )
        return self.random.choice(bodies)

    def pause(self) -> None:
        """Waits before the next message, or not."""

    def run(self) -> None:
        try:
            for number in range(len(self.told) + 1, self.messages + 1):
                if self.is_stopped:
                    break
                self.pause()
                body = self.body()
                self.told.append((number, self.session.ask(body)))
                if self.random.random() < 0.1:
                    again = self.session.answer(number, body)["of"]
                    assert again == self.told[-1][1], again
                if self.random.random() < 0.05:
                    wrong = self.session.answer(
                        number + self.random.choice((-1, 0, 2)), "balance,0,wrong"
                    )
                    assert wrong.get("reply") == "gate", wrong
        except Exception as fault:
            self.fault = fault
