"""Measures the service on this machine; docs/PERFORMANCE.md has a part of what it prints.

    service/bench [clients] [questions] [again] [verify] [standby] [--messages N] [--runs N]
                  [--seconds N] [--cpus N ..] [--logs N ..] [--answers N] [--program FILE]
                  [--folder FOLDER]

Clients place an order and cancel it in turn; each sends its next message when the last is answered.

clients: for 1, 20 and 200 of them and both settings of fsync, messages a second and the time from
append to answer, beside the same clients with no sequencer, that append and read their own entry
(one append), and that append an answer too before they read it (two appends in turn, as an answer
has to wait for); the median of three runs of each, in turn. questions: the same of 20 clients
beside two followers (--idle) that nobody asks, or that are asked `price` of 200 orders without a
pause, in phases of --seconds (3) in turn, --runs (5) of each kind; the followers run on the
processors --cpus (any), and Redis does not write its file anew meanwhile. again: the time until a
sequencer that starts again answers, for --logs of so many messages. verify: how long service/verify
takes for --answers (300000), --runs times. standby: the longest wait for an answer while one of two
sequencers is killed. All where none is named.
--folder is where Redis writes, a new one where none is named.
"""
from __future__ import annotations

import argparse
import enum
import functools
import gc
import multiprocessing
import os
import pathlib
import random
import re
import resource
import selectors
import socket
import statistics
import subprocess
import sys
import tempfile
import threading
import time
from collections.abc import Collection
from multiprocessing.synchronize import Event
from typing import NamedTuple

import hiredis
import redis

from client import Session
from ragvismo_service.beginning import Beginning
from ragvismo_service.carrying import OPERATOR, messages
from ragvismo_service.messages import before
from ragvismo_service.places import Keys, Place
from ragvismo_service.questions import Asker
from ragvismo_service.store import Store, packed
from ragvismo_service.words import PROGRAM, runnable, seconds, status_of

HERE = pathlib.Path(__file__).resolve().parents[1]
sys.path.insert(1, str(HERE.parent / "tools"))
from ragvismo_tools.batches import batch, opened

KEYS, PROCESSES, WARM, RUNS = Keys.of("ragvismo"), 2, 0.1, 3
# How many messages a session may send.
MOST = 1_000_000
ANSWER = b'{"number":100,"of":{"line":10000,"order":100,"reply":"placed"},"session":1100}'
ORDER = re.compile(rb'"order":([0-9]+)')
# The session and the account of the first client; the market where they trade, and the book that
# followers are asked about.
FIRST, TRADED, PRICED = 1001, 2, b"price,1,20000,1,call,50,1"


class Answered(enum.Enum):
    """What a client waits for once its message is appended."""

    BY_SEQUENCER = enum.auto()
    BY_NOBODY = enum.auto()
    BY_ITSELF = enum.auto()


class Sent(NamedTuple):
    """When a message was appended, and how long its answer took, in seconds."""

    since: float
    took: float


class Client:
    """A client that appends a message, waits for its answer, and goes on: for so many messages, or
    until it is over."""

    def __init__(
        self, port: int, session: int, answered: Answered, messages: int, is_over: Event
    ) -> None:
        self.socket = socket.create_connection(("127.0.0.1", port))
        self.socket.setsockopt(socket.IPPROTO_TCP, socket.TCP_NODELAY, 1)
        self.reader, self.session, self.answered = hiredis.Reader(), b"%d" % session, answered
        self.messages, self.is_over = messages, is_over
        self.stream = KEYS.taken if answered is Answered.BY_NOBODY else KEYS.answers
        # The first message opened the account.
        self.number, self.since, self.owes_answer = 1, 0.0, False
        self.order = b""
        self.sent: list[Sent] = []

    def append(self, stream: bytes, *fields: bytes) -> None:
        self.socket.sendall(packed([b"XADD", stream, b"*", *fields]))

    def send(self) -> None:
        self.number, self.since, self.owes_answer = (
            self.number + 1,
            time.perf_counter(),
            self.answered is Answered.BY_ITSELF,
        )
        body = b"buy,%b,%d,call,10,1,1,1" % (self.session, TRADED)
        if self.order:
            body = b"cancel,%b,%b" % (self.session, self.order)
        self.append(
            KEYS.taken, b"session", self.session, b"number", b"%d" % self.number, b"body", body
        )

    def go_on(self, id: bytes) -> None:
        """Appends the answer, or waits for it, when an append is told."""
        if self.owes_answer:
            self.owes_answer = False
            self.append(KEYS.answers, b"answer", ANSWER)
        else:
            self.socket.sendall(
                packed(
                    [b"XREAD", b"COUNT", b"1", b"BLOCK", b"0", b"STREAMS", self.stream, before(id)]
                )
            )

    def receive(self) -> bool:
        """Takes what came, and says whether all is answered."""
        self.reader.feed(self.socket.recv(1 << 16))
        while (told := self.reader.gets()) is not False:
            if isinstance(told, bytes):
                self.go_on(told)
                continue
            self.sent.append(Sent(self.since, time.perf_counter() - self.since))
            if len(self.sent) == self.messages or self.is_over.is_set():
                return True
            [[_, [[_, fields]]]] = told
            found = ORDER.search(fields[1])
            self.order = b"" if self.order else found[1] if found else b"1"
            self.send()
        return False


def trade(clients: list[Client], told: multiprocessing.Queue[list[Sent]]) -> None:
    """Some clients at once, in this process."""
    # To look for garbage would stop all of them, for the longer the more was sent.
    gc.disable()
    waiting = selectors.DefaultSelector()
    for client in clients:
        waiting.register(client.socket, selectors.EVENT_READ, client)
        client.send()
    while waiting.get_map():
        for key, _ in waiting.select():
            if key.data.receive():
                waiting.unregister(key.fileobj)
    told.put([it for client in clients for it in client.sent])


class Trading:
    """Clients that trade from now on, in processes of their own."""

    def __init__(self, port: int, sessions: range, answered: Answered, messages: int) -> None:
        self.told: multiprocessing.Queue[list[Sent]] = multiprocessing.Queue()
        self.is_over, self.works = multiprocessing.Event(), list[multiprocessing.Process]()
        for at in range(min(PROCESSES, len(sessions))):
            clients = [
                Client(port, it, answered, messages, self.is_over) for it in sessions[at::PROCESSES]
            ]
            work = multiprocessing.Process(target=trade, args=(clients, self.told))
            self.works.append(work)
        for work in self.works:
            work.start()

    def sent(self) -> list[Sent]:
        """What all of them sent, in order."""
        return sorted(it for _ in self.works for it in self.told.get())


class Engine:
    """A Redis of its own for one measure, with more words where they are given, and sequencers,
    each in a session of its own, as service/up starts them."""

    def __init__(
        self, folder: pathlib.Path | None, fsync: str, program: pathlib.Path, *more: str
    ) -> None:
        self.held = tempfile.TemporaryDirectory(prefix="ragvismo-bench-", dir=folder)
        self.program = program
        self.sequencers: list[subprocess.Popen[bytes]] = []
        with socket.socket() as one:
            one.bind(("127.0.0.1", 0))
            self.port: int = one.getsockname()[1]
        words = f"--port {self.port} --bind 127.0.0.1 --dir {self.held.name} --logfile redis.log"
        self.command = [
            "redis-server",
            *words.split(),
            "--appendonly",
            "yes",
            "--appendfsync",
            fsync,
            "--save",
            "",
            *more,
        ]
        self.redis = redis.Redis(port=self.port)
        self.start_redis()

    def __enter__(self) -> Engine:
        return self

    def __exit__(self, *_: object) -> None:
        for process in [*self.sequencers, self.server]:
            process.kill()
            process.wait()
        self.held.cleanup()

    def answers(self) -> bool:
        try:
            return bool(self.redis.ping())
        except redis.ConnectionError:
            return False

    def start_redis(self) -> None:
        self.server = subprocess.Popen(self.command, start_new_session=True)
        while not self.answers():
            time.sleep(0.005)

    def start(
        self, tool: str = "sequencer", *more: str, cpus: Collection[int] = ()
    ) -> subprocess.Popen[bytes]:
        """A tool that runs on some processors, on any where none is named."""
        words: list[str | pathlib.Path] = [HERE / tool, "--at", str(self.port)]
        words += ["--program", self.program, *more]
        there = functools.partial(os.sched_setaffinity, 0, cpus or os.sched_getaffinity(0))
        self.sequencers.append(subprocess.Popen(words, preexec_fn=there, start_new_session=True))
        return self.sequencers[-1]

    def waiting(self) -> int:
        """How many followers wait for questions."""
        return sum(it["cmd"] == "xreadgroup" for it in self.redis.client_list())

    def store(self) -> Store:
        return Store(Place(port=self.port), 600, "bench")

    def prepare(self, sessions: range, orders: int = 0) -> None:
        """An account with money for each session, a market for them, and one with a book of so many
        orders."""
        lines = opened(40, TRADED) + batch(random.Random("questions"), orders, 100)
        bodies = [(OPERATOR, line.encode()) for line in lines]
        for it in sessions:
            bodies += [(it, b"open,%d" % it), (OPERATOR, b"deposit,%d,1" % it)]
        Beginning(self.store(), list(messages(bodies))).run()

    def fill(self, count: int) -> None:
        """Appends messages of 1,000 sessions."""
        for first in range(0, count, 1000):
            pipe = self.redis.pipeline(transaction=False)
            for at in range(first, min(first + 1000, count)):
                session, number = at % 1000 + 1, at // 1000 + 1
                body = f"open,{session}" if number == 1 else f"balance,{session}"
                pipe.xadd(KEYS.taken, {"session": session, "number": number, "body": body})
            pipe.execute()


class Times(NamedTuple):
    """Messages a second, and the median and the 99th percentile of the times from append to answer
    in milliseconds."""

    rate: float
    half: float
    most: float

    @staticmethod
    def of(sent: list[Sent], seconds: float) -> Times:
        times = sorted(1000 * it.took for it in sent)
        last = times[int(0.99 * len(times))]
        return Times(len(times) / seconds, times[len(times) // 2], last)


def traded(given: argparse.Namespace, fsync: str, clients: int, answered: Answered) -> Times:
    """What clients of an exchange of their own see."""
    sessions = range(FIRST, FIRST + clients)
    many = max(given.messages // clients, 20) if clients > 1 else given.messages // 5
    with Engine(given.folder, fsync, given.program) as engine:
        if answered is Answered.BY_SEQUENCER:
            engine.start()
            engine.prepare(sessions)
        since = time.perf_counter()
        sent = Trading(engine.port, sessions, answered, many).sent()
        took = time.perf_counter() - since
        return Times.of(sent[int(WARM * len(sent)) :], (1 - WARM) * took)


class Asking(threading.Thread):
    """Asks one question after the other; it gives way as followers do, since who asks stands on
    another machine."""

    def __init__(self, asker: Asker) -> None:
        super().__init__(daemon=True)
        self.asker, self.is_stopped = asker, False
        self.times: list[float] = []

    def run(self) -> None:
        os.sched_setscheduler(0, os.SCHED_IDLE, os.sched_param(0))
        while not self.is_stopped:
            since = time.perf_counter()
            told = self.asker.ask(OPERATOR, PRICED, 600).told()
            assert told["of"]["reply"] == "priced", told
            self.times.append(time.perf_counter() - since)


class Phase(NamedTuple):
    """A time in which two askers ask, or nobody; and how long each question took."""

    since: float
    until: float
    asked: list[float]

    @property
    def seconds(self) -> float:
        return self.until - self.since

    def of(self, sent: list[Sent]) -> list[Sent]:
        """What was sent in it."""
        return [it for it in sent if self.since < it.since < self.until]


def asked_for(engine: Engine, askers: int, seconds: float) -> Phase:
    """A phase of so many seconds, or somewhat more, as each question is answered in it."""
    asking, since = [Asking(Asker(engine.store())) for _ in range(askers)], time.perf_counter()
    for it in asking:
        it.start()
    time.sleep(seconds)
    for it in asking:
        it.is_stopped = True
    for it in asking:
        it.join()
    return Phase(since, time.perf_counter(), [took for it in asking for took in it.times])


def measure_questions(given: argparse.Namespace) -> None:
    """20 clients trade, and in every second phase two followers are asked. What counts is the 99th
    percentile of all that was sent in the phases of a kind."""
    sessions, kinds = range(FIRST, FIRST + 20), {"nobody asks": 0, "two followers are asked": 2}
    phases: dict[str, list[Phase]] = {name: [] for name in kinds}
    # Redis would copy its whole log now and then, which slows all down, and be it in phases of one
    # kind more than of the other.
    never = "--auto-aof-rewrite-percentage", "0"
    with Engine(given.folder, "always", given.program, *never) as engine:
        engine.start()
        for _ in range(2):
            engine.start("follower", "--idle", cpus=given.cpus)
        engine.prepare(sessions, 200)
        while engine.waiting() < 2:
            time.sleep(0.1)
        trading = Trading(engine.port, sessions, Answered.BY_SEQUENCER, MOST)
        asked_for(engine, 2, given.seconds)
        for _ in range(given.runs):
            for name, askers in kinds.items():
                phases[name].append(asked_for(engine, askers, given.seconds))
        trading.is_over.set()
        sent = trading.sent()
    columns = "While", "Messages a second", "Median", "99th percentile", "Of each phase"
    print(f"\n| {' | '.join(columns)} |\n{'|---' * len(columns)}|")
    last = list[float]()
    for name, each in phases.items():
        within = [it for phase in each for it in phase.of(sent)]
        times = Times.of(within, sum(it.seconds for it in each))
        told = ", ".join(f"{Times.of(it.of(sent), it.seconds).most:.1f}" for it in each)
        print(
            f"| {name} | {times.rate:,.0f} | {times.half:.1f} ms | {times.most:.1f} ms | {told} |"
        )
        last.append(times.most)
    asked = [took for it in phases["two followers are asked"] for took in it.asked]
    print(
        f"\nThe 99th percentile with questions is {last[1] / last[0]:.2f} of that without;"
        f" {len(asked)} questions took {statistics.median(asked):.2f} s in the median"
    )


def processor_seconds() -> float:
    """What the processes took that this one started and that ended."""
    used = resource.getrusage(resource.RUSAGE_CHILDREN)
    return used.ru_utime + used.ru_stime


def measure_verify(given: argparse.Namespace) -> None:
    """How long service/verify takes for a log that is answered."""
    with Engine(given.folder, "everysec", given.program) as engine:
        engine.fill(given.answers)
        engine.start()
        Session(str(engine.port), 999_999_999)
        took, used = list[float](), list[float]()
        for _ in range(given.runs):
            since, before_it = time.perf_counter(), processor_seconds()
            subprocess.run([HERE / "verify", "--at", str(engine.port)], check=True)
            took.append(time.perf_counter() - since)
            used.append(processor_seconds() - before_it)
    told = ", ".join(f"{it:.2f}" for it in took)
    print(
        f"\n{given.answers:,} answers are verified in {statistics.median(took):.2f} s ({told}),"
        f" {statistics.median(used):.2f} s of a processor"
    )


def measure_clients(given: argparse.Namespace) -> None:
    alone = "One append alone", "Share", "Two appends alone", "Share"
    columns = "Fsync", "Clients", "Messages a second", "Median", "99th percentile", *alone
    print(f"| {' | '.join(columns)} |\n{'|---' * len(columns)}|")
    for fsync in ("always", "everysec"):
        for clients in (1, 20, 200):
            runs = [
                [traded(given, fsync, clients, answered) for answered in Answered]
                for _ in range(RUNS)
            ]
            served, one, two = ([statistics.median(it) for it in zip(*of)] for of in zip(*runs))
            told = f"{served[0]:,.0f} | {served[1]:.1f} ms | {served[2]:.1f} ms"
            beside = " | ".join(f"{it[0]:,.0f} | {served[0] / it[0]:.2f}" for it in (one, two))
            print(f"| {fsync} | {clients} | {told} | {beside} |", flush=True)


def measure_again(given: argparse.Namespace) -> None:
    print("\n| Messages in the log | First run | Started again | Redis alone |\n|---|---|---|---|")
    for count in given.logs:
        with Engine(given.folder, "everysec", given.program) as engine:
            engine.fill(count)
            took = []
            for _ in range(2):
                since = time.perf_counter()
                sequencer = engine.start()
                Session(str(engine.port), 999_999_999)
                took.append(time.perf_counter() - since)
                sequencer.kill()
                sequencer.wait()
            engine.server.terminate()
            engine.server.wait()
            since = time.perf_counter()
            engine.start_redis()
            print(
                f"| {count:,} | {took[0]:.1f} s | {took[1]:.1f} s |"
                f" {time.perf_counter() - since:.1f} s |",
                flush=True,
            )


def measure_standby(given: argparse.Namespace) -> None:
    """The longest wait of one client, with two sequencers of which one is killed in turn."""
    waits = []
    with Engine(given.folder, "always", given.program) as engine:
        first, second = engine.start(), engine.start()
        session = Session(str(engine.port), 1)
        for at in range(300):
            if at == 150:
                time.sleep(1)
                first.kill()
            since = time.perf_counter()
            session.ask("balance,0")
            waits.append(time.perf_counter() - since)
        assert second.poll() is None
    print(
        "\nOne of two sequencers killed: the longest wait for an answer from then on was"
        f" {max(waits[150:]) * 1000:.1f} ms"
    )


MEASURES = {
    "clients": measure_clients,
    "questions": measure_questions,
    "again": measure_again,
    "verify": measure_verify,
    "standby": measure_standby,
}


def main() -> None:
    words = argparse.ArgumentParser(
        description=__doc__, formatter_class=argparse.RawDescriptionHelpFormatter
    )
    words.add_argument("measures", nargs="*", choices=[[], *MEASURES], metavar="MEASURE")
    words.add_argument("--messages", type=int, default=20000, metavar="N")
    words.add_argument("--runs", type=int, default=5, metavar="N")
    words.add_argument("--seconds", type=seconds, default=3.0, metavar="N")
    words.add_argument("--cpus", type=int, nargs="+", default=[], metavar="N")
    words.add_argument("--answers", type=int, default=300_000, metavar="N")
    words.add_argument("--logs", type=int, nargs="*", default=[100_000, 1_000_000], metavar="N")
    words.add_argument("--program", type=runnable, default=str(PROGRAM), metavar="FILE")
    words.add_argument("--folder", type=pathlib.Path, metavar="FOLDER")
    given = words.parse_args()
    given.program = given.program.resolve()
    for name in given.measures or MEASURES:
        MEASURES[name](given)


def run() -> int:
    return status_of(main)
