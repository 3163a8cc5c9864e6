"""A whole exchange while each of its parts is killed: sequencers and a program of theirs, Redis, an
auctioneer, solvers and a follower, under clients that trade and one that asks."""

from __future__ import annotations

import json
import os
import random
import signal
import subprocess
import sys
import threading
import time
from collections.abc import Callable
from typing import Any

from client import Session
from ragvismo_service.books import FIRST_SOLVER, LAST_OF_OPERATOR
from ragvismo_service.questions import Asker
from ragvismo_service.statuses import Status
from ragvismo_service.store import Store
from tests.standing import HERE, Given, Question, Service, Trader

# Each trades for an account with the number of its session.
TRADERS, FIRST_TRADER, OPERATOR = 20, 101, 1
MARKETS = "1", "2"
SOLVERS = FIRST_SOLVER, FIRST_SOLVER + 1
# How long it is traded after a kill, in seconds, at most.
LONGEST_PAUSE = 1.0


class Owner(Trader):
    """Buys and sells puts within what its account has, and cancels."""

    def body(self) -> str:
        account, placed = self.session.session, [
            of["order"] for _, of in self.told[-20:] if of["reply"] == "placed"
        ]
        if placed and self.random.random() < 0.2:
            return f"cancel,{account},{self.random.choice(placed)}"
        if self.random.random() < 0.2:
            return self.random.choice((f"balance,{account}", f"withdraw,{account},1"))
        side, strike = self.random.choice(("buy", "sell")), self.random.randrange(5, 30)
        price = max(0, strike - 10 + self.random.randrange(-4, 5))
        market = self.random.choice(MARKETS)
        return f"{side},{account},{market},put,{strike},{price},1,1"

    def pause(self) -> None:
        time.sleep(self.random.uniform(0, 0.2))


class Curious(threading.Thread):
    """Asks, and remembers what it was told."""

    def __init__(self, asker: Asker) -> None:
        super().__init__(daemon=True)
        self.asker, self.random, self.is_stopped = asker, random.Random(63), False
        self.asked = list[Question]()
        self.fault: Exception | None = None

    def body(self) -> str:
        account, market = self.random.randrange(100, 125), self.random.choice(MARKETS)
        strike = self.random.randrange(5, 30)
        bodies = (
            f"balance,{account}",
            f"positions,{account},{market}",
            f"need,{account}",
            f"book,{market}",
            f"price,{market},100,1,put,{strike},1",
            f"try,{market},100,sell,{strike},1,put,{strike},1",
        )
        return self.random.choice(bodies)

    def run(self) -> None:
        try:
            while not self.is_stopped:
                session, body = self.random.randrange(100, 125), self.body().encode()
                told = self.asker.ask(session, body, 600)
                self.asked.append(Question(session, body, told))
        except Exception as fault:
            self.fault = fault


class Rounds(Service):
    def setUp(self) -> None:
        super().setUp()
        if not self.is_real:
            self.skipTest("./build has not made the program")
        self.rounds = Given.rounds or (200 if Given.is_long else 8)
        program = ["--program", str(self.program)]
        # So little work that a proposal is what counts.
        times = ["--every", "0.5", "--solve", "0.5", "--budget", "1"]
        self.calls = {
            "sequencer": ["sequencer", *program],
            "standby": ["sequencer", *program],
            "auctioneer": ["auctioneer", *MARKETS, *times],
            **{f"solver {it}": ["solver", str(it), *program] for it in SOLVERS},
            "follower": ["follower", *program],
        }
        self.running: dict[str, subprocess.Popen[str]] = {}
        self.kills: dict[str, Callable[[], None]] = {
            **{name: self.killer(name) for name in self.calls},
            "program": self.kill_program,
            "Redis": self.kill_redis,
        }

    def start(self, name: str) -> None:
        tool, *words = self.calls[name]
        call = [str(HERE / tool), *self.at, *words]
        with open(self.folder / "printed", "a") as out, open(self.folder / "said", "a") as log:
            process = subprocess.Popen(call, stdout=out, stderr=log, text=True)
        self.running[name] = process
        self.sequencers.append(process)

    def killer(self, name: str) -> Callable[[], None]:
        def kill() -> None:
            self.kill(self.running[name])
            self.start(name)

        return kill

    def kill_program(self) -> None:
        victim = self.running["sequencer"]
        os.kill(self.program_of(victim), signal.SIGKILL)
        self.assertEqual(victim.wait(120), Status.PROGRAM_ENDED)
        self.killer("sequencer")()

    def kill_redis(self) -> None:
        self.stop_redis()
        self.start_redis()

    def open_accounts(self) -> list[Owner]:
        """The traders, each with money."""
        operator = Session(self.place, OPERATOR, 1)
        for market in MARKETS:
            operator.ask(f"market,{market},1")
        owners = list[Owner]()
        for it in range(FIRST_TRADER, FIRST_TRADER + TRADERS):
            owner = Owner(self.session(it), 1_000_000, it)
            owner.told.append((1, owner.session.ask(f"open,{it}")))
            operator.ask(f"deposit,{it},10000")
            owners.append(owner)
        return owners

    def test_rounds(self) -> None:
        for name in self.calls:
            self.start(name)
        owners, curious = self.open_accounts(), Curious(Asker(Store(self.place, 600, "test")))
        threads: list[Owner | Curious] = [*owners, curious]
        for each in threads:
            each.start()
        for at in range(self.rounds):
            time.sleep(self.random.uniform(0, LONGEST_PAUSE))
            name = self.random.choice(sorted(self.kills))
            self.kills[name]()
            for part, process in self.running.items():
                self.assertIsNone(process.poll(), f"in round {at} {part} ended by itself")
        # A follower gives way to all others, and on a busy machine it catches up when these stop.
        for owner in owners:
            owner.is_stopped = True
        self.until(lambda: len(curious.asked) > 5 and b'"cleared"' in self.last_answers(), 600)
        curious.is_stopped = True
        for each in threads:
            each.join(600)
            self.assertFalse(each.is_alive() or each.fault, repr(each.fault))
        for name, process in self.running.items():
            if name not in ("sequencer", "standby"):
                self.kill(process)
        self.check(list(owners), {*range(1, LAST_OF_OPERATOR + 1), *SOLVERS})
        asked, audited = curious.asked, self.recheck()
        self.assertEqual([it.told.answer for it in asked], self.replayed(asked))
        if Given.is_long or Given.rounds:
            entries, many = len(self.entries()), len(asked)
            said = f"{self.rounds} rounds, {entries} entries, {many} questions, {audited}"
            print(f"service/test: {said}", file=sys.stderr, flush=True)

    def last_answers(self) -> bytes:
        return b"".join(it[b"answer"] for _, it in self.redis.xrevrange("ragvismo:out", count=2000))

    def recheck(self) -> dict[str, Any]:
        """Each cleared batch holds, by the program and by the second check of it; what both
        tell."""
        replies = b"".join(answer + b"\n" for _, answer in self.published())
        told = list[dict[str, Any]]()
        for check in (self.program, HERE.parent / "tools/plain-check"):
            ran = subprocess.run([check, "audit"], input=replies, capture_output=True)
            self.assertEqual(ran.returncode, 0, ran.stdout + ran.stderr)
            told.append(json.loads(ran.stdout))
        self.assertEqual(*told)
        return told[0]
