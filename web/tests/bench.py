"""Measures the gateway with many members at once: web/bench [--members N] [--rate R] [--seconds S]

Each of N members (200) is connected by a WebSocket, and places R orders a second (5) for S seconds
(30) in one of 40 markets, which the operator clears in turn. What is printed is how many orders
were answered a second, the time from an order to its answer, how many orders the gateway refused,
and how many connections were lost. The program is that of RAGVISMO_EXCHANGE, or the one that
./build makes.
"""

from __future__ import annotations

import argparse
import asyncio
import json
import statistics
import time
from typing import Any

import aiohttp
from client import Session
from ragvismo_gateway.members import Member, Members
from ragvismo_gateway.members_file import FILE

from tests.trading import SECRET, Trading

MARKETS, FIRST_SESSION, TICKS = 40, 10, 1_000_000
# A market is cleared so often, in seconds.
CLEAR = 5.0


class Bench(Trading):
    """The exchange of the tests, with so many members."""

    members = 200

    @classmethod
    def begin(cls) -> list[str]:
        """Starts all, and tells the tokens of the operator and of all others."""
        cls.take_place()
        tokens = cls.add_members()
        for part in ("redis", "sequencer"):
            cls.start(part)
        cls.add_accounts()
        cls.start("gateway")
        return tokens

    @classmethod
    def add_members(cls) -> list[str]:
        """Tokens of the operator and of all others; one password is hashed for all."""
        file = Members(cls.folder / FILE)
        operator = file.add("operator", "operator", SECRET)
        hashed = file.password_hash("operator")
        tokens = [file.give_token(operator, "token", 1)]
        for session in range(FIRST_SESSION, FIRST_SESSION + cls.members):
            row = f"member{session}", session, "trader", hashed
            file.file.execute("INSERT INTO members VALUES (?, ?, ?, ?)", row)
            tokens.append(file.give_token(Member(*row[:3]), "token", 1))
        file.close()
        return tokens

    @classmethod
    def add_accounts(cls) -> None:
        """Lists markets; each member opens an account of its session's number, with ticks."""
        cashier = Session(f"127.0.0.1:{cls.redis_port}", 9, 1)
        for market in range(1, MARKETS + 1):
            cashier.ask(f"market,{market},1")
        for session in range(FIRST_SESSION, FIRST_SESSION + cls.members):
            Session(f"127.0.0.1:{cls.redis_port}", session, 1).ask(f"open,{session}")
            cashier.ask(f"deposit,{session},{TICKS}")


class Told:
    """What came of all orders."""

    def __init__(self) -> None:
        self.times: list[float] = []
        self.refused, self.unanswered, self.lost = 0, 0, 0

    def row(self, seconds: float) -> str:
        each = sorted(1000 * it for it in self.times) or [0.0]
        late = each[min(len(each) - 1, int(0.99 * len(each)))]
        told = f"{len(self.times) / seconds:.0f} answered a second; "
        told += (
            f"median {statistics.median(each):.0f} ms, p99 {late:.0f} ms, most {each[-1]:.0f} ms"
        )
        beside = f"; {self.refused} refused, {self.unanswered} unanswered"
        return f"{told}{beside}, {self.lost} connections lost"


class Talker:
    """A member over its WebSocket."""

    def __init__(self, session: aiohttp.ClientSession, port: int, token: str, told: Told) -> None:
        self.session, self.told = session, told
        self.place = f"http://127.0.0.1:{port}/feed"
        self.headers = {"Authorization": f"Bearer {token}"}
        self.sent: dict[str, float] = {}
        self.is_over = False

    async def connect(self) -> None:
        self.socket = await self.session.ws_connect(self.place, headers=self.headers)
        self.reading = asyncio.create_task(self.read())

    async def read(self) -> None:
        async for message in self.socket:
            text = message.data
            # Frames of events end so, and are not looked at.
            if not isinstance(text, str) or text.endswith("]}"):
                continue
            answer: dict[str, Any] = json.loads(text)
            since = self.sent.pop(answer["key"])
            if answer["status"] == 200:
                self.told.times.append(time.monotonic() - since)
            else:
                self.told.refused += 1
        self.told.lost += not self.is_over

    async def say(self, lines: list[str], begin: float, each: float) -> None:
        """Sends each line when it is time, whatever came before."""
        for at, line in enumerate(lines):
            await asyncio.sleep(max(0.0, begin + at * each - time.monotonic()))
            if self.socket.closed:
                break
            self.sent[f"{at}"] = time.monotonic()
            await self.socket.send_json({"key": f"{at}", "line": line})

    async def end(self) -> None:
        until = time.monotonic() + 15
        while self.sent and not self.socket.closed and time.monotonic() < until:
            await asyncio.sleep(0.05)
        self.told.unanswered += len(self.sent)
        self.is_over = True
        await self.socket.close()
        await self.reading


async def talk(port: int, tokens: list[str], rate: float, seconds: float) -> Told:
    """All members at once, and the operator."""
    told, beside = Told(), Told()
    async with aiohttp.ClientSession(connector=aiohttp.TCPConnector(limit=0)) as session:
        operator = Talker(session, port, tokens[0], beside)
        members = [Talker(session, port, token, told) for token in tokens[1:]]
        for talker in (operator, *members):
            await talker.connect()
        begin = time.monotonic() + 0.5
        clears = [f"clear,{at % MARKETS + 1},1" for at in range(int(seconds / CLEAR * MARKETS))]
        saying = [operator.say(clears, begin, CLEAR / MARKETS)]
        for at, talker in enumerate(members):
            line = f"buy,{FIRST_SESSION + at},{at % MARKETS + 1},call,10,1,1,1"
            late = at / len(members) / rate
            saying.append(talker.say([line] * int(rate * seconds), begin + late, 1 / rate))
        await asyncio.gather(*saying)
        for talker in (operator, *members):
            await talker.end()
    return told


def main() -> int:
    words = argparse.ArgumentParser(
        description=__doc__, formatter_class=argparse.RawDescriptionHelpFormatter
    )
    words.add_argument("--members", type=int, default=200, metavar="N")
    words.add_argument("--rate", type=float, default=5.0, metavar="R")
    words.add_argument("--seconds", type=float, default=30.0, metavar="S")
    given = words.parse_args()
    Bench.members = given.members
    try:
        tokens = Bench.begin()
        told = asyncio.run(talk(Bench.port, tokens, given.rate, given.seconds))
    finally:
        Bench.doClassCleanups()
    print(
        f"{given.members} members, {given.rate:g} orders a second each: {told.row(given.seconds)}"
    )
    return 0
