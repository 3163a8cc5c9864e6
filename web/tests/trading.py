"""An exchange of its own for tests, whose parts may be killed."""

from __future__ import annotations

import asyncio
import contextlib
import http.client
import json
import os
import pathlib
import secrets
import socket
import subprocess
import sys
import tempfile
import time
import unittest
from collections.abc import Awaitable, Callable
from typing import Any, NamedTuple, TypeVar

from tests import TOP, WEB, Together, missing

sys.path.insert(0, str(TOP / "service"))
PROGRAM = pathlib.Path(
    os.environ.get("RAGVISMO_EXCHANGE", TOP / "crates/exchange_cli/out/exchange_cli")
)
WANTED = missing("redis-server", modules=("redis", "aiohttp", "argon2"))
if not WANTED:
    import aiohttp
    from ragvismo_gateway.limits import Rate
    from ragvismo_gateway.members import Members
    from ragvismo_gateway.members_file import FILE
WHY = f"{' and '.join(WANTED)} is missing; tools/setup installs it"
if not WANTED and not PROGRAM.exists():
    WHY = "the program is not built"
IS_SKIPPED = bool(WANTED) or not PROGRAM.exists()
Told = TypeVar("Told")
SECRET = "correct horse"
# What holds the ports of this process.
HELD: list[socket.socket] = []


class Reply(NamedTuple):
    """What an answer of HTTP says."""

    status: int
    body: bytes
    headers: dict[str, str]

    def json(self) -> Any:
        return json.loads(self.body)


def free_port() -> int:
    """A port that no other process is given while this one runs, at which a server may listen, and
    be started again."""
    held = socket.socket()
    held.setsockopt(socket.SOL_SOCKET, socket.SO_REUSEADDR, 1)
    held.bind(("127.0.0.1", 0))
    HELD.append(held)
    return int(held.getsockname()[1])


class Visitor:
    """Who speaks to a gateway as a page does."""

    # How often in all a request may have no answer in time, since a machine may be slow.
    late = 30

    def __init__(self, port: int) -> None:
        self.port, self.cookie = port, ""
        # What is sent with a request for a WebSocket beside the cookie.
        self.headers: dict[str, str] = {}
        self.origin = f"http://127.0.0.1:{port}"

    def ask(self, method: str, path: str, body: Any = None, **headers: str) -> Reply:
        """A request, made again where it had no answer in time; a header given as "" is left
        out."""
        given = {"Origin": self.origin, "Cookie": self.cookie}
        given |= {name.replace("_", "-"): value for name, value in headers.items()}
        sent = {name: value for name, value in given.items() if value}
        while True:
            connection = http.client.HTTPConnection("127.0.0.1", self.port, timeout=60)
            try:
                connection.request(method, path, body, sent)
                answer = connection.getresponse()
                reply = Reply(answer.status, answer.read(), dict(answer.getheaders()))
            finally:
                connection.close()
            if reply.status != 503 or not Visitor.late:
                return reply
            Visitor.late -= 1

    def get(self, path: str) -> Any:
        return self.ask("GET", path).json()

    def login(self, name: str, password: str = SECRET) -> Reply:
        reply = self.ask("POST", "/login", json.dumps({"name": name, "password": password}))
        self.cookie = reply.headers.get("Set-Cookie", "").partition(";")[0]
        return reply

    def line(self, line: str, key: str = "") -> Reply:
        """What is said to a line, which counts once under its key."""
        key = key or secrets.token_hex(8)
        return self.ask("POST", "/lines", line.encode(), Idempotency_Key=key)

    def reply(self, line: str) -> Any:
        return self.line(line).json()["reply"]

    def over_socket(
        self, talk: Callable[..., Awaitable[Told]], path: str = "/feed", count: int = 1
    ) -> Told:
        """What comes of a talk over a WebSocket, or over so many."""

        async def run() -> Told:
            headers = {"Origin": self.origin, "Cookie": self.cookie, **self.headers}
            headers = {name: value for name, value in headers.items() if value}
            async with aiohttp.ClientSession() as session, contextlib.AsyncExitStack() as opened:
                url = f"http://127.0.0.1:{self.port}{path}"
                talked = [
                    await opened.enter_async_context(session.ws_connect(url, headers=headers))
                    for _ in range(count)
                ]
                told = await asyncio.wait_for(talk(*talked), 600)
            return told

        return asyncio.run(run())


@unittest.skipIf(IS_SKIPPED, WHY)
class Trading(Together):
    """A Redis, a sequencer, a follower and a gateway with an operator and three traders."""

    folder: pathlib.Path
    running: dict[str, subprocess.Popen[bytes]]
    cookies: dict[str, str]
    redis_port: int
    port: int

    @classmethod
    def take_place(cls) -> None:
        """A folder and ports, and that all is ended at the end."""
        held = tempfile.TemporaryDirectory(prefix="ragvismo-web-", ignore_cleanup_errors=True)
        cls.addClassCleanup(held.cleanup)
        cls.folder, cls.running, cls.cookies = pathlib.Path(held.name), {}, {}
        cls.redis_port, cls.port = free_port(), free_port()
        cls.addClassCleanup(cls.stop)

    @classmethod
    def setUpClass(cls) -> None:
        cls.take_place()
        members = Members(cls.folder / FILE)
        for name in ("operator", "ana", "ben", "eva"):
            members.add(name, "operator" if name == "operator" else "trader", SECRET)
        members.close()
        for part in ("redis", "sequencer", "follower", "gateway"):
            cls.start(part)

    @classmethod
    def words(cls, part: str) -> list[object]:
        # So long Redis may be away and the program be silent: longer than a test takes.
        at = "--at", cls.redis_port, "--patience", 600
        if part == "redis":
            log = "--appendonly", "yes", "--appendfsync", "always", "--save", ""
            where = "--port", cls.redis_port, "--bind", "127.0.0.1", "--dir", cls.folder
            return ["redis-server", *where, *log]
        if part == "sequencer":
            return [TOP / "service/sequencer", *at, "--program", PROGRAM]
        if part == "follower":
            return [TOP / "service/follower", *at, "--program", PROGRAM]
        return [WEB / "gateway", cls.folder, *at, "--listen", f"127.0.0.1:{cls.port}"]

    @classmethod
    def start(cls, part: str) -> None:
        """Starts a part, unless it runs."""
        if part in cls.running and cls.running[part].poll() is None:
            return
        with open(cls.folder / f"{part}.log", "ab") as log:
            words = [str(word) for word in cls.words(part)]
            cls.running[part] = subprocess.Popen(words, stdout=log, stderr=log)
        if part in ("redis", "gateway"):
            wait_for(cls.port if part == "gateway" else cls.redis_port)

    @classmethod
    def kill(cls, part: str) -> None:
        cls.running[part].kill()
        cls.running[part].wait()

    @classmethod
    def stop(cls) -> None:
        for part in reversed(cls.running):
            cls.kill(part)

    @classmethod
    def visitor(cls, name: str = "") -> Visitor:
        """Somebody, who is logged in where a name is told."""
        visitor = Visitor(cls.port)
        if name and name not in cls.cookies:
            reply = visitor.login(name)
            assert reply.status == 200, reply
            cls.cookies[name] = visitor.cookie
        visitor.cookie = cls.cookies[name] if name else ""
        return visitor

    @classmethod
    def say(cls, **lines: str) -> None:
        """Has members say lines, which are taken."""
        for name, text in lines.items():
            visitor = cls.visitor(name)
            for line in text.split():
                reply = visitor.line(line)
                assert reply.status == 200, (line, reply)


def let_through(rate: Rate, since: float) -> float:
    """How many a rate has let through since a time, at most."""
    return rate.burst + rate.each_second * (time.monotonic() - since)


def wait_until(holds: Callable[[], bool], told: str) -> None:
    """Waits until something holds; raises TimeoutError, which tells what did not."""
    until = time.monotonic() + 180
    while not holds():
        if time.monotonic() > until:
            raise TimeoutError(told)
        time.sleep(0.01)


def wait_for(port: int) -> None:
    """Waits until somebody listens at a port."""

    def listens() -> bool:
        with socket.socket() as one:
            return one.connect_ex(("127.0.0.1", port)) == 0

    wait_until(listens, f"nobody listens at {port}")
