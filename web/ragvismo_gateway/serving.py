"""The gateway of an exchange: members log in, by a page or by programs, and trade for their own
accounts alone.

    web/gateway FOLDER [--listen HOST:PORT] [--certificate FILE --key FILE] [--host NAME]
                [--auctions SECONDS] [--auctioned MARKET] [--timetable FILE] [--at PLACE]
                [--password FILE]

FOLDER has the members (web/members adds them) and the messages that are not answered yet. Without a
certificate it listens on the loopback address alone (127.0.0.1:8000, if not given). --host, once
for each, tells by which names it is reached beside that. --auctions and --timetable tell what the
page's clock shows: how often an auctioneer begins an auction (in all markets, or in those of
--auctioned, once for each), and a list [[MILLISECONDS, LINE],..] of what the operator says when.
What is asked is asked of service/follower, of which one has to run. docs/WEB.md says more.

It runs until it is stopped, or ends with one line on standard error and status
"""

from __future__ import annotations

import asyncio
import ipaddress
import pathlib
import resource
import signal
import ssl
from argparse import Namespace
from typing import NamedTuple

from aiohttp import web
from ragvismo_gateway import clock
from ragvismo_gateway.asking import Questions
from ragvismo_gateway.clock import Clock
from ragvismo_gateway.connections import Connection, Greeting
from ragvismo_gateway.desks import Desks
from ragvismo_gateway.keeping import Kept
from ragvismo_gateway.limits import Limits
from ragvismo_gateway.members import Members
from ragvismo_gateway.members_file import FILE, told_faults
from ragvismo_gateway.server import Gateway, application
from ragvismo_gateway.view import View
from ragvismo_service import files
from ragvismo_service.statuses import BadUse, Status, table
from ragvismo_service.store import Store
from ragvismo_service.watchdog import ready
from ragvismo_service.words import Words, market, place_of, seconds, status_of

STATUSES = (
    Status.BAD_USE,
    Status.NO_REDIS,
    Status.LOST,
    Status.CUT,
    Status.FORGED,
    Status.CHANGED,
    Status.HELD,
    Status.FILE_FAULT,
)


class Listen(NamedTuple):
    """Where it listens."""

    host: str
    port: int

    @staticmethod
    def of(text: str) -> Listen:
        """The host and the port of a text; raises BadUse."""
        host, _, port = text.rpartition(":")
        if not port.isdecimal() or not 0 < int(port) < 65536:
            raise BadUse(f"{text} is no HOST:PORT")
        return Listen(host.strip("[]") or "127.0.0.1", int(port))

    @property
    def is_loopback(self) -> bool:
        try:
            return ipaddress.ip_address(self.host).is_loopback
        except ValueError:
            return self.host == "localhost"

    @property
    def name(self) -> str:
        host = f"[{self.host}]" if ":" in self.host else self.host
        return f"{host}:{self.port}"

    def names(self) -> set[str]:
        """As browsers name it."""
        return {self.name, f"localhost:{self.port}"} if self.is_loopback else {self.name}

    def url(self, is_secure: bool) -> str:
        return f"http{'s' * is_secure}://{self.name}"


def security(given: Namespace) -> ssl.SSLContext | None:
    """How a connection is kept secret; raises BadUse."""
    if bool(given.certificate) != bool(given.key):
        raise BadUse("a certificate has a key, and a key a certificate")
    if given.certificate:
        context = ssl.create_default_context(ssl.Purpose.CLIENT_AUTH)
        try:
            context.load_cert_chain(given.certificate, given.key)
        except (OSError, ssl.SSLError) as fault:
            raise BadUse(f"{given.certificate} is no certificate with its key: {fault}") from None
        return context
    if not given.listen.is_loopback:
        raise BadUse("without a certificate it listens on the loopback address alone")
    return None


async def serve(given: Namespace, context: ssl.SSLContext | None) -> None:
    """Serves until a signal comes; Ended where the log cannot be read or written."""
    path, place = given.folder / FILE, place_of(given)
    members, stores = Members(path), [Store(place, given.patience, "gateway") for _ in range(5)]
    desks = Desks(View(), (stores[0], stores[1]), lambda: Kept(path, place.name))
    desks.begin()
    questions = Questions((stores[3], stores[4]), desks.fail)
    questions.begin()
    gateway = Gateway(desks, questions, members, stores[2], Limits())
    gateway.hosts = given.listen.names() | set(given.host)
    gateway.is_secure = context is not None
    auctioned = frozenset(given.auctioned)
    gateway.clock = Clock(int(1000 * given.auctions), given.timetable, auctioned)
    runner = web.AppRunner(application(gateway))
    await runner.setup()
    listening = await listen(given.listen, context, runner, gateway)
    print(f"{given.listen.url(context is not None)} is open", flush=True)
    ready()
    for number in (signal.SIGTERM, signal.SIGINT):
        desks.loop.add_signal_handler(number, desks.stop)
    try:
        fault = await desks.ended
    finally:
        listening.close()
        if runner.server:
            await runner.server.shutdown(2.0)
        await runner.cleanup()
    if fault is not None:
        raise fault


async def listen(
    at: Listen, context: ssl.SSLContext | None, runner: web.AppRunner, gateway: Gateway
) -> asyncio.Server:
    """Takes connections; raises BadUse where that is not possible."""

    def connection() -> asyncio.Protocol:
        assert runner.server
        made = Connection(runner.server, gateway.connections)
        return Greeting(made, context) if context else made

    loop = asyncio.get_running_loop()
    try:
        return await loop.create_server(connection, at.host, at.port)
    except OSError as fault:
        raise BadUse(f"it cannot listen at {at.host}:{at.port}: {fault.strerror}") from None


def have_many_files() -> None:
    """Each connection is a file: as many as this process may have."""
    _, most = resource.getrlimit(resource.RLIMIT_NOFILE)
    resource.setrlimit(resource.RLIMIT_NOFILE, (most, most))


def run() -> None:
    words = Words(f"{__doc__}{table(*STATUSES)}")
    words.add_argument("folder", type=pathlib.Path, metavar="FOLDER")
    words.add_argument("--listen", type=Listen.of, default="127.0.0.1:8000", metavar="HOST:PORT")
    words.add_argument("--certificate", metavar="FILE")
    words.add_argument("--key", metavar="FILE")
    words.add_argument("--host", action="append", default=[], metavar="NAME")
    words.add_argument("--auctions", type=seconds, default=0.0, metavar="SECONDS")
    words.add_argument("--auctioned", type=market, action="append", default=[], metavar="MARKET")
    words.add_argument("--timetable", type=clock.read, default=(), metavar="FILE")
    given = words.parse_args()
    context = security(given)
    have_many_files()
    with files.lock(given.folder, 5), told_faults():
        asyncio.run(serve(given, context))


def main() -> int:
    return status_of(run)
