"""Starts an exchange with its page on this machine, for a first try or an experiment, until Ctrl-C.

    web/up [FOLDER] [--experiment FILE] [--port N] [--redis N] [--program FILE] [--empty]

It starts a Redis, a sequencer, a follower and the gateway, an auctioneer and a solver where there
are auctions, starts again what ends of them, and writes a journal at the end and once an hour. The
page is at http://127.0.0.1:8000, or at another --port; Redis listens on the loopback address too
(6381, or --redis). All stands in FOLDER (ragvismo-web, if not given), so the next call goes on
where this one ended. There are an operator and the members of web/demonstration.json, whose
passwords are printed, and markets with a few orders; not so with --empty. With --experiment FILE
tells markets, members, what they have, and a timetable (web/ragvismo_gateway/setting.py says how);
at the end FOLDER/journal has all messages and answers, and FOLDER/tables what they come to, as
ragvismo.JournalFrames.read takes it. Another file needs another FOLDER.

It ends with 0 at the end of a timetable, when Redis ends, or when another part does with a status
at which a person has to look, which is told; or with
"""

from __future__ import annotations

import dataclasses
import json
import logging
import pathlib
import secrets
import shutil
import signal
import socket
import subprocess
import sys
import threading
import time
from typing import NamedTuple

from client import Session
from ragvismo_gateway.clock import now_in_milliseconds
from ragvismo_gateway.members import Members
from ragvismo_gateway.members_file import FILE, told_faults
from ragvismo_gateway.setting import EMPTY, END, Setting, Step, read
from ragvismo_service import files, users
from ragvismo_service.books import FIRST_SOLVER
from ragvismo_service.places import Place
from ragvismo_service.starting import ENDING, port, redis_words, started, wait_for, words_of
from ragvismo_service.statuses import NOT_AGAIN, BadUse, Ended, Status, table
from ragvismo_service.store import Store
from ragvismo_service.words import Words, password, status_of, tool

WEB = pathlib.Path(__file__).resolve().parents[1]
SERVICE = WEB.parent / "service"
STATUSES = Status.BAD_USE, Status.NO_REDIS, Status.HELD, Status.FILE_FAULT
HOUR = 60 * 60
OPERATOR = "operator"
# The session of the operator's that says what a setting tells.
CASHIER = 8
# How long the solvers of an auction have.
SOLVE = "3"


Call = list[str | pathlib.Path]


class Part(NamedTuple):
    """A process that is kept up."""

    name: str
    words: Call


class Timetable(threading.Thread):
    """Says the lines of a timetable when it is time, each under its number, so that it counts once
    however often this begins anew."""

    def __init__(self, session: Session, number: int, steps: list[tuple[int, str]]) -> None:
        super().__init__(daemon=True, name="timetable")
        self.session, self.number, self.steps = session, number, steps
        self.is_over = False

    def run(self) -> None:
        for number, (at, line) in enumerate(self.steps, self.number):
            time.sleep(max(0.0, (at - now_in_milliseconds()) / 1000))
            if line == END:
                self.is_over = True
                return
            answer = self.session.answer(number, line)
            said = answer.get("of", answer)
            logging.info("%s: %s", line, said.get("reason", said["reply"]))


class Exchange:
    """An exchange in a folder."""

    def __init__(self, folder: pathlib.Path, redis: Place, page: int, program: pathlib.Path):
        self.folder, self.place, self.page = folder, redis, page
        # The file of users stands there, and the log.
        self.log = folder / "log"
        self.program = program
        self.setting = EMPTY
        self.running: dict[str, subprocess.Popen[bytes]] = {}
        self.timetable: Timetable | None = None

    def at(self, user: str) -> list[str]:
        return words_of(user, self.place, self.log)

    def place_as(self, user: str) -> Place:
        secret = password(f"{self.log}/{user}.password")
        return dataclasses.replace(self.place, user=user, password=secret)

    def part(self, name: str, user: str, *more: str | pathlib.Path) -> Part:
        return Part(name, [SERVICE / name, *self.at(user), *more])

    def parts(self) -> list[Part]:
        """What is kept up, the sequencer first."""
        listen = "--listen", f"127.0.0.1:{self.page}"
        gateway: Call = [WEB / "gateway", self.folder / "gateway", *listen, *self.at("gateway")]
        program = "--program", self.program
        parts = [self.part(name, name, *program) for name in ("sequencer", "follower")]
        markets = [str(market) for market, _ in self.setting.markets]
        if self.setting.auctions and markets:
            every = str(self.setting.auctions)
            gateway += ["--auctions", every]
            gateway += [word for market in markets for word in ("--auctioned", market)]
            words = *markets, "--every", every, "--solve", SOLVE
            parts.append(self.part("auctioneer", "auctioneer", *words))
            solver = str(FIRST_SOLVER)
            parts.append(self.part("solver", f"solver-{solver}", *program, solver))
        if self.timetable:
            gateway += ["--timetable", self.folder / "timetable.json"]
        return [*parts, Part("gateway", gateway)]

    def write_journal(self) -> None:
        words: Call = [SERVICE / "journal", self.folder / "journal", *self.at("journal")]
        subprocess.run(words, check=False)

    def write_tables(self) -> None:
        """Writes what the journal tells as tables."""
        try:
            from ragvismo import read_journal
        except ImportError as fault:
            logging.info("no tables are written: %s; tools/setup installs it", fault)
            return
        replies = sorted((self.folder / "journal").glob("*.replies"))
        together = self.folder / "replies"
        files.write(together, b"".join(path.read_bytes() for path in replies), 0o600)
        files.make(self.folder / "tables")
        read_journal(together).write(self.folder / "tables")

    def look_after(self, part: Part) -> None:
        """Starts a part, and again where it ended, but for an auctioneer that has no more to do;
        Ended where that does not help."""
        process = self.running.get(part.name)
        if process:
            is_done = process.poll() == Status.DONE and part.name == "auctioneer"
            if process.returncode is None or is_done:
                return
            for status in (it for it in NOT_AGAIN if it == process.returncode):
                raise Ended(status, f"the {part.name} ended: {status.said}")
            logging.info(
                "the %s ended with status %s and is started again", part.name, process.returncode
            )
            time.sleep(0.5)
        self.running[part.name] = started(part.words)

    def keep_up(self, server: subprocess.Popen[bytes]) -> None:
        """Keeps the parts up until a timetable or Redis ends."""
        parts, written = self.parts(), time.monotonic()
        while server.poll() is None:
            for part in parts:
                self.look_after(part)
            if time.monotonic() > written + HOUR:
                self.write_journal()
                written = time.monotonic()
            if self.timetable and self.timetable.is_over:
                return
            time.sleep(0.1)
        said = f"Redis ended with status {server.returncode}; {self.log / 'redis.log'} may say why"
        raise Ended(Status.NO_REDIS, said)

    def stop(self) -> None:
        for process in self.running.values():
            process.terminate()
        for process in self.running.values():
            process.wait()
        self.write_journal()
        if self.setting.timetable:
            self.write_tables()

    # ---- what it begins with

    def check_same(self, setting: Setting) -> None:
        """Keeps what the exchange begins with; raises BadUse where it began with something else,
        whose members are not these, and whose timetable is over."""
        path = self.folder / "setting.json"
        told = json.dumps([setting.markets, setting.members, setting.timetable]).encode()
        if not path.exists():
            files.write(path, told)
        if path.read_bytes() != told:
            raise BadUse(f"{self.folder} began with another experiment: give another FOLDER")

    def passwords(self) -> dict[str, str]:
        """Those of the members, made where there are none."""
        path, names = self.folder / "passwords.json", [it.name for it in self.setting.members]
        if not path.exists():
            made = {name: secrets.token_urlsafe(9) for name in (OPERATOR, *names)}
            files.write(path, json.dumps(made).encode(), 0o600)
        return dict(json.loads(path.read_bytes()))

    def begin(self, setting: Setting) -> None:
        """Adds members and says what a setting tells; a second time nothing changes. Raises BadUse
        where it is another one."""
        self.check_same(setting)
        self.setting = setting
        done, told = self.folder / "begun", self.passwords()
        files.make(self.folder / "gateway")
        with told_faults():
            members = Members(self.folder / "gateway" / FILE)
            for name, secret in told.items():
                if not members.named(name):
                    members.add(name, "operator" if name == OPERATOR else "trader", secret)
            if not done.exists():
                self.look_after(self.parts()[0])
                self.say_all(members)
                files.write(done, b"%d" % now_in_milliseconds())
        if setting.timetable:
            self.take_times(int(done.read_bytes()), setting.timetable)
        print("\n".join(f"{name:10} {secret}" for name, secret in told.items()), flush=True)

    def say_all(self, members: Members) -> None:
        """Says the lines of a setting; BadUse where one is refused."""
        sessions, numbers = dict[int, Session](), dict[int, int]()
        for name, line in self.setting.lines(OPERATOR):
            member = members.named(name)
            assert member
            session = CASHIER if name == OPERATOR else member.session
            if session not in sessions:
                sessions[session] = Session(self.place_as("gateway"), session, 1)
            numbers[session] = number = numbers.get(session, 0) + 1
            said = sessions[session].answer(number, line).get("of", {})
            if said.get("reply") == "refused":
                raise BadUse(f"{name} may not say {line}: {said['reason']}")

    def take_times(self, begun: int, timetable: list[Step]) -> None:
        """The lines of a timetable, to be said in time."""
        said = sum(name == OPERATOR for name, _ in self.setting.lines(OPERATOR))
        steps = [(begun + int(1000 * at), line) for at, line in timetable]
        files.write(self.folder / "timetable.json", json.dumps(steps).encode())
        self.timetable = Timetable(Session(self.place_as("gateway"), CASHIER, 1), said + 1, steps)
        self.timetable.start()


def check_free(number: int) -> None:
    """Raises BadUse where somebody listens at a port."""
    with socket.socket() as one:
        if one.connect_ex(("127.0.0.1", number)) == 0:
            raise BadUse(f"somebody listens at port {number} already; --port takes another")


def run() -> None:
    words = Words(f"{__doc__}{table(*STATUSES)}", is_placed=False)
    folder = pathlib.Path("ragvismo-web")
    words.add_argument("folder", metavar="FOLDER", type=pathlib.Path, nargs="?", default=folder)
    usual = WEB / "demonstration.json"
    words.add_argument("--experiment", type=pathlib.Path, default=usual, metavar="FILE")
    words.add_argument("--port", type=port, default="8000", metavar="N")
    words.add_argument("--redis", type=port, default="6381", metavar="N")
    words.add_argument("--empty", action="store_true")
    words.add_program()
    given = words.parse_args()
    if not shutil.which("redis-server"):
        raise BadUse("redis-server is missing; tools/setup installs it")
    setting = EMPTY if given.empty else read(given.experiment)
    check_free(given.port.port)
    signal.signal(signal.SIGTERM, lambda *_: sys.exit(128 + signal.SIGTERM))
    exchange = Exchange(given.folder.resolve(), given.redis, given.port.port, given.program)
    with files.lock(exchange.log, ENDING) as lock:
        settings = {"port": given.redis.port, "aclfile": users.write(exchange.log)}
        server = started(redis_words(exchange.log, **settings), [lock])
    try:
        wait_for(server, Store(exchange.place_as("watch"), given.patience, tool()), exchange.log)
        if not given.empty:
            exchange.begin(setting)
        print(f"the page is at http://127.0.0.1:{exchange.page}", flush=True)
        exchange.keep_up(server)
    finally:
        exchange.stop()
        server.terminate()
        server.wait()


def main() -> int:
    return status_of(run)
