"""Starts an exchange on this machine, for a first try: a Redis and a sequencer, until Ctrl-C.

    service/up [FOLDER] [--port N] [--program FILE] [--sessions] [--followers N]
               [--auction MARKET..]

The log stands in FOLDER (ragvismo-log, if not given), so the next call with it goes on where this
one ended. Redis listens on the loopback address alone, at port 6380 if not given, and writes each
append to the disk before it tells of it. Its users are those of service/users, with their passwords
in FOLDER. Sessions 1 to 9 are the operator's, and each other one owns the accounts that it opens;
with --sessions any may move any account. N followers answer questions (1, if not given). With
--auction an auctioneer holds auctions of these markets, and a solver proposes. All end when this
call does, whatever ended it; Redis holds the lock on FOLDER, so no other one writes there.

It ends when Redis ends, or when another of them does with a status at which a person has to look,
which is told; or with
"""

from __future__ import annotations

import argparse
import dataclasses
import functools
import logging
import os
import pathlib
import shutil
import signal
import subprocess
import sys
import time
from collections.abc import Sequence
from typing import BinaryIO

from ragvismo_service import files, users
from ragvismo_service.books import FIRST_SOLVER
from ragvismo_service.places import Place
from ragvismo_service.processes import end_with
from ragvismo_service.program import Rule
from ragvismo_service.statuses import NOT_AGAIN, BadUse, Ended, Status, table
from ragvismo_service.store import Store
from ragvismo_service.words import Words, market, number_of, password, status_of, tool

SERVICE = pathlib.Path(__file__).resolve().parents[1]
Call = list[str | pathlib.Path]
STATUSES = Status.BAD_USE, Status.NO_REDIS, Status.HELD, Status.FILE_FAULT
# How long a Redis of a call before may take to end.
ENDING = 5.0
# The greatest answer, the greatest command, and the greatest reply of Redis: two answers and a
# page.
ANSWER, COMMAND, REPLY = (megabytes << 20 for megabytes in (128, 136, 288))


def redis_words(folder: pathlib.Path, **more: object) -> list[str]:
    """The Redis of an exchange: all in one log, nothing thrown away."""
    settings = {
        "bind": "127.0.0.1",
        "dir": folder,
        "appendonly": "yes",
        "appendfsync": "always",
        "save": "",
        "maxmemory-policy": "noeviction",
        "proto-max-bulk-len": ANSWER,
        "client-query-buffer-limit": COMMAND,
        "client-output-buffer-limit": f"normal {REPLY} 0 0",
        "loglevel": "warning",
        "logfile": "redis.log",
        **more,
    }
    return [
        "redis-server",
        *(word for key, value in settings.items() for word in (f"--{key}", str(value))),
    ]


def started(
    words: Sequence[str | pathlib.Path], handed_on: Sequence[BinaryIO] = ()
) -> subprocess.Popen[bytes]:
    """A process that ends when this one does, and not before by a Ctrl-C at a terminal."""
    return subprocess.Popen(
        words,
        pass_fds=[it.fileno() for it in handed_on],
        preexec_fn=functools.partial(end_with, os.getpid(), Status.NO_REDIS),
        start_new_session=True,
    )


def ended(server: subprocess.Popen[bytes], folder: pathlib.Path) -> Ended:
    return Ended(
        Status.NO_REDIS,
        f"Redis ended with status {server.returncode}; {folder / 'redis.log'} may say why",
    )


def wait_for(server: subprocess.Popen[bytes], store: Store, folder: pathlib.Path) -> None:
    """Waits until a Redis answers, which has to be the one that was started."""
    while not store.answers():
        if server.poll() is not None:
            raise ended(server, folder)
        time.sleep(0.05)
    if f"process_id:{server.pid}\r" not in store.say(b"INFO", b"server").decode():
        raise Ended(Status.NO_REDIS, f"at {store.place} is another Redis")


def keep_up(server: subprocess.Popen[bytes], calls: list[Call], folder: pathlib.Path) -> int:
    """Starts each tool again whenever it ends, until that does not help, or Redis ends; what ends
    with all done stays so."""
    running = [started(call) for call in calls]
    try:
        while server.poll() is None:
            for at, (call, process) in enumerate(zip(calls, running)):
                if process.poll() in NOT_AGAIN:
                    return process.returncode
                if process.returncode:
                    said = "the %s ended with status %s and is started again"
                    logging.info(said, pathlib.Path(call[0]).name, process.returncode)
                    time.sleep(1)
                    running[at] = started(call)
            time.sleep(0.1)
    finally:
        for process in running:
            process.terminate()
        for process in running:
            process.wait()
    raise ended(server, folder)


def calls_of(given: argparse.Namespace, folder: pathlib.Path) -> list[Call]:
    """The tools that are kept up."""
    program = ["--program", given.program]
    patience = ["--patience", str(given.patience)]

    def call(tool: str, user: str, *more: str | pathlib.Path) -> Call:
        return [SERVICE / tool, *words_of(user, given.port, folder), *patience, *more]

    sessions = ["--sessions"] if given.rule is Rule.SESSIONS else []
    calls = [call("sequencer", "sequencer", *program, *sessions)]
    calls += given.followers * [call("follower", "follower", *program, *sessions)]
    if given.auction:
        calls.append(call("auctioneer", "auctioneer", *map(str, given.auction)))
        calls.append(call("solver", f"solver-{FIRST_SOLVER}", *program, str(FIRST_SOLVER)))
    return calls


def words_of(user: str, place: Place, folder: pathlib.Path) -> list[str]:
    """The words with which a tool is a user of the exchange at a port."""
    return [
        "--at",
        f"redis://{user}@127.0.0.1:{place.port}",
        "--password",
        f"{folder / user}.password",
    ]


def port(text: str) -> Place:
    """The place at a port of this machine; raises BadUse."""
    if not text.isdecimal():
        raise BadUse(f"{text} is no port")
    return Place.of(text)


def run() -> int:
    words = Words(f"{__doc__}{table(*STATUSES)}", is_placed=False)
    words.add_argument(
        "folder",
        metavar="FOLDER",
        type=pathlib.Path,
        nargs="?",
        default=pathlib.Path("ragvismo-log"),
    )
    words.add_argument("--port", type=port, default="6380", metavar="N")
    words.add_program()
    words.add_rule()
    followers = number_of(0, 64, "number of followers")
    words.add_argument("--followers", type=followers, default=1, metavar="N")
    words.add_argument("--auction", type=market, nargs="+", default=[], metavar="MARKET")
    given = words.parse_args()
    if not shutil.which("redis-server"):
        raise BadUse("redis-server is missing; tools/setup installs it")
    folder: pathlib.Path = given.folder.resolve()
    signal.signal(signal.SIGTERM, lambda *_: sys.exit(128 + signal.SIGTERM))
    with files.lock(folder, ENDING) as lock:
        settings = {"port": given.port.port, "aclfile": users.write(folder)}
        server = started(redis_words(folder, **settings), [lock])
    try:
        place = dataclasses.replace(
            given.port, user="watch", password=password(f"{folder}/watch.password")
        )
        wait_for(server, Store(place, given.patience, tool()), folder)
        print(
            "the exchange is up: service/client.py 1",
            *words_of("gateway", given.port, given.folder),
            flush=True,
        )
        return keep_up(server, calls_of(given, folder), folder)
    finally:
        server.terminate()
        server.wait()


def main() -> int:
    return status_of(run)
