"""Redis, which may go away and come again."""

from __future__ import annotations

import logging
import time
from collections.abc import Callable
from typing import Any

import redis

from ragvismo_service.connecting import is_away, pool_of
from ragvismo_service.places import Keys, Place
from ragvismo_service.statuses import Ended, Status
from ragvismo_service.watchdog import alive

Command = list[bytes]
PAUSE = 0.1
# What is told as None: that a key is not there, that a group is there already, or that an entry's
# id is not above all others.
NOTHING = (
    "no such key",
    "BUSYGROUP Consumer Group name already exists",
    "The ID specified in XADD is equal or smaller than the target stream top item",
)
# How long to wait until another Redis has what was written, in milliseconds, before all is asked
# again.
COPY = b"1000"


def packed(words: Command) -> bytes:
    """A command as it goes to Redis; that of redis-py takes five times as long."""
    return b"*%d\r\n" % len(words) + b"".join(
        [b"$%d\r\n%b\r\n" % (len(word), word) for word in words]
    )


class Store:
    """A connection to Redis, made anew where it is lost."""

    def __init__(self, place: Place, patience: float, tool: str) -> None:
        self.place, self.patience, self.losses = place, patience, 0
        self.pool = pool_of(place, tool)
        # What has a Redis write, and tell how many others have all that it had then.
        copied = Keys.of(place.name).copied
        self.copy: list[Command] = (
            [[b"SET", copied, b"1"], [b"WAIT", b"1", COPY]] if place.sentinels else []
        )
        self.connection: Any = None

    def ask(self, commands: Callable[[], list[Command]], kept: bool = False) -> list[Any]:
        """What Redis says to commands that are sent together; they are made and sent anew while it
        is away, for as long as patience lasts, so they must do no harm twice. What is said of a key
        that is not there, of a group that is there already, or to an entry whose id is not above
        all others, is None. Where sentinels watch and it is to be `kept`, another Redis has all
        that they read and wrote, and so it outlasts the one that was asked.
        """
        since: float | None = None
        while True:
            try:
                told = (
                    self._ask_kept(commands()) if kept and self.copy else self._ask_once(commands())
                )
                if since is not None:
                    logging.info("Redis answers again after %.1f s", time.monotonic() - since)
                alive()
                return told
            except redis.RedisError as fault:
                if not is_away(fault):
                    raise Ended(Status.NO_REDIS, f"Redis refuses: {fault}") from None
                since = self._lost(fault, since)

    def _lost(self, fault: redis.RedisError, since: float | None) -> float:
        """Takes that Redis is away; tells since when, or it is Ended where that is too long."""
        self.losses += 1
        if self.connection:
            self.connection.disconnect()
        if since is None:
            since = time.monotonic()
            logging.info(
                "no Redis answers at %s, asked again for %g s: %s", self.place, self.patience, fault
            )
        if time.monotonic() - since > self.patience:
            raise Ended(Status.NO_REDIS, f"no Redis answers: {fault}")
        alive()
        time.sleep(PAUSE)
        return since

    def say(self, *words: bytes, kept: bool = False) -> Any:
        """What Redis says to one command."""
        return self.ask(lambda: [list(words)], kept)[0]

    def answers(self) -> bool:
        """Whether a Redis answers now."""
        try:
            return bool(self._ask_once([[b"PING"]]) == [b"PONG"])
        except redis.RedisError:
            return False

    def _ask_kept(self, commands: list[Command]) -> list[Any]:
        *told, _, copies = self._ask_once([*commands, *self.copy])
        if not copies:
            raise redis.ConnectionError("no other Redis takes what this one has")
        return told

    def _ask_once(self, commands: list[Command]) -> list[Any]:
        self.connection = self.connection or self.pool.get_connection("")
        self.connection.send_packed_command([b"".join(map(packed, commands))])
        replies = [self._reply() for _ in commands]
        for reply in replies:
            if isinstance(reply, redis.ResponseError):
                raise reply
        return replies

    def _reply(self) -> Any:
        try:
            return self.connection.read_response()
        except (redis.ConnectionError, redis.TimeoutError):
            raise
        except redis.ResponseError as fault:
            return None if str(fault) in NOTHING else fault
