"""Numbering messages: each is kept before it is sent, sent again after a loss, and counts once.

A session has one message under way at a time. Who sends it calls it by a key of its own, and may
send the same again under that key, also to a gateway that was started anew: it is answered as it
was.
"""

from __future__ import annotations

import asyncio
import collections
import json
import logging
import queue
import secrets
import threading
from collections.abc import Callable
from typing import Any, NamedTuple

from ragvismo_gateway.keeping import KEPT, Kept, Message
from ragvismo_gateway.members_file import told_faults
from ragvismo_gateway.refusals import Reason, Refusal
from ragvismo_gateway.view import Spoken, View
from ragvismo_service.chain import Answered
from ragvismo_service.following import Follower
from ragvismo_service.places import Keys
from ragvismo_service.statuses import Ended
from ragvismo_service.store import Command, Store

# How long an answer may take before its sender is told that it may come yet.
PATIENCE = 10.0
# How much is sent together.
TOGETHER = 200
# So often who waits for what changes is woken though nothing did, in seconds.
QUIET = 20.0


class Answer(NamedTuple):
    """The reply to a line, and the key under which it was sent."""

    key: str
    at: int
    line: str
    reply: dict[str, Any]

    def told(self) -> dict[str, Any]:
        return self._asdict()


class Pending(NamedTuple):
    """A message under way."""

    message: Message
    is_answered: asyncio.Event


class Desk:
    """One session: its keys, and what is under way."""

    def __init__(self) -> None:
        self.lock, self.waiting = asyncio.Lock(), 0
        self.numbers: collections.OrderedDict[str, int] = collections.OrderedDict()
        self.pending: Pending | None = None


class Writer(threading.Thread):
    """Keeps messages on the disk and appends them to the log, in order; `fail` is told how it
    ended."""

    def __init__(self, store: Store, kept: Callable[[], Kept], fail: Failing) -> None:
        super().__init__(daemon=True, name="writer")
        self.store, self.kept, self.fail = store, kept, fail
        self.queue: queue.Queue[tuple[Message, bool]] = queue.Queue()

    def put(self, message: Message, is_new: bool) -> None:
        self.queue.put((message, is_new))

    def run(self) -> None:
        try:
            with told_faults():
                self._run(self.kept())
        except Exception as fault:
            self.fail(fault)

    def _run(self, kept: Kept) -> None:
        key = Keys.of(self.store.place.name).taken
        while True:
            together = [self.queue.get()]
            while len(together) < TOGETHER and not self.queue.empty():
                together.append(self.queue.get())
            if new := [message for message, is_new in together if is_new]:
                kept.keep(new)
            commands = [appending(key, message) for message, _ in together]
            self.store.ask(lambda: commands)


Failing = Callable[[Exception], None]


def appending(key: bytes, message: Message) -> Command:
    session, number = b"%d" % message.session, b"%d" % message.number
    fields = [b"session", session, b"number", number, b"body", message.body]
    return [b"XADD", key, b"*", *fields]


class Reader(threading.Thread):
    """Reads the log on; what comes is taken by the loop of the gateway."""

    def __init__(self, follower: Follower, again: Callable[[], None], fail: Failing) -> None:
        super().__init__(daemon=True, name="reader")
        self.follower, self.again, self.fail = follower, again, fail

    def run(self) -> None:
        losses = self.follower.store.losses
        try:
            while True:
                self.follower.wait(1)
                if losses != self.follower.store.losses:
                    losses = self.follower.store.losses
                    self.again()
        except Exception as fault:
            self.fail(fault)


class Desks:
    """The sessions of all members, between the log and those who speak."""

    def __init__(self, view: View, stores: tuple[Store, Store], kept: Callable[[], Kept]) -> None:
        self.view, self.kept = view, kept
        self.desks: dict[int, Desk] = collections.defaultdict(Desk)
        self.changed = asyncio.Event()
        self.ended: asyncio.Future[Exception | None] = asyncio.Future()
        self.loop = asyncio.get_running_loop()
        self.follower = Follower(stores[0], lambda answered, _: self._take(answered))
        self.reader = Reader(self.follower, self._from_thread(self._send_again), self.fail)
        self.writer = Writer(stores[1], kept, self.fail)
        self.is_reading = False
        self.elsewhere: dict[tuple[int, str], bytes] = {}

    # ---- beginning

    def begin(self) -> None:
        """Reads the whole log, and sends again what was kept and is not answered."""
        self.follower.begin()
        self.is_reading = True
        kept = self.kept()
        for session in kept.sessions():
            self._begin_desk(session, kept)
        self.elsewhere = kept.last_elsewhere()
        kept.close()
        self.reader.start()
        self.writer.start()
        self.loop.call_later(QUIET, self._tick)

    def _begin_desk(self, session: int, kept: Kept) -> None:
        """Takes the keys of a session; its newest message, if it is the next, is sent again."""
        last, newest = self.view.last.get(session, 0), kept.of(session)[-1]
        if newest.number > last + 1:
            told = "the log no longer has messages of session %s after its message %s"
            logging.warning(told, session, last)
            kept.forget(session, last)
        elif newest.number > last:
            logging.info("a message of session %s is sent again", session)
            self.desks[session].pending = Pending(newest, asyncio.Event())
            self.writer.put(newest, False)
        for message in kept.of(session):
            self.desks[session].numbers[message.key] = message.number

    # ---- what comes from threads

    def _from_thread(self, call: Callable[[], None]) -> Callable[[], None]:
        return lambda: self._post(call)

    def _post(self, call: Callable[..., None], *given: Any) -> None:
        if not self.loop.is_closed():
            self.loop.call_soon_threadsafe(call, *given)

    def fail(self, fault: Exception) -> None:
        """A thread ended, and so does the gateway."""
        if not isinstance(fault, Ended):
            logging.exception("the gateway ends", exc_info=fault)
        self._post(self._end, fault)

    def stop(self) -> None:
        """Ends the gateway; what is not answered is sent again by the next one."""
        self._end(None)

    def _end(self, fault: Exception | None) -> None:
        if not self.ended.done():
            self.ended.set_result(fault)

    def _take(self, answered: Answered) -> None:
        """In the beginning there is no loop yet that waits, and all is taken at once."""
        if self.is_reading:
            self._post(self._take_now, answered)
        else:
            self.view.take(answered)

    def _tick(self) -> None:
        self._wake()
        self.loop.call_later(QUIET, self._tick)

    def _wake(self) -> None:
        self.changed.set()
        self.changed = asyncio.Event()

    def _take_now(self, answered: Answered) -> None:
        told = self.view.take(answered)
        self._wake()
        if told:
            session, number = told
            pending = self.desks[session].pending if session in self.desks else None
            if pending and pending.message.number == number:
                self.desks[session].pending = None
                pending.is_answered.set()

    def _send_again(self) -> None:
        """A Redis that was away may have lost what was not answered; a repeat does no harm."""
        for desk in self.desks.values():
            if desk.pending:
                self.writer.put(desk.pending.message, False)

    # ---- speaking

    async def say(
        self, session: int, line: bytes, key: str, waiting: int, check: Callable[[], None]
    ) -> Answer:
        """The reply to a line, which counts once however often it is sent under its key; whether
        it may be sent is checked when all before it is answered. Raises Refusal."""
        desk, key = self.desks[session], key or secrets.token_hex(8)
        if desk.waiting >= waiting:
            raise Refusal(Reason.OFTEN, f"{waiting} lines of yours wait already")
        desk.waiting += 1
        try:
            async with desk.lock:
                number = desk.numbers.get(key)
                if number is None:
                    self._check_elsewhere(session, line, key)
                    await self._wait(desk, "it was not taken")
                    check()
                    number = self._send(desk, session, line, key)
                await self._wait(desk, "it may count yet: send it again under its key")
                return self._answer(session, number, line, key)
        finally:
            desk.waiting -= 1

    def _check_elsewhere(self, session: int, line: bytes, key: str) -> None:
        """Raises Refusal where a line may count in another exchange, to which it was sent last."""
        if self.elsewhere.get((session, key)) == line:
            told = "it was sent under this key to another exchange, and may count there"
            raise Refusal(Reason.KEY_USED, told)

    def _send(self, desk: Desk, session: int, line: bytes, key: str) -> int:
        message = Message(session, self.view.last.get(session, 0) + 1, key, line)
        desk.pending = Pending(message, asyncio.Event())
        desk.numbers[key] = message.number
        if len(desk.numbers) > KEPT:
            desk.numbers.popitem(last=False)
        self.writer.put(message, True)
        return message.number

    async def _wait(self, desk: Desk, else_told: str) -> None:
        """Until nothing is under way; raises Refusal where that takes too long."""
        if desk.pending:
            try:
                await asyncio.wait_for(desk.pending.is_answered.wait(), PATIENCE)
            except asyncio.TimeoutError:
                told = f"the exchange does not answer; {else_told}"
                raise Refusal(Reason.UNANSWERED, told) from None

    def _answer(self, session: int, number: int, line: bytes, key: str) -> Answer:
        spoken: Spoken | None = self.view.spoken[session].get(number)
        if spoken is None:
            raise Refusal(Reason.FAULT, "its reply is not kept, or another speaks in your session")
        if spoken.body != line:
            raise Refusal(Reason.KEY_USED, "another line was sent under this key")
        return Answer(key, spoken.at, line.decode(), json.loads(spoken.reply))
