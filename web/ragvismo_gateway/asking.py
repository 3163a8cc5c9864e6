"""Questions, which the followers of the log answer: asking changes nothing, and is no message."""

from __future__ import annotations

import asyncio
import collections
import json
import logging
import queue
import threading
from collections.abc import Callable
from typing import Any

from ragvismo_gateway.refusals import Reason, Refusal
from ragvismo_service.questions import Asked, Asker
from ragvismo_service.statuses import Ended
from ragvismo_service.store import Store

# How long a follower may take, in seconds.
PATIENCE = 20.0
# So many answers are kept that came before it was known to whom.
EARLY = 1000
Waiting = asyncio.Future[Asked]


class Questions:
    """Asks for all members; `fail` is told where Redis does not answer any more."""

    def __init__(self, stores: tuple[Store, Store], fail: Callable[[Exception], None]) -> None:
        self.loop, self.fail = asyncio.get_running_loop(), fail
        self.asker, self.reader = map(Asker, stores)
        self.queue: queue.Queue[tuple[int, bytes, Waiting]] = queue.Queue()
        self.waiting: dict[bytes, Waiting] = {}
        self.early: collections.OrderedDict[bytes, Asked] = collections.OrderedDict()

    def begin(self) -> None:
        for run in (self._put, self._read):
            threading.Thread(target=self._kept_up, args=(run,), daemon=True).start()

    # ---- in threads

    def _kept_up(self, run: Callable[[], None]) -> None:
        try:
            while True:
                run()
        except Exception as fault:
            if not isinstance(fault, Ended):
                logging.exception("the gateway asks no more", exc_info=fault)
            self.fail(fault)

    def _put(self) -> None:
        session, body, waiting = self.queue.get()
        self._post(self._take_id, self.asker.put(session, body), waiting)

    def _read(self) -> None:
        if told := self.reader.read(1.0):
            self._post(self._take, told)

    def _post(self, call: Callable[..., None], *given: Any) -> None:
        if not self.loop.is_closed():
            self.loop.call_soon_threadsafe(call, *given)

    # ---- in the loop

    def _take_id(self, id: bytes, waiting: Waiting) -> None:
        if id in self.early:
            self._answer(waiting, self.early.pop(id))
        elif not waiting.done():
            self.waiting[id] = waiting
            waiting.add_done_callback(lambda _: self.waiting.pop(id, None))

    def _take(self, told: list[Asked]) -> None:
        for asked in told:
            waiting = self.waiting.get(asked.question)
            if waiting:
                self._answer(waiting, asked)
            else:
                self.early[asked.question] = asked
        while len(self.early) > EARLY:
            self.early.popitem(last=False)

    def _answer(self, waiting: Waiting, asked: Asked) -> None:
        if not waiting.done():
            waiting.set_result(asked)

    async def ask(self, session: int, body: str) -> dict[str, Any]:
        """The reply to a question of a session; raises Refusal."""
        waiting: Waiting = self.loop.create_future()
        self.queue.put((session, body.encode(), waiting))
        try:
            asked = await asyncio.wait_for(waiting, PATIENCE)
        except asyncio.TimeoutError:
            raise Refusal(Reason.UNANSWERED, "no follower answers: ask again") from None
        reply = json.loads(asked.answer).get("of")
        if reply is None:
            raise Refusal(Reason.UNANSWERED, "no follower could answer this")
        return dict(reply)
