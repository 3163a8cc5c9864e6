"""The feed of a member: what all may see, and its own answers, in frames as they come."""

from __future__ import annotations

import asyncio
import contextlib
import json
import logging
from collections.abc import Awaitable, Callable, Iterator
from typing import Any

from aiohttp import WSMsgType, web
from ragvismo_gateway.desks import Desks
from ragvismo_gateway.members import Member
from ragvismo_gateway.refusals import Reason, Refusal
from ragvismo_gateway.view import Event, View, compact

# What comes within so many seconds is told in one frame.
TOGETHER = 0.1
# So many lines of one feed are not answered yet.
AT_ONCE = 32


def event_text(view: View, member: Member, event: Event) -> str:
    """An event as a member may see it."""
    if event.payouts:
        own = [
            payout
            for payout in event.payouts
            if member.is_operator or view.owners.get(payout["account"]) == member.session
        ]
        return compact({**json.loads(event.text), "payouts": own})
    is_own = event.account and view.owners.get(event.account) == member.session
    return event.named if is_own or member.is_operator else event.text


def news(view: View, member: Member, since: int) -> Iterator[tuple[int, str]]:
    """What came after a place in the log, with its place: the events, and own answers."""
    for event in reversed(view.events):
        if event.at <= since:
            break
        if text := event_text(view, member, event):
            yield event.at, text
    said = view.spoken.get(member.session, {})
    for number in reversed(said):
        spoken = said[number]
        if spoken.at <= since:
            break
        line, reply = spoken.line(), spoken.reply.decode()
        yield spoken.at, f'{{"at":{spoken.at},"event":"answer","line":{line},"reply":{reply}}}'


def frame(view: View, member: Member, since: int) -> str:
    """All that came after a place in the log; where not all of it is kept the first says so, and
    where the log is not so long: it lost its end, or is that of another exchange."""
    told = [text for _, text in sorted(news(view, member, since), key=lambda it: it[0])]
    kept_all = len(view.events) < (view.events.maxlen or 0) or view.events[0].at <= since + 1
    kept_all = kept_all and view.dropped[member.session] <= since <= view.count
    gap = [] if kept_all else ['{"event":"gap"}']
    return f'{{"at":{view.count},"events":[{",".join(gap + told)}]}}'


async def send(socket: web.WebSocketResponse, text: str) -> None:
    """Sends a frame, unless the connection ended meanwhile."""
    if not socket.closed:
        with contextlib.suppress(ConnectionError):
            await socket.send_str(text)


async def tell(
    socket: web.WebSocketResponse, desks: Desks, known: Callable[[], Member | None], since: int
) -> None:
    """Tells what comes, and now and then that nothing did, so that who hears nothing knows of a
    loss; until the socket is closed, or nobody is known by it any more."""
    view, is_due = desks.view, True
    while not socket.closed:
        changed = desks.changed
        if is_due or view.count > since:
            member = known()
            if member is None:
                await socket.close()
                return
            told, since, is_due = frame(view, member, since), view.count, False
            await send(socket, told)
            await asyncio.sleep(TOGETHER)
        else:
            await changed.wait()
            is_due = True


Taking = Callable[[str, str], Awaitable[tuple[int, dict[str, Any]]]]


class Lines:
    """Takes the lines that come over a socket, in order and no more at once than may wait, and
    answers each under its key."""

    def __init__(self, socket: web.WebSocketResponse, take: Taking) -> None:
        self.socket, self.take = socket, take
        self.tasks: set[asyncio.Task[None]] = set()

    async def run(self) -> None:
        async for message in self.socket:
            if message.type is not WSMsgType.TEXT:
                break
            while len(self.tasks) >= AT_ONCE:
                await asyncio.wait(self.tasks, return_when=asyncio.FIRST_COMPLETED)
            task = asyncio.create_task(self._answer(message.data))
            self.tasks.add(task)
            task.add_done_callback(self.tasks.discard)

    async def _answer(self, text: str) -> None:
        key = ""
        try:
            key, line = parts_of(text)
            status, told = await self.take(key, line)
        except Refusal as refusal:
            status, told = refusal.status, refusal.answer()
        except Exception:
            logging.exception("a line over a feed")
            fault = Refusal(Reason.FAULT, "a fault of the gateway")
            status, told = fault.status, fault.answer()
        await send(self.socket, compact({**told, "key": key, "status": status}))


def parts_of(text: str) -> tuple[str, str]:
    """The key and the line of a frame; raises Refusal."""
    try:
        told = json.loads(text)
        key, line = told["key"], told["line"]
        if isinstance(key, str) and isinstance(line, str):
            return key, line
    except (ValueError, KeyError, TypeError, RecursionError):
        pass
    raise Refusal(Reason.FORM, 'a frame is {"key":..,"line":..}')
