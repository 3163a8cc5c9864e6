"""What the gateway knows of the log is told in a moment, however long that is, and so is that
nothing came."""

from __future__ import annotations

import asyncio
import sys
import time
import unittest
from typing import Any
from unittest import mock

from tests import TOP, wants

sys.path.insert(0, str(TOP / "service"))
from ragvismo_gateway.clock import Clock, now_in_milliseconds
from ragvismo_gateway.keeping import KEPT
from ragvismo_gateway.view import KEPT_BYTES, Batch, Market, Spoken, View


class Socket:
    """Takes what is told, until it is closed."""

    def __init__(self) -> None:
        self.told: list[str] = []
        self.closed = False

    async def send_str(self, text: str) -> None:
        self.told.append(text)

    async def close(self) -> None:
        self.closed = True


class Known(unittest.TestCase):
    def test_the_last_batches(self) -> None:
        """However many there are."""
        view, most = View(), 500_000
        view.batches = dict.fromkeys(range(1, most), Batch(b"1-1", {"batch": 0}))
        view.batches |= {at: Batch(b"1-1", {"batch": at}) for at in range(most - 9, most + 1)}
        since = time.process_time()
        for _ in range(100):
            told = view.last_batches(10)
        self.assertLess(time.process_time() - since, 1)
        self.assertEqual([each["batch"] for each in told], list(range(most - 9, most + 1)))
        self.assertEqual(len(view.last_batches(200)), 200)
        self.assertEqual(View().last_batches(200), [])

    def test_the_clock_of_a_market(self) -> None:
        """What comes next there is what its auctioneer or its timetable does, and no other's."""
        market = Market(1, {}, [], 1000)
        late = now_in_milliseconds() + 600_000
        clock = Clock(500, ((1, "clear,2,9"), (late, "settle,2,8")), frozenset((1,)))
        self.assertEqual(clock.next(1, market), {"at": 1500, "does": "clear"})
        self.assertIsNone(clock.next(1, market._replace(is_closed=True)))
        self.assertEqual(clock.next(2, market), {"at": late, "does": "settle"})
        self.assertIsNone(clock.next(3, market))
        self.assertEqual(Clock(500).next(3, market), {"at": 1500, "does": "clear"})

    def test_what_a_session_said_last(self) -> None:
        """A long line or reply pushes out long ones alone, however many bytes these are."""
        view, count = View(), 0

        def say(size: int) -> None:
            nonlocal count
            count += 1
            view.count += 1
            view._speak(10, count, Spoken(view.count, b"1" * size, b""))

        for size in (50, KEPT_BYTES, 50, KEPT_BYTES // 2, KEPT_BYTES // 2, 2 * KEPT_BYTES, 50):
            say(size)
        self.assertEqual(list(view.spoken[10]), [1, 3, 7])
        self.assertEqual(view.dropped[10], 6)
        for _ in range(KEPT + 2):
            say(KEPT_BYTES // KEPT)
        self.assertEqual(list(view.spoken[10]), list(range(10, 10 + KEPT)))
        self.assertEqual(view.sizes[10], KEPT * (KEPT_BYTES // KEPT))
        self.assertEqual(view.dropped[10], 9)

    @wants(modules=("aiohttp", "redis"))
    def test_a_feed_of_which_nothing_is_told(self) -> None:
        """It is told now and then that nothing came, and ends where its login did."""
        from ragvismo_gateway import desks, feeds
        from ragvismo_gateway.members import Member

        async def run() -> list[str]:
            socket: Any = Socket()
            known = mock.Mock(side_effect=[*[Member("ana", 10, "trader")] * 3, None])
            quiet = desks.Desks.__new__(desks.Desks)
            quiet.view, quiet.loop = View(), asyncio.get_running_loop()
            quiet.changed = asyncio.Event()
            quiet._tick()
            await asyncio.wait_for(feeds.tell(socket, quiet, known, 0), 600)
            self.assertTrue(socket.closed)
            return list(socket.told)

        with mock.patch.object(desks, "QUIET", 0.05), mock.patch.object(feeds, "TOGETHER", 0.01):
            self.assertEqual(asyncio.run(run()), ['{"at":0,"events":[]}'] * 3)
