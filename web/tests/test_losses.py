"""What is killed comes again, and nothing is lost or counted twice."""

from __future__ import annotations

import collections
import concurrent.futures
import http.client
import threading
import time
from typing import Any

from tests.trading import IS_SKIPPED, Trading, Visitor, let_through, wait_until

if not IS_SKIPPED:
    from ragvismo_gateway.limits import Limits


class Sender(threading.Thread):
    """A member who sends lines, each under its key until it is answered, until it is told to
    end."""

    def __init__(self, visitor: Visitor) -> None:
        super().__init__(daemon=True)
        self.visitor, self.is_over, self.lost = visitor, False, 0
        self.told: list[Any] = []

    def run(self) -> None:
        while not self.is_over:
            while not self.is_answered(f"key-{len(self.told)}"):
                time.sleep(0.05)

    def is_answered(self, key: str) -> bool:
        try:
            reply = self.visitor.line("withdraw,101,1", key)
        except (OSError, http.client.HTTPException):
            self.lost += 1
            return False
        if reply.status == 200:
            self.told.append(reply.json()["reply"])
        return reply.status == 200

    def wait_for(self, answered: int = 0, lost: int = 0) -> None:
        """Waits until so many lines more are answered, and so many lost."""
        answered, lost = len(self.told) + answered, self.lost + lost
        wait_until(lambda: len(self.told) >= answered and self.lost >= lost, "no line is sent")


class Losses(Trading):
    def test_parts_are_killed(self) -> None:
        """Each while lines are sent, and started again; each line counts once."""
        self.say(ana="open,101", operator="deposit,101,1000000")
        ana = self.visitor("ana")
        before = int(ana.get("/balance/101")["balance"])
        sender = Sender(ana)
        sender.start()
        for part in ("gateway", "gateway", "redis", "gateway"):
            sender.wait_for(answered=8)
            self.kill(part)
            if part == "gateway":
                sender.wait_for(lost=1)
            else:
                # A line waits meanwhile.
                time.sleep(0.2)
            self.start(part)
        sender.wait_for(answered=8)
        sender.is_over = True
        sender.join(180)
        self.assertFalse(sender.is_alive())
        after = int(ana.get("/balance/101")["balance"])
        self.assertEqual(before - after, len(sender.told))
        balances = [int(reply["balance"]) for reply in sender.told]
        self.assertEqual(balances, list(range(before - 1, after - 1, -1)))


class Next(Trading):
    """Another exchange, with the same members."""

    exchange = "first"

    @classmethod
    def words(cls, part: str) -> list[object]:
        place = f"{cls.redis_port}/{cls.exchange}"
        given = super().words(part)
        return given if part == "redis" else [place if it == cls.redis_port else it for it in given]

    def test_a_line_counts_in_one_exchange(self) -> None:
        """It is not sent again to the next one by who had no answer; another line may have its
        key."""
        self.say(ana="open,101", operator="deposit,101,100")
        ana = self.visitor("ana")
        self.assertEqual(ana.line("withdraw,101,1", "last").status, 200)
        for part in ("gateway", "sequencer", "follower"):
            self.kill(part)
        type(self).exchange = "second"
        for part in ("sequencer", "follower", "gateway"):
            self.start(part)
        self.say(ana="open,101", operator="deposit,101,99")
        told = ana.line("withdraw,101,1", "last")
        self.assertEqual((told.status, told.json()["reason"]), (409, "KeyUsed"))
        self.assertEqual(ana.line("withdraw,101,1", "first").status, 200)
        self.assertEqual(ana.line("withdraw,101,2", "last").status, 200)
        self.assertEqual(ana.get("/balance/101")["balance"], "96")


class Floods(Trading):
    @classmethod
    def setUpClass(cls) -> None:
        super().setUpClass()
        for name in ("ana", "ben", "eva"):
            cls.visitor(name)

    def test_a_thousand_logins(self) -> None:
        """They are refused, and who is logged in is answered meanwhile."""
        ana, somebody = self.visitor("ana"), self.visitor()

        def flood(each: int) -> list[int]:
            names = [f"name{each}-{number}" for number in range(250)]
            return [somebody.login(name, "wrong").status for name in names]

        since = time.monotonic()
        with concurrent.futures.ThreadPoolExecutor(4) as pool:
            floods = [pool.submit(flood, each) for each in range(4)]
            while not all(each.done() for each in floods):
                self.assertEqual(ana.ask("GET", "/me").status, 200)
                time.sleep(0.05)
        statuses = [status for each in floods for status in each.result()]
        self.assertEqual(set(statuses), {401, 429})
        self.assertLessEqual(statuses.count(401), let_through(Limits().logins, since))

    def test_many_lines(self) -> None:
        """Who sends too often is refused, and not the others."""
        ana, ben = self.visitor("ana"), self.visitor("ben")
        since = time.monotonic()
        # Each is refused anyway, and so waits for nothing.
        with concurrent.futures.ThreadPoolExecutor(8) as pool:
            said = pool.map(lambda _: ana.line("withdraw,102,1").status, range(200))
        statuses = collections.Counter(said)
        self.assertLessEqual(statuses[403], let_through(Limits().lines, since))
        self.assertEqual(statuses[403] + statuses[429], 200)
        self.assertEqual(ben.line("open,102").status, 200)
