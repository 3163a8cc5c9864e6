"""Messages while sequencers, programs and Redis are killed: each is answered once, with the answers
of one run."""

from __future__ import annotations

import os
import signal
import time

from tests.standing import Given, Service, Trader

# Between two kills, in seconds: some fall into the start of a sequencer, which takes about 0.3.
LONGEST_PAUSE = 1.0


class Kills(Service):
    def setUp(self) -> None:
        super().setUp()
        self.messages, self.kills, self.redis_kills = (
            (20000, 200, 20) if Given.is_long else (400, 5, 2)
        )

    def trade(self, clients: int, messages: int, sequencers: int, order: list[str]) -> None:
        for _ in range(sequencers):
            self.start_sequencer()
        traders = [
            Trader(self.session(at), messages // clients, at) for at in range(1, clients + 1)
        ]
        for trader in traders:
            trader.start()
        self.random.shuffle(order)
        for victim in order:
            time.sleep(self.random.uniform(0, LONGEST_PAUSE))
            getattr(self, f"kill_{victim}")()
        for trader in traders:
            trader.join(600)
            self.assertFalse(trader.is_alive() or trader.fault, repr(trader.fault))
        self.check(traders)

    def kill_redis(self) -> None:
        self.stop_redis()
        self.start_redis()

    def kill_sequencer(self) -> None:
        victim = self.random.choice(self.sequencers)
        self.assertIsNone(victim.poll(), "it ended by itself")
        self.kill(victim)
        self.start_sequencer()

    def kill_program(self) -> None:
        victim = self.random.choice(self.sequencers)
        os.kill(self.program_of(victim), signal.SIGKILL)
        self.assertEqual(victim.wait(120), 7)
        self.kill(victim)
        self.start_sequencer()

    def test_one_sequencer(self) -> None:
        self.trade(20, self.messages, 1, [])

    def test_sequencers_are_killed(self) -> None:
        self.trade(20, self.messages, 1, ["sequencer"] * self.kills)

    def test_redis_is_killed(self) -> None:
        self.trade(20, self.messages, 1, ["redis"] * self.redis_kills)

    def test_all_are_killed_and_three_answer(self) -> None:
        victims = (
            ["sequencer"] * self.kills + ["program"] * self.kills + ["redis"] * self.redis_kills
        )
        self.trade(20, self.messages, 3, victims)

    def test_two_answer(self) -> None:
        self.trade(5, self.messages // 4, 2, ["sequencer"] * (self.kills // 4))
