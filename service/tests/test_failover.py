"""Two Redis that sentinels watch: one takes the place of the other, and nothing that was answered
is lost."""

from __future__ import annotations

import dataclasses
import os
import re
import signal
import subprocess
import time
from unittest import mock

import redis

from client import Session
from ragvismo_service import backups, connecting, users
from ragvismo_service.chain import FIRST_HEAD
from ragvismo_service.connecting import pool_at, pool_of
from ragvismo_service.places import Place
from ragvismo_service.store import Store
from ragvismo_service.words import password
from tests.standing import HERE, Given, Service, Trader, free_port

GROUP = "ragvismo"
# What the sentinel does every few seconds it does ten times a second here, and after it stood still
# itself it does no less. The copy that takes the place of a master has to have told of itself in
# the time of five pings, and does so once a second then.
OFTEN = "INFO", "PUBLISH", "ASK", "MIN-LINK-RECONNECT", "TILT"
SOON = ["PING-PERIOD 500", *(f"{what}-PERIOD 100" for what in OFTEN)]
# How long a master may be silent, in milliseconds: one that is slow, and one that is killed. The
# sentinel itself may stand still for ten times as long.
SLOW, KILLED = 3_600_000, 3_000


def shipped(name: str) -> dict[str, object]:
    """The settings of a file of ours, those of a group among them."""
    return dict(re.findall(r"(?m)^#?([a-z-]+) (.+)$", (HERE / "systemd" / name).read_text()))


class Failover(Service):
    """An exchange in a group of two Redis."""

    def setUp(self) -> None:
        # Much is asked but once here, of Redis and of the sentinel, which may be slow.
        patched = mock.patch.multiple(connecting, WATCHED_REPLY=120, SENTINEL_REPLY=120)
        patched.start()
        self.addCleanup(patched.stop)
        super().setUp()

    def start_redis(self) -> None:
        self.users = self.folder / "users"
        users.write(self.users)
        self.servers: dict[int, subprocess.Popen[bytes]] = {}
        self.ports, self.sentinel_port = [free_port(), free_port()], free_port()
        for port in self.ports:
            self.write_settings(port)
            self.start_one(
                port,
                *(
                    ["--replicaof", "127.0.0.1", str(self.ports[0])]
                    if port != self.ports[0]
                    else []
                ),
            )
        self.until(lambda: self.is_whole(self.ports[0]))
        self.start_sentinel()
        self.place = self.in_group("gateway")
        self.redis = redis.Redis(connection_pool=pool_of(self.in_group("sequencer"), "test"))
        self.at = ["--at", f"redis://sequencer@{GROUP}", "--sentinel", str(self.sentinel_port)]
        self.at += ["--password", f"{self.users}/sequencer.password"]

    def user(self, name: str, port: int = 0) -> Place:
        return Place(
            port=port or self.port, user=name, password=password(f"{self.users / name}.password")
        )

    def in_group(self, user: str) -> Place:
        sentinels = (Place(port=self.sentinel_port),)
        return dataclasses.replace(self.user(user), host=GROUP, sentinels=sentinels)

    def write_settings(self, port: int) -> None:
        """The file of one Redis, in which a sentinel writes too."""
        own = self.folder / str(port)
        own.mkdir()
        settings = {
            **shipped("redis-ragvismo.conf"),
            "port": port,
            "dir": own,
            "logfile": own / "log",
            "pidfile": own / "pid",
            "aclfile": self.users / "users.acl",
            "masterauth": password(str(self.users / "replica.password")),
            "repl-diskless-sync-delay": 0,
            # A copy that is stopped counts as one, however long a test takes then.
            "min-replicas-max-lag": 3600,
        }
        (own / "redis.conf").write_text(
            "".join(f"{key} {value}\n" for key, value in settings.items())
        )

    def start_one(self, port: int, *words: str) -> None:
        own = self.folder / str(port)
        self.servers[port] = subprocess.Popen(["redis-server", own / "redis.conf", *words])

    def start_sentinel(self) -> None:
        path = self.folder / "sentinel.conf"
        text = (HERE / "systemd/sentinel-ragvismo.conf").read_text()
        for here, there in {
            "port 26380": f"port {self.sentinel_port}\ndir {self.folder}\nlogfile sentinel.log",
            "HOST 6380 2": f"127.0.0.1 {self.ports[0]} 1",
            "PASSWORD": password(str(self.users / "sentinel.password")),
            "milliseconds ragvismo 5000": f"milliseconds ragvismo {SLOW}",
            "timeout ragvismo 30000": "timeout ragvismo 3000",
        }.items():
            self.assertEqual(text.count(here), 1)
            text = text.replace(here, there)
        path.write_text(text)
        self.servers[self.sentinel_port] = subprocess.Popen(["redis-server", path, "--sentinel"])
        self.sentinel = redis.Redis(port=self.sentinel_port)
        self.until(self.sentinel_answers)
        self.sentinel.execute_command("SENTINEL DEBUG", *" ".join(SOON).split())
        self.until(lambda: bool(self.sentinel.sentinel_slaves(GROUP)))

    def sentinel_answers(self) -> bool:
        try:
            return bool(self.sentinel.ping())
        except redis.ConnectionError:
            return False

    def stop_redis(self) -> None:
        for server in self.servers.values():
            server.kill()
            server.wait()

    def master(self) -> int:
        return int(self.sentinel.sentinel_master(GROUP)["port"])

    def other(self, port: int) -> int:
        return self.ports[1 - self.ports.index(port)]

    def is_whole(self, port: int) -> bool:
        """Whether the Redis at a port is a master with a copy that has caught up, by what both of
        them tell: a master counts one that has not loaded yet what was sent to it."""
        try:
            master, copy = (
                redis.Redis(connection_pool=pool_at(self.user("watch", it))).info("replication")
                for it in (port, self.other(port))
            )
        except redis.RedisError:
            return False
        told = master["role"], master.get("min_slaves_good_slaves"), copy.get("master_link_status")
        return told == ("master", 1, "up")

    def kill_master(self) -> int:
        """Kills the master, whose place the other takes, which may have been stopped; tells which
        it was."""
        old = self.master()
        self.sentinel.sentinel_set(GROUP, "down-after-milliseconds", KILLED)
        self.servers[old].kill()
        self.servers[old].wait()
        os.kill(self.servers[self.other(old)].pid, signal.SIGCONT)
        self.until(lambda: self.master() == self.other(old))
        self.sentinel.sentinel_set(GROUP, "down-after-milliseconds", SLOW)
        return old

    def append_to_one(self, session: Session, body: bytes) -> int:
        """Appends what the other Redis does not take, as it is stopped; no answer comes."""
        copy = self.servers[self.other(self.master())].pid
        os.kill(copy, signal.SIGSTOP)
        session.append(2, body)
        time.sleep(1.5)
        self.assertEqual((self.redis.xlen("ragvismo:in"), self.redis.xlen("ragvismo:out")), (2, 1))
        return copy

    def test_an_answer_comes_when_another_redis_has_the_message(self) -> None:
        self.start_sequencer()
        session = self.session(7, 1)
        session.ask("open,1")
        copy = self.append_to_one(session, b"open,2")
        os.kill(copy, signal.SIGCONT)
        self.until(self.all_answered)
        self.assertEqual(self.published(), self.computed())

    def test_what_one_redis_had_alone(self) -> None:
        """A message that is longer than what is on its way to the other is lost with the master: it
        was not answered, and all goes on without it, as who had read it does."""
        sequencer = self.start_sequencer()
        user = ["--at", f"redis://watch@{GROUP}", "--password", f"{self.users}/watch.password"]
        watch = self.start_watch(*user, "--sentinel", str(self.sentinel_port))
        session = self.session(7, 1)
        session.ask("open,1")
        self.append_to_one(session, b"x" * (15 << 20))
        self.until_told(watch, "2 entries, 1 not answered")
        old = self.kill_master()
        self.start_one(old, "--replicaof", "127.0.0.1", str(self.other(old)))
        self.assertEqual(session.ask("open,2")["line"], 2)
        self.assertEqual((self.redis.xlen("ragvismo:in"), sequencer.poll()), (2, None))
        self.assertEqual(self.published(), self.computed())
        self.until_told(watch, "2 entries, 0 not answered")

    def replace_master(self) -> None:
        """Kills the master; the other takes its place, and it comes again, now and then as the
        master that it was."""
        self.until(lambda: self.is_whole(self.master()))
        time.sleep(self.random.uniform(0, 1))
        old = self.kill_master()
        as_copy = ["--replicaof", "127.0.0.1", str(self.other(old))]
        self.start_one(old, *(as_copy if self.random.random() < 0.7 else []))
        self.until(lambda: self.is_whole(self.other(old)))

    def test_masters_are_killed(self) -> None:
        for _ in range(2):
            self.start_sequencer()
        traders = [Trader(self.session(at), 1_000_000, at) for at in range(1, 11)]
        for trader in traders:
            trader.start()
        for _ in range(20 if Given.is_long else 1):
            self.replace_master()
        for trader in traders:
            trader.is_stopped = True
            trader.join(600)
            self.assertFalse(trader.is_alive() or trader.fault, repr(trader.fault))
        self.assertEqual([it.poll() for it in self.sequencers], [None, None])
        self.check(traders)
        store = Store(self.in_group("journal"), 5, "test")
        holds = backups.made(store, self.folder / "copy", FIRST_HEAD)
        self.assertEqual(holds.answers, len(self.published()))
