"""Copies of a whole log, each a folder from which a Redis starts, and which was tried."""

from __future__ import annotations

import os
import pathlib
import shutil
import subprocess
import tempfile

from ragvismo_service import files
from ragvismo_service.places import Place
from ragvismo_service.starting import redis_words, started, wait_for
from ragvismo_service.statuses import BadUse, Ended, Status
from ragvismo_service.store import Store
from ragvismo_service.verifying import PROCESSORS, Verified, verified

# Where Redis looks for its log, and what says that the log is one file.
LOG, BASE = "appendonlydir", "appendonly.aof.1.base.rdb"
AUTHORITIES = "/etc/ssl/certs/ca-certificates.crt"
MANIFEST = "appendonly.aof.manifest", f"file {BASE} seq 1 type b\n".encode()


def command(store: Store) -> list[str]:
    """A call of redis-cli that speaks to the Redis of a store."""
    place = store.place
    store.say(b"PING")
    if place.socket:
        address = ["-s", place.socket]
    else:
        # Where sentinels watch, that of the connection is the master's.
        address = ["-h", str(store.connection.host), "-p", str(store.connection.port)]
    secure = ["--tls", "--cacert", os.environ.get("SSL_CERT_FILE", AUTHORITIES)]
    user = ["--user", place.user, "--no-auth-warning"] if place.user else []
    return ["redis-cli", *address, *(secure if place.is_secure else []), *user]


def take(store: Store, folder: pathlib.Path) -> None:
    """Copies all that a Redis has to a new folder."""
    for name in ("redis-cli", "redis-server"):
        if not shutil.which(name):
            raise BadUse(f"{name} is missing; tools/setup installs it")
    log = folder / LOG
    files.make(log)
    environment = {**os.environ, "REDISCLI_AUTH": store.place.password}
    words = [*command(store), "--rdb", str(log / BASE)]
    ran = subprocess.run(words, capture_output=True, env=environment if store.place.user else None)
    if ran.returncode or not (log / BASE).exists():
        said = (ran.stderr or ran.stdout).decode(errors="replace").strip().splitlines()
        raise Ended(Status.NO_REDIS, f"Redis gave no copy: {said[-1] if said else ran.returncode}")
    files.close(open(log / BASE, "rb+"))
    files.write(log / MANIFEST[0], MANIFEST[1])


def tried(folder: pathlib.Path, name: str, patience: float, kept: bytes) -> Verified:
    """What holds of a copy, by a Redis of its own; Ended where it does not, or a sum is not in its
    chain."""
    with tempfile.TemporaryDirectory(prefix="ragvismo-") as held:
        socket = pathlib.Path(held) / "redis"
        words = redis_words(
            folder.resolve(), port=0, unixsocket=socket, unixsocketperm=700, logfile=f"{held}/log"
        )
        server = started(words)
        store = Store(Place(socket=str(socket), name=name), patience, "day-end")
        try:
            wait_for(server, store, pathlib.Path(held))
            return verified(store, kept, PROCESSORS)
        finally:
            server.terminate()
            server.wait()


def made(store: Store, folder: pathlib.Path, kept: bytes) -> Verified:
    """A copy in a folder, in the place of one that is there already, and what holds of it."""
    new = folder.with_name(f"{folder.name}.new")
    shutil.rmtree(new, ignore_errors=True)
    take(store, new)
    holds = tried(new, store.place.name, store.patience, kept)
    shutil.rmtree(folder, ignore_errors=True)
    new.rename(folder)
    files.sync(folder.parent)
    return holds
