"""How a Redis is reached: by TCP or TLS, by a socket of this machine, or where sentinels say that
it is."""

from __future__ import annotations

import sys
import urllib.parse
from typing import Any

from ragvismo_service.places import Place

try:
    import redis
    import redis.sentinel
except ImportError:
    sys.exit("python3-redis is missing; tools/setup installs it")

# How long a Redis may take to reply, in seconds; a shorter time where another one takes its place,
# or says which does.
REPLY, WATCHED_REPLY, SENTINEL_REPLY = 30, 5, 1
# How the replies begin of a Redis that is no master now, or has no other one that takes what it is
# given.
NOT_NOW = ("NOREPLICAS", "MASTERDOWN", "UNBLOCKED")


def client_name(tool: str, name: str) -> str:
    """What a tool of the exchange of a name is called among the clients of Redis."""
    return f"ragvismo-{tool}/{urllib.parse.quote(name, safe='')}"


def settings(place: Place) -> dict[str, Any]:
    """How a connection to a place is made, beside its address."""
    given: dict[str, Any] = (
        {"username": place.user, "password": place.password} if place.user else {}
    )
    return {**given, "ssl_check_hostname": True} if place.is_secure else given


def pool_at(place: Place, **more: Any) -> redis.ConnectionPool:
    """The connections to just the Redis of a place."""
    if place.socket:
        kind, address = redis.UnixDomainSocketConnection, {"path": place.socket}
    else:
        kind = redis.SSLConnection if place.is_secure else redis.Connection
        address = {"host": place.host, "port": str(place.port)}
    return redis.ConnectionPool(connection_class=kind, **address, **settings(place), **more)


def pool_of(place: Place, tool: str) -> redis.ConnectionPool:
    """The connections of a tool to a place, which where sentinels watch it are to the one that they
    call master."""
    named = {"client_name": client_name(tool, place.name)}
    if not place.sentinels:
        return pool_at(place, socket_timeout=REPLY, **named)
    watched = redis.sentinel.Sentinel([])
    watched.sentinels = [
        redis.Redis(connection_pool=pool_at(it, socket_timeout=SENTINEL_REPLY))
        for it in place.sentinels
    ]
    more: dict[str, Any] = {
        "ssl": place.is_secure,
        "socket_timeout": WATCHED_REPLY,
        **settings(place),
        **named,
    }
    return redis.sentinel.SentinelConnectionPool(place.host, watched, **more)


def is_away(fault: redis.RedisError) -> bool:
    """Whether a fault is one that goes by itself, as while another Redis takes the place of one
    that is gone."""
    if isinstance(fault, (redis.AuthenticationError, redis.AuthenticationWrongNumberOfArgsError)):
        return False
    passing = (redis.ConnectionError, redis.TimeoutError, redis.ReadOnlyError)
    return isinstance(fault, passing) or str(fault).startswith(NOT_NOW)
