"""Connections: of who is not known yet few are open, and none for long."""

from __future__ import annotations

import asyncio
import collections
import contextlib
import ipaddress
import logging
import socket
import ssl
import traceback
from typing import Any, NamedTuple

from aiohttp import web
from aiohttp.http_exceptions import HttpProcessingError
from ragvismo_gateway.answers import HEADERS, refused
from ragvismo_gateway.refusals import Reason, Refusal


# How long a connection may take to become secret, in seconds.
HANDSHAKE = 10.0
# So many bytes wait behind a request for a WebSocket.
TAIL = 65_536


class Most(NamedTuple):
    """How many connections are open of one network (that of a class, say, whose browsers open six
    each) and of all whose members are not known, for how many seconds each, and of one member; how
    many requests wait in one."""

    of_network: int = 256
    unknown: int = 512
    seconds: float = 60.0
    of_member: int = 64
    waiting: int = 16


def network_of(address: str | None) -> str:
    """An address of IPv4, or of IPv6 the 64 bits that one house has."""
    host = (address or "").partition("%")[0]
    try:
        known = ipaddress.ip_address(host)
    except ValueError:
        return host
    return host if known.version == 4 else str(ipaddress.ip_network(f"{host}/64", strict=False))


def network_at(transport: asyncio.BaseTransport) -> str:
    peer = transport.get_extra_info("peername")
    return network_of(peer[0] if peer else None)


class Connections:
    """What is open, by network where nobody is known, and by member."""

    def __init__(self, most: Most) -> None:
        self.most = most
        # In the order in which they came.
        self.unknown: dict[Connection, str] = {}
        self.members: collections.Counter[str] = collections.Counter()

    def begin(self, connection: Connection, network: str) -> None:
        """Takes a connection; where there are too many one ends, at rest if there is such a one,
        which its browser opens again, and the oldest of these."""
        of_network = [it for it, other in self.unknown.items() if other == network]
        if len(of_network) >= self.most.of_network:
            self.abort(max(of_network, key=Connection.is_at_rest))
        if len(self.unknown) >= self.most.unknown:
            self.abort(max(self.unknown, key=Connection.is_at_rest))
        self.unknown[connection] = network
        asyncio.get_running_loop().call_later(self.most.seconds, self.abort, connection)

    def abort(self, connection: Connection) -> None:
        """Ends a connection of which nobody is known."""
        if self.unknown.pop(connection, None) is not None:
            connection.abort()

    def know(self, connection: Connection, name: str) -> None:
        """A connection that is open is a member's; raises Refusal where there are too many."""
        if connection.member == name or connection.transport is None:
            return
        if self.members[name] >= self.most.of_member:
            told = f"a member has at most {self.most.of_member} connections"
            raise Refusal(Reason.OFTEN, told)
        self.end(connection)
        connection.member = name
        self.members[name] += 1

    def end(self, connection: Connection) -> None:
        """A connection is no more."""
        self.unknown.pop(connection, None)
        if connection.member:
            self.members[connection.member] -= 1


class Connection(web.RequestHandler):
    """A connection by which requests come. What is no HTTP is refused as all else is, and nothing
    of it is written down."""

    def __init__(self, server: web.Server, connections: Connections) -> None:
        # What is taken is counted as it comes, so it may not be compressed.
        more: dict[str, Any] = {"access_log": None, "auto_decompress": False, "lingering_time": 1.0}
        super().__init__(server, loop=asyncio.get_running_loop(), **more)
        self.connections, self.member = connections, ""
        # The socket by which it becomes secret, where it has to.
        self.own: socket.socket | None = None

    def connection_made(self, transport: asyncio.BaseTransport) -> None:
        super().connection_made(transport)
        if not self.own:
            self.connections.begin(self, network_at(transport))

    def is_at_rest(self) -> bool:
        """Whether all is answered that was asked by it, and something was."""
        return self._request_count > 0 and self._waiter is not None and not self._messages

    def abort(self) -> None:
        """Ends at once, also before it is secret."""
        if self.transport:
            self.transport.abort()
        elif self.own:
            with contextlib.suppress(OSError):
                self.own.shutdown(socket.SHUT_RDWR)

    def connection_lost(self, exc: BaseException | None) -> None:
        self.connections.end(self)
        super().connection_lost(exc)

    def data_received(self, data: bytes) -> None:
        try:
            super().data_received(data)
            is_much = len(self._messages) > self.connections.most.waiting
            # What comes behind a request for a WebSocket waits for its answer.
            is_much = is_much or len(self._message_tail) > TAIL
        except ValueError:
            # It asks for no address.
            is_much = True
        if is_much and self.transport:
            self.transport.abort()

    def log_exception(self, *args: Any, **more: Any) -> None:
        """What comes of the end of a connection is no fault, nor of what is no HTTP."""
        is_http = not isinstance(more.get("exc_info"), HttpProcessingError)
        if self.transport is not None and is_http:
            super().log_exception(*args, **more)

    def handle_error(
        self,
        request: web.BaseRequest,
        status: int = 500,
        exc: BaseException | None = None,
        message: str | None = None,
    ) -> web.StreamResponse:
        if request.writer.output_size > 0:
            raise ConnectionError("an answer has begun already")
        if status < 500:
            response = refused(Refusal(Reason.FORM, "this is no request of HTTP"))
        else:
            logging.error("a connection", exc_info=exc)
            response = refused(Refusal(Reason.FAULT, "a fault of the gateway"))
        response.headers.update(HEADERS)
        response.force_close()
        return response


class Greeting(asyncio.Protocol):
    """Has a connection become secret, which is counted from its beginning: what is not secret yet
    takes more memory than what is, and nobody is known by it."""

    def __init__(self, connection: Connection, context: ssl.SSLContext) -> None:
        self.connection, self.context = connection, context

    def connection_made(self, transport: asyncio.BaseTransport) -> None:
        assert isinstance(transport, asyncio.Transport)
        made = self.connection
        try:
            own: socket.socket = transport.get_extra_info("socket").dup()
        except OSError:
            return
        finally:
            # Nothing was read by it, and the connection goes on by a socket of its own.
            transport.abort()
        made.own = own
        made.connections.begin(made, network_at(transport))
        self.task = asyncio.get_running_loop().create_task(self.greet(made, own))

    async def greet(self, made: Connection, own: socket.socket) -> None:
        loop = asyncio.get_running_loop()
        try:
            await loop.connect_accepted_socket(
                lambda: made, own, ssl=self.context, ssl_handshake_timeout=HANDSHAKE
            )
        except OSError as fault:
            made.connections.end(made)
            # These hold what it was to become secret by, which is large, and hold one another.
            traceback.clear_frames(fault.__traceback__)
