"""The gateway over HTTP: who asks, whether they may, and the answers."""

from __future__ import annotations

import asyncio
import collections
import functools
import json
import logging
import pathlib
import re
import secrets
from collections.abc import Awaitable, Callable
from typing import Any, NamedTuple

from aiohttp import web
from ragvismo_gateway import rule
from ragvismo_gateway.answers import HEADERS, answered, refused
from ragvismo_gateway.asking import Questions
from ragvismo_gateway.clock import Clock, now_in_milliseconds
from ragvismo_gateway.connections import Connection, Connections, network_of
from ragvismo_gateway.desks import Answer, Desks
from ragvismo_gateway.feeds import Lines, tell
from ragvismo_gateway.limits import Buckets, Limits
from ragvismo_gateway.members import LOGIN_DAYS, Member, Members, hashed_password, is_password
from ragvismo_gateway.refusals import Reason, Refusal
from ragvismo_gateway.routes import Handler, Table, openapi
from ragvismo_gateway.view import reply_text
from ragvismo_service.places import Keys
from ragvismo_service.store import Store
from ragvismo_service.streams import counts

PAGE = pathlib.Path(__file__).resolve().parents[1] / "page"
KINDS = {
    ".html": "text/html",
    ".mjs": "text/javascript",
    ".css": "text/css",
    ".replies": "text/plain",
}
COOKIE = "ragvismo"
# A browser takes a cookie of this name from HTTPS alone, and from no neighbour of the gateway.
SECURE_COOKIE = "__Host-ragvismo"
SMALL = 1024
TABLE = Table()
# So many passwords are tried at once, since each takes 64 MB.
HASHES = 2
# So many answers to what is asked are kept.
ASKED = 10_000
# How many units each clear of a question may take.
PRICE_BUDGET, TRY_BUDGET = 300, 2000
FIELDS = {
    "side": "buy|sell",
    "price": "0|[1-9][0-9]{0,12}",
    "option": "(call|put)(,-?[0-9]{1,10}){2,9}",
}
HTTP_REASONS = {404: Reason.UNKNOWN, 405: Reason.METHOD, 413: Reason.LONG}


def status_of(reply: dict[str, Any]) -> int:
    """What the exchange refuses is 422."""
    return 422 if reply["reply"] == "refused" else 200


def encoded(text: str) -> bytes:
    """A text as UTF-8; raises Refusal where it has half a character."""
    try:
        return text.encode()
    except UnicodeEncodeError:
        raise Refusal(Reason.FORM, "a text is UTF-8") from None


async def body_of(request: web.Request, most: int) -> bytes:
    """The body of a request, of which no more is read than may be; raises Refusal."""
    told = Refusal(Reason.LONG, f"at most {most} bytes are taken")
    if (request.content_length or 0) > most:
        raise told
    pieces, size = [], 0
    async for piece in request.content.iter_any():
        size += len(piece)
        if size > most:
            raise told
        pieces.append(piece)
    return b"".join(pieces)


def named(request: web.Request, part: str) -> int:
    """The number in a path; raises Refusal."""
    text = request.match_info[part]
    if not rule.PLAIN.fullmatch(text):
        raise Refusal(Reason.FORM, f"{part} is no number")
    return int(text)


def field(request: web.Request, part: str) -> str:
    """A field of a question that stands in a path; raises Refusal."""
    text = request.match_info[part]
    if not re.fullmatch(FIELDS.get(part, rule.PLAIN.pattern), text):
        raise Refusal(Reason.FORM, f"{part} is not as it should be")
    return text


class Asked(NamedTuple):
    """The reply to a question, and a place in the log of which it knows."""

    at: int
    reply: dict[str, Any]


class Gateway:
    """What stands behind the paths."""

    def __init__(
        self, desks: Desks, questions: Questions, members: Members, store: Store, limits: Limits
    ) -> None:
        self.desks, self.view, self.members, self.limits = desks, desks.view, members, limits
        self.questions, self.store, self.clock = questions, store, Clock()
        self.hosts, self.is_secure = set[str](), False
        self.connections = Connections(limits.connections)
        # A password of nobody, so that a name that is none takes as long as one that is.
        self.nobody = hashed_password(secrets.token_hex())
        self.lines, self.asked = Buckets(limits.lines), Buckets(limits.asked)
        self.logins, self.names = Buckets(limits.logins), Buckets(limits.logins_of_name)
        self.asking, self.questioned = Buckets(limits.questions), collections.Counter[str]()
        self.openings = Buckets(limits.openings)
        self.answers: dict[str, Asked] = {}
        self.hashing, self.reading = asyncio.Semaphore(HASHES), asyncio.Lock()
        self.sockets: dict[str, list[tuple[str, web.WebSocketResponse]]] = collections.defaultdict(
            list
        )

    # ---- who asks

    @property
    def cookie(self) -> str:
        return SECURE_COOKIE if self.is_secure else COOKIE

    def check_origin(self, request: web.Request) -> None:
        """No other page may speak for who is logged in here; raises Refusal."""
        host = request.headers.get("Host")
        if host not in self.hosts:
            raise Refusal(Reason.ORIGIN, "this gateway has another name")
        origin, site = request.headers.get("Origin"), request.headers.get("Sec-Fetch-Site")
        if origin is not None and origin != f"{request.scheme}://{host}":
            raise Refusal(Reason.ORIGIN, "another page asks")
        is_asking = request.method in ("GET", "HEAD") and request.path != "/feed"
        if not is_asking and site not in (None, "same-origin", "none"):
            raise Refusal(Reason.ORIGIN, "another page asks")
        if not is_asking and origin is None and self.login_of(request):
            raise Refusal(Reason.ORIGIN, "with a cookie the page that asks has to be told")

    def login_of(self, request: web.Request) -> str:
        """The cookie of a login, or nothing. Other pages of the host may have set others beside it,
        in any form."""
        for part in request.headers.get("Cookie", "").split(";"):
            name, _, value = part.strip().partition("=")
            if name == self.cookie and value:
                return value
        return ""

    def known(self, request: web.Request) -> Member | None:
        """Who asks, by a token or a login."""
        kind, _, token = request.headers.get("Authorization", "").partition(" ")
        if token:
            return self.members.known_by(token, "token") if kind == "Bearer" else None
        return self.members.known_by(self.login_of(request), "login")

    def member_of(self, request: web.Request) -> Member:
        member = self.known(request)
        if member is None:
            raise Refusal(Reason.LOGIN, "log in first")
        self.know(request, member)
        self.asked.take(member.name)
        return member

    def know(self, request: web.Request, member: Member) -> None:
        """The connection of a request is a member's; raises Refusal."""
        if isinstance(request.protocol, Connection):
            self.connections.know(request.protocol, member.name)

    @TABLE.add(
        "POST",
        "/login",
        True,
        '{"name":..,"password":..}',
        s200="a cookie of a login that holds for 7 days",
    )
    async def login(self, request: web.Request) -> web.StreamResponse:
        """Logs in."""
        try:
            told = json.loads(await body_of(request, SMALL))
            name, password = told["name"], told["password"]
            encoded(name + password)
        except (ValueError, KeyError, TypeError, AttributeError, RecursionError):
            raise Refusal(Reason.FORM, 'a login is {"name":..,"password":..}') from None
        network = network_of(request.remote)
        self.logins.take(network)
        self.names.take((network, name[:64]))
        async with self.hashing:
            hashed = self.members.password_hash(name) or self.nobody
            holds = await asyncio.to_thread(is_password, hashed, password)
        member = self.members.named(name)
        # Meanwhile another password may have been given.
        if member is None or not holds or self.members.password_hash(name) != hashed:
            raise Refusal(Reason.LOGIN, "no member has this name and password")
        # Those that fail are counted.
        self.logins.give(network)
        self.names.give((network, name[:64]))
        self.know(request, member)
        token = self.members.give_token(member, "login", LOGIN_DAYS)
        response = answered(self.told_of(member))
        more: dict[str, Any] = {"httponly": True, "samesite": "Strict", "path": "/"}
        response.set_cookie(self.cookie, token, secure=self.is_secure, **more)
        return response

    @TABLE.add("POST", "/logout", s200="the login is gone, and its feeds are closed")
    async def logout(self, request: web.Request) -> web.StreamResponse:
        """Logs out."""
        member, token = self.member_of(request), self.login_of(request)
        if not self.members.known_by(token, "login"):
            raise Refusal(Reason.FORM, "a token is no login: another password ends it")
        self.members.take_token(token)
        for login, socket in list(self.sockets[member.name]):
            if login == token:
                await socket.close()
        response = answered({})
        response.set_cookie(self.cookie, "", max_age=0, path="/", secure=self.is_secure)
        return response

    def told_of(self, member: Member) -> dict[str, Any]:
        accounts = self.view.accounts.get(member.session, [])
        return {"name": member.name, "role": member.role, "accounts": accounts}

    @TABLE.add("GET", "/me", s200='{"name":..,"role":..,"accounts":[..]}')
    async def me(self, request: web.Request) -> web.StreamResponse:
        """Who is logged in, and the accounts that are theirs."""
        return answered(self.told_of(self.member_of(request)))

    # ---- lines

    async def take(self, member: Member, line: str, key: str) -> Answer:
        """The reply to a line; raises Refusal."""
        self.lines.take(member.name)
        if len(key) > 64 or not key.isascii() or not key.isprintable():
            raise Refusal(Reason.FORM, "a key has at most 64 letters, digits and signs")
        body = encoded(line.removesuffix("\n"))
        check = functools.partial(rule.check, self.view, member, body)
        return await self.desks.say(member.session, body, key, self.limits.waiting, check)

    async def ask(self, member: Member, line: str, changed: Callable[[], int]) -> web.Response:
        """The reply to a question, told again until what it is about changed."""
        asked = self.answers.get(line)
        if asked is None or asked.at < changed():
            asked = Asked(self.view.count, await self.question(member, line))
            if len(self.answers) >= ASKED:
                self.answers.clear()
            self.answers[line] = asked
        return answered({"at": asked.at, **asked.reply}, status_of(asked.reply))

    async def question(self, member: Member, line: str) -> dict[str, Any]:
        """What a follower replies; raises Refusal where a member asks too much."""
        if self.questioned[member.name] >= self.limits.asking:
            raise Refusal(Reason.OFTEN, f"{self.limits.asking} questions of yours wait already")
        self.asking.take(member.name)
        self.questioned[member.name] += 1
        try:
            return await self.questions.ask(member.session, line)
        finally:
            self.questioned[member.name] -= 1

    async def ask_of_account(self, request: web.Request, line: str) -> web.Response:
        """The reply to a question about an account of one's own; raises Refusal."""
        member, account = self.member_of(request), named(request, "account")
        rule.check_owner(self.view, member, account, True)
        return await self.ask(member, line, lambda: self.view.changed(account))

    async def ask_of_market(self, request: web.Request, *parts: str | int) -> web.Response:
        """The reply to a question about a market; a part that is a word is that of the path."""
        given = request.match_info
        told = [field(request, it) if it in given else it for it in map(str, parts)]
        market = named(request, "market")
        changed = functools.partial(self.view.changed_book, market)
        return await self.ask(self.member_of(request), ",".join(told), changed)

    @TABLE.add(
        "POST",
        "/lines",
        takes="one line; the header Idempotency-Key has a key of yours, under which the line may"
        " be sent again and counts once",
        s200='{"at":..,"key":..,"line":..,"reply":REPLY}',
        s422="the same, where the exchange refuses",
    )
    async def post_line(self, request: web.Request) -> web.StreamResponse:
        """Sends a line to the exchange, and tells its reply."""
        member = self.member_of(request)
        body = await body_of(request, rule.PROPOSAL if member.may_propose else rule.LINE)
        try:
            line = body.decode()
        except UnicodeDecodeError:
            raise Refusal(Reason.FORM, "a line is UTF-8") from None
        answer = await self.take(member, line, request.headers.get("Idempotency-Key", ""))
        return answered(answer.told(), status_of(answer.reply))

    # ---- what is seen

    @TABLE.add("GET", "/markets", s200='{"at":..,"markets":[..],"now":..}')
    async def markets(self, request: web.Request) -> web.StreamResponse:
        """The markets, of which each is open, closed or settled; one that is settled has its
        prices, and another one what is next there, and when, in milliseconds."""
        self.member_of(request)
        told = [
            {
                "market": number,
                "next": self.clock.next(number, market),
                "orders": len(market.orders),
                "phase": market.phase,
                "prices": market.prices,
                "underlyings": market.underlyings,
            }
            for number, market in sorted(self.view.markets.items())
        ]
        return answered({"at": self.view.count, "markets": told, "now": now_in_milliseconds()})

    @TABLE.add("GET", "/book/{market}", s200='{"at":..,"market":..,"orders":[..]}')
    async def book(self, request: web.Request) -> web.StreamResponse:
        """The live orders of a market; just one's own, and for the operator all, have accounts."""
        member, number = self.member_of(request), named(request, "market")
        if number not in self.view.markets:
            raise Refusal(Reason.UNKNOWN, "there is no such market")
        market, owners = self.view.markets[number], self.view.owners
        told = [
            order.told(member.is_operator or owners.get(order.account) == member.session)
            for order in market.orders.values()
        ]
        more = {"market": number, "underlyings": market.underlyings}
        return answered({"at": self.view.count, **more, "orders": told})

    @TABLE.add("GET", "/batches", s200='{"batches":[..]}')
    async def batches(self, request: web.Request) -> web.StreamResponse:
        """The last 200 batches that were cleared, in short."""
        self.member_of(request)
        return answered({"batches": self.view.last_batches(200)})

    @TABLE.add("GET", "/batches/{batch}", s200="the line, byte for byte, to be rechecked")
    async def batch(self, request: web.Request) -> web.StreamResponse:
        """The line that cleared a batch."""
        self.member_of(request)
        batch = self.view.batches.get(named(request, "batch"))
        if batch is None:
            raise Refusal(Reason.UNKNOWN, "there is no such batch")
        key = Keys.of(self.store.place.name).answers
        async with self.reading:
            words = b"XRANGE", key, batch.entry, batch.entry
            [[_, fields]] = await asyncio.to_thread(self.store.say, *words)
        return web.Response(body=reply_text(fields[1]) + b"\n", content_type="text/plain")

    # ---- what followers answer

    @TABLE.add("GET", "/balance/{account}", s200="the reply `balance`")
    async def balance(self, request: web.Request) -> web.StreamResponse:
        """The balance of an account of one's own."""
        return await self.ask_of_account(request, f"balance,{named(request, 'account')}")

    @TABLE.add("GET", "/need/{account}", s200="the reply `need`")
    async def need(self, request: web.Request) -> web.StreamResponse:
        """What an account of one's own needs."""
        return await self.ask_of_account(request, f"need,{named(request, 'account')}")

    @TABLE.add("GET", "/positions/{account}/{market}", s200="the reply `positions`")
    async def positions(self, request: web.Request) -> web.StreamResponse:
        """The positions of an account of one's own in a market."""
        line = f"positions,{named(request, 'account')},{named(request, 'market')}"
        return await self.ask_of_account(request, line)

    @TABLE.add(
        "GET",
        "/price/{market}/{quantity}/{option}",
        s200="the reply `priced`: `ask` is what a buyer has to bid, `bid` what a seller may ask",
    )
    async def price(self, request: web.Request) -> web.StreamResponse:
        """What the market asks and bids for an option as call,10,1."""
        return await self.ask_of_market(
            request, "price", "market", PRICE_BUDGET, "quantity", "option"
        )

    @TABLE.add(
        "GET",
        "/try/{market}/{side}/{price}/{quantity}/{option}",
        s200="the reply `tried`, with the fill",
    )
    async def try_order(self, request: web.Request) -> web.StreamResponse:
        """What would be filled of an order for one option if the market were cleared now."""
        parts = "side", "price", "quantity", "option"
        return await self.ask_of_market(request, "try", "market", TRY_BUDGET, *parts)

    @TABLE.add("GET", "/history", s200='{"lines":[{"at":..,"line":..,"reply":REPLY},..]}')
    async def history(self, request: web.Request) -> web.StreamResponse:
        """One's own last 200 lines with their replies."""
        member = self.member_of(request)
        last = list(self.view.spoken.get(member.session, {}).values())[-200:]
        told = ",".join(
            f'{{"at":{it.at},"line":{it.line()},"reply":{it.reply.decode()}}}' for it in last
        )
        return web.Response(text=f'{{"lines":[{told}]}}', content_type="application/json")

    @TABLE.add("GET", "/members", s200='{"members":[{"name":..,"role":..,"accounts":[..]},..]}')
    async def all_members(self, request: web.Request) -> web.StreamResponse:
        """All members, for the operator."""
        if not self.member_of(request).is_operator:
            raise Refusal(Reason.NOT_ALLOWED, "the operator sees who the members are")
        return answered({"members": [self.told_of(member) for member in self.members.all()]})

    @TABLE.add("GET", "/service", s200='{"entries":..,"proposals":[..],"waiting":..}')
    async def service(self, request: web.Request) -> web.StreamResponse:
        """How many messages there are, how many of them wait for an answer, and what each solver
        proposed last, for the operator."""
        if not self.member_of(request).is_operator:
            raise Refusal(Reason.NOT_ALLOWED, "the operator sees how the service is")
        keys = Keys.of(self.store.place.name)
        async with self.reading:
            appended, answers = await asyncio.to_thread(counts, self.store, keys)
        waiting, told = appended.length - answers.length, list(self.view.proposed.values())
        return answered({"entries": appended.length, "proposals": told, "waiting": waiting})

    # ---- the feed

    @TABLE.add(
        "GET",
        "/feed",
        takes="",
        s101='a WebSocket. Frames {"at":..,"events":[..]} tell what all may see and your own'
        " answers, after the place in ?since=AT where it is given, and one comes each 20 s at"
        ' least; {"key":..,"line":..} sends a line, and is answered as by /lines, with the status',
    )
    async def feed(self, request: web.Request) -> web.StreamResponse:
        """Tells what comes as it comes, and takes lines."""
        member, since = self.member_of(request), request.query.get("since", "")
        if len(self.sockets[member.name]) >= self.limits.feeds:
            told = f"a member has at most {self.limits.feeds} feeds"
            raise Refusal(Reason.OFTEN, told)
        self.openings.take(member.name)
        longest = 2 * rule.PROPOSAL if member.may_propose else 2 * rule.LINE
        socket = web.WebSocketResponse(heartbeat=20, max_msg_size=longest)
        held = self.login_of(request), socket
        self.sockets[member.name].append(held)
        try:
            await socket.prepare(request)
            place = int(since) if rule.PLAIN.fullmatch(since) else self.view.count
            known = functools.partial(self.known, request)
            telling = asyncio.create_task(tell(socket, self.desks, known, place))
            try:
                await Lines(socket, lambda key, line: self.take_told(request, key, line)).run()
            finally:
                telling.cancel()
        finally:
            self.sockets[member.name].remove(held)
        return socket

    async def take_told(
        self, request: web.Request, key: str, line: str
    ) -> tuple[int, dict[str, Any]]:
        """A line over a feed, whose login may have ended since; raises Refusal."""
        answer = await self.take(self.member_of(request), line, key)
        return status_of(answer.reply), answer.told()

    @TABLE.add("GET", "/openapi.json", True, s200="OpenAPI 3.1")
    async def interface(self, request: web.Request) -> web.StreamResponse:
        """Tells this interface."""
        return answered(openapi(TABLE.routes))


Next = Callable[[web.Request], Awaitable[web.StreamResponse]]


def application(gateway: Gateway) -> web.Application:
    """The gateway with its page."""

    @web.middleware
    async def guarded(request: web.Request, handler: Next) -> web.StreamResponse:
        try:
            gateway.check_origin(request)
            response = await handler(request)
        except Refusal as refusal:
            response = refused(refusal)
        except web.HTTPException as fault:
            reason = HTTP_REASONS.get(fault.status, Reason.FORM)
            response = refused(Refusal(reason, fault.reason))
        except asyncio.CancelledError:
            raise
        except Exception:
            # Nothing of what was asked is written down but which path it is.
            logging.exception("%s %s", request.method, request.match_info.route.resource)
            response = refused(Refusal(Reason.FAULT, "a fault of the gateway"))
        if not response.prepared:
            response.headers.update(HEADERS)
        return response

    app = web.Application(middlewares=[guarded])
    for route in TABLE.routes:
        app.router.add_route(route.method, route.path, bound(route.handler, gateway))
    for file in sorted(PAGE.iterdir()):
        for path in (f"/{file.name}", "/") if file.name == "index.html" else (f"/{file.name}",):
            app.router.add_get(path, file_handler(file))
    return app


def bound(handler: Handler, gateway: Gateway) -> Next:
    async def handle(request: web.Request) -> web.StreamResponse:
        return await handler(gateway, request)

    return handle


def file_handler(file: pathlib.Path) -> Next:
    body, kind = file.read_bytes(), KINDS.get(file.suffix, "application/octet-stream")

    async def handle(request: web.Request) -> web.StreamResponse:
        return web.Response(body=body, content_type=kind, charset="utf-8")

    return handle
