"""The gateway by REST and WebSocket: members trade, and nobody reaches what is another's."""

from __future__ import annotations

import asyncio
import http.client
import json
import socket
import subprocess
import time
from typing import Any

from tests import TOP, WEB
from tests.trading import IS_SKIPPED, SECRET, Trading, Visitor, let_through

if not IS_SKIPPED:
    import aiohttp
    from ragvismo_gateway.connections import Most
    from ragvismo_gateway.limits import Limits
    from ragvismo_gateway.members import Members
    from ragvismo_gateway.members_file import FILE

SCRIPT = "<script>alert(1)</script>"


class Gateway(Trading):
    """Tests beside one another; each has markets and accounts of its own."""

    @classmethod
    def setUpClass(cls) -> None:
        super().setUpClass()
        cls.say(ana="open,101 open,111", ben="open,102", eva="open,103")
        deposits = " ".join(f"deposit,{account},1000" for account in (101, 102, 103, 111))
        markets = "market,1,1 market,2,2 market,3,1 market,5,1"
        cls.say(operator=f"{markets} {deposits}")

    def test_the_butterfly_from_login_to_settlement(self) -> None:
        ana, eva, operator = map(self.visitor, ("ana", "eva", "operator"))
        since = ana.get("/markets")["at"]
        self.assertEqual(eva.reply("sell,103,1,put,5,1,1,1")["reply"], "placed")
        eva.line("sell,103,1,put,12,6,1,1")
        bought = ana.reply("buy,101,1,put,10,5,1,1")["order"]
        own = [order for order in ana.get("/book/1")["orders"] if "account" in order]
        self.assertEqual([order["order"] for order in own], [bought])
        self.assertEqual(len(ana.get("/book/1")["orders"]), 3)
        told = [order["account"] for order in operator.get("/book/1")["orders"]]
        self.assertEqual(told, [103, 103, 101])
        cleared = operator.reply("clear,1,100")
        self.assertEqual((cleared["mark"], cleared["surplus"]), ("optimal", "3/7"))
        self.assertEqual(ana.get("/book/1")["orders"], [])
        line = ana.ask("GET", f"/batches/{cleared['batch']}").body
        self.assertEqual(json.loads(line), cleared)
        self.assertEqual(audit(line), {"batches": 1, "bounded": 0, "lines": 1, "optimal": 1})
        self.assertEqual(ana.get("/balance/101")["balance"], "995")
        self.assertEqual(len(ana.get("/positions/101/1")["positions"]), 1)
        operator.line("settle,1,8")
        self.assertEqual(ana.get("/balance/101")["balance"], "997")
        told = self.events(ana, since)
        kinds = [it["event"] for it in told if it["event"] != "answer"]
        self.assertEqual(kinds, [*["placed"] * 3, "cleared", "settled"])
        payout = {"account": 101, "amount": "2", "batch": cleared["batch"], "order": bought}
        [settled] = [it for it in told if it["event"] == "settled"]
        self.assertEqual(settled["payouts"], [payout])

    def events(self, visitor: Visitor, since: int) -> list[Any]:
        async def first(feed: Any) -> list[Any]:
            return list((await feed.receive_json())["events"])

        return visitor.over_socket(first, f"/feed?since={since}")

    def test_a_feed_tells_what_is_not_kept(self) -> None:
        """As where it goes on from a place that is not there: that of another exchange."""
        ana = self.visitor("ana")
        at = ana.get("/markets")["at"]
        self.assertNotIn({"event": "gap"}, self.events(ana, at))
        self.assertEqual(self.events(ana, at + 1_000_000), [{"event": "gap"}])

    def test_a_book_is_that_of_the_exchange(self) -> None:
        ben, operator = self.visitor("ben"), self.visitor("operator")
        for line in (
            "buy,102,2,call,20,6,1,1,1",
            "bundle,102,2,sell,3,2,2,1,put,8,1,0,-1,put,12,0,-1",
            "sell,102,2,put,7,4,1,1,2",
        ):
            self.assertEqual(ben.line(line).status, 200)
        ben.line(f"cancel,102,{ben.get('/book/2')['orders'][0]['order']}")
        told = operator.reply("book,2")
        self.assertEqual(operator.get("/book/2")["orders"], told["orders"])
        self.assertEqual(len(told["orders"]), 2)

    def test_a_closed_market_stands_still(self) -> None:
        ben, operator = self.visitor("ben"), self.visitor("operator")
        since, order = ben.get("/markets")["at"], "buy,102,5,call,10,1,1,1"
        number = ben.reply(order)["order"]
        self.assertEqual(ben.line("close,5").status, 403)
        self.assertEqual(operator.reply("close,5")["orders"], 1)
        phases = {it["market"]: it["phase"] for it in ben.get("/markets")["markets"]}
        self.assertEqual((phases[5], phases[3]), ("closed", "open"))
        for line in (order, f"cancel,102,{number}"):
            told = ben.line(line)
            self.assertEqual((told.status, told.json()["reply"]["reason"]), (422, "Closed"))
        operator.line("reopen,5")
        self.assertEqual(ben.line(f"cancel,102,{number}").status, 200)
        operator.line("close,5")
        self.assertEqual(operator.reply("clear,5,100")["market"], 5)
        self.assertEqual(ben.line(order).status, 200)
        events = [it["event"] for it in self.events(ben, since) if it.get("market") == 5]
        kinds = "placed closed reopened cancelled closed cleared placed"
        self.assertEqual(" ".join(events), kinds)

    def test_lines_over_a_socket(self) -> None:
        ben = self.visitor("ben")
        lines = {"a": "buy,102,3,call,1,1,1,1", "b": "buy,101,3,call,1,1,1,1"}

        async def talk(feed: Any) -> list[dict[str, Any]]:
            for key in "aba":
                await feed.send_json({"key": key, "line": lines[key]})
            await feed.send_str("[1")
            await feed.send_str('{"key":"c","line":"\\ud800"}')
            answers: list[dict[str, Any]] = []
            while len(answers) < 5:
                told = await feed.receive_json()
                if told.get("status") == 503:
                    await feed.send_json({"key": told["key"], "line": lines[told["key"]]})
                elif "status" in told:
                    answers.append(told)
            return answers

        told = ben.over_socket(talk)
        statuses = sorted((it["key"], it["status"]) for it in told)
        self.assertEqual(statuses, [("", 400), ("a", 200), ("a", 200), ("b", 403), ("c", 400)])
        orders = {it["reply"]["order"] for it in told if it["key"] == "a"}
        self.assertEqual(len(orders), 1)

    def test_nobody_touches_what_is_anothers(self) -> None:
        ana, ben = self.visitor("ana"), self.visitor("ben")
        number = ana.reply("buy,111,3,call,10,1,1,1")["order"]
        before = ana.get("/balance/111")
        refused = [
            "buy,111,3,call,10,1,1,1",
            "sell,111,3,call,10,1,1,1",
            "bundle,111,3,buy,1,1,1,1,call,1,1",
            f"cancel,111,{number}",
            "withdraw,111,1",
            "secure,111",
            "need,111",
            "balance,111",
            "positions,111,3",
            "balance,0",
            "deposit,102,1",
            "market,4,1",
            "clear,3,100",
            "settle,3,1",
            "book,3",
            "price,3,1,1,call,10,1",
            "margin,102,3,1",
            "propose,3,{}",
        ]
        for line in refused:
            with self.subTest(line):
                told = ben.line(line)
                self.assertEqual((told.status, told.json()["reason"]), (403, "NotAllowed"))
        for path in ("/balance/111", "/balance/0", "/positions/111/3", "/members"):
            self.assertEqual(ben.ask("GET", path).status, 403, path)
        # The exchange would read what the gateway does not.
        for line in (
            'buy,"111",3,call,10,1,1,1',
            '"withdraw",111,1',
            "?balance,111",
            "withdraw,0111,1",
        ):
            self.assertEqual(ben.line(line).status, 400, line)
        self.assertEqual(ben.line("withdraw,102,1\nwithdraw,111,1").status, 400)
        after = ana.get("/balance/111")
        self.assertEqual(after["balance"], before["balance"])
        self.assertEqual(after["reserved"], "1")

    def test_accounts_of_traders_are_secured(self) -> None:
        ana = self.visitor("ana")
        told = ana.get("/need/111")
        self.assertEqual((told["reply"], told["secured"]), ("need", True))
        # What the account owes at a high price is above its balance.
        reply = ana.line("sell,111,3,call,1,0,1000,1")
        self.assertEqual((reply.status, reply.json()["reply"]["reason"]), (422, "Margin"))
        self.assertRegex(reply.json()["reply"]["need"], "^[0-9]+$")

    def test_what_a_market_asks(self) -> None:
        """Followers tell what an option costs, and what would be filled of an order."""
        eva, ana = self.visitor("eva"), self.visitor("ana")
        self.visitor("operator").line("market,6,1")
        # A put pays at most its strike.
        self.assertEqual(ana.get("/price/6/1/put,12,1")["ask"], "13")
        eva.line("sell,103,6,put,12,6,2,1")
        told = ana.get("/price/6/1/put,12,1")
        self.assertEqual((told["ask"], told["bid"]), ("7", "never"))
        told = ana.get("/try/6/buy/7/5/put,12,1")
        self.assertEqual((told["fill"], told["mark"], told["surplus"]), ("2", "optimal", "2"))
        for path, status in (
            ("/price/6/1/put,12", 400),
            ("/price/6/1/put,12,1,1", 422),
            ("/price/60/1/put,12,1", 422),
            ("/try/6/give/7/5/put,12,1", 400),
            ("/try/6/buy/7/5/put,12,1%0A", 400),
            ("/need/103", 403),
        ):
            self.assertEqual(ana.ask("GET", path).status, status, path)

    def test_the_operator_sees_the_service(self) -> None:
        told = self.visitor("operator").get("/service")
        self.assertEqual((told["waiting"], told["proposals"]), (0, []))
        self.assertGreater(told["entries"], 0)
        self.assertEqual(self.visitor("ana").ask("GET", "/service").status, 403)

    def test_quotas(self) -> None:
        eva = self.visitor("eva")
        statuses = [eva.line(f"open,{500 + each}", f"open-{each}").status for each in range(16)]
        self.assertEqual(statuses, [200] * 15 + [429])
        # What counted is told again, though one more is too many.
        self.assertEqual(eva.line("open,514", "open-14").json()["reply"]["reply"], "opened")

    def test_a_key_counts_once(self) -> None:
        ana = self.visitor("ana")
        first, again = ana.line("withdraw,111,5", "once"), ana.line("withdraw,111,5", "once")
        self.assertEqual(first.json(), again.json())
        other = ana.line("withdraw,111,6", "once")
        self.assertEqual((other.status, other.json()["reason"]), (409, "KeyUsed"))
        self.assertEqual(ana.line("withdraw,111,2000", "more").status, 422)

    def test_who_is_none(self) -> None:
        somebody = self.visitor()
        paths = "/me", "/markets", "/book/1", "/batches", "/history", "/feed", "/balance/101"
        for path in paths:
            self.assertEqual(somebody.ask("GET", path).status, 401, path)
        self.assertEqual(somebody.line("open,7").status, 401)
        self.assertEqual(somebody.ask("GET", "/me", Authorization="Bearer none").status, 401)
        for name, secret in (("ana", "wrong"), ("nobody", SECRET), (SCRIPT, SECRET), ("", "")):
            told = somebody.login(name, secret)
            self.assertEqual((told.status, told.json()["reason"]), (401, "Login"))
            self.assertEqual(somebody.cookie, "")
        half = '{"name":"\\ud800","password":"a"}'
        for body in ("", "[]", '{"name":1,"password":2}', "[" * 900, half):
            self.assertEqual(somebody.ask("POST", "/login", body).status, 400)

    def test_a_name_is_plain(self) -> None:
        words = [str(WEB / "members"), str(self.folder), "add", SCRIPT]
        ran = subprocess.run(words, capture_output=True, text=True)
        self.assertEqual((ran.returncode, ran.stdout, ran.stderr.count("\n")), (2, "", 1))

    def test_tokens(self) -> None:
        words = [str(WEB / "members"), str(self.folder), "token", "ana"]
        token = subprocess.run(words, capture_output=True, text=True, check=True).stdout.strip()
        program = self.visitor()
        program.origin = ""
        told = program.ask("GET", "/me", Authorization=f"Bearer {token}")
        self.assertEqual(told.json()["name"], "ana")
        said = program.ask("POST", "/lines", b"balance,101", Authorization=f"Bearer {token}")
        self.assertEqual(said.status, 200)
        # A token is no cookie.
        self.assertEqual(program.ask("GET", "/me", Cookie=f"ragvismo={token}").status, 401)

        async def stay(feed: Any) -> bool:
            await feed.receive_json()
            told = await asyncio.to_thread(program.ask, "POST", "/logout", None, **named)
            said: dict[str, Any] = {"status": 503}
            while said.get("status", 503) == 503:
                if "status" in said:
                    await feed.send_json({"key": "", "line": "balance,101"})
                said = await feed.receive_json()
            return bool((told.status, said["status"]) == (400, 200))

        named = {"Authorization": f"Bearer {token}"}
        program.headers = named
        self.assertTrue(program.over_socket(stay))

    def test_a_login_ends(self) -> None:
        """By a logout, and by another password; its feeds end too."""
        eva = Visitor(self.port)
        eva.login("eva")

        async def leave(feed: Any) -> bool:
            await feed.receive_json()
            await asyncio.to_thread(eva.ask, "POST", "/logout")
            while (told := await feed.receive()).type is aiohttp.WSMsgType.TEXT:
                """Nothing came."""
            return bool(told.type.name.startswith("CLOS"))

        self.assertTrue(eva.over_socket(leave, "/feed"))
        self.assertEqual(eva.ask("GET", "/me").status, 401)
        eva.login("eva")

        async def stay(feed: Any) -> int:
            await feed.receive_json()
            Members(self.folder / FILE).change("eva", "another")
            await feed.send_json({"key": "a", "line": "open,599"})
            while (told := await feed.receive()).type is aiohttp.WSMsgType.TEXT:
                if "status" in told.json():
                    return int(told.json()["status"])
            # It was told just now that nothing came, and has ended by that.
            return 401

        self.assertEqual(eva.over_socket(stay), 401)
        self.assertEqual(eva.ask("GET", "/me").status, 401)
        words = [str(WEB / "members"), str(self.folder), "password", "eva"]
        told = subprocess.run(words, capture_output=True, text=True, check=True).stdout.strip()
        self.assertEqual(eva.login("eva").status, 401)
        self.assertEqual(eva.login("eva", told).status, 200)
        type(self).cookies["eva"] = eva.cookie

    def test_what_is_asked_is_no_message(self) -> None:
        """And knows all that was answered before."""
        ana, operator = self.visitor("ana"), self.visitor("operator")
        ana.line("withdraw,111,1")
        before = operator.get("/service")["entries"]
        told = [ana.get(path)["at"] for path in ("/balance/111", "/positions/111/3") * 3]
        self.assertEqual(operator.get("/service")["entries"], before)
        ana.line("withdraw,111,1")
        withdrawn = ana.get("/balance/111")
        self.assertGreater(withdrawn["at"], max(told))
        operator.line("deposit,111,2")
        left = int(withdrawn["balance"])
        self.assertEqual(ana.get("/balance/111")["balance"], str(left + 2))

    def test_other_pages(self) -> None:
        ana = self.visitor("ana")
        for headers in (
            {"Origin": "https://evil.example"},
            {"Origin": "null"},
            {"Origin": ""},
            {"Sec_Fetch_Site": "cross-site"},
            {"Host": "evil.example"},
        ):
            told = ana.ask("POST", "/lines", b"withdraw,101,1", **headers)
            self.assertEqual((told.status, told.json()["reason"]), (403, "Origin"), headers)
            self.assertEqual(ana.ask("GET", "/feed", **headers).status, 403, headers)
        told = ana.login("ana")
        self.assertIn("HttpOnly", told.headers["Set-Cookie"])
        self.assertIn("SameSite=Strict", told.headers["Set-Cookie"])
        self.assertIn("frame-ancestors 'none'", told.headers["Content-Security-Policy"])

    def test_cookies_of_other_pages(self) -> None:
        """Which a browser sends too, where another page of this host has set them."""
        ana = self.visitor("ana")
        for other in ("a/b=1", 'x={"a":1}', "\xfc=1", "=", "ragvismo"):
            told = ana.ask("GET", "/me", Cookie=f"{other}; {ana.cookie}")
            self.assertEqual(told.status, 200, other)
            self.assertEqual(self.visitor().ask("GET", "/me", Cookie=other).status, 401, other)

    def test_too_much(self) -> None:
        ana = self.visitor("ana")
        self.assertEqual(ana.line("9" * 5000).status, 413)
        connection = http.client.HTTPConnection("127.0.0.1", self.port, timeout=60)
        headers = {"Cookie": ana.cookie, "Origin": ana.origin, "Content-Length": str(100 << 20)}
        connection.request("POST", "/lines", headers=headers)
        answer = connection.getresponse()
        self.assertEqual((answer.status, json.loads(answer.read())["reason"]), (413, "Long"))
        connection.close()
        pieces = (b"9" * 65536 for _ in range(1600))
        connection = http.client.HTTPConnection("127.0.0.1", self.port, timeout=60)
        try:
            connection.request("POST", "/lines", pieces, {**headers, "Content-Length": ""})
        except OSError:
            pass
        connection.close()
        self.assertEqual(ana.ask("GET", "/me").status, 200)

    def test_what_is_no_http(self) -> None:
        """It is refused as all else is, and so is a request without a host."""
        for said, status in (
            (b"open,7\r\n\r\n", 400),
            (b"GET /me HTTP/1.1\r\nHost 1\r\n\r\n", 400),
            (b"GET /" + b"9" * 9000 + b" HTTP/1.1\r\n\r\n", 400),
            (b"GET /me HTTP/1.0\r\n\r\n", 403),
        ):
            with socket.create_connection(("127.0.0.1", self.port), 60) as one:
                one.sendall(said)
                answer = http.client.HTTPResponse(one)
                answer.begin()
                self.assertEqual(answer.status, status, said[:40])
                self.assertEqual(json.loads(answer.read())["reply"], "gateway")
                self.assertEqual(answer.headers["X-Content-Type-Options"], "nosniff")

    def test_what_is_no_http_is_not_written_down(self) -> None:
        """Nor does what comes behind a request for a WebSocket pile up."""
        host = f"Host: 127.0.0.1:{self.port}\r\n".encode()
        wanted = b"Upgrade: websocket\r\nConnection: upgrade\r\n\r\n"
        for said in (
            b"GET http://[::1/me HTTP/1.1\r\n" + host + b"\r\n",
            b"GET /me HTTP/1.1\r\n" + host + wanted + b"no frame",
            b"GET /feed HTTP/1.1\r\n" + host + wanted + b"9" * 1_000_000,
        ):
            with socket.create_connection(("127.0.0.1", self.port), 60) as one:
                try:
                    one.sendall(said)
                except ConnectionError:
                    pass
                self.assertTrue(has_ended(one), said[:40])
        log = (self.folder / "gateway.log").read_text()
        self.assertNotIn("data_received", log)
        self.assertNotIn("Unhandled", log)

    def test_connections_of_nobody(self) -> None:
        """Of many one at rest ends, and the oldest where there is none; so does one that asks and
        asks and reads nothing."""
        most = Most()
        asked = f"GET /batch.css HTTP/1.1\r\nHost: 127.0.0.1:{self.port}\r\n\r\n".encode()
        held = [self.connected() for _ in range(most.of_network - 2)]
        at_rest = held[-1]
        at_rest.sendall(asked)
        self.assertIn(b" 200 ", at_rest.recv(20))
        self.assertEqual(self.visitor().ask("GET", "/").status, 200)
        held += [self.connected() for _ in range(9)]
        self.assertTrue(has_ended(at_rest))
        self.assertTrue(has_ended(held[0]))
        self.assertEqual(self.visitor().ask("GET", "/").status, 200)
        held[-1].sendall(asked * 4 * most.waiting)
        self.assertTrue(has_ended(held[-1]))

    def connected(self) -> socket.socket:
        one = socket.create_connection(("127.0.0.1", self.port), 60)
        self.addCleanup(one.close)
        return one

    def test_unknown_paths(self) -> None:
        ana = self.visitor("ana")
        for method, path, status in (
            ("GET", "/none", 404),
            ("GET", "/../members.sqlite", 404),
            ("GET", "/book/9", 404),
            ("GET", "/book/x", 400),
            ("GET", "/batches/99999", 404),
            ("DELETE", "/lines", 405),
        ):
            told = ana.ask(method, path)
            self.assertEqual((told.status, told.json()["reply"]), (status, "gateway"), path)

    def test_the_interface_is_told(self) -> None:
        told = self.visitor().get("/openapi.json")
        self.assertEqual(told["openapi"], "3.1.0")
        self.assertEqual(set(told["paths"]["/book/{market}"]), {"get"})

    def test_many_feeds(self) -> None:
        ben = self.visitor("ben")

        async def one_more(*feeds: Any) -> int:
            return (await asyncio.to_thread(ben.ask, "GET", "/feed")).status

        async def none(feed: Any) -> None:
            await feed.receive_json()

        self.assertEqual(ben.over_socket(one_more, count=Limits().feeds), 429)
        ben.over_socket(none)

    def test_a_feed_is_not_opened_all_the_time(self) -> None:
        """Since all that came may be told to each."""
        operator, rate = self.visitor("operator"), Limits().openings
        since, opened = time.monotonic(), 0
        for _ in range(3 * int(rate.burst)):
            try:
                self.events(operator, 0)
                opened += 1
            except aiohttp.WSServerHandshakeError as refusal:
                self.assertEqual(refusal.status, 429)
        self.assertLessEqual(opened, let_through(rate, since))


def has_ended(one: socket.socket) -> bool:
    """Whether a connection ends before it says nothing for a minute."""
    try:
        while one.recv(1 << 16):
            pass
    except ConnectionError:
        pass
    except TimeoutError:
        return False
    return True


def audit(line: bytes) -> dict[str, Any]:
    """The report of the plain check, less its yes."""
    words = [str(TOP / "tools/plain-check"), "audit"]
    told = json.loads(subprocess.run(words, input=line, capture_output=True).stdout)
    assert told.pop("verdict") == "yes", told
    return dict(told)
