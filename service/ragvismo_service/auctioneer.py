"""Holds auctions: closes markets, asks solvers, and clears.

    service/auctioneer MARKET.. [--every SECONDS] [--solve SECONDS] [--budget UNITS]
                       [--longest BYTES] [--settle P1,..,Pn] [--session N] [--at PLACE]

An auction of a market begins so many seconds after the last one began (60), as soon as there are
orders. The auctioneer closes the market and tells its book to the solvers (service/solver), waits
so long for proposals (5), hands in what each solver offered last, in a line of so many bytes at
most (1,000,000), and clears within so many units (2,000). What came of it is printed, and told to
the solvers. With --settle it settles its one market at these prices, after an auction that has
begun, and begins none.

It is a client with a session of the operator's, 1 to 9 (9), which no other client uses. All that it
knows stands in the log, so it may be killed at any moment and started again, and several may run,
here or elsewhere, with the same session: each line counts once. A market that somebody else closed
is left alone.

It ends with 0 when its markets are settled, or with one line on standard error and status
"""

from __future__ import annotations

import argparse
import collections
import logging
import re
from typing import Any, NamedTuple

from ragvismo_service.books import (
    KEPT,
    LAST_OF_OPERATOR,
    Books,
    clock,
    told_book,
    told_result,
)
from ragvismo_service.chain import Answered
from ragvismo_service.following import Follower
from ragvismo_service.markets import Closing, Market, Markets, Said
from ragvismo_service.messages import answer_of, order_of, time_of
from ragvismo_service.places import Keys
from ragvismo_service.statuses import BadUse, Status, table
from ragvismo_service.store import Store
from ragvismo_service.watchdog import ready
from ragvismo_service.words import (
    Words,
    market,
    number_of,
    operator_session,
    seconds,
    status_of,
    store_of,
)

STATUSES = Status.BAD_USE, Status.NO_REDIS, Status.LOST, Status.CUT, Status.FORGED, Status.CHANGED
# How long it waits for something new before it looks at the clock again, in seconds.
PAUSE = 0.2
# Why a line may be refused where another client was first.
OTHERS_WERE_FIRST = "Old", "Ahead", "Changed", "Closed", "Open", "Settled"
# What is said of a reply.
SAID = "reply", "reason", "failed", "batch", "mark", "surplus", "bound"
PRICES = re.compile(r"[0-9]+(,[0-9]+){0,7}")


class Terms(NamedTuple):
    """How auctions are held; times in milliseconds."""

    markets: tuple[int, ...]
    session: int = LAST_OF_OPERATOR
    every: int = 60_000
    solve: int = 5_000
    budget: int = 2_000
    longest: int = 1_000_000
    prices: str = ""


class Asking(NamedTuple):
    """A book that the solvers are asked with: to when proposals are waited for, and of which
    sessions they were looked for here."""

    book: bytes
    until: int
    seen: set[int]


class Auctioneer:
    """Does in each market what is to be done next, by what the log says."""

    def __init__(self, store: Store, terms: Terms) -> None:
        self.store, self.terms, self.markets = store, terms, Markets()
        self.books, self.follower = Books(store), Follower(store, self.take)
        # What the solvers are not told yet, in order, and what they are asked, by market.
        self.news: collections.deque[Said] = collections.deque(maxlen=KEPT)
        self.askings: dict[int, Asking] = {}
        # The entry whose answer is waited for, and the answer.
        self.asked, self.answer = b"", dict[str, Any]()

    @property
    def keys(self) -> Keys:
        return self.follower.history.keys

    # ---- the log

    def begin(self) -> None:
        """Reads the log, and waits for the answers to what is in it, which may be lines of an
        auctioneer that was killed."""
        self.follower.begin()
        if last := self.store.say(b"XREVRANGE", self.keys.taken, b"+", b"-", b"COUNT", b"1"):
            self.follower.wait_for(last[0][0])
        told = order_of(self.books.last())
        while self.news and order_of(self.news[0].id) <= told:
            self.news.popleft()
        if self.terms.prices and self.terms.markets[0] not in self.markets.of:
            raise BadUse(f"there is no market {self.terms.markets[0]}")

    def take(self, answered: Answered, is_new: bool) -> None:
        said = self.markets.take(answered)
        if answered.entry.id == self.asked:
            self.answer = answer_of(self.asked, answered.answer)
        if said and said.session == self.terms.session and said.kind in ("book", "cleared"):
            self.news.append(said)
            if said.kind == "cleared" and is_new:
                print(told_result(said.reply).decode(), flush=True)

    def say(self, session: int, body: bytes) -> None:
        """Sends the next message of a session, and waits for its answer. Where another auctioneer
        was first nothing changes, and what that one said is known then; where the exchange refuses
        what this one says, BadUse."""
        number = self.markets.numbers[session] + 1
        fields = [b"session", b"%d" % session, b"number", b"%d" % number, b"body", body]
        self.answer = {}
        self.asked = self.store.say(b"XADD", self.keys.taken, b"*", *fields)
        self.follower.wait_for(self.asked)
        reply = self.answer.get("of", self.answer)
        # What a solver wrote is not shown.
        line = body.decode() if session == self.terms.session else "its proposal"
        told = ", ".join(str(reply[it]) for it in SAID if it in reply)
        logging.info("session %s, %s: %s", session, line, told)
        # After a clear that is refused the market is opened.
        is_clear = body.startswith(b"clear,") and reply.get("reply") == "refused"
        reason = reply.get("reason", OTHERS_WERE_FIRST[0])
        if session == self.terms.session and not is_clear and reason not in OTHERS_WERE_FIRST:
            raise BadUse(f"{line} of session {session} is refused: {reason}")

    # ---- auctions

    def turn(self) -> None:
        """Does in each market the next thing, or waits where there is none in any."""
        self.tell()
        now = clock(self.store)
        steps = [self.step(number, now) for number in self.terms.markets]
        if not any(steps):
            self.follower.wait_for_more(PAUSE)

    def is_done(self) -> bool:
        known = [self.markets.of.get(number) for number in self.terms.markets]
        return all(market and market.is_settled for market in known)

    def step(self, number: int, now: int) -> bool:
        """Does the next thing in a market, and says whether there was one."""
        market = self.markets.of.get(number)
        if not market or market.is_settled:
            return False
        if market.closing and market.closing.session == self.terms.session:
            return self.go_on(number, market.closing, now)
        body = self.first_line(number, market, now)
        if body:
            self.say(self.terms.session, body)
        return bool(body)

    def first_line(self, number: int, market: Market, now: int) -> bytes:
        """What is said where no auction has begun; nothing where it is to be waited."""
        if self.terms.prices:
            return b"settle,%d,%b" % (number, self.terms.prices.encode())
        if now < market.began:
            # Where the clock was put back, it is waited as long after that at most.
            market.began = min(market.began, clock(self.store))
        is_due = market.has_orders and now >= market.began + self.terms.every
        return b"close,%d" % number if is_due and not market.closing else b""

    def go_on(self, number: int, closing: Closing, now: int) -> bool:
        """Does the next thing in an auction, and says whether there was one."""
        session = self.terms.session
        if not closing.orders or closing.is_refused:
            self.say(session, b"reopen,%d" % number)
        elif not closing.book:
            self.say(session, b"book,%d" % number)
        elif now < self.asking(number, closing.book.id, now).until:
            return False
        elif not self.hand_in(number, closing.proposers):
            self.say(session, b"clear,%d,%d" % (number, self.terms.budget))
        return True

    def asking(self, number: int, book: bytes, now: int) -> Asking:
        """What the solvers are asked of a market, who are told its book first. Where the clock was
        put back, they are waited for as long after that at most; else as long as they were told,
        by whichever auctioneer."""
        if number not in self.askings or self.askings[number].book != book:
            self.tell()
            now = clock(self.store)
            until = self.books.until(book) or now + self.terms.solve
            self.askings[number] = Asking(book, until, set())
        if now < time_of(book):
            until = min(self.askings[number].until, now + self.terms.solve)
            self.askings[number] = self.askings[number]._replace(until=until)
        return self.askings[number]

    def hand_in(self, number: int, proposers: set[int]) -> bool:
        """Hands in what one more solver offers, and says whether there was one."""
        book, _, seen = self.askings[number]
        for session in self.books.solvers():
            if session not in seen | proposers and session > LAST_OF_OPERATOR:
                seen.add(session)
                if line := self.books.offer(session, book, number, self.terms.longest):
                    self.say(session, line)
                    return True
        return False

    def tell(self) -> None:
        """Tells the solvers what is new: the books of auctions under way, and what came of
        them."""
        while self.news:
            said = self.news.popleft()
            closing = self.markets.of[said.reply["market"]].closing
            if said.kind == "cleared":
                self.books.tell(said.id, told_result(said.reply))
            elif closing and closing.book and closing.book.id == said.id:
                until = clock(self.store) + self.terms.solve
                self.books.tell(said.id, told_book(said.reply), until)

    def run(self) -> None:
        self.begin()
        ready()
        while not self.is_done():
            self.turn()
        self.tell()


def prices(text: str) -> str:
    """The prices of a settlement; raises BadUse."""
    if not PRICES.fullmatch(text):
        raise BadUse(f"{text} is no list of prices: P1,..,Pn")
    return text


def terms_of(given: argparse.Namespace) -> Terms:
    """What a call says; raises BadUse."""
    if given.settle and len(given.markets) > 1:
        raise BadUse("one market is settled at a time")
    return Terms(
        tuple(given.markets),
        given.session,
        int(1000 * given.every),
        int(1000 * given.solve),
        given.budget,
        given.longest,
        given.settle or "",
    )


def run() -> None:
    words = Words(f"{__doc__}{table(*STATUSES)}")
    usual = Terms(())
    words.add_argument("markets", type=market, nargs="+", metavar="MARKET")
    words.add_argument("--session", type=operator_session, default=usual.session, metavar="N")
    words.add_argument("--every", type=seconds, default=usual.every / 1000, metavar="SECONDS")
    words.add_argument("--solve", type=seconds, default=usual.solve / 1000, metavar="SECONDS")
    budget = number_of(1, 20_000, "budget")
    words.add_argument("--budget", type=budget, default=usual.budget, metavar="UNITS")
    longest = number_of(1, 16_000_000, "length of a line")
    words.add_argument("--longest", type=longest, default=usual.longest, metavar="BYTES")
    words.add_argument("--settle", type=prices, metavar="P1,..,Pn")
    given = words.parse_args()
    Auctioneer(store_of(given), terms_of(given)).run()


def main() -> int:
    return status_of(run)
