"""What auctioneers tell solvers, and what these offer: the stream of books, and the proposals.

NAME:books has each book of a market that an auctioneer closed, and what came of its clear, under
the id of the answer in NAME:out: in the field reply, and beside a book in until the time to which
proposals are waited for, in milliseconds by the clock of Redis. A book's accounts are all told as
1. NAME:proposals/SESSION is the text that a solver wrote last: a line for each of its proposals,
the id of the book's entry, a blank, and propose,MARKET,PROPOSAL.
"""

from __future__ import annotations

import json
import re
from typing import Any

from ragvismo_service.messages import START_ID
from ragvismo_service.places import Keys
from ragvismo_service.store import Store

Reply = dict[str, Any]
# How many entries of the stream are kept at least: more than all markets can have at once.
KEPT = 256
# What of a cleared line is told; its batch stands whole in the log.
TOLD = "batch", "bound", "fills", "line", "mark", "market", "reply", "surplus", "units"
# So many bytes of what a solver wrote are read.
MOST = 32 << 20
# Sessions up to this one are the operator's, and propose nothing here.
LAST_OF_OPERATOR = 9
FIRST_SOLVER = 1_000_000


def compact(told: Reply) -> bytes:
    return json.dumps(told, separators=(",", ":")).encode()


def told_book(book: Reply) -> bytes:
    """A book as solvers are told it: not whose orders they are."""
    return compact({**book, "orders": [{**order, "account": 1} for order in book["orders"]]})


def told_result(cleared: Reply) -> bytes:
    """A cleared line in short, with the numbers of its orders."""
    numbers = [order["order"] for order in cleared["orders"]]
    said = {**{key: cleared[key] for key in TOLD if key in cleared}, "orders": numbers}
    return compact(dict(sorted(said.items())))


def clock(store: Store) -> int:
    """The time of Redis, in milliseconds."""
    seconds, micros = map(int, store.say(b"TIME"))
    return 1000 * seconds + micros // 1000


class Books:
    """The stream of books and the proposals, as an auctioneer has them."""

    def __init__(self, store: Store) -> None:
        self.store, self.keys = store, Keys.of(store.place.name)

    def last(self) -> bytes:
        """The id of the last entry."""
        found = self.store.say(b"XREVRANGE", self.keys.books, b"+", b"-", b"COUNT", b"1")
        return bytes(found[0][0]) if found else START_ID

    def tell(self, id: bytes, reply: bytes, until: int | None = None) -> None:
        """Tells what was answered under an id, if no one did so before."""
        more = [b"until", b"%d" % until] if until else []
        kept = [b"MAXLEN", b"~", b"%d" % KEPT]
        self.store.say(b"XADD", self.keys.books, *kept, id, b"reply", reply, *more)

    def until(self, id: bytes) -> int | None:
        """To which time the proposals for a book are waited for; None where it was not told."""
        found = self.store.say(b"XRANGE", self.keys.books, id, id)
        fields = found[0][1] if found else []
        return int(dict(zip(fields[::2], fields[1::2])).get(b"until", 0)) or None

    def solvers(self) -> list[int]:
        """The sessions of the solvers that offered something, in order."""
        quoted = re.sub(rb"([][*?^\\-])", rb"\\\1", self.keys.proposals)
        found, cursor = set[bytes](), b"0"
        while True:
            words = b"SCAN", cursor, b"MATCH", quoted + b"*", b"COUNT", b"1000"
            cursor, page = self.store.say(*words)
            found.update(page)
            if cursor == b"0":
                break
        names = (key.removeprefix(self.keys.proposals) for key in found)
        return sorted(int(it) for it in names if re.fullmatch(rb"[1-9][0-9]{1,8}", it))

    def offer(self, session: int, id: bytes, market: int, longest: int) -> bytes:
        """The line that a solver offers for a book; nothing where there is none, or a longer
        one."""
        key = b"%b%d" % (self.keys.proposals, session)
        text = b"\n%b\n" % self.store.say(b"GETRANGE", key, b"0", b"%d" % MOST)
        begin = text.find(b"\n%b propose,%d," % (id, market))
        line = text[begin + len(id) + 2 : text.find(b"\n", begin + 1)]
        return line if begin >= 0 and len(line) <= longest and b"\r" not in line else b""
