"""Who may say which line: the rule of the exchange, so that what it refuses does not fill the log.

A session owns the accounts that it opened. Sessions 1 to 9 are the operator's. A line is taken in
one spelling, in which the exchange and the gateway cannot read two things: no field stands in
quotation marks, and an account is a plain number.
"""

from __future__ import annotations

import enum
import re

from ragvismo_gateway.members import Member
from ragvismo_gateway.refusals import Reason, Refusal
from ragvismo_gateway.view import View

LINE, PROPOSAL = 4096, 16_777_000
ACCOUNTS, LIVE_ORDERS, PLACED = 16, 64, 50_000
# The greatest number of a session's messages.
MESSAGES = 1_000_000
PLAIN = re.compile("0|[1-9][0-9]{0,8}")


class Who(enum.Enum):
    """Whom a line is allowed to."""

    OPERATOR = "operator"
    ALL = "all"
    OWNER = "owner"
    OWNER_OR_OPERATOR = "owner or operator"
    SOLVER = "solver"
    NOBODY = "nobody"


WORDS = {
    "market": Who.OPERATOR,
    "close": Who.OPERATOR,
    "reopen": Who.OPERATOR,
    "clear": Who.OPERATOR,
    "settle": Who.OPERATOR,
    "deposit": Who.OPERATOR,
    "open": Who.ALL,
    "buy": Who.OWNER,
    "sell": Who.OWNER,
    "bundle": Who.OWNER,
    "cancel": Who.OWNER,
    "withdraw": Who.OWNER,
    "secure": Who.OWNER,
    "balance": Who.OWNER_OR_OPERATOR,
    "positions": Who.OWNER_OR_OPERATOR,
    "propose": Who.SOLVER,
    # GET tells it, without accounts.
    "book": Who.OPERATOR,
    # As messages they would hold all others up.
    "quote": Who.NOBODY,
    "price": Who.NOBODY,
    "margin": Who.NOBODY,
    "need": Who.NOBODY,
}
PLACING = ("buy", "sell", "bundle")


def refuse(told: str) -> Refusal:
    return Refusal(Reason.NOT_ALLOWED, told)


def fields_of(member: Member, line: bytes) -> list[str]:
    """The fields of a line that can be a message; raises Refusal."""
    most = PROPOSAL if member.may_propose and line.startswith(b"propose,") else LINE
    if len(line) > most:
        raise Refusal(Reason.LONG, f"a line has at most {most} bytes")
    if line.startswith(b"propose,"):
        parts = line.split(b",", 2)
        if len(parts) < 3 or b"\n" in line or b"\r" in line:
            raise Refusal(Reason.FORM, "this is no proposal in one line")
        return ["propose", parts[1].decode(errors="replace")]
    if not re.fullmatch(rb"[a-z0-9,-]+", line):
        raise Refusal(
            Reason.FORM, "a line has small letters, digits, commas and minus, and nothing else"
        )
    return line.decode().split(",")


def number_of(fields: list[str], place: int) -> int:
    """The number that a line has at a place; raises Refusal."""
    if len(fields) <= place or not PLAIN.fullmatch(fields[place]):
        raise Refusal(Reason.FORM, f"field {place + 1} is no plain number of at most 9 digits")
    return int(fields[place])


def check_owner(view: View, member: Member, account: int, or_operator: bool) -> None:
    if or_operator and member.is_operator:
        return
    if view.owners.get(account) != member.session:
        raise refuse(f"account {account} is not yours")


def check_quota(view: View, member: Member, fields: list[str]) -> None:
    """No member uses up what all share; raises Refusal."""
    session = member.session
    if view.last.get(session, 0) >= MESSAGES:
        raise Refusal(Reason.QUOTA, f"a member sends at most {MESSAGES} lines to an exchange")
    if member.is_operator:
        return
    if fields[0] == "open" and len(view.accounts[session]) >= ACCOUNTS:
        raise Refusal(Reason.QUOTA, f"a member has at most {ACCOUNTS} accounts")
    if fields[0] in PLACING:
        if view.live(session, number_of(fields, 2)) >= LIVE_ORDERS:
            raise Refusal(Reason.QUOTA, f"a member has at most {LIVE_ORDERS} live orders a market")
        if view.placed[session] >= PLACED:
            raise Refusal(Reason.QUOTA, f"a member places at most {PLACED} orders")


def check(view: View, member: Member, line: bytes) -> None:
    """Raises Refusal where a line is none that a member may say."""
    fields = fields_of(member, line)
    who = WORDS.get(fields[0])
    if who is None:
        raise Refusal(Reason.FORM, f"{fields[0][:20]!r} begins no line")
    if who is Who.NOBODY:
        raise refuse(f"a line {fields[0]} would hold up all others")
    if who is Who.OPERATOR and not member.is_operator:
        raise refuse(f"a line {fields[0]} is the operator's")
    if who is Who.SOLVER and not member.may_propose:
        raise refuse("who proposes is a solver")
    if who in (Who.OWNER, Who.OWNER_OR_OPERATOR):
        check_owner(view, member, number_of(fields, 1), who is Who.OWNER_OR_OPERATOR)
    check_quota(view, member, fields)
