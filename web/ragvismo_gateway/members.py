"""Who the members are: names, sessions, passwords and tokens."""

from __future__ import annotations

import hashlib
import pathlib
import re
import secrets
import time
from typing import NamedTuple

import argon2
from ragvismo_gateway.members_file import opened, together
from ragvismo_service.statuses import BadUse

NAME = re.compile(r"[A-Za-z0-9][A-Za-z0-9_.-]{0,31}")
ROLES = ("trader", "solver", "operator")
# Sessions up to this one are the operator's. Members have those up to the other one, since web/up
# speaks in session 8, and an auctioneer in session 9.
LAST_OF_OPERATOR, LAST_GIVEN = 9, 7
LOGIN_DAYS = 7
# How many logins of a member hold at once, and how many tokens; one more ends the oldest.
TOKENS = 20
DAY = 24 * 60 * 60
TABLES = """
CREATE TABLE IF NOT EXISTS members (
    name TEXT PRIMARY KEY, session INTEGER NOT NULL UNIQUE, role TEXT NOT NULL, hash TEXT NOT NULL);
CREATE TABLE IF NOT EXISTS tokens (
    hash TEXT PRIMARY KEY, name TEXT NOT NULL, kind TEXT NOT NULL, until INTEGER NOT NULL);
"""
# The second choice of RFC 9106: argon2id with 64 MiB, which is a tenth of a second.
HASHER = argon2.PasswordHasher(time_cost=3, memory_cost=1 << 16, parallelism=4)


class Member(NamedTuple):
    """Who it is."""

    name: str
    session: int
    role: str

    @property
    def is_operator(self) -> bool:
        return self.session <= LAST_OF_OPERATOR

    @property
    def may_propose(self) -> bool:
        return self.role != "trader"


def hash_of(token: str) -> str:
    """The sum of a secret, which may be any bytes that came in a header."""
    return hashlib.sha256(token.encode(errors="surrogateescape")).hexdigest()


class Members:
    """The members in their file; each thread has its own."""

    def __init__(self, path: pathlib.Path) -> None:
        self.file = opened(path, TABLES)

    def close(self) -> None:
        self.file.close()

    # ---- members

    def add(self, name: str, role: str, password: str) -> Member:
        """A new member with the next session of its role; raises BadUse."""
        if not NAME.fullmatch(name):
            raise BadUse(f"{name!r} is no name: 1 to 32 letters, digits, and . _ - after the first")
        hashed = hashed_password(password)
        limits = (1, LAST_GIVEN) if role == "operator" else (LAST_OF_OPERATOR + 1, 999_999)
        asked = "SELECT coalesce(max(session), ?) + 1 FROM members WHERE session BETWEEN ? AND ?"
        with together(self.file):
            if self.named(name):
                raise BadUse(f"{name} is a member already")
            [session] = self.file.execute(asked, (limits[0] - 1, *limits)).fetchone()
            if session > limits[1]:
                raise BadUse(f"there are as many members as can be with the role {role}")
            row = name, session, role, hashed
            self.file.execute("INSERT INTO members VALUES (?, ?, ?, ?)", row)
        return Member(name, session, role)

    def change(self, name: str, password: str) -> None:
        """Gives a member another password; who was logged in, or had a token, is not any more."""
        hashed = hashed_password(password)
        with together(self.file):
            self.file.execute("UPDATE members SET hash = ? WHERE name = ?", (hashed, name))
            self.file.execute("DELETE FROM tokens WHERE name = ?", (name,))

    def all(self) -> list[Member]:
        rows = self.file.execute("SELECT name, session, role FROM members ORDER BY session")
        return [Member(*row) for row in rows]

    def named(self, name: str) -> Member | None:
        asked = "SELECT name, session, role FROM members WHERE name = ?"
        row = self.file.execute(asked, (name,)).fetchone()
        return Member(*row) if row else None

    def password_hash(self, name: str) -> str | None:
        row = self.file.execute("SELECT hash FROM members WHERE name = ?", (name,)).fetchone()
        return str(row[0]) if row else None

    # ---- logins and tokens

    def give_token(self, member: Member, kind: str, days: int) -> str:
        """A new secret by which a member is known; just its sum is kept."""
        token, until = secrets.token_urlsafe(32), int(time.time()) + days * DAY
        row = hash_of(token), member.name, kind, until
        newest = "SELECT rowid FROM tokens WHERE name = ? AND kind = ? ORDER BY rowid DESC"
        older = f"DELETE FROM tokens WHERE rowid IN ({newest} LIMIT -1 OFFSET {TOKENS})"
        with together(self.file):
            self.file.execute("DELETE FROM tokens WHERE until < ?", (int(time.time()),))
            self.file.execute("INSERT INTO tokens VALUES (?, ?, ?, ?)", row)
            self.file.execute(older, (member.name, kind))
        return token

    def known_by(self, token: str, kind: str) -> Member | None:
        asked = (
            "SELECT members.name, session, role FROM tokens JOIN members USING (name)"
            " WHERE tokens.hash = ? AND kind = ? AND until > ?"
        )
        row = self.file.execute(asked, (hash_of(token), kind, int(time.time()))).fetchone()
        return Member(*row) if row else None

    def take_token(self, token: str) -> None:
        self.file.execute("DELETE FROM tokens WHERE hash = ?", (hash_of(token),))


def hashed_password(password: str) -> str:
    """The hash of a password; it takes a while."""
    return str(HASHER.hash(password))


def is_password(hashed: str, password: str) -> bool:
    """Whether a password is that of a hash; it takes a while."""
    try:
        return bool(HASHER.verify(hashed, password))
    except argon2.exceptions.VerificationError:
        return False
