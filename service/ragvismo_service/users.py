"""Gives the users of an exchange their passwords, and writes the file of rights that Redis loads.

    service/users FOLDER [--solver SESSION]..

service/users.acl says who may do what. FOLDER/NAME.password has the password of each, made where
there is none yet, for its tools (--at redis://NAME@HOST:PORT --password FOLDER/NAME.password);
FOLDER/users.acl has the rights with the SHA-256 of the passwords, for Redis (aclfile), which reads
it when it starts, or at ACL LOAD. Only who runs this may read the passwords. There is a user
solver-SESSION for the session 1000000, for each that is named, and for each that has a password.

It ends with 0, or with one line on standard error and status
"""

from __future__ import annotations

import hashlib
import pathlib
import re
import secrets
from collections.abc import Iterable
from typing import NamedTuple

from ragvismo_service import files
from ragvismo_service.books import FIRST_SOLVER
from ragvismo_service.statuses import Status, table
from ragvismo_service.words import Words, password, solver_session, status_of

RIGHTS = pathlib.Path(__file__).resolve().parents[1] / "users.acl"
# What stands for its session in the line of each solver.
SESSION = "SESSION"
OF_SOLVER = re.compile(r"solver-([1-9][0-9]*)\.password")
STATUSES = Status.BAD_USE, Status.FILE_FAULT


class User(NamedTuple):
    """A user of Redis, and what it may do."""

    name: str
    rights: str

    def password_file(self, folder: pathlib.Path) -> pathlib.Path:
        return folder / f"{self.name}.password"

    def line(self, folder: pathlib.Path) -> str:
        """The user as Redis reads it; one that is on has the password of the folder, which is made
        where there is none."""
        if not self.rights.startswith("on "):
            return f"user {self.name} {self.rights}\n"
        path = self.password_file(folder)
        if not path.exists():
            files.write(path, secrets.token_hex(32).encode() + b"\n", 0o600)
        kept = hashlib.sha256(password(str(path)).encode()).hexdigest()
        return f"user {self.name} {self.rights} #{kept}\n"


def users(solvers: Iterable[int] = (FIRST_SOLVER,)) -> list[User]:
    """All users that there are, with the solvers of these sessions."""
    found = []
    for line in RIGHTS.read_text().splitlines():
        for session in solvers if SESSION in line else (0,):
            if not line.startswith("#"):
                _, name, rights = line.replace(SESSION, str(session)).split(maxsplit=2)
                found.append(User(name, rights))
    return found


def solvers_in(folder: pathlib.Path) -> set[int]:
    """The sessions of the solvers that have passwords there."""
    named = (OF_SOLVER.fullmatch(path.name) for path in folder.iterdir())
    return {int(found[1]) for found in named if found}


def write(folder: pathlib.Path, solvers: Iterable[int] = ()) -> pathlib.Path:
    """Writes what Redis loads, with solvers of these sessions too, and tells where."""
    files.make(folder)
    path = folder / RIGHTS.name
    sessions = sorted({FIRST_SOLVER, *solvers, *solvers_in(folder)})
    files.write(path, "".join(user.line(folder) for user in users(sessions)).encode(), 0o600)
    return path


def run() -> None:
    words = Words(f"{__doc__}{table(*STATUSES)}", is_placed=False)
    words.add_argument("folder", metavar="FOLDER", type=pathlib.Path)
    words.add_argument(
        "--solver", type=solver_session, action="append", default=[], metavar="SESSION"
    )
    given = words.parse_args()
    write(given.folder, given.solver)


def main() -> int:
    return status_of(run)
