"""Adds members of the gateway, and tells who they are.

    web/members FOLDER add NAME [--role trader|solver|operator] [--secret FILE]
    web/members FOLDER password NAME [--secret FILE]
    web/members FOLDER token NAME [--days N]
    web/members FOLDER list

add makes a member with a new password, which is printed, or with that on the first line of FILE. A
trader trades; a solver may also propose, in lines of up to 16 MB; an operator has one of the
sessions 1 to 7. password gives a member another one, and ends its logins and tokens. token prints a
secret by which a program is the member, for N days (365): it sends the header "Authorization:
Bearer SECRET". list prints names, sessions and roles.

It ends with 0, or with one line on standard error and status
"""

from __future__ import annotations

import argparse
import pathlib
import re
import secrets

from ragvismo_gateway.members import ROLES, Members
from ragvismo_gateway.members_file import FILE, told_faults
from ragvismo_service import files
from ragvismo_service.statuses import BadUse, Status, table
from ragvismo_service.words import Words, password, status_of

STATUSES = Status.BAD_USE, Status.FILE_FAULT


def days(text: str) -> int:
    """A number of days; raises BadUse."""
    if re.fullmatch("[1-9][0-9]{0,3}", text):
        return int(text)
    raise BadUse(f"{text} is no number of days: 1 to 9999")


def run() -> None:
    words = Words(f"{__doc__}{table(*STATUSES)}", is_placed=False)
    words.add_argument("folder", type=pathlib.Path, metavar="FOLDER")
    tasks = words.add_subparsers(dest="task", required=True, parser_class=Task)
    for name in ("add", "password", "token"):
        task = tasks.add_parser(name)
        task.add_argument("name", metavar="NAME")
        if name == "token":
            task.add_argument("--days", type=days, default=365, metavar="N")
        else:
            task.add_argument("--secret", type=password, metavar="FILE")
        if name == "add":
            task.add_argument("--role", choices=ROLES, default="trader")
    tasks.add_parser("list")
    given = words.parse_args()
    if given.task == "add":
        files.make(given.folder)
    elif not (given.folder / FILE).is_file():
        raise BadUse(f"{given.folder} is no folder of a gateway: it has no {FILE}")
    with told_faults():
        do(given, Members(given.folder / FILE))


def do(given: argparse.Namespace, members: Members) -> None:
    """What the call says; raises BadUse."""
    if given.task == "list":
        for member in members.all():
            print(*member)
        return
    known = members.named(given.name)
    if given.task != "add" and known is None:
        raise BadUse(f"{given.name} is no member")
    if given.task == "token" and known:
        print(members.give_token(known, "token", given.days))
        return
    secret = given.secret or secrets.token_urlsafe(12)
    if given.task == "add":
        members.add(given.name, given.role, secret)
    else:
        members.change(given.name, secret)
    if not given.secret:
        print(secret)


class Task(Words):
    """The words after a task."""

    def __init__(self, prog: str) -> None:
        super().__init__(None, is_placed=False)
        self.prog = prog


def main() -> int:
    return status_of(run)
