"""The words of the tools, and how a tool ends."""

from __future__ import annotations

import argparse
import dataclasses
import logging
import os
import pathlib
import re
import sys
from collections.abc import Callable
from typing import NoReturn

from ragvismo_service.places import FORM, Place
from ragvismo_service.program import Rule
from ragvismo_service.statuses import BadUse, Ended, Status
from ragvismo_service.store import Store

PROGRAM = pathlib.Path(__file__).resolve().parents[2] / "crates/exchange_cli/out/exchange_cli"


def tool() -> str:
    """The name of the tool that runs."""
    return pathlib.Path(sys.argv[0]).name


def runnable(path: str) -> pathlib.Path:
    """The program at a path, which says where it is and is not looked up among others; raises
    BadUse."""
    if not os.path.isfile(path) or not os.access(path, os.X_OK):
        raise BadUse(f"there is no program {path}, which ./build makes")
    return pathlib.Path(path).absolute()


def seconds(text: str) -> float:
    """A number of seconds above 0; raises BadUse."""
    try:
        if (number := float(text)) > 0:
            return number
    except ValueError:
        pass
    raise BadUse(f"{text} is no number of seconds above 0")


def number_of(least: int, most: int, name: str) -> Callable[[str], int]:
    """What reads a number in a range; it raises BadUse."""

    def read(text: str) -> int:
        if not re.fullmatch("0|[1-9][0-9]{0,8}", text) or not least <= int(text) <= most:
            raise BadUse(f"{text} is no {name}: {least} to {most}")
        return int(text)

    return read


market = number_of(1, 999_999_999, "market")
# Those up to 9 are the operator's.
operator_session = number_of(1, 9, "session of the operator's")
solver_session = number_of(10, 999_999_999, "session of a solver")


def password(path: str) -> str:
    """The password on the first line of a file; raises BadUse."""
    try:
        return pathlib.Path(path).read_text().partition("\n")[0]
    except (OSError, ValueError) as fault:
        raise BadUse(f"{path} tells no password: {fault}") from None


def place_of(given: argparse.Namespace) -> Place:
    """The place that a call names, with its sentinels and the password of its user."""
    secret = given.password or ""
    sentinels = tuple(dataclasses.replace(it, password=secret) for it in given.sentinel)
    at: Place = given.at
    return dataclasses.replace(at, password=secret, sentinels=sentinels)


def store_of(given: argparse.Namespace) -> Store:
    """The Redis that a call names."""
    return Store(place_of(given), given.patience, tool())


class Words(argparse.ArgumentParser):
    """The words of a tool."""

    def __init__(
        self, description: str | None, is_placed: bool = True, patience: float | None = 60
    ) -> None:
        super().__init__(
            description=description, formatter_class=argparse.RawDescriptionHelpFormatter
        )
        if is_placed:
            self.add_argument(
                "--at", type=Place.of, default="6380", metavar="PLACE", help=f"{FORM} (6380)"
            )
            secret = "a file, the first line of which is the password of USER"
            self.add_argument("--password", type=password, metavar="FILE", help=secret)
            watched = "one that knows which Redis of the group HOST is the master; once for each"
            self.add_argument(
                "--sentinel",
                type=Place.of,
                action="append",
                default=[],
                metavar="PLACE",
                help=watched,
            )
        long = patience or "for ever"
        how_long = f"how long Redis may be away, and the program may say nothing ({long})"
        self.add_argument(
            "--patience", type=seconds, default=patience, metavar="SECONDS", help=how_long
        )

    def error(self, message: str) -> NoReturn:
        raise BadUse(f"{message}; --help says more")

    def add_program(self, is_wanted: bool = True) -> None:
        """The program, which has to be there where it is wanted or named."""
        of_build = "the one that ./build makes, if not given"
        default = str(PROGRAM) if is_wanted else None
        self.add_argument(
            "--program", type=runnable, default=default, metavar="FILE", help=of_build
        )

    def add_rule(self) -> None:
        self.add_argument(
            "--sessions",
            dest="rule",
            action="store_const",
            const=Rule.SESSIONS,
            default=Rule.MEMBERS,
            help="any session may move any account, as `serve sessions` answers",
        )


def status_of(main: Callable[[], int | None]) -> int:
    """The status of a tool, and one line on standard error where it says why it ended."""
    logging.basicConfig(format=f"%(asctime)s {tool()}: %(message)s", level=logging.INFO)
    try:
        try:
            return main() or Status.DONE
        finally:
            if sys.stdout:
                sys.stdout.flush()
    except Ended as fault:
        print(f"{tool()}: {fault}", file=sys.stderr)
        return fault.status
    except KeyboardInterrupt:
        return 130
    except BrokenPipeError:
        # Nobody reads on.
        os.dup2(os.open(os.devnull, os.O_WRONLY), 1)
        return Status.DONE
    except OSError as fault:
        print(f"{tool()}: {fault.filename or 'a file'}: {fault.strerror}", file=sys.stderr)
        return Status.FILE_FAULT
