"""How the tools read their words, and end: quietly where nobody reads on."""

from __future__ import annotations

import argparse
import os
import sys
from collections.abc import Callable
from typing import NoReturn


class BadUse(Exception):
    """What is wrong with the use, in one line."""


class Words(argparse.ArgumentParser):
    """Words whose faults are told in one line."""

    def error(self, message: str) -> NoReturn:
        raise BadUse(f"{message}; tools/{self.prog} --help says more")


def words_of(about: str | None) -> Words:
    """The words of a tool, whose help is its module's text as it stands there."""
    return Words(description=about, formatter_class=argparse.RawDescriptionHelpFormatter)


def status_of(main: Callable[[], int | None], closed: int = 0) -> int:
    """The status of a main, all its output written; where its reader has gone, `closed` and not a
    word."""
    try:
        try:
            return main() or 0
        finally:
            if sys.stdout:
                sys.stdout.flush()
    except BrokenPipeError:
        os.dup2(os.open(os.devnull, os.O_WRONLY), 1)
        return closed


def ended(main: Callable[[], int | None], *faults: type[Exception], closed: int = 0) -> int:
    """The status of a tool: bad use and these faults are one line on standard error, and 2."""
    try:
        return status_of(main, closed)
    except Exception as fault:
        if not isinstance(fault, (BadUse, *faults)):
            raise
        print(f"{os.path.basename(sys.argv[0])}: {fault}", file=sys.stderr)
        return 2
    except KeyboardInterrupt:
        return 130
