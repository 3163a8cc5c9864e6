"""Asks the followers of an exchange, and prints what they tell.

    service/ask SESSION [--at PLACE] [--patience SECONDS] < QUESTIONS

Each line of standard input is asked for the session, as balance,7 or price,1,20000,call,10,1, and
its answer is printed with the last entry of the log that it knows of. Asking changes nothing, is no
message, and has no number.

It ends with 0, or with one line on standard error and status
"""

from __future__ import annotations

import json
import sys

from ragvismo_service.messages import fault_of
from ragvismo_service.questions import Asker
from ragvismo_service.statuses import BadUse, Status, table
from ragvismo_service.words import Words, number_of, status_of, store_of

STATUSES = Status.BAD_USE, Status.NO_REDIS, Status.FORGED, Status.LAGS
session = number_of(1, 999_999_999, "session")


def run() -> None:
    words = Words(f"{__doc__}{table(*STATUSES)}")
    words.add_argument("session", type=session, metavar="SESSION")
    given = words.parse_args()
    asker = Asker(store_of(given))
    for line in sys.stdin.buffer:
        if body := line.rstrip(b"\r\n"):
            if fault := fault_of(b"%d" % given.session, b"", body):
                raise BadUse(f"a line is no question: {fault}")
            told = asker.ask(given.session, body, given.patience).told()
            print(json.dumps(told, separators=(",", ":")), flush=True)


def main() -> int:
    return status_of(run)
