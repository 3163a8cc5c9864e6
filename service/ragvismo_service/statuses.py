"""How the tools of the service end."""

from __future__ import annotations

import enum


class Status(enum.IntEnum):
    """The status of a tool, with what it means."""

    said: str

    def __new__(cls, value: int, said: str) -> Status:
        status = int.__new__(cls, value)
        status._value_ = value
        status.said = said
        return status

    DONE = 0, "all was done"
    NO = 1, "what was compared is not the same, or what was judged does not hold"
    BAD_USE = 2, "bad use"
    NO_REDIS = (
        3,
        "no Redis answered for --patience seconds, or it refused, as when its memory is full",
    )
    LOST = (
        4,
        "the log no longer has what was read from it: it lost its last entries, or is another one",
    )
    DIFFERS = (
        5,
        "ANOTHER ANSWER stands under an id than this machine computed: one of them is broken",
    )
    OTHER_PROGRAM = 6, "the exchange is answered by another program"
    PROGRAM_ENDED = 7, "the program ended, or answered more than it was asked"
    CUT = 8, "ENTRIES WERE TAKEN OUT of a stream (XTRIM, XDEL, MAXLEN)"
    FORGED = 9, "AN ANSWER STANDS THERE that no sequencer wrote"
    CHANGED = 10, "THE LOG WAS CHANGED: the chain of sums does not hold"
    HANGS = 11, "the program answered nothing for --patience seconds"
    HELD = 12, "another process writes to the folder"
    LAGS = 13, "more messages wait, or one waits longer, than the call allows"
    FILE_FAULT = 14, "a file could not be read or written"


# Starting again does not help: a person has to look.
NOT_AGAIN = frozenset(
    (
        Status.BAD_USE,
        Status.DIFFERS,
        Status.OTHER_PROGRAM,
        Status.CUT,
        Status.FORGED,
        Status.CHANGED,
    )
)


class Ended(Exception):
    """Why a tool can do no more, in one line, and the status it ends with."""

    def __init__(self, status: Status, said: str) -> None:
        super().__init__(status, said)
        self.status, self.said = status, said

    def __str__(self) -> str:
        return self.said


class BadUse(Ended):
    """What is wrong with a call, in one line."""

    def __init__(self, said: str) -> None:
        super().__init__(Status.BAD_USE, said)


def table(*statuses: Status) -> str:
    """The statuses with their meanings, a line each."""
    return "\n".join(f"    {status:2}  {status.said}" for status in statuses)
