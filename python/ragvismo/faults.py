"""What can go wrong, as exceptions. All are of `RagvismoError`."""

from __future__ import annotations

from dataclasses import dataclass


class RagvismoError(Exception):
    """The root of this package's exceptions.

    `batch` is the place, from 0, of the batch that it is about, where many are cleared.
    """

    batch: int | None = None

    def told(self) -> str:
        """What is wrong, in one line."""
        return super().__str__()

    def __str__(self) -> str:
        return self.told() if self.batch is None else f"batch {self.batch}: {self.told()}"


class NoProgram(RagvismoError):
    """There is no program `exchange` where it was looked for."""


class Ended(RagvismoError):
    """The program ended before its answer; the text tells the status and what it said."""


class TimedOut(RagvismoError):
    """An answer took longer than the time that was given."""


class BadJournal(RagvismoError):
    """What is wrong with a journal, in one line."""


class BadFrame(RagvismoError, ValueError):
    """A cell of a DataFrame that is no part of an order, named by row and column."""


class BadChain(RagvismoError, ValueError):
    """Data of option quotes that cannot be read at all: a missing column or file."""


class NoMeasure(RagvismoError):
    """The batch has no measure: its mark is neither `optimal` nor `bounded`."""


class NoCover(RagvismoError):
    """No cover was found for fills; the text says where: a state at which more is owed without
    end, or how far the search went."""


@dataclass(eq=False)
class Unproved(RagvismoError):
    """A proposal does not hold. `failed` is the first condition that fails, by the exchange's
    names: `BatchShape`, `Fill`, `Cover` or `Measure`."""

    failed: str
    why: str

    def told(self) -> str:
        return f"{self.failed}: {self.why}"


@dataclass(eq=False)
class Refused(RagvismoError):
    """The exchange refused a command, which changed nothing.

    `reason` and `number` are those of docs/FORMATS.md, such as `Funds` and 9. `field` is the field
    of a `Range`, the word being field 1. `need` is what an account's positions need at a `Margin`,
    in ticks as a text, or a word for why it is unknown. `failed` is the condition that a proposal
    does not meet at `Unproved`.
    """

    command: str
    reason: str
    number: int
    field: int | None = None
    need: str | None = None
    failed: str | None = None

    def told(self) -> str:
        parts = {"field": self.field, "need": self.need, "failed": self.failed}
        at = "".join(f", {name} {part}" for name, part in parts.items() if part)
        command = self.command if len(self.command) <= 200 else f"{self.command[:200]}.."
        return f"{self.reason} ({self.number}{at}): {command}"


@dataclass(eq=False)
class CheckFailed(RagvismoError):
    """`exchange audit` says no. `reason` is the condition that fails, such as `Cover` or `Bound`,
    `line` the line, from 1."""

    reason: str
    line: int

    def told(self) -> str:
        return f"{self.reason} at line {self.line}"
