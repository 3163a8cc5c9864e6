"""Where the program `exchange` is, and its words that answer at the end of the input."""

from __future__ import annotations

import json
import os
import pathlib
import subprocess
import time

from ragvismo.faults import CheckFailed, Ended, NoProgram, TimedOut

VARIABLE = "RAGVISMO_EXCHANGE"
BUILT = pathlib.Path(__file__).resolve().parents[2] / "crates/exchange_cli/out/exchange_cli"
CHECK_NO = 6
Path = str | os.PathLike[str]


class Deadline:
    """So many seconds from now, or no end."""

    def __init__(self, timeout: float | None) -> None:
        self.timeout = timeout
        self.end = None if timeout is None else time.monotonic() + timeout

    def left(self) -> float | None:
        """The seconds that are left, above 0; raises `TimedOut` where there are none."""
        if self.end is None:
            return None
        left = self.end - time.monotonic()
        if left <= 0:
            raise self.passed()
        return left

    def passed(self) -> TimedOut:
        return TimedOut(f"no answer within {self.timeout:g} s")


def find(path: Path | None = None) -> pathlib.Path:
    """The program: the path that is given, or else that of the environment variable
    RAGVISMO_EXCHANGE, or else the one that ./build has made in the checkout that holds this
    package. Raises `NoProgram` where none can be run there."""
    program = pathlib.Path(path or os.environ.get(VARIABLE) or BUILT)
    if not os.access(program, os.X_OK) or program.is_dir():
        raise NoProgram(f"there is no program {program}: ./build makes it, {VARIABLE} names one")
    return program.resolve()


def run(text: str, word: str, path: Path | None = None, timeout: float | None = None) -> str:
    """What a word of the program writes for a text of lines. Raises `Ended` at a status that is
    not 0, but for a no of `check` or `audit`, and `TimedOut` after so many seconds."""
    command = [str(find(path)), word]
    try:
        ran = subprocess.run(command, input=text.encode(), capture_output=True, timeout=timeout)
    except subprocess.TimeoutExpired:
        raise TimedOut(f"exchange {word} gave no answer within {timeout:g} s") from None
    if ran.returncode not in (0, CHECK_NO if word in ("check", "audit") else 0):
        raise ended(word, ran.returncode, ran.stderr)
    return ran.stdout.decode()


def ended(word: str, status: int, said: bytes) -> Ended:
    """The end of the program with a status and what it said."""
    told = said.decode(errors="replace").strip()[-200:]
    return Ended(f"exchange {word} ended with {status}" + (f": {told}" if told else ""))


def check(journal: str, path: Path | None = None, timeout: float | None = None) -> dict[str, int]:
    """Checks the lines of a journal: how many there are (`lines`), cleared ones (`batches`), and
    ones marked `optimal` and `bounded`.

    Raises `CheckFailed` at the first line that is no answer of `serve`, or whose certificate does
    not hold, and `TimedOut`."""
    report = json.loads(run(journal, "audit", path, timeout))
    if report.pop("verdict") != "yes":
        raise CheckFailed(report["reason"], report["line"])
    return dict(report)
