"""Checks journals of any size on all processors, or on many machines.

    tools/check-many JOURNAL.. [--word WORD] [--program FILE] [--jobs N] [--piece BYTES]
                     [--sshlogin HOSTS]

A journal is cut at line feeds into pieces, GNU parallel gives each to `exchange check`, or to
`exchange audit` with --word audit, and the reports are joined: for each JOURNAL one line, the
report that the word would write on the whole of it, with its line numbers. JOURNAL `-` is standard
input. A piece holds --piece bytes (16777216, if not given) and the rest of its last line, and must
stay within the limit of one check. The program is the one that ./build makes, or FILE; with
--sshlogin, which is handed to parallel, it must stand at the same path on every host.

Ends with 0 where every report says yes, 6 where one says no, and 2 where nothing could be asked.
Where a piece could not be checked (memory, a fault of the input), no report is written from there
on, and its status is the status.
"""

from __future__ import annotations

from typing import Any, NoReturn
from collections.abc import Sequence
import argparse
import json
import os
import pathlib
import re
import shlex
import shutil
import subprocess
import sys

from ragvismo_tools.ending import status_of
from ragvismo_tools.places import PROGRAM

PIECE, LIMIT = 16 * 1024 * 1024, 256 * 1024 * 1024
DONE, USAGE, NO = 0, 2, 6
# The words, and the numbers that their reports add up.
WORDS = {
    "check": ("batches", "lines", "optimal"),
    "audit": ("batches", "bounded", "lines", "optimal"),
}
ANSWER = re.compile(rb"(?:(\{.*\})\n)?status=(\d+)\n")


# A report and the status of the run that wrote it.
Report = dict[str, Any]
Answer = tuple[Report | None, int]


class Failed(Exception):
    """What went wrong, in one line, and the status to end with."""

    def __init__(self, said: str, status: int = USAGE) -> None:
        super().__init__(said)
        self.status = status


def pieces(journal: str, given: argparse.Namespace) -> list[Answer]:
    """The report (None, if there is none) and status of each piece, in order."""
    source = ["--pipe"] if journal == "-" else ["--pipepart", "--arg-file", journal]
    spread = ["--sshlogin", given.sshlogin] if given.sshlogin else []
    asked = f"{shlex.quote(str(given.program))} {given.word}; echo status=$?; cat >/dev/null"
    command = [
        "parallel",
        "--will-cite",
        "--keep-order",
        f"--block={given.piece}",
        f"--jobs={given.jobs}",
    ]
    # Perl, in which it is written, would tell of a locale that is not there.
    environment = {**os.environ, "LC_ALL": "C", "PARALLEL_SHELL": "/bin/sh"}
    ran = subprocess.run(
        [*command, *source, *spread, asked],
        capture_output=True,
        env=environment,
        stdin=None if journal == "-" else subprocess.DEVNULL,
    )
    said = [
        line
        for line in ran.stderr.decode(errors="replace").splitlines()
        if line.strip() not in ("", "check failed")
    ]
    for line in dict.fromkeys(said):
        print(f"check-many: {line}", file=sys.stderr)
    answers = ANSWER.findall(ran.stdout)
    if ran.returncode or b"".join(ANSWER.split(ran.stdout)[::3]):
        raise Failed(
            f"parallel ended with {ran.returncode}, and not every piece of {journal} has an answer"
        )
    return [(json.loads(report) if report else None, int(status)) for report, status in answers]


def joined(journal: str, answers: Sequence[Answer], word: str) -> Report:
    """The report on the whole journal."""
    whole = dict.fromkeys(WORDS[word], 0)
    for number, (report, status) in enumerate(answers, 1):
        if status == NO and report:
            return {**report, "line": whole["lines"] + report["line"]}
        if status != DONE or not report:
            raise Failed(
                f"piece {number} of {journal} was not checked: {given_reason(status, word)}",
                status or USAGE,
            )
        whole = {key: whole[key] + report[key] for key in whole}
    return {**whole, "verdict": "yes"}


def given_reason(status: int, word: str) -> str:
    named = {
        2: f"the program does not know the word {word}",
        3: "read fault",
        4: "write fault",
        5: "input too long",
        70: "out of memory",
    }
    return f"status {status}, {named.get(status, 'which is none of the word')}"


def check(journal: str, given: argparse.Namespace) -> Report:
    if journal != "-":
        if not os.path.isfile(journal):
            raise Failed(f"there is no file {journal}")
        if not os.access(journal, os.R_OK):
            raise Failed(f"{journal} cannot be read")
        if os.path.getsize(journal) == 0:
            return joined(journal, [], given.word)
    return joined(journal, pieces(journal, given), given.word)


class Words(argparse.ArgumentParser):
    def error(self, message: str) -> NoReturn:
        raise Failed(f"{message}; tools/check-many --help says more")


def words() -> argparse.Namespace:
    asked = Words(description=__doc__, formatter_class=argparse.RawDescriptionHelpFormatter)
    asked.add_argument("journals", nargs="+", metavar="JOURNAL")
    asked.add_argument("--word", choices=WORDS, default="check")
    asked.add_argument("--program", type=pathlib.Path, default=PROGRAM, metavar="FILE")
    asked.add_argument(
        "--jobs",
        type=int,
        default=len(os.sched_getaffinity(0)),
        metavar="N",
        help="pieces at once, on each host",
    )
    asked.add_argument("--piece", type=int, default=PIECE, metavar="BYTES")
    asked.add_argument("--sshlogin", metavar="HOSTS")
    given = asked.parse_args()
    if given.jobs < 1 or not 1 <= given.piece < LIMIT:
        raise Failed(f"--jobs is at least 1, and --piece from 1 to {LIMIT - 1}")
    if not shutil.which("parallel"):
        raise Failed("GNU parallel is missing; tools/setup installs it")
    if not given.sshlogin and not os.access(given.program, os.X_OK):
        raise Failed(f"there is no program {given.program}, which ./build makes")
    given.program = given.program.resolve()
    return given


def main() -> int:
    given = words()
    status = DONE
    for journal in given.journals:
        report = check(journal, given)
        print(json.dumps(report, separators=(",", ":"), sort_keys=True), flush=True)
        if report["verdict"] == "no":
            status = NO
    if status == NO:
        print("check failed", file=sys.stderr)
    return status


def run() -> int:
    try:
        return status_of(main)
    except Failed as fault:
        print(f"check-many: {fault}", file=sys.stderr)
        return fault.status
