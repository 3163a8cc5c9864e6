"""Ends a day of an exchange: journal, verify, audit, signature, backup and carry-over, each only
where those before hold.

    service/day-end FOLDER [--at PLACE] [--sign COMMAND] [--backups FOLDER] [--program FILE]
                    [--sessions]

It writes what is new to the journal in FOLDER and recomputes the chain through its files; checks
the chain of the log, in which the last sum of the journal has to be; has `exchange audit` judge all
replies; with --sign gives that sum, a line, to COMMAND, a tool of yours, and keeps it as NNNNNN.sum
and what COMMAND prints as NNNNNN.signature, with the number of the last segment (service/verify
--head SUM tells whether a log has it); copies the log to --backups (FOLDER itself, if not given)
under the day's date, and starts a Redis from the copy, of which the chain has to hold too; and
writes FOLDER/next.messages, with which `service/begin` begins the next exchange, has the program
answer them, and says what they cannot carry: each account is opened by the session that opened it.
Each step prints a line. A copy is a folder from which `service/up` starts.

It ends with 0, or with one line on standard error and status
"""

from __future__ import annotations

import argparse
import datetime
import pathlib
import shlex
import shutil
import subprocess

from ragvismo_service import backups, files
from ragvismo_service.carrying import Owners, messages, rehearsed
from ragvismo_service.journal import SIZE, verify, write_new
from ragvismo_service.program import Rule
from ragvismo_service.segments import Segment, segments
from ragvismo_service.statuses import BadUse, Ended, Status, table
from ragvismo_service.store import Store
from ragvismo_service.verifying import PROCESSORS, verified
from ragvismo_service.words import Words, status_of, store_of

TOOLS = pathlib.Path(__file__).resolve().parents[2] / "tools"
# How each line begins that carry-over says of what is left behind, and then it ends with 1, as a
# Python that fails does.
LEFT = "carry-over: "
# How check-many ends where the program says no, and where it could not be asked.
NO, NOT_ASKED = 6, 2
OTHERS = Status.DONE, Status.DIFFERS, Status.OTHER_PROGRAM, Status.HANGS, Status.LAGS
STATUSES = [status for status in Status if status not in OTHERS]


def over_replies(
    folder: pathlib.Path, *words: str | pathlib.Path
) -> subprocess.CompletedProcess[bytes]:
    """A tool that reads all replies of a journal."""
    replies = [segment.paths(folder)[1] for segment in segments(folder)]
    with subprocess.Popen(["cat", "/dev/null", *replies], stdout=subprocess.PIPE) as given:
        return subprocess.run(words, stdin=given.stdout, capture_output=True)


def said(ran: subprocess.CompletedProcess[bytes]) -> str:
    """The last line of what a tool said, on standard error where there is no other."""
    lines = (ran.stdout or ran.stderr).decode(errors="replace").splitlines()
    return lines[-1] if lines else f"nothing, with status {ran.returncode}"


def audited(folder: pathlib.Path, program: pathlib.Path) -> str:
    """What the program says of all replies; Ended where that is no yes, or not all are judged."""
    ran = over_replies(folder, TOOLS / "check-many", "-", "--word", "audit", "--program", program)
    if ran.returncode == NO:
        raise Ended(Status.NO, f"the audit of {folder} says no: {said(ran)}")
    if ran.returncode:
        status = Status.BAD_USE if ran.returncode == NOT_ASKED else Status.PROGRAM_ENDED
        raise Ended(status, f"not all of {folder} is audited: {said(ran)}")
    return ran.stdout.decode().rstrip()


def signed(folder: pathlib.Path, last: Segment, command: list[str]) -> str:
    """Has a command sign the sum after the last segment; Ended where it does not."""
    path, text = folder / f"{last.number:06}.sum", f"{last.head}\n".encode()
    files.write(path, text)
    ran = subprocess.run(command, input=text, capture_output=True)
    if ran.returncode or not ran.stdout:
        raise Ended(Status.NO, f"{command[0]} signs nothing: {said(ran)}")
    signature = path.with_suffix(".signature")
    files.write(signature, ran.stdout)
    return f"{signature} is of {path}"


def carried(folder: pathlib.Path, program: pathlib.Path, rule: Rule) -> str:
    """Writes the messages of the next exchange, and tells what is left behind."""
    ran = over_replies(folder, TOOLS / "carry-over", "-")
    path, left = folder / "next.messages", ran.stderr.decode()
    is_told = all(line.startswith(LEFT) for line in left.splitlines())
    if ran.returncode != bool(left) or not is_told:
        raise Ended(Status.NO, f"nothing can be carried over: {said(ran)}")
    given = list(messages(Owners(folder).bodies(ran.stdout.splitlines())))
    holds = rehearsed(given, program, rule)
    files.write(path, b"".join(message.line() + b"\n" for message in given))
    return f"{path} has {holds}; left behind: {left or 'nothing'}".rstrip()


def end_day(folder: pathlib.Path, store: Store, given: argparse.Namespace) -> None:
    last: Segment = write_new(folder, store, SIZE)
    print("journal:", verify(folder), flush=True)
    head = last.head.encode()
    print("verify:", verified(store, head, PROCESSORS), flush=True)
    print("audit:", audited(folder, given.program), flush=True)
    if given.sign:
        print("sign:", signed(folder, last, given.sign), flush=True)
    copies: pathlib.Path = given.backups or folder
    copy = copies / f"{datetime.datetime.now(datetime.UTC):%Y-%m-%d}"
    print(f"backup: in {copy}", backups.made(store, copy, head), flush=True)
    print("carry-over:", carried(folder, given.program, given.rule), flush=True)


def command(text: str) -> list[str]:
    """A command that there is; raises BadUse."""
    words = shlex.split(text)
    if not words or not shutil.which(words[0]):
        raise BadUse(f"there is no command {text}")
    return words


def run() -> None:
    words = Words(f"{__doc__}{table(*STATUSES)}")
    words.add_argument("folder", metavar="FOLDER", type=pathlib.Path)
    words.add_argument("--sign", type=command, metavar="COMMAND")
    words.add_argument("--backups", type=pathlib.Path, metavar="FOLDER")
    words.add_program()
    words.add_rule()
    given = words.parse_args()
    # Another day's end would write to the same copy.
    with files.lock(given.folder):
        end_day(given.folder, store_of(given), given)


def main() -> int:
    return status_of(run)
