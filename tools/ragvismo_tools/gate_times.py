"""Measures a run of the gate in one piece: processor minutes by crate and kind.

    tools/gate-times [--top N] [--save FILE] [WORD..]
    tools/gate-times --of FILE [--top N]

The first runs `rt ci WORD..` at the top, as with --anew, and measures it; the second prints the
table of a saved record again, and `-` is standard input.

The lines of `rt ci` come through, and its status is the status here. Each second the processor
times of the toolchain's processes below it are read from /proc. A proof is the check of a crate;
tests are checked with --test; edits are the checks in a folder rt-edit-.., wrong bodies and what
their crate's proof kept for them; a build takes what was checked. The table has the N dearest
crates (all of them where no N is given) and the sums. What is not in it ran too shortly to be seen,
or is `rt` itself, linking, and the running of programs and tests. --save keeps the record in FILE,
which no commit tracks.
"""
from __future__ import annotations

import json
import os
import pathlib
import signal
import subprocess
import sys
import time
from typing import Any, NamedTuple

from ragvismo_tools import tracked
from ragvismo_tools.ending import BadUse, ended, words_of
from ragvismo_tools.places import TOP

KINDS = ("proof", "tests", "edits", "build", "other")
TICKS = os.sysconf("SC_CLK_TCK")


class Process(NamedTuple):
    parent: int
    start: int
    seconds: float


def processes() -> dict[int, Process]:
    """All processes that are there, each with its own time and that of the children it has waited
    for."""
    found = {}
    for name in filter(str.isdigit, os.listdir("/proc")):
        try:
            fields = pathlib.Path(f"/proc/{name}/stat").read_text().rpartition(")")[2].split()
        except OSError:
            continue
        found[int(name)] = Process(
            int(fields[1]), int(fields[19]), sum(map(int, fields[11:15])) / TICKS
        )
    return found


def command(number: int) -> tuple[list[str], str]:
    """The words of a process and the folder that it works in, or none where it has gone."""
    try:
        words = (
            pathlib.Path(f"/proc/{number}/cmdline")
            .read_bytes()
            .decode(errors="replace")
            .split("\0")
        )
        return words, os.readlink(f"/proc/{number}/cwd")
    except OSError:
        return [], ""


def kind_of(words: list[str], folder: str) -> str:
    if pathlib.Path(folder).name.startswith("rt-edit-"):
        return "edits"
    if "--test" in words:
        return "tests"
    if "--crate-checked" in words:
        return "build"
    return "proof" if words[1] in ("check", "build") else "other"


class Sampler:
    """The toolchain's processes below one process, as they come and go."""

    def __init__(self, root: int) -> None:
        self.root, self.begin = root, time.monotonic()
        self.seen: dict[tuple[int, int], dict[str, Any]] = {}

    def look(self) -> None:
        now = processes()
        below: dict[int, list[int]] = {}
        for number, it in now.items():
            below.setdefault(it.parent, []).append(number)
        waiting = list(below.get(self.root, ()))
        while waiting:
            number = waiting.pop()
            key = (number, now[number].start)
            if key in self.seen or self.is_met(number, key):
                self.seen[key]["seconds"] = max(
                    self.seen[key]["seconds"], self.total(number, now, below)
                )
            else:
                waiting += below.get(number, ())

    def is_met(self, number: int, key: tuple[int, int]) -> bool:
        words, folder = command(number)
        if pathlib.Path(words[0] if words else "").name != "rattle" or len(words) < 2:
            return False
        crate = words[words.index("--crate-name") + 1] if "--crate-name" in words[:-1] else "?"
        start = round(time.monotonic() - self.begin, 1)
        self.seen[key] = {
            "crate": crate,
            "kind": kind_of(words, folder),
            "start": start,
            "seconds": 0.0,
        }
        return True

    def total(self, number: int, now: dict[int, Process], below: dict[int, list[int]]) -> float:
        """The time of a process and of all below it: its jobs are copies of it."""
        return now[number].seconds + sum(self.total(it, now, below) for it in below.get(number, ()))


def measure(words: list[str]) -> dict[str, Any]:
    try:
        child = subprocess.Popen(["rt", "ci", *words], cwd=TOP)
    except FileNotFoundError:
        raise BadUse("this needs the Rattle kit, with rt on the path") from None
    sampler = Sampler(child.pid)
    signal.signal(signal.SIGTERM, lambda *_: os.kill(child.pid, signal.SIGTERM))
    signal.signal(
        signal.SIGINT, signal.SIG_IGN
    )  # the terminal sends it to rt too, and what was measured is told
    ended = 0
    while not ended:
        sampler.look()
        time.sleep(1)
        ended, status, used = os.wait4(child.pid, os.WNOHANG)
    child.returncode = os.waitstatus_to_exitcode(status)
    return {
        "words": words,
        "status": child.returncode,
        "wall": round(time.monotonic() - sampler.begin, 1),
        "used": round(used.ru_utime + used.ru_stime, 1),
        "processes": list(sampler.seen.values()),
    }


def table(record: dict[str, Any], top: int | None) -> list[str]:
    try:
        rows: dict[str, dict[str, float]] = {}
        for it in record["processes"]:
            row = rows.setdefault(it["crate"], dict.fromkeys(KINDS, 0.0))
            row[it["kind"]] += it["seconds"] / 60
        starts = (it["start"] for it in record["processes"] if it["kind"] != "other")
        first = min(starts, default=record["wall"]) / 60
        wall, used = record["wall"] / 60, record["used"] / 60
    except (KeyError, TypeError, AttributeError):
        raise BadUse("the record is none of tools/gate-times") from None
    dearest = sorted(rows.items(), key=lambda it: -sum(it[1].values()))
    listed, rest = dearest[:top], dearest[len(dearest[:top]) :]
    for name, of in ((f"{len(rest)} more", rest), (f"all {len(rows)}", dearest)):
        if of:
            listed.append((name, {kind: sum(row[kind] for _, row in of) for kind in KINDS}))
    cells = [
        (name, *(f"{it:.1f}" for it in (*row.values(), sum(row.values())))) for name, row in listed
    ]
    lines = ["| Crate | " + " | ".join((*KINDS, "all")) + " |", "|---|" + "---|" * (len(KINDS) + 1)]
    lines += ["| " + " | ".join(it) + " |" for it in cells]
    outside = max(used - sum(sum(row.values()) for row in rows.values()), 0)
    before = f"wall clock {wall:.1f} minutes, {first:.1f} of them before the first process"
    return [*lines, f"{before}; {outside:.1f} processor minutes outside of these"]


def main() -> int:
    words = words_of(__doc__)
    words.allow_abbrev = False
    words.add_argument("--top", type=int, metavar="N")
    words.add_argument("--save", type=pathlib.Path, metavar="FILE")
    words.add_argument("--of", type=pathlib.Path, metavar="FILE")
    given, further = words.parse_known_args()
    if given.top is not None and given.top < 1:
        raise BadUse("--top is at least 1")
    if given.of:
        if further or given.save:
            raise BadUse("--of stands with --top alone")
        record = (
            json.load(sys.stdin)
            if given.of == pathlib.Path("-")
            else json.loads(given.of.read_text())
        )
        print("\n".join(table(record, given.top)))
        return 0
    if given.save:
        if tracked.is_tracked(given.save):
            raise BadUse(f"{given.save} is tracked")
        given.save.open("a").close()
    record = measure(further)
    if given.save:
        given.save.write_text(json.dumps(record) + "\n")
    print("\n".join(table(record, given.top)))
    status: int = record["status"]
    return status if status >= 0 else 128 - status


def run() -> int:
    return ended(main, OSError, ValueError)
