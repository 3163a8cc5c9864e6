"""Runs of a program and what they take, and the tables that tell it: tools/bench is over these."""
import os
import pathlib
import platform
import re
import subprocess
import sys
import tempfile
import time
from collections.abc import Iterable, Sequence

# A time is the least of so many runs.
RUNS = 3
TIME = "/usr/bin/time"


def run(
    program: Sequence[object],
    words: Sequence[str],
    text: str | bytes,
    keep: bool = False,
    ends: Sequence[int] = (0,),
    quiet: bool = False,
) -> tuple[float, str]:
    """(processor seconds, output) of one run, which ends with one of these statuses."""
    with tempfile.TemporaryFile() as given, tempfile.TemporaryFile() as out:
        given.write(text.encode() if isinstance(text, str) else text)
        given.seek(0)
        said = subprocess.DEVNULL if quiet or ends != (0,) else None
        child = subprocess.Popen(
            [*map(str, program), *words],
            stdin=given,
            stdout=out if keep else subprocess.DEVNULL,
            stderr=said,
        )
        _, status, used = os.wait4(child.pid, 0)
        child.returncode = os.waitstatus_to_exitcode(status)
        if child.returncode not in ends:
            sys.exit(f"bench: {program[-1]} ended with {child.returncode}")
        out.seek(0)
        return used.ru_utime + used.ru_stime, out.read().decode() if keep else ""


def held(program: object, words: Sequence[str], text: str | bytes, ends: Sequence[int]) -> float:
    """The greatest memory of a run in MiB, by GNU time: a child of this script is charged with the
    script's own memory."""
    if not os.access(TIME, os.X_OK):
        return 0
    with tempfile.NamedTemporaryFile() as told:
        run(
            [TIME, "--quiet", "--output", told.name, "--format", "%M", program],
            words,
            text,
            ends=ends,
        )
        return int(told.read()) / 1024


def least(
    program: object, words: Sequence[str], text: str | bytes, ends: Sequence[int] = (0,)
) -> tuple[float, float]:
    """The least seconds of the runs, and the greatest memory in MiB."""
    return min(run([program], words, text, ends=ends)[0] for _ in range(RUNS)), held(
        program, words, text, ends
    )


def taken() -> str:
    """The day, the machine, and how many processes of it run or wait, which head each table."""
    about = pathlib.Path("/proc/cpuinfo")
    model = re.search(r"(?m)^model name\s*: (.*)$", about.read_text()) if about.exists() else None
    name = model[1] if model else platform.machine()
    return (
        f"{time.strftime('%Y-%m-%d', time.gmtime())}; {os.cpu_count()} x {name}; load"
        f" {os.getloadavg()[0]:.1f}"
    )


def table(title: str, head: Sequence[str], rows: Iterable[Sequence[object]]) -> None:
    print(f"\n## {title}\n\n{taken()}\n\n| {' | '.join(head)} |\n|{'---|' * len(head)}")
    for row in rows:
        print(f"| {' | '.join(str(it) for it in row)} |")
    sys.stdout.flush()


def spread(values: Sequence[float], form: str) -> str:
    return ", ".join(
        format(it, form) for it in (min(values), sum(values) / len(values), max(values))
    )
