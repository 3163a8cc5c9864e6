"""Faults inside the process, by tools/faults.c: trials of tools/hostile."""

from __future__ import annotations

import pathlib
from collections.abc import Iterator, Sequence
from ragvismo_tools.hostile.trial import Ran
import os
import shutil
import subprocess
import tempfile

from ragvismo_tools.hostile.trial import SECONDS, expect
from ragvismo_tools.places import TOP


class Faulty:
    """Runs of the program with tools/faults.c loaded."""

    def __init__(self, program: pathlib.Path) -> None:
        self.program = program
        self.folder = tempfile.TemporaryDirectory()
        self.library = f"{self.folder.name}/faults.so"
        made = subprocess.run(
            ["cc", "-shared", "-fPIC", "-O2", "-o", self.library, TOP / "tools/faults.c"],
            capture_output=True,
        )
        expect(made.returncode == 0, f"cc does not compile tools/faults.c: {made.stderr[-200:]!r}")

    def run(self, words: Sequence[str], given: bytes, fault: str, counts: int | None = None) -> Ran:
        told = {} if counts is None else {"COUNTS": str(counts)}
        ran = subprocess.run(
            [self.program, *words],
            input=given,
            capture_output=True,
            timeout=SECONDS,
            env={"LD_PRELOAD": self.library, "FAULT": fault, **told},
            pass_fds=[] if counts is None else [counts],
        )
        return ran.returncode, ran.stdout, ran.stderr

    def plain(self, words: Sequence[str], given: bytes) -> tuple[int, bytes, dict[str, int]]:
        """The output without a fault, and how many allocations, reads and writes it takes."""
        with tempfile.TemporaryFile() as told:
            status, out, _ = self.run(words, given, "count 0", told.fileno())
            told.seek(0)
            return status, out, dict(zip(("alloc", "read", "write"), map(int, told.read().split())))


def sessions(program: pathlib.Path) -> Iterator[tuple[list[str], bytes]]:
    """Words and inputs that are tried: clears on one underlying and on two, the other modes,
    messages that are sent again, a check, a demo."""
    read = {
        name: (TOP / f"examples/{name}").read_bytes()
        for name in ("joint.commands", "basket.commands", "joint.replies")
    }
    yield ["run"], read["joint.commands"]
    yield ["run"], read["basket.commands"]
    yield ["quotes"], read["joint.commands"] + b"quote,1,100,call,10,1\n"
    yield ["guarded"], read["joint.commands"] + b"margin,2,1,100\nwithdraw,1,1\nwithdraw,2,1\n"
    yield ["sessions"], b"".join(
        b"7,%d,%s\n" % it
        for it in enumerate(read["joint.commands"].splitlines(), 1)
        for _ in (1, 2)
    )
    yield ["check"], read["joint.replies"]
    yield ["demo", "1", "20"], b""


def alloc(program: pathlib.Path, quick: bool) -> tuple[int, str]:
    faulty, ended, done = Faulty(program), 0, 0
    for words, given in sessions(program):
        _, whole, calls = faulty.plain(words, given)
        for number in range(1, calls["alloc"] + 1, 20 if quick else 1):
            for kind in ("alloc", "alloc_from"):
                status, out, said = faulty.run(words, given, f"{kind} {number}")
                what = f"{words} with {kind} {number}: status {status}, {said[-200:]!r}"
                expect((status, said) in ((0, b""), (70, b"out of memory\n")), what)
                expect(
                    out == whole if status == 0 else whole.startswith(out), f"{what}: not a front"
                )
                ended, done = ended + (status == 70), done + (status == 0)
    return (
        ended + done,
        f"{ended:,} out of memory with a front of the output, {done} Done with all of it",
    )


def growth(program: pathlib.Path, quick: bool) -> tuple[int, str]:
    """A program that shows an exchange before and after each step, and does a refused one again."""
    expect(not lacks_parts(), lacks_parts())
    faulty, words, done, ended = Faulty(GROWTH), ["growth"], 0, 0
    for number in range(1, faulty.plain(words, b"")[2]["alloc"] + 1, 20 if quick else 1):
        status, out, said = faulty.run(words, b"", f"alloc {number}")
        wants = said in (b"Error: out of memory\n", b"Error: memory allocation failed\n")
        expect(status == 0 or wants, f"alloc {number}: status {status}, {(out + said)[-200:]!r}")
        done, ended = done + (status == 0), ended + (status != 0)
    return (
        done + ended,
        f"{done} in a step, which changed nothing and was done again; {ended} outside of the steps",
    )


def short(program: pathlib.Path, quick: bool) -> tuple[int, str]:
    faulty, tried = Faulty(program), 0
    for words, given in sessions(program):
        _, whole, _ = faulty.plain(words, given)
        for size in (*range(1, 9 if quick else 65), 127, 1000, 4095, 4097):
            status, out, said = faulty.run(words, given, f"short {size}")
            expect(
                (status, out, said) == (0, whole, b""),
                f"{words} with moves of {size}: status {status}, {said[-200:]!r}",
            )
            tried += 1
    return tried, "Done with the whole output each time"


def faults(program: pathlib.Path, quick: bool) -> tuple[int, str]:
    faulty, tried = Faulty(program), {"read": 0, "write": 0}
    for words, given in sessions(program):
        _, whole, calls = faulty.plain(words, given)
        for kind, named in (("read", (3, b"read fault\n")), ("write", (4, b"write fault\n"))):
            for number in range(1, calls[kind] + 1):
                status, out, said = faulty.run(words, given, f"{kind} {number}")
                expect(
                    (status, said) == named,
                    f"{words} with {kind} {number}: status {status}, {said[-200:]!r}",
                )
                # Replies are written many together.
                front = (
                    whole.startswith(out) and bool(out) == (number > 1)
                    if kind == "write"
                    else not out
                )
                expect(front, f"{words} with {kind} {number}: not what was written before it")
                tried[kind] += 1
    return (
        sum(tried.values()),
        (
            f"{tried['read']} reads: ReadFault, nothing written; {tried['write']} writes:"
            " WriteFault, and what was written before it"
        ),
    )


GROWTH = TOP / "crates/cases_bench/out/cases_bench"


def lacks_compiler() -> str:
    return "" if shutil.which("cc") else "there is no C compiler cc, which compiles tools/faults.c"


def lacks_parts() -> str:
    missing = (
        ""
        if os.access(GROWTH, os.X_OK)
        else f"there is no {GROWTH.relative_to(TOP)}, which rt ci makes"
    )
    return lacks_compiler() or missing
