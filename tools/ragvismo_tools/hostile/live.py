"""The word serve under pieces, limits, readers that go, and kills: a trial of tools/hostile."""

from __future__ import annotations

import pathlib
from typing import IO
import os
import random
import select
import subprocess
import time

from ragvismo_tools.piping import ends_of, piped
from ragvismo_tools.hostile.trial import LINE_LIMIT, LIVE, MOST_LINES, expect, replies_of, run


def live_process(program: pathlib.Path) -> subprocess.Popen[bytes]:
    return piped([program, "serve"], errors=True, bufsize=0)


def taken_from(pipe: IO[bytes], size: int) -> bytes:
    """So many bytes of a pipe, or all before its end."""
    taken = b""
    while len(taken) < size and (piece := os.read(pipe.fileno(), size - len(taken))):
        taken += piece
    return taken


def live_pieces(program: pathlib.Path, quick: bool) -> int:
    """After each piece the replies to all complete lines are there, and no other byte."""
    replies, rounds = replies_of(program, LIVE), 2 if quick else 20
    for seed in range(rounds):
        draw, at, seen = random.Random(f"pieces {seed}"), 0, 0
        with live_process(program) as child:
            given, told = ends_of(child)
            while at < len(LIVE):
                piece = LIVE[at : at + draw.choice((1, 5, 60, 700))]
                given.write(piece)
                at += len(piece)
                due = replies[seen : LIVE.count(b"\n", 0, at)]
                taken = taken_from(told, sum(map(len, due)))
                expect(taken == b"".join(due), f"seed {seed}, after {at} bytes: {taken[-200:]!r}")
                seen += len(due)
                time.sleep(draw.choice((0, 0, 0.001)))
                expect(
                    not select.select([told], [], [], 0)[0],
                    f"seed {seed}, after {at} bytes: more than the replies due",
                )
            given.close()
            expect(
                (told.read(), child.wait()) == (b"", 0),
                f"seed {seed}: not the end of the output",
            )
    return rounds


def live_limits(program: pathlib.Path) -> int:
    """A line at its limit is answered, and one past it ends the run; so is the last line, and the
    line after the last."""
    (opened, *_), tried = replies_of(program, b"open,1\n"), 0
    syntax = b'{"line":2,"number":1,"reason":"Syntax","reply":"refused"}\n'
    last = b'{"account":0,"balance":"0","line":%d,"reply":"balance","reserved":"0"}\n' % MOST_LINES
    done, too_long = (0, b""), (5, b"input too long\n")
    cases = [
        (
            b"open,1\n" + b"x" * (LINE_LIMIT + past) + end,
            opened + (b"" if past > 0 else syntax),
            too_long if past > 0 else done,
        )
        for past in (-1, 0, 1)
        for end in (b"\n", b"")
    ]
    cases += [
        (
            b"\n" * (MOST_LINES - 1 + past) + b"balance,0" + end,
            b"" if past else last,
            too_long if past else done,
        )
        for past in (0, 1)
        for end in (b"\n", b"")
    ]
    for text, wanted, ends in cases:
        status, out, said = run(program, "serve", text)
        expect(
            (out, status, said) == (wanted, *ends),
            f"{len(text)} bytes: status {status}, {said[-100:]!r}, {out[-200:]!r}",
        )
        tried += 1
    return tried


def live_closed(program: pathlib.Path, quick: bool) -> int:
    """The reader goes after some replies, and the next reply meets a closed pipe."""
    replies = replies_of(program, LIVE)
    counts = range(0, len(replies), 10 if quick else 1)
    for count in counts:
        with live_process(program) as child:
            lines, (given, told) = LIVE.splitlines(True), ends_of(child)
            given.write(b"".join(lines[:count]))
            taken = taken_from(told, sum(map(len, replies[:count])))
            told.close()
            given.write(lines[count])
            assert child.stderr
            said, status = child.stderr.read(), child.wait()
        expect(
            (taken, status, said) == (b"".join(replies[:count]), 4, b"write fault\n"),
            f"closed after {count}: status {status}, {said[-200:]!r}",
        )
    return len(counts)


def live_killed(program: pathlib.Path, quick: bool) -> int:
    """What a killed run wrote is a front of the output, and the same bytes given again write all of
    it."""
    whole, draw, rounds = (
        b"".join(replies_of(program, LIVE)),
        random.Random("killed"),
        5 if quick else 100,
    )
    for number in range(rounds):
        size, read = draw.randrange(len(LIVE)), draw.randrange(2_000)
        with live_process(program) as child:
            given, told = ends_of(child)
            given.write(LIVE[:size])
            time.sleep(draw.choice((0, 0.001, 0.01)))
            child.kill()
            taken = taken_from(told, len(whole) if read % 2 else read)
            child.wait()
        expect(
            whole.startswith(taken),
            f"killed after {size} bytes given: {taken[-200:]!r} is no front",
        )
        expect(
            b"".join(replies_of(program, LIVE)) == whole,
            f"started again after {size} bytes: another output",
        )
    return rounds


def live(program: pathlib.Path, quick: bool) -> tuple[int, str]:
    pieces, limits = live_pieces(program, quick), live_limits(program)
    gone, killed = live_closed(program, quick), live_killed(program, quick)
    said = (
        f"{pieces} in pieces: after each piece the replies due and no more; {limits} at the limits:"
        f" Done at them, TooLong past them; {gone} closed: WriteFault; {killed} killed: a front,"
        " and when started again the same output"
    )
    return pieces + limits + gone + killed, said
