"""Journals cut and changed, each held against a second check: trials of tools/hostile."""

from __future__ import annotations

import pathlib
from typing import Any
import json
import random

from ragvismo_tools import plain_check
from ragvismo_tools.hostile.trial import expect, run
from ragvismo_tools.places import TOP


def agreed(program: pathlib.Path, journal: bytes) -> dict[str, Any]:
    """The program's report, which is that of the plain check, but for Wide; its status says the
    same."""
    status, out, said = run(program, "check", journal)
    told: dict[str, Any] = json.loads(out)
    wanted = plain_check.report(journal, "check")
    ends = (0, b"") if wanted["verdict"] == "yes" else (6, b"check failed\n")
    expect((status, said) == ends, f"status {status} on {journal[-200:]!r}")
    wide = told.get("reason") == "Wide" and told["line"] == wanted.get("line")
    expect(told == wanted or wide, f"{told} in place of {wanted} on {journal[-200:]!r}")
    return told


def cuts(program: pathlib.Path, quick: bool) -> tuple[int, str]:
    tried, yes = 0, 0
    for name in ("joint", "basket", "spread"):
        journal = (TOP / f"examples/{name}.replies").read_bytes()
        for at in range(0, len(journal), 50 if quick else 1):
            told, lines = agreed(program, journal[:at]), journal[:at].count(b"\n")
            whole = at == 0 or b"\n" in (journal[at - 1 : at], journal[at : at + 1])
            expect(
                whole or told == {"line": lines + 1, "reason": "NotJson", "verdict": "no"},
                f"{name} cut at {at}: {told}",
            )
            expect(not whole or told["verdict"] == "yes", f"{name} cut at {at}: {told}")
            tried, yes = tried + 1, yes + whole
    return tried, f"{yes} cut between lines: yes; all others: NotJson at the cut line"


def changed_bytes(program: pathlib.Path, quick: bool) -> tuple[int, str]:
    draw, tried, yes = random.Random("bytes"), 0, 0
    for name in ("butterfly", "basket", "spread"):
        lines = (TOP / f"examples/{name}.replies").read_bytes().splitlines()
        line = next(it for it in lines if b'"cleared"' in it)
        for at in range(0, len(line), 40 if quick else 1):
            for new in draw.sample(
                [it for it in b'0123456789"-/,:[]{}ax \xff' if it != line[at]], 3
            ):
                told = agreed(program, line[:at] + bytes((new,)) + line[at + 1 :] + b"\n")
                yes += told["verdict"] == "yes"
                tried += 1
    return (
        tried,
        (
            f"{yes} yes, each of them another sound line by the second check; all others no, with"
            " the reason of the second check"
        ),
    )
