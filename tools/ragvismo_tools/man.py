"""Writes the man page of the exchange, made from the text of `./exchange --help`.

    tools/man > docs/exchange.1

A heading of the text is a section, and a line below it with two blanks or more inside is a term and
what it means. The status is 0; 2 for bad use, with one line on standard error.
"""
from __future__ import annotations

import re
import subprocess
import sys
from collections.abc import Iterator

from ragvismo_tools.ending import ended
from ragvismo_tools.places import TOP


def said(word: str) -> list[str]:
    return subprocess.run(
        [TOP / "exchange", word], capture_output=True, text=True, check=True
    ).stdout.splitlines()


def plain(text: str) -> str:
    """A text whose signs all stand for themselves."""
    return re.sub(r"^(['.])", r"\\&\1", text.replace("\\", r"\e").replace("-", r"\-"))


def page() -> Iterator[str]:
    """The lines of the page."""
    first, *rest = said("--help")
    name, about = first.split(" - ")
    yield f'.TH {name.upper()} 1 "" "Ragvismo {said("--version")[0].split()[1]}"'
    yield from (".SH NAME", f"{name} \\- {plain(about)}")
    for line in filter(None, rest):
        parts = re.fullmatch(r" *(.*?)(?:(  +)(.*))?", line)
        term, gap, meaning = parts.groups("") if parts else (line, "", "")
        if not line.startswith(" "):
            yield f".SH {'SYNOPSIS' if term == 'usage:' else plain(term.rstrip(':').upper())}"
        elif gap:
            yield from (".TP", f".B {plain(term)}", plain(meaning))
        else:
            yield f".B {plain(term)}"


def main() -> int:
    if sys.argv[1:] == ["--help"]:
        print(__doc__)
    elif sys.argv[1:]:
        print("man: it takes no words; tools/man --help says more", file=sys.stderr)
        return 2
    else:
        print("\n".join(page()))
    return 0


def run() -> int:
    return ended(main)
