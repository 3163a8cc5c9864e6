"""Definitions and lemmas of the crates that nothing uses."""
from __future__ import annotations

import collections
import pathlib
import re
from collections.abc import Iterable, Iterator
from typing import NamedTuple

HEAD = re.compile(r"( {0,2})(?:(?:abbrev|unfoldable|pub) )*([^\s:()]+) : ")
IMPORT = re.compile(r"\s*(?:(?:unfoldable|pub) )*use ")
RECORD = re.compile(r"\s*(?:pub )?record ")
WORD = re.compile(r"[^\s(){}\[\],;.:]+")
# Goals and their answers are the prover's, and worked rows are there to be computed.
TAKEN = re.compile(r"(Answers|Invariants|Proof)\.antt|(Worked|Examples).*\.antt")
NO_NAMES = {"pub", "use", "let", "record"}
IMPORTED = re.compile(r"use (Rattle\.[\w.]+)\.\{([^}]*)\}")
WHOLE = re.compile(r"use (Rattle\.[\w.]+?)(?: as \w+)?;?$", re.M)
ALL = "*"
KINDS = "src", "specs", "proofs"


class Named(NamedTuple):
    line: int
    name: str
    text: str


def indent(line: str) -> int:
    return len(line) - len(line.lstrip())


def words_in(text: str) -> collections.Counter[str]:
    """How often each word stands in a text, its imports and comments left out."""
    lines = (line for line in text.splitlines() if not IMPORT.match(line))
    return collections.Counter(
        word for line in lines if not line.lstrip().startswith("--") for word in WORD.findall(line)
    )


def is_field(lines: list[str], at: int) -> bool:
    """Whether a line of two spaces stands in a record."""
    above = (line for line in reversed(lines[:at]) if line.strip() and indent(line) == 0)
    return indent(lines[at]) > 0 and bool(RECORD.match(next(above, "")))


def end_of(lines: list[str], first: int, name: str) -> int:
    """Where what is defined from a line on ends: its clauses, and all that stands deeper."""
    depth, last = indent(lines[first]), first
    for at in range(first + 1, len(lines)):
        line = lines[at]
        own = indent(line) == depth and (line.split()[:1] == [name] or "unfolding" in line)
        if line.strip() and not own and indent(line) <= depth:
            break
        last = at if line.strip() else last
    return last + 1


def named_in(text: str) -> Iterator[Named]:
    """What a file defines, with its text."""
    lines = text.splitlines()
    for at, line in enumerate(lines):
        head = HEAD.match(line)
        if head and head[2] not in NO_NAMES and not is_field(lines, at):
            yield Named(at + 1, head[2], "\n".join(lines[at : end_of(lines, at, head[2])]))


def imports_in(texts: Iterable[str]) -> dict[str, set[str]]:
    """What is imported of each module; all of it where none of its names is told."""
    found: dict[str, set[str]] = collections.defaultdict(set)
    for text in texts:
        for module, names in IMPORTED.findall(text):
            found[module] |= {name.split(" as ")[0].strip() for name in names.split(",")}
        for module in WHOLE.findall(text):
            found[module].add(ALL)
    return found


def unused(crates: pathlib.Path) -> list[str]:
    """The place and the name of each definition or lemma that nothing else in its file names, no
    file imports and no source tells."""
    paths = sorted(path for path in crates.glob("*/*/**/*") if path.parts[-1][:1] != ".")
    texts = {
        path: path.read_text(encoding="utf-8")
        for path in paths
        if path.suffix in (".rt", ".antt") and path.relative_to(crates).parts[1] in KINDS
    }
    imports = imports_in(texts.values())
    told = {word for path, text in texts.items() if path.suffix == ".rt" for word in words_in(text)}
    found = []
    for path, text in texts.items():
        module = ".".join(["Rattle", *path.relative_to(crates).with_suffix("").parts])
        if path.suffix == ".rt" or TAKEN.fullmatch(path.name) or ALL in imports[module]:
            continue
        own = words_in(text)
        for it in named_in(text):
            is_named = it.name in told or it.name in imports[module]
            is_named = is_named or own[it.name] > words_in(it.text)[it.name]
            if not is_named and not it.name.startswith("example"):
                found.append(f"{path.relative_to(crates)}:{it.line} {it.name}")
    return found
