"""Prints what the contracts promise: each crate's sentence, its public calls and their clauses.

    tools/promises [CRATE..]

CRATE is one of crates/, and all of them where none is given. Each call has its sentence, and the
names of its clauses with the comment above them; a clause without a name is not listed. A law is a
call with an empty body. The status is 2 for bad use, with one line on standard error.
"""
from __future__ import annotations

import pathlib
import re
from collections.abc import Iterator
from typing import NamedTuple

from ragvismo_tools.ending import BadUse, ended, words_of
from ragvismo_tools.places import TOP

ABOUT = re.compile(r"//! ?(.*)")
EXPORTED = re.compile(r"(?m)^pub (mod|use) ([^;]+);")
BLOCK = re.compile(r"(?:pub trait |impl(?:<.*?>)? (?:[\w<>, ]+ for )?)(\w+)")
CALL = re.compile(r"( {0,4})(pub )?(?:const )?(?:unsafe )?fn (\w+)")
CLAUSE = re.compile(r"\s*ensures (\w+)? ?\{")


class Group(NamedTuple):
    """Clauses that stand together, and the comment above them."""

    comment: str
    clauses: list[str]


class Call(NamedTuple):
    """A public call, its first sentence, and its clauses."""

    name: str
    sentence: str
    groups: list[Group]

    def clauses(self) -> list[str]:
        return [clause for group in self.groups for clause in group.clauses]


def root_of(crate: pathlib.Path) -> str:
    """The text of a crate's root."""
    library = crate / "src/lib.rt"
    root = library if library.is_file() else crate / "src/main.rt"
    return root.read_text(encoding="utf-8")


def first_sentence(text: str) -> str:
    return re.split(r"(?<=\.) ", text)[0]


def exported(text: str) -> set[str]:
    """The modules and names that the root of a crate hands out."""
    return {name for _, names in EXPORTED.findall(text) for name in re.findall(r"\w+", names)}


def contract(lines: list[str]) -> list[Group]:
    """The groups of clauses between the head of a call and its body."""
    groups: list[Group] = []
    comment: list[str] = []
    for line in lines:
        clause = CLAUSE.match(line)
        if line.strip().startswith("//"):
            comment.append(line.strip().strip("/ "))
        elif clause:
            if comment or not groups:
                groups.append(Group(" ".join(comment), []))
            groups[-1].clauses.extend(filter(None, [clause[1]]))
            comment = []
        elif re.match(r"\s*\{", line) or line.rstrip().endswith(";"):
            break
    return groups


def calls_in(path: pathlib.Path, names: set[str]) -> Iterator[Call]:
    """The public calls of a source, where its crate hands out these names."""
    lines = path.read_text(encoding="utf-8").splitlines()
    is_open, held, is_trait, about = path.stem in names, "", False, list[str]()
    for at, line in enumerate(lines):
        block, call = BLOCK.match(line), CALL.match(line)
        if block:
            held, is_trait = block[1], line.startswith("pub trait")
        elif line == "}":
            held, is_trait = "", False
        if call and (call[2] or is_trait) and (is_open or (held or call[3]) in names):
            name = f"{held}::{call[3]}" if held else call[3]
            yield Call(name, first_sentence(" ".join(about)), contract(lines[at + 1 :]))
        if line.strip().startswith("///"):
            about.append(line.strip().strip("/ "))
        else:
            about = []


def calls_of(crate: pathlib.Path) -> list[Call]:
    """The public calls of a crate, in the order of its sources."""
    names = exported(root_of(crate))
    return [it for path in sorted((crate / "src").rglob("*.rt")) for it in calls_in(path, names)]


def told(crate: pathlib.Path) -> Iterator[str]:
    about = " ".join(ABOUT.findall(root_of(crate)))
    yield f"== {crate.name}: {first_sentence(about)}"
    for call in calls_of(crate):
        yield f"{call.name}: {call.sentence}"
        for group in call.groups:
            if group.clauses:
                comment = f": {group.comment}" if group.comment else ""
                yield f"    {', '.join(group.clauses)}{comment}"


def main() -> int:
    parser = words_of(__doc__)
    parser.add_argument("crates", metavar="CRATE", nargs="*", help="a folder of crates/")
    crates = [TOP / "crates" / it for it in parser.parse_args().crates]
    for crate in crates:
        if crate.parent != TOP / "crates" or not (crate / "src").is_dir():
            raise BadUse(f"{crate.name} is no crate")
    for crate in crates or sorted(it.parent for it in (TOP / "crates").glob("*/src")):
        print("\n".join(told(crate)))
    return 0


def run() -> int:
    return ended(main)
