"""Tries the wrong bodies that the gate leaves out, since each costs a check of its crate.

    tools/wrong-bodies [--list] [CRATE..]

The gate tries those in a crate's must-fail/, and this those in also-must-fail/, of all crates that
have some where none is named: in a copy of the checkout they take the place of the others, and `rt
ci CRATE..` tries them. Its lines come through, and its status is the status here: 0 where the
prover refuses each. It is 1 where one is a bad edit, which `rt ci` lets pass. With --list it prints
the names of all wrong bodies, and which the gate tries.
"""

from __future__ import annotations

import pathlib
import shutil
import subprocess
import tempfile
from collections.abc import Iterator, Sequence

from ragvismo_tools.ending import BadUse, ended, words_of
from ragvismo_tools.places import TOP

BY_GATE, BY_HAND = "must-fail", "also-must-fail"


def bodies(folder: str) -> list[pathlib.Path]:
    """The wrong bodies in the folders of this name."""
    return sorted((TOP / "crates").glob(f"*/{folder}/*.edit"))


def misfits(edit: pathlib.Path) -> Iterator[str]:
    """The texts that the edit changes and that do not stand once in its crate."""
    file, old, texts = "", "", dict[str, str]()
    for line in edit.read_text(encoding="utf-8").split("\n"):
        mark, _, text = line.partition(":")
        text = text.removeprefix(" ")
        if mark == "file":
            file = text.strip()
            texts.setdefault(file, (edit.parents[1] / file).read_text(encoding="utf-8"))
        elif mark == "old":
            old = text
        elif mark == "new":
            if texts[file].count(old) != 1:
                yield old
            texts[file] = texts[file].replace(old, text)


def crates_named(names: Sequence[str]) -> list[str]:
    found = sorted({it.parents[1].name for it in bodies(BY_HAND)})
    for name in names:
        if name not in found:
            raise BadUse(f"{name} is no crate with {BY_HAND}/")
    return list(names) or found


def copy(to: pathlib.Path, crates: Sequence[str]) -> None:
    """The crates, with the wrong bodies of these that the gate leaves out, and no others."""
    shutil.copytree(TOP / "crates", to / "crates", ignore=shutil.ignore_patterns("out", BY_GATE))
    for name in ("crates.txt", "HANDLES"):
        shutil.copy(TOP / name, to / name)
    for name in crates:
        (to / "crates" / name / BY_HAND).rename(to / "crates" / name / BY_GATE)


def tried(folder: str, crates: Sequence[str]) -> int:
    """The status of `rt ci`, whose lines come through, or 1 where it tells of a bad edit."""
    words = ["rt", "ci", *crates]
    with subprocess.Popen(
        words, cwd=folder, stdout=subprocess.PIPE, stderr=subprocess.STDOUT, text=True
    ) as child:
        assert child.stdout
        is_bad = False
        for line in child.stdout:
            print(line, end="", flush=True)
            is_bad = is_bad or "BAD EDIT" in line
    return child.returncode or int(is_bad)


def main() -> int:
    words = words_of(__doc__)
    words.add_argument("--list", action="store_true")
    words.add_argument("crates", nargs="*", metavar="CRATE")
    given = words.parse_args()
    if given.list:
        for folder in (BY_GATE, BY_HAND):
            for edit in bodies(folder):
                print(f"{edit.parents[1].name}/{edit.stem}{'' if folder == BY_HAND else ' (gate)'}")
        return 0
    crates = crates_named(given.crates)
    with tempfile.TemporaryDirectory() as folder:
        copy(pathlib.Path(folder), crates)
        try:
            return tried(folder, crates)
        except FileNotFoundError:
            raise BadUse("this needs the Rattle kit, with rt on the path") from None


def run() -> int:
    return ended(main, OSError, ValueError)
