"""What a run of a program takes by valgrind's count, which does not depend on what else the machine
does."""
import pathlib
import re
import subprocess
import sys
import tempfile
from collections.abc import Sequence
from typing import NamedTuple


class Counted(NamedTuple):
    """The instructions of a run, in millions, and the lines in which callgrind tells its calls."""

    instructions: float
    lines: list[str]

    def calls(self, names: Sequence[str], within: str | None = None) -> list[int]:
        """How often each of these functions is called; calls by what is within a module are left
        out."""
        named: dict[str, str] = {}
        caller, called, seen = "", "", dict.fromkeys(names, 0)
        for line in self.lines:
            if match := re.match(r"c?fn=(\(\d+\))(?: (.*))?", line):
                name = named.setdefault(match[1], match[2])
                caller, called = (caller, name) if line.startswith("c") else (name, called)
            elif line.startswith("calls=") and not (within and caller.startswith(within)):
                seen |= {
                    it: seen[it] + int(line[6:].split()[0]) for it in names if called.startswith(it)
                }
        for name in (it for it in names if not seen[it]):
            said = "valgrind saw no call of it: it has another name by now, or was inlined"
            print(f"{name}: {said}", file=sys.stderr)
        return list(seen.values())


def counted(program: "pathlib.Path | str", words: Sequence[str], text: str) -> Counted:
    """Counts a run of a program that ends with 0."""
    with tempfile.TemporaryDirectory() as folder:
        count = [
            "valgrind",
            "--tool=callgrind",
            f"--callgrind-out-file={folder}/out",
            str(program),
            *words,
        ]
        said = subprocess.run(count, input=text, capture_output=True, text=True, check=True).stderr
        lines = pathlib.Path(f"{folder}/out").read_text().splitlines()
    return Counted(int(said.split("Collected : ")[1].split()[0]) / 1e6, lines)
