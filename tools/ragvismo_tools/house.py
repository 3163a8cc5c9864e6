"""Prints what the crates come to: lines by crate and kind, wrong bodies, and what is long.

    tools/house [--top N] [FOLDER]

A line counts where it is not empty. Tests are the sources that a crate declares under #[cfg(test)],
with all below them, and the root of a crate that has no other; all other sources are code. Then
come the longest functions (over 40 lines from `fn` to the end, clauses not counted), files over 800
lines, functions with more than five parameters, and definitions and lemmas that nothing uses, at
most N of each (10), and last one line with the sums. FOLDER is a checkout, this one where none is
named.
"""
from __future__ import annotations

import pathlib
import re
from collections.abc import Iterator
from typing import NamedTuple

from ragvismo_tools.ending import ended, words_of
from ragvismo_tools.places import TOP
from ragvismo_tools.unused import unused

KINDS = ("code", "tests", "specs", "proofs")
LONG_FUNCTION, LONG_FILE, MANY_PARAMETERS = 40, 800, 5
TEST_MODULE = re.compile(r"#\[cfg\(test\)\]\s*(?:pub(?:\([a-z]+\))? )?mod (\w+);")
MODULE = re.compile(r"^\s*(?:pub(?:\([a-z]+\))? )?mod (\w+);", re.M)
FUNCTION = re.compile(r"^(\s*)(?:pub(?:\([a-z]+\))? )?(?:const )?(?:unsafe )?fn (\w+)")
CLAUSE = re.compile(r"\s*(?:requires|ensures|decreases)\b")
OPENS, CLOSES = "([{<", ")]}>"


class Function(NamedTuple):
    place: str
    lines: int
    parameters: int


def count(path: pathlib.Path) -> int:
    return sum(1 for line in path.read_text(encoding="utf-8").splitlines() if line.strip())


def is_test(source: pathlib.Path, crate: pathlib.Path) -> bool:
    """Whether the source is one that tests alone compile."""
    root = (crate / "src/lib.rt") if (crate / "src/lib.rt").is_file() else crate / "src/main.rt"
    text = root.read_text(encoding="utf-8") if root.is_file() else ""
    tested = set(TEST_MODULE.findall(text))
    if source == root:
        return bool(tested) and tested == set(MODULE.findall(text))
    return source.relative_to(crate / "src").parts[0].removesuffix(".rt") in tested


def after_bracket(text: str, at: int) -> tuple[int, int]:
    """Where the bracket that opens at this place is closed, and how many items it holds."""
    depth, items, is_empty = 0, 0, True
    for place in range(at, len(text)):
        letter = text[place]
        depth += letter in OPENS
        if letter in CLOSES and text[place - 1] not in "-=":
            depth -= 1
            if depth == 0:
                return place + 1, items + (not is_empty)
        elif depth == 1 and letter == ",":
            items, is_empty = items + 1, True
        elif place > at and not letter.isspace():
            is_empty = False
    return len(text), items


def parameters(text: str) -> int:
    """How many parameters a function has whose text goes on so after its name."""
    at = after_bracket(text, 0)[0] if text.startswith("<") else 0
    return after_bracket(text, at)[1]


def functions(path: pathlib.Path, name: str) -> Iterator[Function]:
    lines = path.read_text(encoding="utf-8").splitlines()
    for first, line in enumerate(lines):
        head = FUNCTION.match(line)
        if head is None:
            continue
        length, open_clause = 0, 0
        for at in range(first, len(lines)):
            text = lines[at]
            if open_clause or CLAUSE.match(text):
                open_clause += text.count("{") - text.count("}")
            else:
                length += bool(text.strip())
            ends = (
                text.startswith(head[1] + "}")
                or (at == first and text.endswith("}"))
                or text == head[1] + "{}"
            )
            if not open_clause and (
                ends or text.endswith(";") and "{" not in "".join(lines[first:at])
            ):
                break
        yield Function(
            f"{name}:{first + 1} {head[2]}",
            length,
            parameters("\n".join([line[head.end() :], *lines[first + 1 : first + 40]])),
        )


def house(top: pathlib.Path, most: int) -> Iterator[str]:
    crates = sorted(it for it in (top / "crates").iterdir() if (it / "src").is_dir())
    rows: dict[str, dict[str, int]] = {}
    found: list[Function] = []
    files: list[tuple[int, str]] = []
    for crate in crates:
        row = rows[crate.name] = dict.fromkeys((*KINDS, "wrong bodies"), 0)
        for folder, pattern in (("src", "*.rt"), ("specs", "*.antt"), ("proofs", "*.antt")):
            for path in sorted((crate / folder).rglob(pattern)):
                name, lines = str(path.relative_to(top / "crates")), count(path)
                kind = folder if folder != "src" else "tests" if is_test(path, crate) else "code"
                row[kind] += lines
                files.append((lines, name))
                found += functions(path, name) if folder == "src" else ()
        row["wrong bodies"] = len(list(crate.glob("*must-fail/*.edit")))
    sums = {kind: sum(row[kind] for row in rows.values()) for kind in (*KINDS, "wrong bodies")}
    yield "| Crate | " + " | ".join(it.capitalize() for it in sums) + " |\n|---|" + "---|" * len(
        sums
    )
    for name, row in (*sorted(rows.items(), key=lambda it: -sum(it[1].values())), ("all", sums)):
        yield f"| {name} | " + " | ".join(map(str, row.values())) + " |"
    long = sorted((it for it in found if it.lines > LONG_FUNCTION), key=lambda it: -it.lines)
    many = sorted(
        (it for it in found if it.parameters > MANY_PARAMETERS), key=lambda it: -it.parameters
    )
    large = sorted((it for it in files if it[0] > LONG_FILE), reverse=True)
    idle = unused(top / "crates")
    for title, listed in (
        (f"functions over {LONG_FUNCTION} lines", [f"{it.lines} {it.place}" for it in long]),
        (f"files over {LONG_FILE} lines", [f"{lines} {name}" for lines, name in large]),
        (
            f"functions with more than {MANY_PARAMETERS} parameters",
            [f"{it.parameters} {it.place}" for it in many],
        ),
        ("definitions and lemmas that nothing uses", idle),
    ):
        yield "\n".join([f"\n{title}: {len(listed)}", *(f"  {it}" for it in listed[:most])])
    told = ", ".join(f"{kind} {number}" for kind, number in sums.items())
    yield (
        f"\nsum: crates {len(rows)}, {told}, long functions {len(long)}, long files {len(large)},"
        f" many parameters {len(many)}, unused {len(idle)}"
    )


def main() -> int:
    parser = words_of(__doc__)
    parser.add_argument("--top", type=int, default=10, help="rows of each list")
    parser.add_argument("folder", type=pathlib.Path, nargs="?", default=TOP, help="the checkout")
    asked = parser.parse_args()
    if asked.top < 0:
        parser.error("--top wants a number that is not below 0")
    if not (asked.folder / "crates").is_dir():
        parser.error(f"{asked.folder} has no folder crates")
    for line in house(asked.folder, asked.top):
        print(line)
    return 0


def run() -> int:
    return ended(main)
