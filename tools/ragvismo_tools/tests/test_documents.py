"""The documents: their length and form, where their links lead, and what they name and number."""

from __future__ import annotations

import functools
import json
import pathlib
import re

from ragvismo_tools.explain import BUNDLE_HEAD, COUNT, LAYOUTS, WEIGHT, Number
from ragvismo_tools.places import TOP
from ragvismo_tools.plain_check import BESIDE, GATE, REASONS
from ragvismo_tools.tests.common import Folder, run
from ragvismo_tools.wrong_bodies import BY_GATE, BY_HAND, bodies

CRATES = TOP / "crates"
DOCUMENTS = (TOP / "README.md", *sorted((TOP / "docs").glob("*.md")))
LINK = re.compile(r"\]\(([^)\s]+)\)|(?:href|src)=\"([^\"]+)\"")
# What is read for its facts, and no page of one reader.
LONGER = {"MODEL", "REFERENCE_RUN", "DECISIONS", "PERFORMANCE"}
# A figure of time or of a study, which is measured; a command that measures; the day.
MEASURED = re.compile(
    r"\d\s+(?:s|ms|ns|microseconds|(?:processor )?(?:seconds|minutes|hours))\b"
    r"|Seconds\b|Mean seconds|\d a\s+second\b|\d ± \d"
)
COMMAND = re.compile(r"\b(?:tools|studies|service)/\w|`rt check")
DAY = re.compile(r"\b20\d\d-\d\d-\d\d\b")
# What PROMISES.md and CRATES.md name in brackets: a crate, then names that its sources have.
NAMED = re.compile(r"\(([a-z_]+ `[^()]*)\)")
LARGE = re.compile(r"\b\d{1,3}(?:,\d{3})+\b")
LIMIT = re.compile(r"const [A-Z_]+: u(?:8|16|32|64|128|size) = ([0-9_]+);")


def written(path: pathlib.Path) -> str:
    return path.read_text(encoding="utf-8")


def without_code(text: str) -> str:
    return re.sub(r"(?ms)^```.*?^```$|`[^`\n]*`", "", text)


def anchors(text: str) -> set[str]:
    """What a link may name of a document: its headings, in small letters and with hyphens."""
    titles = re.findall(r"(?m)^#+ (.*)$", text)
    return {re.sub(r"[^\w -]", "", it.lower()).replace(" ", "-") for it in titles}


@functools.cache
def sources(crate: str) -> str:
    """The code and the definitions of a crate, or of all crates by a star."""
    kinds = ("src/**/*.rt", "specs/**/*.antt")
    return "\n".join(written(it) for kind in kinds for it in CRATES.glob(f"{crate}/{kind}"))


@functools.cache
def words(crate: str) -> frozenset[str]:
    return frozenset(re.findall(r"\w+", sources(crate)))


class Documents(Folder):
    def test_they_are_short(self) -> None:
        self.assertLess(sum(len(written(it).split()) for it in DOCUMENTS), 25_000)
        for path in DOCUMENTS:
            text = re.sub(r"(?ms)^```.*?^```$|^!\[[^\n]*$", "", written(path))
            for line in text.splitlines():
                is_row = line.startswith("|")
                parts = line.strip("|").split("|") if is_row else [line]
                longest = max(map(len, parts), default=0)
                self.assertLessEqual(longest, 200 if is_row else 120, f"{path.name}: {line}")

    def test_pages_of_a_reader_are_shorter(self) -> None:
        for path in DOCUMENTS:
            if path.stem not in LONGER:
                self.assertLessEqual(len(written(path).split()), 1_500, path.name)

    def test_measured_figures_have_a_day_and_a_command(self) -> None:
        found = 0
        for name in ("PERFORMANCE", "RELIABILITY", "PROVING", "SCALE", "RESEARCH"):
            for section in re.split(r"(?m)^(?=#+ )", written(TOP / f"docs/{name}.md")):
                if MEASURED.search(section):
                    found += 1
                    for sign in (COMMAND, DAY):
                        self.assertRegex(section, sign, name)
        self.assertGreater(found, 10)

    def test_links_lead_somewhere(self) -> None:
        for path in (*DOCUMENTS, TOP / "python/README.md"):
            for link in LINK.findall(written(path)):
                name, _, anchor = "".join(link).partition("#")
                led = (path.parent / name).resolve() if name else path
                self.assertTrue(led.exists(), f"{path.name}: {link}")
                if anchor:
                    self.assertIn(anchor, anchors(written(led)), f"{path.name}: {link}")

    def test_promises_are_in_the_sources(self) -> None:
        texts = (written(TOP / f"docs/{name}.md") for name in ("PROMISES", "CRATES"))
        named = NAMED.findall(" ".join(" ".join(texts).split()))
        self.assertGreater(len(named), 40)
        for crate, names in (it.split(" ", 1) for group in named for it in group.split("; ")):
            for name in re.findall(r"`(\w+)`", names):
                self.assertIn(name, words(crate), crate)

    def test_definitions_and_laws_are_in_the_sources(self) -> None:
        for name in ("MODEL", "CERTIFICATES"):
            text = re.sub(r"(?ms)^```.*?^```$", "", written(TOP / f"docs/{name}.md"))
            for told in set(re.findall(r"`([A-Z]\w+|\w+_\w+)`", text)):
                self.assertTrue((CRATES / told).is_dir() or told in words("*"), (name, told))

    def test_refusals_are_those_of_the_schema_and_the_plain_check(self) -> None:
        told = {
            int(number): reason
            for number, reason in re.findall(
                r"(?m)^(\d+)\. `(\w+)`: ", written(TOP / "docs/FORMATS.md")
            )
        }
        self.assertEqual(told, {**dict(enumerate(REASONS, 1)), **BESIDE, **GATE})
        schema = json.dumps(json.loads(written(TOP / "docs/reply.schema.json")))
        pairs = r'"number": {"const": (\d+)}, "reason": {"const": "(\w+)"}'
        found = re.findall(pairs, schema)
        self.assertEqual({int(number): reason for number, reason in found}, told)

    def test_ranges_are_those_that_explain_tells(self) -> None:
        text = " ".join(written(TOP / "docs/FORMATS.md").split())
        fields = {it for layout in LAYOUTS.values() for it in (*layout.fixed, layout.many)}
        for field in {*fields, *BUNDLE_HEAD, COUNT, WEIGHT}:
            if isinstance(field, Number) and field.least:
                self.assertIn(f"{field.least:,} to {field.greatest:,}", text, field.name)

    def test_large_numbers_of_readme_and_formats_are_limits_of_the_sources(self) -> None:
        limits = {int(it.replace("_", "")) for it in LIMIT.findall(sources("*"))}
        for name in ("README.md", "docs/FORMATS.md"):
            for number in LARGE.findall(without_code(written(TOP / name))):
                self.assertIn(int(number.replace(",", "")), limits, name)

    def test_wrong_bodies_are_as_many_as_is_told(self) -> None:
        tried, others = bodies(BY_GATE), bodies(BY_HAND)
        text = " ".join(written(TOP / "docs/PROVING.md").split())
        self.assertIn(f"alone, of {len({it.parents[1] for it in tried})} crates.", text)
        self.assertIn(f"All {len(tried) + len(others)} would", text)

    def test_layers_name_lower_ones(self) -> None:
        layers = written(TOP / "docs/ARCHITECTURE.md").partition("From below:")[2]
        told = re.findall(r"`(\w+)`", re.sub(r"\*\*.*?\*\*", "", layers.partition("Outside")[0]))
        lines = re.findall(r"(?m)^(\w+):(.*)$", written(TOP / "crates.txt"))
        crates = {crate: set(named.split()) for crate, named in lines}
        order = [it for it in told if it in crates]
        self.assertEqual(sorted(order), sorted(crates))
        for place, crate in enumerate(order):
            self.assertEqual(crates[crate] & set(order[place:]), set(), crate)

    def test_promises_are_printed(self) -> None:
        told = run("promises", "market_laws", "exchange_program").stdout.decode()
        self.assertIn(
            "\nweak_duality: No surplus that fills cover is above the bound of a measure.\n", told
        )
        self.assertIn("\n    keeps: What the words ask for is kept.\n", told)
        for words in (("none",), ("..",), ("--crate", "form")):
            self.refused(run("promises", *words, cwd=self.folder))
