"""The recheck under node: its own tests, and its reports beside those of other checks."""

from __future__ import annotations

import json
import os
import pathlib
import random
import subprocess
import unittest

from tests import TOP, WEB, wants

PROGRAM = pathlib.Path(
    os.environ.get("RAGVISMO_EXCHANGE", TOP / "crates/exchange_cli/out/exchange_cli")
)
JOURNALS = sorted((TOP / "examples").glob("*.replies"))
# What stands in a line and is exchanged for something else.
PIECES: list[str] = [
    *'0123456789-/"[]{}:,',
    "1/2",
    "optimal",
    "buy",
    "sell",
    "wide",
    "line",
    '"0"',
    "null",
]


def said(words: list[str | pathlib.Path], journal: bytes) -> tuple[int, str]:
    """The status of a check, and its report."""
    ran = subprocess.run(words, input=journal, capture_output=True)
    return ran.returncode, ran.stdout.decode()


def changed(line: str, chance: random.Random) -> str:
    """A line with one piece of it exchanged, left out or put in."""
    at = chance.randrange(len(line))
    end = at + chance.randrange(3)
    return line[:at] + chance.choice(PIECES) + line[end:]


@wants("node")
class Recheck(unittest.TestCase):
    def reports(self, word: str, journal: bytes) -> tuple[int, str]:
        return said([WEB / "recheck", word], journal)

    def test_under_node(self) -> None:
        tests = sorted((WEB / "tests").glob("*.test.mjs"))
        ran = subprocess.run(["node", "--test", *tests], capture_output=True, text=True)
        self.assertEqual(ran.returncode, 0, ran.stdout)

    def test_the_plain_check_says_the_same_of_examples(self) -> None:
        for journal in JOURNALS:
            with self.subTest(journal=journal.name):
                text = journal.read_bytes()
                plain = said([TOP / "tools/plain-check", "audit"], text)
                self.assertEqual(self.reports("audit", text), plain)

    def test_the_plain_check_says_the_same_of_changed_lines(self) -> None:
        self.beside([TOP / "tools/plain-check", "audit"], 15)

    @unittest.skipUnless(PROGRAM.exists(), "the program is not built")
    def test_the_program_says_the_same(self) -> None:
        for journal in JOURNALS:
            for word in ("check", "audit"):
                with self.subTest(journal=journal.name, word=word):
                    text = journal.read_bytes()
                    self.assertEqual(self.reports(word, text), said([PROGRAM, word], text))
        self.beside([PROGRAM, "audit"], 30)

    def beside(self, words: list[str | pathlib.Path], count: int) -> None:
        """The same report on so many changed lines."""
        chance = random.Random(64)
        lines = [line for journal in JOURNALS for line in journal.read_text().splitlines()]
        cleared = [line for line in lines if '"cleared"' in line and len(line) < 5000]
        for _ in range(count):
            line = changed(chance.choice(cleared), chance)
            with self.subTest(line=line):
                text = line.encode()
                self.assertEqual(self.reports("audit", text), said(words, text))

    def test_bad_input(self) -> None:
        for given in ("", "check now", "run"):
            words = [str(WEB / "recheck"), *given.split()]
            ran = subprocess.run(words, input=b"", capture_output=True)
            self.refused(ran)
        with open(os.devnull, "wb") as unreadable:
            words = [str(WEB / "recheck"), "check"]
            self.refused(subprocess.run(words, stdin=unreadable, capture_output=True))

    def refused(self, ran: subprocess.CompletedProcess[bytes]) -> None:
        """Bad input gets one line and status 2."""
        self.assertEqual((ran.returncode, ran.stdout, ran.stderr.count(b"\n")), (2, b"", 1))

    def test_the_example_of_the_page_is_one_of_the_repository(self) -> None:
        lines = (WEB / "page/example.replies").read_text().splitlines()
        told = "".join(journal.read_text() for journal in JOURNALS).splitlines()
        self.assertEqual([line for line in lines if line not in told], [])
        self.assertEqual({json.loads(line)["underlyings"] for line in lines}, {1, 2, 3})
