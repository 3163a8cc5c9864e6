"""What is wrong with a line, in words."""

from __future__ import annotations

import json
import re
import subprocess

from ragvismo_tools.places import PROGRAM, TOP
from ragvismo_tools.tests.explained import EXPLAINED
from ragvismo_tools.tests.common import Folder, built, run


class Explain(Folder):
    def said(self, text: bytes, *words: str) -> dict[int, str]:
        """What is told of each line of a text, by the line's number."""
        ran = run("explain", *words, input=text)
        told = dict(re.findall(r"(?m)^line (\d+): (.*)$", ran.stdout.decode()))
        self.assertEqual(
            (ran.returncode, len(told), ran.stderr),
            (1 if told else 0, ran.stdout.count(b"\n"), b""),
        )
        return {int(number): said for number, said in told.items()}

    def test_each_line_is_told(self) -> None:
        for word in ("run", "quotes", "guarded", "serve"):
            cases = [case for case in EXPLAINED if case[1] == word]
            text = "\n".join(["open,1", *(line for line, *_ in cases)])
            told = self.said(
                b"\xef\xbb\xbf" + text.encode(errors="surrogateescape"), "--word", word
            )
            for number, (line, _, judged, words) in enumerate(cases, 2):
                said = told.pop(number, ": ")
                self.assertEqual(said.partition(": ")[0], judged, line[:60])
                self.assertIn(words, said, line[:60])
            self.assertEqual(told, {})

    def test_examples_are_judged_as_they_were_answered(self) -> None:
        refused = 0
        for journal in (TOP / "examples/accounts.replies", TOP / "examples/book.replies"):
            lines = [json.loads(line) for line in journal.read_text().splitlines()]
            found = {it["line"]: it for it in lines if it.get("number") in (1, 8)}
            told = self.said(journal.with_suffix(".commands").read_bytes())
            self.assertEqual(set(told), set(found), journal.name)
            for line, reply in found.items():
                self.assertTrue(
                    told[line].startswith(f"{reply['reason']}, field {reply.get('field', '')}"),
                    told[line],
                )
            refused += len(found)
        self.assertGreater(refused, 0)

    @built
    def test_the_program_judges_the_same(self) -> None:
        for word in ("run", "quotes", "guarded", "serve"):
            text = "\n".join(line for line, of, *_ in EXPLAINED if of == word).encode(
                errors="surrogateescape"
            )
            ran = subprocess.run([PROGRAM, word], input=text, capture_output=True)
            found = {
                it["line"]: it
                for it in map(json.loads, ran.stdout.splitlines())
                if it.get("number") in (1, 8)
            }
            told = self.said(text, "--word", word)
            self.assertEqual(set(told), set(found))
            for line, reply in found.items():
                self.assertTrue(
                    told[line].startswith(f"{reply['reason']}, field {reply.get('field', '')}"),
                    told[line],
                )

    def test_what_is_asked_is_told(self) -> None:
        text = b"?balance,0\n?try,1,9,buy,6,1,call,10\n??balance,0\n?\n?balance,x\n"
        told = self.said(text, "--word", "serve")
        self.assertEqual(list(told), [2, 3, 4, 5])
        self.assertIn("a weight", told[2])
        self.assertEqual(list(self.said(text)), [1, 2, 3, 4, 5])

    def test_the_mistakes_that_help_shows(self) -> None:
        table = (
            run("explain", "--help")
            .stdout.decode()
            .partition("common mistakes:\n")[2]
            .splitlines()[1:]
        )
        rows = [[part.strip() for part in re.split(r"   +", row.strip())] for row in table[:-1]]
        written = [line for row in rows for line in row[0].split(" and ")]
        better = [row[2].split(", ")[0] for row in rows if row[2] != "no line at all"]
        self.assertGreater(min(len(written), len(better)), 10)
        self.assertEqual(
            list(self.said("\n".join(written).encode())), list(range(1, len(written) + 1))
        )
        self.assertEqual(self.said("\n".join(better).encode()), {})

    def test_bad_use(self) -> None:
        for words in (("none",), ("--word", "demo")):
            self.refused(run("explain", *words, cwd=self.folder))
