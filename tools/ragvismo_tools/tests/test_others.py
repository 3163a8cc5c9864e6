"""What holds of all tools."""

from __future__ import annotations

import os
import shutil
import subprocess

from ragvismo_tools.places import TOP
from ragvismo_tools.tests.common import JOURNALS, TOOLS, Folder, has, run, wants
from ragvismo_tools.tracked import GIT

# A number of more digits than Python reads.
LONG = ("9" * 5_000, 1)


class Others(Folder):
    def test_each_tool_tells_its_use(self) -> None:
        for tool in TOOLS:
            told = run(tool, "--help")
            self.assertEqual((told.returncode, told.stderr), (0, b""), tool)
            self.assertIn(f"tools/{tool}".encode(), told.stdout, tool)
        for tool in ("bench", "hostile"):
            self.refused(run(tool, "none"))
            self.refused(run(tool, "--program", "none"))
        for seconds in ("0", "nan", "-1"):
            self.refused(run("auction", "--program", "/bin/true", "--seconds", seconds))
        told = run("check-many", JOURNALS[0], "--program", "none")
        self.refused(told)
        self.assertIn(b"./build" if shutil.which("parallel") else b"tools/setup", told.stderr)

    def test_all_python_tools_are_of_one_python(self) -> None:
        for tool in TOOLS:
            self.assertIn(
                (TOP / "tools" / tool).read_text().splitlines()[0],
                ("#!/usr/bin/python3 -B", "#!/bin/sh"),
                tool,
            )

    @wants("python3-matplotlib")
    def test_no_tracked_file_is_written_over_unasked(self) -> None:
        """And not where the checkout is another user's, as git is made to believe."""
        told = run("gate-times", "--save", TOP / "README.md")
        self.refused(told)
        self.assertIn(b"is tracked", told.stderr)
        drawn = TOP / "examples/butterfly.svg"
        before, out = drawn.stat().st_mtime_ns, TOP / "trials/butterfly.svg"
        other = {**os.environ, "GIT_TEST_ASSUME_DIFFERENT_OWNER": "1"}
        told = run("picture", drawn.with_suffix(".replies"), cwd=TOP, env=other)
        self.assertEqual(
            (told.returncode, told.stdout, told.stderr), (0, b"trials/butterfly.svg\n", b"")
        )
        self.assertEqual((drawn.stat().st_mtime_ns, out.read_bytes()[:5]), (before, b"<?xml"))
        asked = [*GIT, "check-ignore", "--quiet", str(out)]
        self.assertEqual(subprocess.run(asked, cwd=TOP).returncode, 0)

    def test_a_minus_is_standard_input(self) -> None:
        """Wherever a tool reads a file of lines, and of nothing else."""
        given = {
            "commands": "opn,1\n",
            "quotes": "cp_flag,strike,best_bid\nC,5,6\n",
            "record": '{"processes":[],"wall":60,"used":60}',
            "replies": (TOP / "examples/book.replies").read_text(),
        }
        uses: list[tuple[str, ...]] = [
            ("tools/explain", "commands"),
            ("tools/table", "replies"),
            ("tools/carry-over", "replies"),
            ("tools/gate-times", "--of", "record"),
            ("studies/chain.py", "quotes"),
        ]
        if has("python3-matplotlib"):
            uses.append(("tools/picture", "--out", str(self.folder / "none/drawn.svg"), "replies"))
        for tool, *words, name in uses:
            file = self.folder / name
            file.write_text(given[name])
            named = subprocess.run([TOP / tool, *words, file], capture_output=True)
            with open(file) as opened:
                piped = subprocess.run([TOP / tool, *words, "-"], capture_output=True, stdin=opened)
            told = named.returncode, named.stdout, named.stderr.replace(bytes(file), b"-")
            self.assertEqual((piped.returncode, piped.stdout, piped.stderr), told, tool)
            self.assertTrue(named.stdout + named.stderr, tool)

    def test_a_closed_pipe_is_met_quietly(self) -> None:
        bad, book = self.script("bad", "open,x\n"), TOP / "examples/book.replies"
        accounts = TOP / "examples/accounts.replies"
        uses: list[tuple[tuple[object, ...], int]] = [
            (("explain", bad), 1),
            (("table", book), 0),
            (("carry-over", accounts), 0),
            (("demo-commands", 1, 60), 0),
            (("man",), 0),
        ]
        uses += [
            (("house",), 0),
            *(((tool, "--help"), int(tool == "explain")) for tool in TOOLS if tool != "setup"),
        ]
        for words, status in uses:
            reads, writes = os.pipe()
            os.close(reads)
            ran = subprocess.run(
                [TOP / "tools" / str(words[0]), *map(str, words[1:])],
                stdout=writes,
                stderr=subprocess.PIPE,
            )
            os.close(writes)
            self.assertEqual((ran.returncode, ran.stderr), (status, b""), words)

    def test_the_demos_commands(self) -> None:
        self.assertEqual(
            run("demo-commands", 1, 60).stdout, (TOP / "examples/demo.commands").read_bytes()
        )
        for words in ((), (1,), (1, 0), (1, 10_001), (2**32, 1), ("01", 1), (1, 1, 1), LONG):
            self.refused(run("demo-commands", *words))

    def test_a_basket(self) -> None:
        lines = run("basket", "a", 3, 2).stdout.decode().splitlines()
        self.assertEqual((lines[80], len(lines), lines[-1]), ("market,1,2", 85, "clear,1,20000"))
        for words in ((), ("a", 1), ("a", 0, 1), ("a", 257, 1), ("a", 1, 9), ("a", *LONG)):
            self.refused(run("basket", *words))
