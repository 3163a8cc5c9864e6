"""Live exchanges, and auctions with solvers beside them."""

from __future__ import annotations

from typing import Any
import json
import math
import select
import subprocess
import unittest
from fractions import Fraction
from unittest import mock

from ragvismo_tools.piping import ends_of, piped
from ragvismo_tools.places import PROGRAM, TOP
from ragvismo_tools.solvers import Solver
from ragvismo_tools.tests.common import PROPOSAL, Folder, built, run, wants


@built
class Live(Folder):
    def test_a_reply_comes_before_the_next_line(self) -> None:
        lines = (TOP / "examples/butterfly.commands").read_bytes().splitlines(True)
        replies = (TOP / "examples/butterfly.replies").read_bytes().splitlines(True)
        with piped([PROGRAM, "serve"], bufsize=0) as child:
            given, told = ends_of(child)
            for line, reply in zip(lines, replies, strict=True):
                given.write(line)
                self.assertEqual(told.readline(), reply)
            given.close()
            self.assertEqual((told.read(), child.wait()), (b"", 0))

    def test_two_traders_play(self) -> None:
        ran = run("live-demo", self.folder, "--play")
        said = ran.stdout.decode().splitlines()
        self.assertEqual((ran.returncode, ran.stderr, list(self.folder.iterdir())), (0, b"", []))
        for line in (
            '     {"line":8,"need":"12","number":14,"reason":"Margin","reply":"refused"}',
            '     {"account":2,"balance":"10","line":17,"reply":"balance","reserved":"0"}',
        ):
            self.assertIn(line, said)
        closed = subprocess.run(
            f"{TOP / 'tools/live-demo'} --play | true", shell=True, stderr=subprocess.PIPE
        )
        self.assertEqual(closed.stderr, b"")
        (self.folder / "one").write_text("kept")
        self.refused(run("live-demo", self.folder, "--play"))
        self.assertEqual((self.folder / "one").read_text(), "kept")

    def test_carriage_returns_of_traders(self) -> None:
        """One before the line feed is dropped by the exchange, and so not by the demo too."""
        command = [TOP / "tools/live-demo", self.folder]
        with subprocess.Popen(command, stdout=subprocess.PIPE) as child:
            assert child.stdout
            child.stdout.readline()
            for trader, text in (("one", b"\r\n\r\r\n"), ("two", b"open,2\r\n")):
                (self.folder / trader).write_bytes(text)
            said = child.stdout.read()
        self.assertEqual((child.returncode, said.count(b"\n")), (0, 4), said)
        self.assertTrue(b'"Syntax"' in said and b'"opened"' in said, said)


# The butterfly up to its sells, and a clear whose own run stops.
STOPPED = "".join(
    f"{line}\n"
    for line in (*(TOP / "examples/butterfly.commands").read_text().splitlines()[:7], "clear,1,1")
)


LIE = PROPOSAL.replace('"surplus":"3/7"', '"surplus":"4/7"')


# Solvers that are of no use: one that hangs, with a child that does, one that prints noise, two
# that flood, one that lies and one that is gone at once.
BAD_SOLVERS = {
    "hangs": "sleep 1000; true",
    "noise": "while read -r book; do echo noise; echo propose,1,noise; done",
    "lines": "exec yes propose,1,",
    "bytes": "exec cat /dev/zero",
    "lies": f"while read -r book; do echo 'propose,1,{LIE}'; done",
    "gone": "exit 1",
}


class Asked(unittest.TestCase):
    def test_a_solver_may_have_all_time(self) -> None:
        solver = Solver(["cat"])
        for seconds in (3_600, 1e12, math.inf):
            self.assertEqual(solver.line_for(b"book\n", seconds), b"book")
        solver.stop()

    def test_an_answer_in_time_counts_though_it_is_read_late(self) -> None:
        """The clock stands until the book is given, and then waits for the answer to go on."""
        solver, times = Solver(["cat"]), [0, 0, 0]

        def late() -> float:
            if times:
                return times.pop()
            select.select([solver.told], [], [])
            return 99

        with mock.patch("ragvismo_tools.solvers.time", mock.Mock(monotonic=late)):
            self.assertEqual(solver.line_for(b"book\n", 60), b"book")
        solver.stop()


@built
class Auction(Folder):
    def cleared(self, *solvers: str, seconds: float = 3_600) -> dict[str, Any]:
        """The cleared line of the stopped clear with solvers beside it; the log tells the same
        replies again."""
        log = self.folder / "log"
        words = [word for solver in solvers for word in ("--solver", solver)]
        ran = run("auction", *words, "--seconds", seconds, "--log", log, input=STOPPED.encode())
        self.assertEqual(ran.returncode, 0, ran.stderr)
        again = subprocess.run([PROGRAM, "serve"], input=log.read_bytes(), capture_output=True)
        self.assertEqual(again.stdout, ran.stdout)
        reply: dict[str, Any] = json.loads(ran.stdout.splitlines()[-1])
        return reply

    def test_bad_solvers_cost_their_time_alone(self) -> None:
        bad = [self.script(name, f"#!/bin/sh\n{text}\n") for name, text in BAD_SOLVERS.items()]
        good = self.script(
            "good", f"#!/bin/sh\nwhile read -r book; do echo 'propose,1,{PROPOSAL}'; done\n"
        )
        for solvers, mark, surplus in (
            (bad, "budget", "0"),
            ((*bad, good), "bounded", "3/7"),
            ((good, *bad), "bounded", "3/7"),
        ):
            for seconds in (0.5, 8, 128):  # on a busy machine the good one wants more
                reply = self.cleared(*map(str, solvers), seconds=seconds)
                if reply["mark"] == mark:
                    break
            self.assertEqual((reply["mark"], reply["surplus"]), (mark, surplus))

    def test_lines_are_answered_as_serve_does(self) -> None:
        """Whatever stands before a line feed, and an empty line too."""
        text = b"\xef\xbb\xbfopen,1\r\n\r\n\r\r\nopen,2\r\r\n\xef\xbb\xbf\n\nopen,3"
        served = subprocess.run([PROGRAM, "serve"], input=text, capture_output=True)
        ran = run("auction", input=text)
        self.assertEqual((ran.returncode, ran.stdout, ran.stderr), (0, served.stdout, b""))

    def test_the_program_is_the_solver_where_none_is_named(self) -> None:
        reply = self.cleared()
        self.assertEqual((reply["mark"], reply["run"]), ("bounded", "budget"))
        self.assertLessEqual(Fraction(6, 7) - Fraction(reply["surplus"]), Fraction(1, 10**6))
        self.assertLessEqual(Fraction(reply["bound"]) - Fraction(6, 7), Fraction(1, 10**6))

    def test_each_book_is_proposed_for_at_once(self) -> None:
        served = subprocess.run(
            [PROGRAM, "serve"],
            input=(STOPPED.replace("clear,1,1", "book,1")).encode(),
            capture_output=True,
        )
        other, book = served.stdout.splitlines(True)[-2:]
        with piped([PROGRAM, "propose"], bufsize=0) as child:
            given, told = ends_of(child)
            for _ in range(2):
                given.write(other + b"\n" + book)
                self.assertTrue(told.readline().startswith(b"propose,1,{"))
            given.close()
            self.assertEqual((told.read(), child.wait()), (b"", 0))

    @wants("python3-scipy")
    def test_the_example_of_a_solver_answers_each_book(self) -> None:
        bought = "open,1\nmarket,1,1\nmarket,2,2\nbuy,1,1,put,10,0,1,1\nbook,2\nbook,1\n"
        words, lines = ("--solver", TOP / "examples/solver.py"), "clear,2,9\nclear,1,9\n"
        ran = run("auction", *words, "--seconds", 3_600, input=f"{bought}{lines}".encode())
        replies = [json.loads(it)["reply"] for it in ran.stdout.splitlines()]
        self.assertEqual(ran.stderr, b"")
        self.assertEqual(replies[-5:], ["book", "cleared", "book", "proposed", "cleared"])
