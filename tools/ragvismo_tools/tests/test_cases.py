"""What the program writes and how it ends: the files of cases/, pieces, words and faults.

In a file of cases `== `, the words of the program and a name stand before each; its input follows,
and behind `= ` the lines that are written: all of them, or, in clears and endings, the last. Behind
`> ` stands a line without its line feed. A line `* 9 LINES` stands for its lines, apart by
semicolons, 9 times, with the number of the time for each `#`.

In lines.txt a bar stands behind each command line, and behind it whether it is read, or why it is
refused. In faults.txt `== ` and a reason stand before lines that are refused for it. Behind `= `
stands a sound line; below it each is that line with the text behind a bar for the text before it.
"""

from __future__ import annotations

import json
import pathlib
import subprocess
import time
import unittest
from collections.abc import Iterator
from typing import NamedTuple

from ragvismo_tools.piping import ends_of, piped
from ragvismo_tools.places import PROGRAM, TOP
from ragvismo_tools.tests.common import Ran, built, run

# Lines that are no messages, apart by bars.
MALFORMED = (
    "7|7,1|7,1,|,1,a|7,,a|0,1,a|1000000000,1,a|7,0,a|7,1000001,a|07,1,a|-7,1,a|+7,1,a| 7,1,a|"
    '"7",1,a|7,1,\ufeffa|7,1,\ufeff|7,1,a\rb|7,1,a\r\r|\ufeff7,1,a|\ufeff'
)
# What is no JSON.
NO_JSON = (
    "[",
    "[" * 128 + "]" * 128,
    '{"account":1,"line":1,"reply":"opened"',
    '{"account":1,"line":1,"reply":"opened"}{}',
    '{"account":1,"line":1,"reply":"opened"}\0',
    '{"account":1,"line":1,"reply":"op\0ned"}',
    '\ufeff{"account":1,"line":1,"reply":"opened"}',
    '{"account":1,"line":1,"reply":"\\ud800"}',
    '{"account":01,"line":1,"reply":"opened"}',
    '{"account":1e999,"line":1,"reply":"opened"}',
    '{"account":1e999,"account":1,"line":1,"reply":"opened"}',
)
# Bytes that are no plain line, apart by bars.
NO_LINES = (
    b"open,1\r|op\ren,1|\r|\xef\xbb\xbfopen,1|\xef\xbb\xbf|open,1\xff|open,\xe2\x82|\xc3\xb6,1|"
    + b"," * 1_000_000
)
# Lines of every shape, the last without a line feed.
LINES = b"\xef\xbb\xbfopen,1\r\n\nopen,2\n\r\n\xef\xbb\xbfopen,3\nopen,4"
CASES = pathlib.Path(__file__).parent / "cases"
MOST = 16_777_216
SHORT = (TOP / "examples/butterfly.commands").read_bytes()
PLACED = SHORT.partition(b"clear")[0]
# Words that ask for nothing, apart by bars.
OTHERS = (
    "demo 4294967296 1|demo 1 10001|demo 1 0|demo 01 1|demo +1 1|demo 1 -1|demo 1|demo 1 1 1|"
    "run run|run quotes|quotes 1|quote|audit 1|Audit|guarded guarded|Guarded|Run|check 1|serve 1|"
    "serve serve|propose 1|propose sessions|Propose|sessions serve|serve sessions 1|members|"
    "serve members 1|serve Members|help|--help|-h|--|run now|guarded run|demo  1|"
)


class Case(NamedTuple):
    words: list[str]
    name: str
    given: bytes
    wanted: bytes


def repeated(text: str) -> str:
    times, _, lines = text.partition(" ")
    return "".join(lines.replace(";", "\n").replace("#", str(k + 1)) for k in range(int(times)))


def cases(file: str) -> Iterator[Case]:
    for text in (CASES / f"{file}.txt").read_bytes().decode().split("== ")[1:]:
        head, _, rest = text.partition("\n")
        words, _, name = head.partition(": ")
        given = wanted = ""
        for line in rest.split("\n")[:-1]:
            mark, behind = line[:2], line[2:]
            if mark == "= ":
                wanted += f"{behind}\n"
            elif mark == "* ":
                given += repeated(f"{behind}\n")
            else:
                given += behind if mark == "> " else f"{line}\n"
        yield Case(words.split(), name, given.encode(), wanted.encode())


def refusals() -> Iterator[tuple[str, tuple[int, int] | None]]:
    """Command lines, each with the number and the field (or 0) of its refusal if it is not read."""
    for text in (CASES / "lines.txt").read_text().splitlines():
        line, _, said = text.rpartition(" | ")
        word, _, field = said.partition(" ")
        yield line, {"Syntax": (1, 0), "Range": (8, int(field or 0)), "read": None}[word]


def faults() -> Iterator[tuple[str, str]]:
    """Reasons, and lines that `check` refuses for them."""
    reason = sound = ""
    for text in (CASES / "faults.txt").read_text().splitlines():
        mark, behind = text[:2], text[2:]
        if mark == "==":
            reason = behind.strip()
        elif mark == "= ":
            sound = behind
        else:
            parts = text.split(" | ")
            line = sound if len(parts) > 1 else text
            for old, new in zip(parts[::2], parts[1::2]):
                assert line.count(old) == 1, text
                line = line.replace(old, new)
            yield reason, line


def ended(words: list[str], given: bytes) -> Ran:
    return subprocess.run([PROGRAM, *words], input=given, capture_output=True)


def status_with(wanted: bytes) -> int:
    """How a call ends that writes this: a report that says no has a status of its own."""
    return 6 if wanted.endswith(b'"verdict":"no"}\n') else 0


@built
class Cases(unittest.TestCase):
    def test_inputs_give_their_replies(self) -> None:
        for file in ("sessions", "journals", "served"):
            for case in cases(file):
                with self.subTest(file=file, name=case.name):
                    ran = ended(case.words, case.given)
                    self.assertEqual(ran.stdout, case.wanted)
                    self.assertEqual(ran.returncode, status_with(case.wanted))

    def test_inputs_end_with_their_replies(self) -> None:
        for file in ("clears", "endings"):
            for case in cases(file):
                with self.subTest(file=file, name=case.name):
                    ran = ended(case.words, case.given)
                    front = len(ran.stdout) - len(case.wanted)
                    self.assertEqual((ran.returncode, ran.stdout[front:]), (0, case.wanted))

    def test_command_lines_are_read_or_refused(self) -> None:
        lines = dict(refusals()) | {"bundle,1,1,buy,1,1,9" + "," * 1_000_000: (8, 7)}
        ran = ended(["run"], "".join(f"{line}\n" for line in lines).encode())
        replies = [json.loads(line) for line in ran.stdout.splitlines()]
        self.assertEqual(len(replies), len(lines))
        for reply, (line, wanted) in zip(replies, lines.items()):
            with self.subTest(line=line[:100]):
                said = (reply.get("number"), reply.get("field", 0))
                self.assertEqual(said if said[0] in (1, 8) else None, wanted)

    def test_bytes_that_are_no_plain_line_are_refused(self) -> None:
        lines = NO_LINES.split(b"|")
        replies = ended(["run"], b"open,9\n" + b"\r\n".join(lines)).stdout.splitlines()
        self.assertEqual(len(replies), len(lines) + 1)
        for number, reply in enumerate(replies[1:], start=2):
            wanted = f'{{"line":{number},"number":1,"reason":"Syntax","reply":"refused"}}'
            self.assertEqual(reply.decode(), wanted)

    def test_marks_and_line_ends_are_taken_away_once(self) -> None:
        given = b"\xef\xbb\xbfopen,1\r\n\r\n\nfly\nopen,2\r\r\n\xef\xbb\xbfopen,3\nbalance,0"
        replies = [json.loads(line) for line in ended(["run"], given).stdout.splitlines()]
        told = [(reply["line"], reply["reply"]) for reply in replies]
        refused = [(number, "refused") for number in (4, 5, 6)]
        self.assertEqual(told, [(1, "opened"), *refused, (7, "balance")])

    def refused(self, reason: str, given: bytes) -> None:
        ran = ended(["check"], given)
        wanted = f'{{"line":1,"reason":"{reason}","verdict":"no"}}\n'
        self.assertEqual((ran.returncode, ran.stdout), (6, wanted.encode()))

    def test_lines_are_refused_for_their_first_fault(self) -> None:
        for reason, line in faults():
            with self.subTest(reason=reason, line=line):
                self.refused(reason, line.encode())
        for line in NO_JSON:
            with self.subTest(line=line):
                self.refused("NotJson", line.encode())
        self.refused("NotJson", b'"\xff"')
        self.refused("Shape", b"[" * 127 + b"]" * 127)

    def test_lines_cut_short_are_no_json(self) -> None:
        line = b'{"account":1,"balance":"-7","line":16777216,"reply":"withdrawn"}'
        for end in range(1, len(line)):
            self.refused("NotJson", line[:end])

    def test_demos_end_as_they_must(self) -> None:
        for seed, count, lines, end in (
            (1, 1, 84, "sell,15,1,call,1200,215,1,1,0\nclear,1,2000\nsettle,1,961,1087\n"),
            (0, 20, 103, "sell,26,1,call,1600,90,3,1,1\nclear,1,2000\nsettle,1,1037,1199\n"),
            (
                2**32 - 1,
                41,
                126,
                "sell,24,1,call,1000,121,9,0,1\nclear,1,2000\nsettle,1,998,950\n",
            ),
        ):
            text = run("demo-commands", seed, count).stdout.decode()
            self.assertEqual(text.count("\n"), lines)
            self.assertTrue(text.endswith(end), text)
            told = ended(["demo", str(seed), str(count)], b"").stdout
            self.assertEqual(json.loads(told)["lines"], lines)

    def test_a_proposal_for_a_book_is_judged_a_bound(self) -> None:
        book = ended(["serve"], PLACED + b"book,1\n").stdout.splitlines(True)
        proposed = ended(["propose"], b"".join(book[-2:-1] + [b"book,1\n"] + book[-1:])).stdout
        served = ended(["serve"], PLACED + proposed).stdout
        self.assertIn(b'"reply":"proposed"', served)
        self.assertEqual(ended(["propose"], PLACED).stdout, b"")

    def test_other_lines_are_malformed(self) -> None:
        wanted = b'{"line":1,"number":15,"reason":"Malformed","reply":"gate"}\n'
        for line in MALFORMED.split("|"):
            with self.subTest(line=line):
                self.assertEqual(ended(["sessions"], line.encode()).stdout, wanted)

    def test_a_message_may_be_repeated_often(self) -> None:
        again, other = "999999999,1,,\n", '{},1,"a",b\n{}'
        given = again + "".join(other.format(k, again) for k in range(1, 1_001))
        answers = ended(["sessions"], given.encode()).stdout.splitlines()
        of = '{"line":1,"number":1,"reason":"Syntax","reply":"refused"}'
        answer = f'{{"number":1,"of":{of},"session":999999999}}'.encode()
        self.assertEqual((len(answers), set(answers[::2])), (2_001, {answer}))

    def test_long_proposals_are_judged(self) -> None:
        point = '{"state":["1","0"],"weight":"%d/1152921504606846976"}'
        part = 2**60 // 1_024 - 1
        judged = (
            b'{"best_surplus":"3/7","bound":"6","least_bound":"6","line":8,"market":1,'
            b'"reply":"proposed","surplus":"3/7"}'
        )
        refused = b'{"line":8,"number":1,"reason":"Syntax","reply":"refused"}'
        for before, wanted in ((1_023, judged), (1_024, refused)):
            measure = [point % part] * before + [point % (part + 1_024)]
            line = (
                'propose,1,{"certificate":{"cover":"line","measure":[%s]},"fills":["1/2","1/7",'
                '"5/14"],"liability":"0","orders":[1,2,3],"surplus":"3/7"}\n' % ",".join(measure)
            ).encode()
            self.assertGreater(len(line), 65_536)
            self.assertEqual(ended(["serve"], PLACED + line).stdout.splitlines()[-1], wanted)

    def test_a_book_without_orders_is_proposed_for(self) -> None:
        book = b'{"line":1,"market":12,"orders":[],"reply":"book","underlyings":8}\n'
        self.assertTrue(ended(["propose"], book).stdout.startswith(b"propose,12,"))


@built
class Pieces(unittest.TestCase):
    def test_pieces_make_no_difference(self) -> None:
        book = ended(["serve"], PLACED + b"book,1\n").stdout.splitlines(True)[-1]
        for words, given in (
            ("serve", LINES),
            ("serve sessions", b"7,1,open,1\n\n8,1,open,2"),
            ("propose", book + b"open,1\n"),
        ):
            whole = ended(words.split(), given).stdout
            for size in (1, 2, 3, 7, 10):
                with self.subTest(words=words, size=size):
                    with piped([PROGRAM, *words.split()], bufsize=0) as child:
                        to, told = ends_of(child)
                        for at in range(0, len(given), size):
                            to.write(given[at : at + size])
                            time.sleep(0.001)
                        to.close()
                        self.assertEqual((told.read(), child.wait()), (whole, 0))

    def test_lines_are_answered_wherever_they_are_cut(self) -> None:
        whole = ended(["serve"], LINES).stdout.splitlines(True)
        for place in range(1, len(LINES)):
            ends = [k for k, line in enumerate(LINES[:place].split(b"\n")[:-1]) if line.strip()]
            with piped([PROGRAM, "serve"], bufsize=0) as child:
                given, told = ends_of(child)
                given.write(LINES[:place])
                early = [told.readline() for _ in ends]
                given.write(LINES[place:])
                given.close()
                self.assertEqual([*early, *told], whole, place)


@built
class Endings(unittest.TestCase):
    def told(self, status: int, said: bytes, ran: Ran) -> None:
        self.assertEqual((ran.returncode, ran.stdout, ran.stderr), (status, b"", said))

    def test_other_words_are_usage(self) -> None:
        nothing: list[str] = []
        for words in (nothing, *(words.split(" ") for words in OTHERS.split("|"))):
            with self.subTest(words=words):
                ran = ended(words, SHORT)
                self.assertEqual((ran.returncode, ran.stdout), (2, b""))
                self.assertTrue(ran.stderr.startswith(b"usage: "), ran.stderr)

    def test_a_read_or_write_that_fails_has_its_status(self) -> None:
        for words in ("run", "check", "sessions", "serve", "serve sessions", "propose"):
            with self.subTest(words=words), open("/dev/full", "wb") as full:
                with open("/proc/self/mem", "rb") as unread:
                    failed = subprocess.run(
                        [PROGRAM, *words.split()], stdin=unread, capture_output=True
                    )
                self.told(3, b"read fault\n", failed)
                if words != "propose":
                    ran = subprocess.run(
                        [PROGRAM, *words.split()],
                        input=b"7,1,open,1\n",
                        stdout=full,
                        stderr=subprocess.PIPE,
                    )
                    self.assertEqual((ran.returncode, ran.stderr), (4, b"write fault\n"))

    def test_inputs_are_read_to_the_limit(self) -> None:
        self.assertEqual(ended(["run"], b"x" * MOST).returncode, 0)
        self.told(5, b"input too long\n", ended(["run"], b"x" * (MOST + 1)))
        ran = ended(["serve"], b"open,1\n" + b"x" * (MOST + 3))
        self.assertEqual((ran.returncode, ran.stdout.count(b"\n")), (5, 1))
