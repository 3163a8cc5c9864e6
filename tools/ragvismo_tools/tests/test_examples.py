"""The examples, and the program where it is built."""

from __future__ import annotations

import json
import random
import re
import subprocess
import unittest

from ragvismo_tools.places import PROGRAM, TOP
from ragvismo_tools.tests.common import EXAMPLES, JOURNALS, built


class Examples(unittest.TestCase):
    def test_the_readme_shows_an_example(self) -> None:
        blocks = (TOP / "README.md").read_text().split("```\n")[1::2]
        self.assertIn((TOP / "examples/butterfly.commands").read_text(), blocks)

    @built
    def test_examples_give_their_replies(self) -> None:
        for replies in JOURNALS:
            given = replies.with_suffix(".commands").read_bytes()
            ran = subprocess.run([PROGRAM, "run"], input=given, capture_output=True)
            self.assertEqual((ran.returncode, ran.stdout), (0, replies.read_bytes()), replies.name)
            self.assertEqual(
                subprocess.run(
                    [PROGRAM, "check"], input=ran.stdout, capture_output=True
                ).returncode,
                0,
                replies.name,
            )
            asked = subprocess.run([PROGRAM, "quotes"], input=given, capture_output=True)
            self.assertEqual(
                (asked.returncode, asked.stdout), (0, replies.read_bytes()), replies.name
            )

    @built
    def test_examples_of_each_word_give_their_replies(self) -> None:
        for name, word in EXAMPLES.items():
            replies = TOP / f"examples/{name}.replies"
            ran = subprocess.run(
                [PROGRAM, *word.split("-")],
                input=replies.with_suffix(".commands").read_bytes(),
                capture_output=True,
            )
            self.assertEqual((ran.returncode, ran.stdout), (0, replies.read_bytes()), name)

    @built
    def test_the_audit_takes_what_each_word_writes_and_the_check_what_run_does(self) -> None:
        for name in EXAMPLES:
            text = (TOP / f"examples/{name}.replies").read_bytes()
            lines, own = text.splitlines(), re.compile(
                rb'"of":|"reply":"(?:gate|quoted|priced|margin|book|proposed|positions|closed'
                rb'|secured)"'
            )
            batches, bounded, optimal = (
                sum(part in line for line in lines if b'"cleared"' in line)
                for part in (b'"cleared"', b'"bounded"', b'"optimal"')
            )
            counts = {
                "batches": batches,
                "bounded": bounded,
                "lines": len(lines),
                "optimal": optimal,
                "verdict": "yes",
            }
            first = next(at for at, line in enumerate(lines, 1) if own.search(line))
            for word, status, report in (
                ("audit", 0, counts),
                ("check", 6, {"line": first, "reason": "Shape", "verdict": "no"}),
            ):
                ran = subprocess.run([PROGRAM, word], input=text, capture_output=True)
                self.assertEqual(
                    (ran.returncode, json.loads(ran.stdout)), (status, report), (name, word)
                )

    @built
    def test_each_mode_has_lines_of_its_own(self) -> None:
        opened, listed = {"account": 2, "line": 1, "reply": "opened"}, {
            "line": 2,
            "market": 1,
            "reply": "listed",
            "underlyings": 1,
        }
        syntax = {"number": 1, "reason": "Syntax", "reply": "refused"}
        quoted = {"ask": "never", "bid": "never", "line": 3, "market": 1, "reply": "quoted"}
        margin = {
            "account": 2,
            "at": ["1", "0"],
            "line": 4,
            "margin": "0",
            "market": 1,
            "reply": "margin",
        }
        priced = {
            "ask": "never",
            "bid": "never",
            "line": 5,
            "market": 1,
            "quantity": 7,
            "reply": "priced",
        }
        replies: list[dict[str, object]] = [{"line": line, **syntax} for line in (3, 4, 5)]
        no_quote, no_margin, no_price = replies
        given = (
            b"open,2\nmarket,1,1\nquote,1,100,call,10,1\nmargin,2,1,100\nprice,1,100,7,call,10,1\n"
        )
        answered: dict[str, list[dict[str, object]]] = {
            "run": [no_quote, no_margin],
            "quotes": [quoted, no_margin],
            "guarded": [no_quote, margin],
            "serve": [quoted, margin],
        }
        for word, answers in (
            (word, [*told, priced if word == "serve" else no_price])
            for word, told in answered.items()
        ):
            ran = subprocess.run([PROGRAM, word], input=given, capture_output=True)
            self.assertEqual(
                (ran.returncode, [json.loads(line) for line in ran.stdout.splitlines()]),
                (0, [opened, listed, *answers]),
                word,
            )

    @built
    def test_prices_are_what_quotes_tell_under_the_other_names(self) -> None:
        draw, lines = random.Random("prices"), ["open,1", "deposit,1,1000000000"]
        for market in range(1, 41):
            lines.append(f"market,{market},1")
            for _ in range(draw.randint(2, 9)):
                side, kind = draw.choice(("buy", "sell")), draw.choice(("call", "put"))
                ends = (0, 20), (0, 20), (1, 5), (1, 3)
                numbers = ",".join(str(draw.randint(*it)) for it in ends)
                lines.append(f"{side},1,{market},{kind},{numbers}")
            option = f"{draw.choice(('call', 'put'))},{draw.randint(0, 20)},{draw.randint(1, 3)}"
            lines += [f"quote,{market},20000,{option}", f"price,{market},20000,1,{option}"]
        ran = subprocess.run(
            [PROGRAM, "serve"], input="\n".join(lines).encode(), capture_output=True
        )
        told = [json.loads(line) for line in ran.stdout.splitlines()]
        quoted, priced = (
            [line for line in told if line["reply"] == word] for word in ("quoted", "priced")
        )
        self.assertEqual((len(quoted), len(priced)), (40, 40))
        self.assertEqual(
            [(line["bid"], line["ask"]) for line in quoted],
            [(line["ask"], line["bid"]) for line in priced],
        )
        self.assertGreater(
            sum(word.isdigit() for line in priced for word in (line["ask"], line["bid"])), 20
        )


@built
class Check(unittest.TestCase):
    def judged(self, journal: bytes) -> tuple[int, bytes]:
        ran = subprocess.run([PROGRAM, "check"], input=journal, capture_output=True)
        return ran.returncode, ran.stdout

    def test_a_journal_cut_at_each_byte(self) -> None:
        whole = (TOP / "examples/one_option.replies").read_bytes()
        for at in range(len(whole)):
            front = whole[:at]
            between = at == 0 or front.endswith(b"\n") or whole[at : at + 1] == b"\n"
            lines = [json.loads(line) for line in front.split(b"\n") if line] if between else []
            counts = {
                "batches": sum(line["reply"] == "cleared" for line in lines),
                "lines": len(lines),
            }
            optimal = sum(line.get("mark") == "optimal" for line in lines)
            sound = {**counts, "optimal": optimal, "verdict": "yes"}
            cut = {"line": front.count(b"\n") + 1, "reason": "NotJson", "verdict": "no"}
            status, report = self.judged(front)
            self.assertEqual((status, json.loads(report)), (0, sound) if between else (6, cut), at)

    def test_lines_that_are_no_replies(self) -> None:
        lines = (
            ('{"account":1.0,"line":1,"reply":"opened"}', "Shape"),
            ('{"account":0,"line":1,"reply":"opened"}', "Range"),
            ('{"account":1,"line":1,"reply":"closed"}', "Shape"),
            ('{"account":1,"balance":"-0","line":1,"reply":"deposited"}', "Number"),
            ('{"line":1,"account":1,"reply":"opened"}', "Spelling"),
            ("[" * 200, "NotJson"),
            ("", "NotJson"),
        )
        for line, reason in lines:
            report = {"line": 1, "reason": reason, "verdict": "no"}
            status, said = self.judged(line.encode() + b"\n")
            self.assertEqual((status, json.loads(said)), (6, report), line)
