"""The second check of journals."""

from __future__ import annotations

from typing import Any
import json
import os
import random
import re
import subprocess

from ragvismo_tools import plain_check
from ragvismo_tools.hostile import changes
from ragvismo_tools.places import PROGRAM, TOP
from ragvismo_tools.tests.common import CELLED, JOURNALS, Folder, built, run


# The butterfly, half of it filled by a proposal, with a bound.
BOUNDED = (
    '{"batch":1,"bound":"6/7",'
    '"certificate":{"cover":"line","measure":[{"state":["1","0"],"weight":"3/7"},'
    '{"state":["1","12"],"weight":"4/7"},{"state":["0","1"],"weight":"4"}]},'
    '"fills":["1/2","1/7","5/14"],"liability":"0","line":10,"mark":"bounded","market":1,'
    '"orders":[{"account":1,"legs":[{"count":1,"form":[-10,1]}],"order":1,"price":6,'
    '"quantity":1,"side":"buy"},{"account":2,"legs":[{"count":1,"form":[-5,1]}],"order":2,'
    '"price":8,"quantity":1,"side":"sell"},{"account":3,"legs":[{"count":1,"form":[-12,1]}],'
    '"order":3,"price":4,"quantity":1,"side":"sell"}],'
    '"reply":"cleared","run":"budget","surplus":"3/7","underlyings":1,"units":1,"version":3}'
)


def audited(line: str) -> Any:
    """The program's report of a line."""
    ran = subprocess.run([PROGRAM, "audit"], input=line.encode(), capture_output=True)
    return json.loads(ran.stdout)


class PlainCheck(Folder):
    def said(self, text: str) -> dict[str, Any]:
        ran = run("plain-check", "check", input=text.encode())
        report: dict[str, Any] = json.loads(ran.stdout)
        self.assertEqual(ran.returncode, 0 if report["verdict"] == "yes" else 6)
        return report

    def test_journals_pass(self) -> None:
        for journal in JOURNALS:
            lines = journal.read_text().splitlines()
            batches, optimal = (
                sum(word in line for line in lines)
                for word in ('"reply":"cleared"', '"mark":"optimal"')
            )
            report = {"batches": batches, "lines": len(lines), "optimal": optimal, "verdict": "yes"}
            self.assertEqual(self.said(journal.read_text()), report, journal.name)

    def test_lines_of_serve_are_audited(self) -> None:
        told = '{"number":5,"of":%s,"session":1}' % BOUNDED
        for line, reason in (
            (BOUNDED, None),
            (told, None),
            (told.replace(":5,", ": 5,"), "Spelling"),
            (told.replace(":5,", ":0,"), "Range"),
            (told.replace('"of":', '"of":{},"of":'), "Spelling"),
            (BOUNDED.replace('"bound":"6/7"', '"bound":"1"'), "Bound"),
            (BOUNDED.replace('"weight":"4"', '"weight":"-4"'), "Measure"),
        ):
            ran = run("plain-check", "audit", input=line.encode())
            self.assertEqual(json.loads(ran.stdout).get("reason"), reason, line)
        for word in ("serve", "serve-sessions"):
            self.assertEqual(
                run(
                    "plain-check", "audit", input=(TOP / f"examples/{word}.replies").read_bytes()
                ).returncode,
                0,
            )

    def test_ranges_of_whole_lines(self) -> None:
        """Numbers of a book rise, what is told of a proposal does not fall, and legs of different
        lengths are read: a batch of them has no shape."""
        replies = (TOP / "examples/proposals.replies").read_text().splitlines()
        held, more = '"legs":[{"count":1,', '"legs":[{"count":2,"form":[-7,1,0]},{"count":1,'
        book, proposed, positions = (
            next(line for line in replies if f'"reply":"{word}"' in line)
            for word in ("book", "proposed", "positions")
        )
        for line, reason in (
            (book, None),
            (book.replace('"order":2', '"order":1'), "Range"),
            (book.replace('"order":2', '"order":4'), "Range"),
            (book.replace('"order":3', '"order":1000000'), None),
            (book.replace(held, more), None),
            (proposed, None),
            (proposed.replace('"surplus":"3/7"}', '"surplus":"-1/7"}'), "Range"),
            (proposed.replace('"best_surplus":"3/7"', '"best_surplus":"2/7"'), "Range"),
            (proposed.replace('"best_surplus":"3/7"', '"best_surplus":"6/7"'), None),
            (proposed.replace('"best_surplus":"3/7"', '"best_surplus":"1"'), "Range"),
            (proposed.replace('"least_bound":"6/7"', '"least_bound":"1"'), "Range"),
            (proposed.replace('"bound":"6/7"', '"bound":"1"', 1), None),
            (positions, None),
            (positions.replace(held, more), None),
            (BOUNDED.replace(held, more), "BatchShape"),
        ):
            found = plain_check.report(line.encode(), "audit")
            self.assertEqual(found.get("reason"), reason, line)
            if os.access(PROGRAM, os.X_OK):
                self.assertEqual(audited(line), found, line)

    def test_covers_of_lines_marked_bounded(self) -> None:
        """A match, and cells, each changed."""
        none = BOUNDED.replace('["1/2","1/7","5/14"]', '["0","0","0"]').replace(
            '"surplus":"3/7"', '"surplus":"0"'
        )
        first, second = '{"leaf":[2,"1",3,"1"]}', '{"split":1}'
        for line, old, new, reason in (
            (none, '"line",', '"match",', None),
            (BOUNDED, '"line",', '"match",', "Cover"),
            (CELLED, "", "", None),
            (CELLED, first, '{"full":[2,3],"leaf":[]}', None),
            (CELLED, first, '{"full":[2],"leaf":[3,"1"]}', None),
            (CELLED, first, '{"full":[2,3],"leaf":[3,"1"]}', "Cover"),
            (CELLED, first, '{"full":[1,2,3],"leaf":[]}', "Cover"),
            (CELLED, first, '{"full":[],"leaf":[2,"1",3,"1"]}', "Range"),
            (CELLED, first, '{"leaf":[2,"2",3,"1"]}', "Cover"),
            (CELLED, first, '{"leaf":[2,"-1",3,"1"]}', "Cover"),
            (CELLED, first, '{"leaf":[3,"1",2,"1"]}', "Range"),
            (CELLED, first, '{"leaf":[2,"1",3]}', "Shape"),
            (CELLED, first, '{"leaf":[2,"1",3,"2/2"]}', "Number"),
            (CELLED, first, '{"leaf":[2,"1",3,"1"],"more":1}', "Shape"),
            (CELLED, first, '{"leaf":[2,"1",4,"1"]}', "BatchShape"),
            (CELLED, first, '{"bound":2,"minus":[],"plus":[1,"1"]},' + first, None),
            (CELLED, first, '{"bound":2,"minus":[],"plus":[3,"1"]},' + first, "Cover"),
            (CELLED, first, '{"bound":1,"minus":[],"plus":[]},' + first, "Cover"),
            (CELLED, first, '{"bound":2,"plus":[]},' + first, "Shape"),
            (CELLED, second, '{"split":2}', "Cover"),
            (CELLED, second, '{"split":4}', "BatchShape"),
            (CELLED, second, '{"split":1025}', "Range"),
            (CELLED, second + ",", "", "BatchShape"),
            (CELLED, first + ",", "", "BatchShape"),
            (CELLED, '"bound":"3"', '"bound":"2"', "Bound"),
        ):
            changed = line.replace(old, new, 1)
            found = plain_check.report(changed.encode(), "audit")
            self.assertEqual(found.get("reason"), reason, changed)
            if os.access(PROGRAM, os.X_OK):
                self.assertEqual(audited(changed), found, changed)

    @built
    def test_changed_values_are_judged_as_by_the_program(self) -> None:
        """One value in each line of serve, or of its messages, is another."""
        draw = random.Random("values")
        lines = [
            line
            for name in ("proposals", "phases", "serve", "serve-sessions", "spread", "guarded")
            for line in (TOP / f"examples/{name}.replies").read_text().splitlines()
        ]
        for line in lines * 6:
            reply = json.loads(line)
            *way, last = draw.choice([path for path in changes.inner(reply) if path])
            place = changes.value_at(reply, tuple(way))
            place[last] = changes.other_value(draw, place[last])
            changed = json.dumps(reply, separators=(",", ":"), sort_keys=True)
            told, found = audited(changed), plain_check.report(changed.encode(), "audit")
            if told.get("reason") != "Wide":
                self.assertEqual(told, found, changed)

    def test_changed_lines_are_named(self) -> None:
        text = "".join((TOP / "examples/butterfly.replies").read_text().splitlines(True)[:8])
        measure = re.findall(r'"certificate":{.*?}]},', text)[0]
        changes = (
            ('"2/7"', '"3/7"', "Cover"),
            ('"weight":"4"', '"weight":"3"', "Bound"),
            ('"weight":"3/7"', '"weight":"2/7"', "Measure"),
            ('"surplus":"6/7"', '"surplus":"1"', "Cover"),
            ('"fills":["1"', '"fills":["2"', "Fill"),
            (',"5/7"]', "]", "BatchShape"),
            ('"cover":"line"', '"cover":[{"leaf":[]}]', "BatchShape"),
            ('"2/7"', '"4/14"', "Number"),
            ('"price":6', '"price":1000000000001', "Range"),
            ('"2/7"', f'"2/{"7" * 5000}"', "Range"),
            ('"surplus":"6/7"', f'"surplus":"-{"7" * 5000}"', "Range"),
            ('"side":"buy"', '"side":"bid"', "Shape"),
            ('"batch":', '"batch": ', "Spelling"),
            (measure, "", "Shape"),
            ("}\n", "", "NotJson"),
        )
        for old, new, reason in changes:
            at = text.rindex(old)
            report = self.said(text[:at] + new + text[at + len(old) :])
            self.assertEqual(report, {"line": 8, "reason": reason, "verdict": "no"}, new)

    def test_bad_input(self) -> None:
        for words in ((), ("check", "now")):
            self.refused(run("plain-check", *words, input=b""))
        with open(os.devnull, "wb") as unreadable:
            self.refused(run("plain-check", "check", stdin=unreadable))
