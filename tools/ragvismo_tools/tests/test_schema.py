"""The schema of reply lines."""

from __future__ import annotations

import json
import re
import unittest

from ragvismo_tools.places import TOP
from ragvismo_tools.tests.common import CELLED, EXAMPLES, JOURNALS, wants


@wants("python3-jsonschema")
class Schema(unittest.TestCase):
    def setUp(self) -> None:
        import jsonschema

        schema = json.loads((TOP / "docs/reply.schema.json").read_text())
        jsonschema.Draft202012Validator.check_schema(schema)
        self.reads = jsonschema.Draft202012Validator(schema).is_valid
        self.parts = {
            word: jsonschema.Draft202012Validator({**schema, "$ref": f"#/$defs/{word}"}).is_valid
            for word in ("run", *EXAMPLES.values())
        }

    def test_lines_of_journals_are_read(self) -> None:
        for journal in JOURNALS:
            for number, line in enumerate(journal.read_text().splitlines(), 1):
                self.assertTrue(self.reads(json.loads(line)), f"{journal.name}, line {number}")

    def test_every_kind_of_reply_is_read(self) -> None:
        lines = [
            json.loads(line) for journal in JOURNALS for line in journal.read_text().splitlines()
        ]
        words = {
            "opened",
            "deposited",
            "withdrawn",
            "listed",
            "placed",
            "cancelled",
            "cleared",
            "settled",
            "balance",
            "refused",
        }
        self.assertEqual({line["reply"] for line in lines}, words)
        self.assertEqual({line["version"] for line in lines if line["reply"] == "cleared"}, {1, 2})

    def test_lines_of_each_word_are_of_its_part(self) -> None:
        alone = {
            "quotes": {"quoted"},
            "guarded": {"margin", "refused"},
            "sessions": {"answer", "gate"},
            "serve": {"quoted", "priced", "margin", "refused"},
            "proposals": {"book", "proposed", "cleared", "positions"},
            "match": {"book", "proposed", "cleared"},
            "phases": {"closed", "refused", "proposed", "cleared"},
            "secured": {"secured", "need", "refused"},
            "hundred": {"book", "proposed", "cleared"},
            "questions": {"book", "quoted", "priced", "tried", "refused", "need", "positions"},
            "serve-sessions": {"answer", "gate"},
            "members": {"answer", "asked", "gate"},
        }
        for name, word in EXAMPLES.items():
            lines = [
                json.loads(line)
                for line in (TOP / f"examples/{name}.replies").read_text().splitlines()
            ]
            self.assertEqual([line for line in lines if not self.parts[word](line)], [], name)
            self.assertEqual(
                {line.get("reply", "answer") for line in lines if not self.reads(line)},
                alone[name],
                name,
            )

    def test_changed_lines_of_other_words_are_refused(self) -> None:
        for word, old, new in (
            ("quotes", '"bid":"6"', '"bid":"1000000000001"'),
            ("quotes", '"ask":"never"', '"ask":"none"'),
            ("guarded", '"margin":"10"', '"margin":"wide"'),
            ("guarded", '"need":"11"', '"need":"-1"'),
            ("serve", '"quantity":1', '"quantity":0'),
            ("proposals", '"fill":"1/7"', '"fill":"0"'),
            ("proposals", '"fill":"1/7"', '"fill":"-1/7"'),
            ("sessions", '"expected":3,"line":5', '"line":5'),
            ("sessions", '"line":11,"number":15', '"line":11,"number":16'),
            (
                "sessions",
                '{"account":1,"line":1,"reply":"opened"}',
                '{"ask":"1","bid":"2","line":1,"market":1,"reply":"quoted"}',
            ),
        ):
            text = (TOP / f"examples/{word}.replies").read_text()
            line = next(it for it in text.splitlines() if old in it)
            reads = self.parts[EXAMPLES[word]]
            self.assertTrue(reads(json.loads(line)), line)
            self.assertFalse(reads(json.loads(line.replace(old, new, 1))), new)

    def test_covers_of_lines_marked_bounded(self) -> None:
        reads = self.parts["serve"]
        self.assertTrue(reads(json.loads(CELLED)))
        for old, new, is_read in (
            ('{"leaf":[]}', '{"full":[2],"leaf":[1,"1/2"]}', True),
            ('{"leaf":[]}', '{"full":[],"leaf":[]}', False),
            ('{"leaf":[]}', '{"leaf":[1,"2/4/8"]}', False),
            ('{"split":1}', '{"split":0}', False),
            ('{"split":1}', '{"bound":1,"minus":[2,"1"],"plus":[]}', True),
            ('{"split":1}', '{"bound":1,"plus":[]}', False),
            ('{"cells"', '{"more":1,"cells"', False),
            ('"mark":"bounded"', '"mark":"optimal"', False),
        ):
            self.assertEqual(reads(json.loads(CELLED.replace(old, new, 1))), is_read, new)
        cover = re.findall(r'{"cells":.*?}]}', CELLED)[0]
        for word, is_read in (('"match"', True), ('"line"', True), ('"cells"', False)):
            self.assertEqual(reads(json.loads(CELLED.replace(cover, word))), is_read, word)

    def test_changed_lines_are_refused(self) -> None:
        text = next(
            it
            for it in (TOP / "examples/butterfly.replies").read_text().splitlines()
            if '"cleared"' in it
        )
        changes = (
            ('"mark":"optimal"', '"mark":"budget"'),
            ('"liability":"0",', ""),
            ('"fills":["1",', '"fills":[1,'),
            ('"2/7"', '"2/1"'),
            ('"surplus":"6/7"', '"surplus":"-0"'),
            ('"price":6,', '"price":1000000000001,'),
            ('"side":"buy"', '"side":"bid"'),
            ('"form":[-10,1]', '"form":[-10,0]'),
            ('"state":["1","0"]', '"state":["0","0"]'),
            ('"version":1', '"version":2'),
            ('"batch":1,', '"batch":1,"more":1,'),
        )
        self.assertTrue(self.reads(json.loads(text)))
        for old, new in changes:
            self.assertEqual(text.count(old), 1, old)
            self.assertFalse(self.reads(json.loads(text.replace(old, new))), new)
        self.assertFalse(
            self.reads({"line": 1, "number": 8, "reason": "Funds", "reply": "refused"})
        )
