"""Tables and pictures of journals, and what is carried over."""

from __future__ import annotations

from collections.abc import Iterable
from typing import Any
import json
import os
import re

from ragvismo_tools.places import TOP
from ragvismo_tools.tests.common import CELLED, Folder, run, wants


class Tables(Folder):
    def printed(self, *words: object) -> list[str]:
        ran = run("table", *words)
        self.assertEqual((ran.returncode, ran.stderr), (0, b""), words)
        return ran.stdout.decode().splitlines()

    def test_each_table(self) -> None:
        rows = {
            "orders": ("book", "2,cancelled,,,,,,,,"),
            "fills": ("butterfly", "1,1,2,2,sell,call 5,8,1,2/7,2"),
            "balances": ("butterfly", "0,3,10"),
            "payouts": ("book", "29,1,1,3,2,-6"),
        }
        for of, (name, row) in rows.items():
            self.assertIn(
                row, self.printed(TOP / f"examples/{name}.replies", "--of", of, "--as", "csv")
            )

    def test_columns_are_aligned(self) -> None:
        text = self.printed(TOP / "examples/book.replies")
        self.assertEqual([line.split()[0] for line in text], ["batch", "1", "2"])
        self.assertEqual({line.index("optimal") for line in text[1:]}, {text[0].index("mark ")})
        self.assertEqual({len(line) for line in text}, {len(text[0])})

    def test_a_certificate_on_one_underlying(self) -> None:
        said = self.printed(TOP / "examples/butterfly.replies", "--certificate", 1)
        for line in (
            "at a price of 12: owes 2, due 2, which leaves 0 to pay, at most 0",
            "for each tick of price beyond: owes 1, due 1, which leaves 0 to pay, at most 0",
            "mass 4/7 at the price 12",
            "order 1 at 6 has the price 36/7: gain 6/7, times 1 is 6/7",
            "the gains sum to 6/7, and the surplus is 6/7",
        ):
            self.assertIn(line, said)

    def test_a_certificate_on_two_underlyings(self) -> None:
        said = "\n".join(self.printed(TOP / "examples/basket.replies", "--certificate", 1))
        for part in (
            "split at leg 1 (order 1, call 10 on (1, 1))\n",
            "\n  where it pays: leaf with 3 times leg 2 (order 2, call 4 on (1, 0)), 3 times",
            "\n  where it pays nothing: leaf with no multiplier",
        ):
            self.assertIn(part, said)

    def test_a_batch_without_a_certificate(self) -> None:
        self.assertIn(
            "call 10: 0 bought, 0 sold",
            self.printed(TOP / "examples/joint.replies", "--certificate", 3),
        )

    def test_a_certificate_that_fails(self) -> None:
        text = (TOP / "examples/butterfly.replies").read_text()
        changed = self.folder / "changed"
        for old, new, told in (
            ('"weight":"4"', '"weight":"3"', "the gains sum to 13/7, and the surplus is 6/7"),
            (
                '"5/7"]',
                '"0"]',
                (
                    "for each tick of price beyond: owes 1, due 2/7, which leaves 5/7 to pay, at"
                    " most 0"
                ),
            ),
        ):
            changed.write_text("".join(text.replace(old, new).splitlines(True)[:8]))
            ran = run("table", changed, "--certificate", 1)
            self.assertEqual((ran.returncode, ran.stderr), (1, b""))
            self.assertIn(f"{told}, which fails", ran.stdout.decode().splitlines())

    def test_places_and_states_that_are_none(self) -> None:
        """They count nothing, and no line has them."""
        text = (TOP / "examples/basket.replies").read_text()
        for old, new, told in (
            ('[{"at":2,', '[{"at":0,"by":"1"},{"at":2,', "  where it pays: leaf with 3 times"),
            ('"measure":[', '"measure":[{"state":["0","0","0"],"weight":"1"},', "weight 1 along"),
        ):
            changed = "".join(text.replace(old, new).splitlines(True)[:14])
            ran = run("table", "-", "--certificate", 1, input=changed.encode())
            self.assertEqual((ran.returncode, ran.stderr), (1, b""))
            [said] = [it for it in ran.stdout.decode().splitlines() if it.endswith("which fails")]
            self.assertTrue(said.startswith(told), said)

    def test_a_cover_by_cells(self) -> None:
        about = "a tree of 3 nodes over classes of options bounds what is owed less what is due: "
        for old, new, told in (
            ("", "", "each leaf by at most the liability, and at most 0 for each price"),
            (',3,"1"]', "]", "a leaf with the entries 0, 0, 1, which fails"),
            (',{"leaf":[]}', "", "the tree ends before its leaves, which fails"),
        ):
            line = CELLED.replace(old, new, 1)
            ran = run("table", "-", "--certificate", 1, input=line.encode())
            self.assertEqual((ran.returncode, ran.stderr), (int("fails" in told), b""))
            said = about.replace("3", str(3 - ("ends" in told))) + told
            self.assertIn(said, ran.stdout.decode().splitlines())

    def test_a_state_below_0(self) -> None:
        """A put pays more than its strike at a price below 0, where no settlement is."""
        line = (
            '{"batch":1,"certificate":{"cover":"line","measure":[%s]},"fills":["0"],"liability":"0"'
            ',"line":1,"mark":"optimal","market":1,"orders":[{"account":1,"form":[10,-1],"order":1,'
            '"price":12,"quantity":1,"side":"buy"}],"reply":"cleared","surplus":"0",'
            '"underlyings":1,"units":1,"version":1}'
        )
        for states, told in (
            ('{"state":["1","-2"],"weight":"1"}', "mass 1 at the price -2"),
            (
                '{"state":["2","0"],"weight":"1"},{"state":["-1","-30"],"weight":"1"}',
                "mass -1 at the price 30",
            ),
        ):
            ran = run("table", "-", "--certificate", 1, input=(line % states).encode())
            self.assertEqual((ran.returncode, ran.stderr), (1, b""))
            said = ran.stdout.decode().splitlines()
            self.assertEqual([it for it in said if "fails" in it], [f"{told}, which fails"])

    def test_bad_use(self) -> None:
        book = TOP / "examples/book.replies"
        broken = self.folder / "broken"
        broken.write_text(book.read_text()[:-20])
        for words in ((broken,), (book, "--certificate", 3), (book, "--of", "lines")):
            self.refused(run("table", *words, cwd=self.folder))


class CarryOver(Folder):
    def carried(self, lines: Iterable[str]) -> tuple[int, list[str], list[str]]:
        ran = run("carry-over", "-", input="".join(f"{line}\n" for line in lines).encode())
        return ran.returncode, ran.stdout.decode().splitlines(), ran.stderr.decode().splitlines()

    def test_balances_are_carried_and_the_rest_is_told(self) -> None:
        ran = run("carry-over", TOP / "examples/basket.replies")
        self.assertEqual(
            (ran.returncode, ran.stdout.split()),
            (1, [b"open,1", b"deposit,1,997", b"open,2", b"deposit,2,1000"]),
        )
        told = ran.stderr.decode().splitlines()
        self.assertEqual(len(told), 2)
        self.assertIn("carry-over: the house has 6,", told[0])
        self.assertIn("carry-over: account 3 owes 3 and is not opened:", told[1])

    def test_markets_and_orders(self) -> None:
        lines = (TOP / "examples/one_option.replies").read_text().splitlines()[:7]
        more = (
            '{"line":8,"market":9,"reply":"listed","underlyings":2}',
            '{"line":9,"order":3,"reply":"placed"}',
        )
        status, made, told = self.carried([*lines, *more])
        self.assertEqual(
            (status, made), (1, ["open,1", "deposit,1,93", "open,2", "deposit,2,5", "market,9,2"])
        )
        self.assertIn(
            "carry-over: market 1 owes 2 positions and is not listed: settle it before the end",
            told,
        )
        self.assertIn("carry-over: live orders are to be placed anew: 3", told)

    def test_all_is_carried(self) -> None:
        opened = [f'{{"account":{it},"line":{it},"reply":"opened"}}' for it in (1, 2)]
        great = '{"account":1,"balance":"2000000000000001","line":3,"reply":"deposited"}'
        made = [
            "open,1",
            "deposit,1,1000000000000000",
            "deposit,1,1000000000000000",
            "deposit,1,1",
            "open,2",
        ]
        self.assertEqual(self.carried([*opened, great]), (0, made, []))

    def test_answers_of_messages_count_once(self) -> None:
        opened = '{"number":1,"of":{"account":1,"line":1,"reply":"opened"},"session":7}'
        paid = (
            '{"number":2,"of":{"account":1,"balance":"5","line":2,"reply":"deposited"},"session":7}'
        )
        gate = '{"line":4,"number":15,"reason":"Malformed","reply":"gate"}'
        self.assertEqual(
            self.carried([opened, opened, paid, gate]), (0, ["open,1", "deposit,1,5"], [])
        )

    def test_lines_that_do_not_follow(self) -> None:
        lines = (TOP / "examples/butterfly.replies").read_text().splitlines()
        status, made, told = self.carried(lines[3:])
        self.assertEqual((status, made, len(told)), (1, [], 3))
        self.assertIn("account 1: its balance does not follow", told[1])
        for part in (
            lines[:8] + lines[9:],
            [*lines, lines[0]],
            [lines[7].replace('"1","2/7"', '"1/0","2/7"')],
        ):
            text = "".join(f"{line}\n" for line in part).encode()
            self.refused(run("carry-over", "-", input=text))


@wants("python3-matplotlib")
class Pictures(Folder):
    def drawn(self, name: str, *words: object) -> tuple[str, list[dict[str, Any]]]:
        """The SVG of a journal of the examples, and the cleared line that it shows."""
        journal, out = TOP / "examples" / name, self.folder / "out.svg"
        ran = run("picture", journal, "--out", out, *words)
        self.assertEqual(ran.returncode, 0, ran.stderr)
        cleared = [
            line
            for line in map(json.loads, journal.read_text().splitlines())
            if line["reply"] == "cleared"
        ]
        return out.read_text(), cleared

    def has_states(self, text: str, cleared: dict[str, Any]) -> None:
        states = len(cleared["certificate"]["measure"])
        self.assertEqual(
            set(re.findall(r'id="state-(\d+)"', text)), {str(it) for it in range(1, states + 1)}
        )

    def test_one_underlying(self) -> None:
        for name in ("butterfly.replies", "spread.replies"):
            text, cleared = self.drawn(name)
            for part in ("curve", "surplus", "breakpoint-1", "orders"):
                self.assertIn(f'id="{part}"', text)
            self.has_states(text, cleared[-1])

    def test_two_underlyings_and_a_chosen_batch(self) -> None:
        text, cleared = self.drawn("basket.replies")
        self.has_states(text, cleared[-1])
        text, cleared = self.drawn("demo.replies", "--batch", 2)
        self.has_states(text, cleared[1])
        self.assertIn(
            f"market 1, batch 2, mark optimal, surplus {cleared[1]['surplus']} ticks", text
        )

    def test_more_underlyings(self) -> None:
        text, cleared = self.drawn("basket_of_three.replies")
        self.has_states(text, cleared[-1])

    def test_without_git(self) -> None:
        """Which a checkout that is run need not have: it tracks nothing then. And without a folder
        in which matplotlib keeps what it found."""
        journal, drawn = self.folder / "day.replies", self.folder / "day.svg"
        journal.write_text((TOP / "examples/butterfly.replies").read_text())
        drawn.write_text("of the day before")
        bare = {**os.environ, "PATH": "/none", "MPLCONFIGDIR": "/dev/null/none"}
        ran = run("picture", journal, env=bare, cwd=self.folder)
        self.assertEqual((ran.returncode, ran.stdout, ran.stderr), (0, b"day.svg\n", b""))
        self.assertIn('id="curve"', drawn.read_text())

    def test_without_a_measure(self) -> None:
        text, _ = self.drawn("joint.replies")
        self.assertIn("no measure", text)

    def test_bad_input(self) -> None:
        journal = TOP / "examples/butterfly.replies"
        broken = self.folder / "broken"
        broken.write_text(journal.read_text()[:-20])
        for words in (
            (),
            ("none",),
            (".",),
            (broken,),
            (journal, "--batch", 2),
            (journal, "--out", "x.txt"),
            (journal, "--batch", "x"),
            (journal, "--limits", 0, "inf"),
        ):
            self.refused(run("picture", *words, cwd=self.folder))
