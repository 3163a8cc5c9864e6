"""A log from which something was taken, to which something was put, or in which something was
changed."""

from __future__ import annotations

import json
import os
import signal
import subprocess
import unittest

from client import Broken
from ragvismo_service.chain import FIRST_HEAD, head_after
from ragvismo_service.columns import heads_of
from ragvismo_service.messages import LONGEST_LINE, Entry, RawEntry
from ragvismo_service.places import Keys, Place
from ragvismo_service.statuses import Ended, Status
from ragvismo_service.store import Store
from ragvismo_service.verifying import check, parts
from tests.standing import HERE, Service

IN, OUT = "ragvismo:in", "ragvismo:out"
READERS = (
    ("verify",),
    ("watch", "--once"),
    ("journal", "journal"),
    ("rehearse", ""),
    ("begin", "messages"),
)


class Sums(unittest.TestCase):
    """The chain over a page, column by column, beside the chain entry by entry."""

    def page(self) -> tuple[list[RawEntry], list[RawEntry]]:
        entries: list[RawEntry] = []
        answers: list[RawEntry] = []
        head = FIRST_HEAD
        for number in range(1, 4):
            id, answer = b"%d-0" % number, b'{"line":%d}' % number
            entries.append(
                [id, [b"session", b"7", b"number", b"%d" % number, b"body", b"open,%d" % number]]
            )
            head = head_after(head, Entry.of(entries[-1]).line(), answer)
            answers.append([id, [b"answer", answer, b"chain", head]])
        return entries, answers

    def test_a_page_of_messages(self) -> None:
        entries, answers = self.page()
        self.assertEqual(
            heads_of(FIRST_HEAD, entries, answers), [fields[3] for _, fields in answers]
        )

    def test_a_question_is_no_message(self) -> None:
        """Though the sums follow from it as if it were one."""
        head, (entries, answers) = FIRST_HEAD, self.page()
        for (id, fields), (_, told) in zip(entries, answers):
            fields[1] = b"?7"
            head = told[3] = head_after(head, b",".join((id, *fields[1::2])), told[1])
        self.assertIsNone(heads_of(FIRST_HEAD, entries, answers))

    def test_what_is_looked_at_one_by_one(self) -> None:
        """Another head, an entry that is no message, an answer of two lines, another id, a sum that
        does not follow."""
        self.assertIsNone(heads_of(b"1" * 64, *self.page()))
        for stream, place, value in (
            (0, 1, b"7,7"),
            (0, 3, b"2\n"),
            (0, 5, b"a\nb"),
            (0, 4, b"other"),
            (0, 5, b"x" * LONGEST_LINE),
            (1, 1, b"{}\n"),
            (1, 3, b"0" * 64),
            (1, 2, b"other"),
        ):
            page = self.page()
            page[stream][1][1][place] = value
            self.assertIsNone(heads_of(FIRST_HEAD, *page), (stream, place, value))
        for stream in (0, 1):
            page = self.page()
            page[stream][2][0] = b"9-9"
            self.assertIsNone(heads_of(FIRST_HEAD, *page))
            page = self.page()
            page[stream][2][1] += [b"more", b"1"]
            self.assertIsNone(heads_of(FIRST_HEAD, *page))


class Log(Service):
    def fill(self) -> None:
        session = self.session(7)
        for number in range(1, 6):
            session.ask(f"open,{number}")
        self.until(self.all_answered)

    def readers_end(self, status: Status, said: str) -> None:
        """Each reader of the log ends so, and no file is written."""
        messages = self.folder / "messages"
        messages.write_text("7,9,open,9\n")
        for name, *words in READERS:
            given = {"journal": self.folder / "journal", "": self.program, "messages": messages}
            with self.subTest(name):
                self.tool_ends(status, said, name, *(given.get(word, word) for word in words))
        self.assertFalse((self.folder / "journal/segments").exists())
        ran = self.tool("follower", "--program", self.program)
        self.assertEqual(ran.returncode, status, ran.stderr)
        self.assertRegex(ran.stderr.splitlines()[-1], f"^follower: .*{said}")

    def cut(self, *command: object) -> None:
        """Entries are taken out while a sequencer runs, which ends, as one that is started does,
        and each reader."""
        self.fill()
        sequencer = self.sequencers[0]
        third = self.redis.xrange(IN)[2][0]
        self.redis.execute_command(*(third if word == "third" else word for word in command))
        for each in (sequencer, self.start_sequencer()):
            self.ends(each, Status.CUT, "TAKEN OUT")
        self.readers_end(Status.CUT, "TAKEN OUT")

    def test_a_front_that_is_trimmed(self) -> None:
        self.start_sequencer()
        self.cut("XTRIM", IN, "MAXLEN", 0)

    def test_an_append_that_trims(self) -> None:
        self.start_sequencer()
        self.cut("XADD", IN, "MAXLEN", 1, "*", "session", 7, "number", 6, "body", "open,6")

    def test_an_entry_that_is_deleted(self) -> None:
        self.start_sequencer()
        self.cut("XDEL", IN, "third")

    def test_an_entry_that_is_deleted_before_it_is_read(self) -> None:
        sequencer = self.start_sequencer()
        self.fill()
        os.kill(sequencer.pid, signal.SIGSTOP)
        self.redis.xdel(IN, self.append(session=7, number=6, body="open,6"))
        os.kill(sequencer.pid, signal.SIGCONT)
        self.ends(sequencer, Status.CUT, "1 ENTRIES WERE TAKEN OUT of ragvismo:in")

    def test_answers_that_are_trimmed(self) -> None:
        sequencer = self.start_sequencer()
        self.fill()
        self.redis.xtrim(OUT, 2, approximate=False)
        self.append(session=7, number=6, body="open,6")
        self.ends(sequencer, Status.CUT, "3 ENTRIES WERE TAKEN OUT of ragvismo:out")
        self.readers_end(Status.CUT, "TAKEN OUT of ragvismo:out")

    def test_an_entry_that_is_taken_out_unread(self) -> None:
        """Nothing is answered after it, as if it had not been there."""
        sequencer = self.start_sequencer()
        self.fill()
        id = b"%d-0" % (self.redis.time()[0] * 1000 + 60_000)
        together = self.redis.pipeline()
        together.xadd(IN, {"session": 7, "number": 6, "body": "open,6"}, id=id)
        together.xadd(IN, {"session": 8, "number": 1, "body": "open,8"})
        together.xdel(IN, id)
        together.execute()
        self.ends(sequencer, Status.CUT, "TAKEN OUT")
        self.assertEqual(self.redis.xlen(OUT), 5)

    def test_a_stream_that_is_deleted(self) -> None:
        sequencer = self.start_sequencer()
        self.fill()
        self.redis.delete(IN)
        self.ends(sequencer, Status.CUT, "TAKEN OUT of ragvismo:in")
        self.append(session=7, number=1, body="open,1")
        self.ends(self.start_sequencer(), Status.CUT, "TAKEN OUT of ragvismo:in")
        self.readers_end(Status.CUT, "TAKEN OUT of ragvismo:in")

    def test_a_log_that_is_taken_away(self) -> None:
        sequencer = self.start_sequencer()
        self.fill()
        self.redis.flushall()
        self.ends(sequencer, Status.CUT, "THE LOG WAS TAKEN AWAY")

    def test_another_log_in_its_place(self) -> None:
        sequencer = self.start_sequencer()
        self.fill()
        for number in range(1, 10):
            self.redis.xadd("another", {"session": 7, "number": number, "body": f"open,{number}"})
        self.redis.rename("another", IN)
        self.ends(sequencer, Status.CUT, "THE LOG WAS TAKEN AWAY")

    def test_a_count_that_is_set(self) -> None:
        """XSETID hides from Redis that something was taken out."""
        sequencer = self.start_sequencer()
        self.fill()
        self.redis.pipeline().xtrim(IN, 2, approximate=False).execute_command(
            "XSETID", IN, self.redis.xrevrange(IN)[0][0], "ENTRIESADDED", 2
        ).execute()
        self.ends(sequencer, Status.CUT, "3 ENTRIES WERE TAKEN OUT of ragvismo:in")
        self.ends(self.start_sequencer(), Status.CUT, "3 ENTRIES WERE TAKEN OUT of ragvismo:in")

    def test_answers_that_are_deleted_are_computed_again(self) -> None:
        sequencer = self.start_sequencer()
        self.fill()
        told, before = self.tool("verify").stdout, self.published()
        self.kill(sequencer)
        self.redis.delete(OUT)
        self.start_sequencer()
        self.until(self.all_answered)
        self.assertEqual((self.published(), self.tool("verify").stdout), (before, told))

    def forged(self, id: str, **fields: object) -> None:
        """An answer that no sequencer wrote: sequencers end, and each reader, and a client that
        waits."""
        sequencer = self.start_sequencer()
        self.fill()
        self.redis.xadd(OUT, fields, id=id)
        self.append(session=7, number=6, body="open,6")
        for each in (sequencer, self.start_sequencer()):
            self.ends(each, Status.FORGED, "NO SEQUENCER WROTE")
        self.readers_end(Status.FORGED, "")
        with self.assertRaisesRegex(Broken, "an answer stands under"):
            self.session(8).ask("open,7")
        ran = self.tool("client.py", 9, input="open,8\n")
        self.assertEqual((ran.returncode, ran.stderr.count("\n")), (Status.FORGED, 1), ran.stderr)

    def test_an_answer_to_nothing(self) -> None:
        self.forged("99999999999999-0", answer="x")

    def test_an_answer_to_nothing_that_looks_like_one(self) -> None:
        self.forged(
            "99999999999999-0",
            answer='{"line":1,"number":15,"reason":"Malformed","reply":"gate"}',
            chain="0" * 64,
        )

    def test_an_answer_of_two_lines(self) -> None:
        self.forged("99999999999999-0", answer="{}\n{}", chain="0" * 64)

    def test_an_answer_without_its_field(self) -> None:
        self.forged("99999999999999-0", other="x")

    def test_the_last_id_that_there_is(self) -> None:
        """A stream that takes nothing more: the client is told, and nobody asks without end."""
        self.start_sequencer()
        self.fill()
        self.redis.xadd(
            IN, {"session": 8, "number": 1, "body": "open,9"}, id=f"{2**64 - 1}-{2**64 - 1}"
        )
        with self.assertRaisesRegex(Broken, "Redis refuses"):
            self.session(7, 6).ask("open,6")
        self.until(self.all_answered)
        self.assertRegex(self.tool("verify").stdout, "^6 answers hold, to ")
        self.assertIn("6 entries, 0 not answered", self.tool("watch", "--once").stdout)

    def test_a_byte_that_is_changed(self) -> None:
        """A price is another one in the file of a Redis that stands still: its answer tells nothing
        of it."""
        self.start_sequencer()
        session = self.session(7)
        for body in (
            "open,1",
            "deposit,1,5000",
            "market,1,1",
            "sell,1,1,call,10,50,1,1",
            "balance,1",
        ):
            session.ask(body)
        self.until(self.all_answered)
        before = self.tool("verify").stdout
        self.assertEqual(
            before,
            f"5 answers hold, to {self.published()[-1][0].decode()}: {self.heads()[-1]}\n",
        )
        self.kill(self.sequencers[0])
        self.change(b"sell,1,1,call,10,50,1,1", b"sell,1,1,call,10,10,1,1")
        id = self.redis.xrange(IN)[3][0].decode()
        self.readers_end_changed(id)
        sequencer = self.start_sequencer()
        sequencer.wait(120)
        self.assertIn(sequencer.returncode, (Status.CHANGED, Status.DIFFERS))
        self.assertIn(id, sequencer.communicate()[1])

    def heads(self) -> list[str]:
        """The chain, from what stands in the streams."""
        head, heads = FIRST_HEAD, []
        for (id, told), (_, answer) in zip(self.redis.xrange(IN), self.published()):
            line = b",".join((id, told[b"session"], told[b"number"], told[b"body"]))
            head = head_after(head, line, answer)
            heads.append(head.decode())
        return heads

    def change(self, old: bytes, new: bytes) -> None:
        """Changes bytes in the file of a Redis that is stopped for it."""
        self.stop_redis()
        [log] = (self.folder / "appendonlydir").glob("*.incr.aof")
        text = log.read_bytes()
        self.assertEqual(text.count(old), 1)
        log.write_bytes(text.replace(old, new))
        self.start_redis()

    def readers_end_changed(self, id: str) -> None:
        for words in (
            ("verify",),
            ("journal", self.folder / "journal"),
            ("rehearse", self.program),
        ):
            self.tool_ends(Status.CHANGED, f"THE LOG WAS CHANGED at {id}", *map(str, words))

    def test_a_log_that_is_verified_in_parts(self) -> None:
        for number in range(1, 101):
            self.redis.xadd(
                IN,
                {"session": 7, "number": number, "body": f"open,{number}"},
                id=f"{1000 + number}-0",
            )
        self.start_sequencer()
        self.until(self.all_answered)
        place = Place.of(str(self.port))
        cut = parts(Store(place, 5, "verify"), Keys.of("ragvismo"), 7)
        self.assertEqual(len(cut), 7)
        held = [check(place, 5, part, None) for part in cut]
        self.assertEqual(
            (sum(it.answers for it in held), held[-1].head.decode()), (100, self.heads()[-1])
        )
        self.kill(self.sequencers[0])
        self.change(b"open,50\r", b"open,51\r")
        changed = 0
        for part in cut:
            try:
                check(place, 5, part, None)
            except Ended as ended:
                self.assertIn(
                    f"THE LOG WAS CHANGED at {self.redis.xrange(IN)[49][0].decode()}", str(ended)
                )
                changed += 1
        self.assertEqual(changed, 1)

    def test_a_sum_that_is_kept(self) -> None:
        """Who makes the whole chain anew is told by a sum that was kept elsewhere."""
        sequencer = self.start_sequencer()
        self.fill()
        kept = self.heads()[2]
        self.assertEqual(self.tool("verify", "--head", kept).returncode, 0)
        self.kill(sequencer)
        self.change(b"open,2", b"open,9")
        self.redis.delete(OUT)
        self.start_sequencer()
        self.until(self.all_answered)
        self.assertEqual(self.tool("verify").returncode, 0)
        self.tool_ends(
            Status.CHANGED, f"the sum {kept} is not in its chain", "verify", "--head", kept
        )
        self.tool_ends(Status.BAD_USE, "is no sum", "verify", "--head", "x")

    def test_the_journal_of_another_exchange(self) -> None:
        self.start_sequencer()
        self.fill()
        folder = self.folder / "journal"
        self.assertEqual(self.tool("journal", folder).returncode, 0)
        listed = (folder / "segments").read_bytes()
        other = subprocess.run(
            [HERE / "journal", folder, "--at", f"{self.port}/second"],
            capture_output=True,
            text=True,
        )
        self.assertEqual(
            (other.returncode, other.stderr.count("\n")), (Status.LOST, 1), other.stderr
        )
        self.assertEqual((folder / "segments").read_bytes(), listed)
        self.assertEqual(json.loads(listed.splitlines()[-1])["head"], self.heads()[-1])
