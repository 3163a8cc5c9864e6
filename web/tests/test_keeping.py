"""Messages are kept for one exchange, and just as long as they are wanted."""

from __future__ import annotations

import pathlib
import sys
import tempfile
import unittest

from tests import TOP

sys.path.insert(0, str(TOP / "service"))
from ragvismo_gateway.keeping import KEPT, Kept, Message
from ragvismo_gateway.members_file import FILE, told_faults
from ragvismo_service.statuses import Ended, Status


class Keeping(unittest.TestCase):
    def setUp(self) -> None:
        held = tempfile.TemporaryDirectory()
        self.addCleanup(held.cleanup)
        self.path = pathlib.Path(held.name) / FILE

    def kept(self, exchange: str = "today") -> Kept:
        kept = Kept(self.path, exchange)
        self.addCleanup(kept.close)
        return kept

    def test_just_the_newest_has_its_body(self) -> None:
        first, second = Message(10, 1, "a", b"open,1"), Message(10, 2, "b", b"open,2")
        self.kept().keep([first, second, Message(11, 1, "a", b"open,3")])
        again = self.kept()
        self.assertEqual(again.sessions(), [10, 11])
        self.assertEqual(again.of(10), [first._replace(body=b""), second])
        self.assertEqual(self.path.stat().st_mode & 0o777, 0o600)

    def test_another_exchange_has_its_own(self) -> None:
        self.kept().keep([Message(10, 1, "a", b"open,1")])
        other = self.kept("tomorrow")
        self.assertEqual(other.sessions(), [])
        other.keep([Message(10, 1, "a", b"open,2")])
        self.assertEqual([it.body for it in self.kept().of(10)], [b"open,1"])
        self.assertEqual(other.last_elsewhere(), {(10, "a"): b"open,1"})
        self.kept().keep([Message(10, 2, "b", b"open,3")])
        self.assertEqual(other.last_elsewhere(), {(10, "b"): b"open,3"})
        self.assertEqual(self.kept().last_elsewhere(), {(10, "a"): b"open,2"})

    def test_the_last_thousand(self) -> None:
        kept = self.kept()
        kept.keep(Message(10, number, f"{number}", b"") for number in range(1, KEPT + 3))
        self.assertEqual([it.number for it in kept.of(10)], list(range(3, KEPT + 3)))

    def test_what_a_log_lost_is_forgotten(self) -> None:
        kept = self.kept()
        kept.keep(Message(10, number, f"{number}", b"") for number in range(1, 6))
        kept.forget(10, 3)
        self.assertEqual([it.number for it in kept.of(10)], [1, 2, 3])
        # The numbers are given anew, and the keys too.
        kept.keep([Message(10, 4, "5", b"open,1"), Message(10, 5, "4", b"open,2")])
        self.assertEqual([it.key for it in kept.of(10)], ["1", "2", "3", "5", "4"])

    def test_a_file_that_is_none(self) -> None:
        self.path.write_bytes(b"no file of members" * 100)
        with self.assertRaises(Ended) as told, told_faults():
            self.kept()
        self.assertEqual(told.exception.status, Status.FILE_FAULT)
