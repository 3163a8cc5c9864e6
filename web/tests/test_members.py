"""Who the members are."""

from __future__ import annotations

import pathlib
import sys
import tempfile
import unittest
from unittest import mock

from tests import TOP, wants

sys.path.insert(0, str(TOP / "service"))


@wants(modules=("argon2", "redis"))
class Adding(unittest.TestCase):
    def test_no_operator_has_a_session_of_a_tool(self) -> None:
        """An auctioneer and web/up number messages too."""
        from ragvismo_gateway import members, up
        from ragvismo_gateway.members_file import FILE
        from ragvismo_service.auctioneer import Terms
        from ragvismo_service.statuses import BadUse

        with tempfile.TemporaryDirectory() as folder:
            file = members.Members(pathlib.Path(folder) / FILE)
            self.addCleanup(file.close)
            with mock.patch.object(members, "hashed_password", str):
                given = [file.add(f"o{each}", "operator", "").session for each in range(7)]
                with self.assertRaises(BadUse):
                    file.add("o8", "operator", "")
                self.assertEqual(file.add("ana", "trader", "").session, 10)
        self.assertEqual(given, list(range(1, 8)))
        self.assertFalse({up.CASHIER, Terms(()).session} & {*given})
