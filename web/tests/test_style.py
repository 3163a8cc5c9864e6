"""How the scripts are written: types in comments, one format, no float where sums are exact."""

from __future__ import annotations

import os
import re
import subprocess
import unittest

from tests import WEB, wants

# Modules of the recheck, which know whole numbers alone, and those that draw or trade.
DRAWING = {"batch_page", "batch_tables", "curve", "map", "picture_view", "seen", "svg", "tables"}
TRADING = {
    "account_view",
    "asked_last",
    "bundles",
    "depth_picture",
    "forms",
    "gateway",
    "loading",
    "market_view",
    "probe_view",
    "refusal_words",
    "stakes",
    "ticket_view",
    "trading_page",
    "trading_state",
    "worth_map",
    "worth_picture",
}


class Style(unittest.TestCase):
    @wants("tsc")
    def test_types(self) -> None:
        ran = subprocess.run(["tsc", "--project", WEB], capture_output=True, text=True)
        self.assertEqual(ran.returncode, 0, ran.stdout)

    @wants("eslint")
    def test_scripts(self) -> None:
        # A node that is not Debian's does not look where Debian's modules are.
        places = {**os.environ, "NODE_PATH": "/usr/share/nodejs"}
        words = ["eslint", "--format", "unix", "--ext", ".mjs", "page", "tests"]
        ran = subprocess.run(words, cwd=WEB, env=places, capture_output=True, text=True)
        self.assertEqual(ran.returncode, 0, ran.stdout + ran.stderr)

    def test_no_float_in_the_recheck(self) -> None:
        for module in WEB.glob("page/*.mjs"):
            if module.stem not in DRAWING | TRADING:
                code = re.sub(r"//[^\n]*|/\*.*?\*/", "", module.read_text(), flags=re.S)
                found = re.findall(r"parseFloat|Math\.|[^\w\"]\d+\.\d|\d\s*/\s*\d", code)
                self.assertEqual(found, [], module.name)

    def test_nothing_from_elsewhere(self) -> None:
        for file in WEB.glob("page/*"):
            found = re.findall(r"https?://(?!www\.w3\.org/2000/svg)[^\s\"']*", file.read_text())
            self.assertEqual(found, [], file.name)
            imported = re.findall(r'^(?:import|export).* from "([^"]*)"', file.read_text(), re.M)
            self.assertTrue(all(name.startswith("./") for name in imported), file.name)
