"""What the tests of the tools stand on."""

from __future__ import annotations

import importlib.util
import os
import pathlib
import shutil
import subprocess
import tempfile
import unittest
from collections.abc import Callable
from typing import Any, TypeVar

from ragvismo_tools.places import PROGRAM, TOP

# Examples that another word than run answers, and the word.
EXAMPLES = {
    "quotes": "quotes",
    "guarded": "guarded",
    "sessions": "sessions",
    "serve": "serve",
    "proposals": "serve",
    "match": "serve",
    "phases": "serve",
    "secured": "serve",
    "hundred": "serve",
    "questions": "serve",
    "serve-sessions": "serve-sessions",
    "members": "serve-members",
}
JOURNALS = sorted(it for it in (TOP / "examples").glob("*.replies") if it.stem not in EXAMPLES)
PROPOSAL = (
    '{"certificate":{"cover":"line","measure":[{"state":["1","0"],"weight":"3/7"},'
    '{"state":["1","12"],"weight":"4/7"},{"state":["0","1"],"weight":"4"}]},'
    '"fills":["1/2","1/7","5/14"],"liability":"0","orders":[1,2,3],"surplus":"3/7"}'
)
# A call on both underlyings that is bought against one on the first and the second, covered by
# cells.
CELLED = (
    '{"batch":1,"bound":"3","certificate":{"cover":{"cells":[{"split":1},'
    '{"leaf":[2,"1",3,"1"]},{"leaf":[]}]},"measure":[{"state":["1","0","0"],"weight":"1"}]},'
    '"fills":["1","1","1"],"liability":"0","line":9,"mark":"bounded","market":1,'
    '"orders":[{"account":1,"legs":[{"count":1,"form":[-10,1,1]}],"order":1,"price":3,'
    '"quantity":1,"side":"buy"},{"account":2,"legs":[{"count":1,"form":[-10,1,0]}],"order":2,'
    '"price":1,"quantity":1,"side":"sell"},{"account":3,"legs":[{"count":1,"form":[0,0,1]}],'
    '"order":3,"price":1,"quantity":1,"side":"sell"}],'
    '"reply":"cleared","run":"budget","surplus":"1","underlyings":2,"units":1,"version":3}'
)
TOOLS = sorted(it.name for it in (TOP / "tools").iterdir() if it.is_file() and not it.suffix)
# What each kind of test wants besides Python: a module of it, or a program.
WANTED = {
    "python3-jsonschema": "jsonschema",
    "python3-matplotlib": "matplotlib",
    "python3-scipy": "scipy",
    "parallel": "parallel",
}
Tested = TypeVar("Tested", bound="Callable[..., Any]")
Ran = subprocess.CompletedProcess[bytes]


def run(tool: str, *words: object, **more: Any) -> Ran:
    command = [str(TOP / "tools" / tool), *map(str, words)]
    ran: Ran = subprocess.run(command, capture_output=True, **more)
    return ran


def has(package: str) -> bool:
    """Whether what Debian's package brings is here."""
    name = WANTED[package]
    return bool(shutil.which(name) or importlib.util.find_spec(name))


def wants(package: str) -> Callable[[Tested], Tested]:
    return unittest.skipUnless(has(package), f"{package} is missing; tools/setup installs it")


built = unittest.skipUnless(os.access(PROGRAM, os.X_OK), "the program is not built")


class Folder(unittest.TestCase):
    """A test with a folder of its own."""

    def setUp(self) -> None:
        held = tempfile.TemporaryDirectory()
        self.addCleanup(held.cleanup)
        self.folder = pathlib.Path(held.name)

    def script(self, name: str, text: str) -> pathlib.Path:
        path = self.folder / name
        path.write_text(text)
        path.chmod(0o755)
        return path

    def refused(self, ran: Ran) -> None:
        """Bad input gets one line and status 2."""
        self.assertEqual((ran.returncode, ran.stdout), (2, b""), ran.stderr)
        self.assertEqual(ran.stderr.count(b"\n"), 1, ran.stderr)
