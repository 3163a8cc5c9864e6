"""How the Python of the repository is written, as pyproject.toml and .flake8 at the top say."""

from __future__ import annotations

import functools
import importlib.util
import pathlib
import subprocess
import tempfile
import tomllib
import unittest

from ragvismo_tools.places import TOP

PYTHON = "/usr/bin/python3"
# Folders that import from one another.
GROUPS = (("examples", "python", "studies", "tools"), ("service",), ("web",))


def is_python(path: pathlib.Path) -> bool:
    if path.suffix:
        return path.suffix == ".py"
    with open(path, "rb") as opened:
        return opened.readline().startswith(b"#!/usr/bin/python3")


def files_of(folders: tuple[str, ...]) -> list[pathlib.Path]:
    found = [it for each in folders for it in sorted((TOP / each).rglob("*"))]
    return [it for it in found if it.is_file() and "build" not in it.parts and is_python(it)]


class Style(unittest.TestCase):
    """All Python that the one configuration at the top holds."""

    @functools.cached_property
    def files(self) -> list[pathlib.Path]:
        return [it for group in GROUPS for it in files_of(group)]

    def judged(self, linter: str, files: list[pathlib.Path], *words: str) -> None:
        if not importlib.util.find_spec(linter):
            self.skipTest(f"{linter} is missing; tools/setup installs it")
        command = [PYTHON, "-m", linter, *words, *map(str, files)]
        ran = subprocess.run(command, cwd=TOP, capture_output=True, text=True)
        self.assertEqual(ran.returncode, 0, ran.stdout + ran.stderr)

    def test_types(self) -> None:
        for group in GROUPS:
            with tempfile.TemporaryDirectory() as kept:
                words = "--cache-dir", kept, "--scripts-are-modules"
                self.judged("mypy", files_of(group), *words)

    def test_format(self) -> None:
        self.judged("black", self.files, "--quiet", "--check", "--config", "pyproject.toml")

    def test_lint(self) -> None:
        self.judged("flake8", self.files)

    def test_executables_are_thin(self) -> None:
        for file in self.files:
            if not file.suffix:
                self.assertLess(len(file.read_text().splitlines()), 10, file)

    def test_no_file_is_long(self) -> None:
        for file in self.files:
            self.assertLessEqual(len(file.read_text().splitlines()), 800, file)

    def test_one_configuration(self) -> None:
        """The one at the top holds for all folders, and knows all three linters that it may."""
        top = tomllib.loads((TOP / "pyproject.toml").read_text())["tool"]
        self.assertEqual([top[it]["line-length"] for it in ("ruff", "black")], [100, 100])
        self.assertTrue(top["mypy"]["strict"])
        for group in GROUPS:
            for file in (it for each in group for it in (TOP / each).rglob("pyproject.toml")):
                own = tomllib.loads(file.read_text()).get("tool", {})
                self.assertFalse(set(own) & set(top), file)
            for each in group:
                self.assertEqual(list((TOP / each).rglob("mypy.ini")), [])
