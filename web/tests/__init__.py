"""What the tests stand on."""

from __future__ import annotations

import importlib.util
import pathlib
import shutil
import unittest
from collections.abc import Callable
from typing import TypeVar

WEB = pathlib.Path(__file__).resolve().parents[1]
TOP = WEB.parent
Tested = TypeVar("Tested", bound=Callable[..., object])


class Together(unittest.TestCase):
    """Tests that share what their class sets up, and so run one after another."""


def missing(*programs: str, modules: tuple[str, ...] = ()) -> list[str]:
    """Which of these are missing."""
    unfound = [name for name in programs if not shutil.which(name)]
    return unfound + [name for name in modules if not importlib.util.find_spec(name)]


def wants(*programs: str, modules: tuple[str, ...] = ()) -> Callable[[Tested], Tested]:
    """Skips a test, or a class of them, where one of these is missing."""
    unfound = missing(*programs, modules=modules)
    told = f"{' and '.join(unfound)} is missing; tools/setup installs it"
    return unittest.skipIf(unfound, told)
