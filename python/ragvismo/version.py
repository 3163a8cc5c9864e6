"""The version: that of the program, which CHANGELOG.md names first."""

from __future__ import annotations

import pathlib
import re
from importlib import metadata

FOLDER = pathlib.Path(__file__).resolve().parents[1]
CHANGES = FOLDER.parent / "CHANGELOG.md"


def version() -> str:
    """In a checkout, whose folder python says how the package is built, the first version of
    CHANGELOG.md, else that of the installed package."""
    is_checkout = (FOLDER / "pyproject.toml").is_file() and CHANGES.is_file()
    if is_checkout and (found := re.search(r"^## (\d[\d.]*)", CHANGES.read_text(), re.M)):
        return found[1]
    return metadata.version("ragvismo")


__version__ = version()
