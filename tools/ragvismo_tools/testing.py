"""Tests the tools beside the program, the package in python/ and the studies, on all processors.

    tools/test [NAME..]

NAME is a class of tests, or CLASS.TEST; all are run where none is given, and the status is 1 where
one fails. What needs a package that is missing is skipped, and said so; tools/setup installs the
packages. `check-many` is tested with a stand-in for the program, and with the program too where
./build has made it; so are the examples. The tests of the package and of the studies take the
program that RAGVISMO_EXCHANGE names, or else that one.
"""

from __future__ import annotations

import concurrent.futures
import contextlib
import importlib
import io
import os
import subprocess
import sys
import tempfile
import time
import unittest
from collections.abc import Iterator

from ragvismo_tools.ending import BadUse, ended
from ragvismo_tools.places import TOP

# Folders whose modules test_*.py are the tests, and what stands before their names.
FOLDERS = {"python": "", "studies": "", "tools/ragvismo_tools/tests": "ragvismo_tools.tests."}
# Their tests take long and are begun first, so that no processor waits for them at the end.
LONG = ("Style", "Studies", "Machines", "CheckMany", "Package")


def modules() -> Iterator[str]:
    """The names of all modules of tests."""
    for folder, package in FOLDERS.items():
        if not package and str(TOP / folder) not in sys.path:
            sys.path.append(str(TOP / folder))
        yield from (package + it.stem for it in sorted((TOP / folder).glob("test_*.py")))


def tests_in(suite: unittest.TestSuite) -> Iterator[unittest.TestCase]:
    """The tests of a suite, one by one."""
    for each in suite:
        if isinstance(each, unittest.TestSuite):
            yield from tests_in(each)
        else:
            yield each


def found() -> Iterator[tuple[str, str]]:
    """Each test, as CLASS.TEST and by the whole name that loads it."""
    for name in modules():
        suite = unittest.defaultTestLoader.loadTestsFromModule(importlib.import_module(name))
        for test in tests_in(suite):
            if test.id().startswith(f"{name}."):
                yield test.id().removeprefix(f"{name}."), test.id()


def class_of(test: str) -> str:
    return test.partition(".")[0]


def chosen(names: list[str]) -> list[str]:
    """The tests of these names, or all of them."""
    tests = list(found())
    for name in names:
        if not any(name in (short, class_of(short)) for short, _ in tests):
            raise BadUse(f"no test is named {name}")
    taken = [it for it in tests if not names or it[0] in names or class_of(it[0]) in names]
    return [whole for short, whole in sorted(taken, key=lambda it: class_of(it[0]) not in LONG)]


def ran(name: str) -> tuple[str, list[str]]:
    """One test by its name: what was said of faults, and why it was skipped, if it was."""
    list(modules())
    told = io.StringIO()
    test = unittest.defaultTestLoader.loadTestsFromName(name)
    result = unittest.TextTestRunner(told, verbosity=0).run(test)
    faults = "" if result.wasSuccessful() else told.getvalue()
    return faults, [reason for _, reason in result.skipped]


@contextlib.contextmanager
def fonts_found() -> Iterator[None]:
    """With the fonts that matplotlib finds kept in a folder of this run: tests that had to find
    them side by side would wait 5 seconds for one another, and then fail."""
    with tempfile.TemporaryDirectory() as folder:
        os.environ["MPLCONFIGDIR"] = folder
        find = [sys.executable, "-c", "import matplotlib.font_manager"]
        subprocess.run(find, capture_output=True)
        yield


def main() -> int:
    if sys.argv[1:] == ["--help"]:
        print(__doc__)
        return 0
    start, names = time.time(), chosen(sys.argv[1:])
    faults = 0
    skipped: dict[str, int] = {}
    processors = len(os.sched_getaffinity(0))
    with fonts_found(), concurrent.futures.ProcessPoolExecutor(processors) as pool:
        for said, reasons in pool.map(ran, names):
            print(said, end="", file=sys.stderr, flush=True)
            faults += bool(said)
            skipped |= {reason: skipped.get(reason, 0) + 1 for reason in reasons}
    for reason, count in skipped.items():
        print(f"{count} skipped: {reason}", file=sys.stderr)
    told = f"{len(names) - faults} passed, {faults} failed, {time.time() - start:.0f} s"
    print(told, file=sys.stderr)
    return 1 if faults else 0


def run() -> int:
    return ended(main)
