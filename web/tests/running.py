"""Tests the recheck and the page, on all processors: web/test [NAME..]

NAME is that of a module of web/tests, or of a class or a test in it (test_page.Page). The recheck
is tried by node, and the page in a browser without a window; what is missing is skipped, with a
line (tools/setup installs it). Pictures of the page are left in web/shots, which git does not
track. The recheck is held against tools/plain-check, and against the program that RAGVISMO_EXCHANGE
names, or else the one that ./build makes, where it is there.
"""
from __future__ import annotations

import argparse
import concurrent.futures
import io
import pathlib
import sys
import time
import unittest
from collections.abc import Iterator

from tests import Together

HERE = pathlib.Path(__file__).resolve().parent


def units_in(suite: unittest.TestSuite) -> Iterator[str]:
    """The names of what runs by itself: a test, or a class whose tests stand together."""
    for each in suite:
        if isinstance(each, unittest.TestSuite):
            yield from units_in(each)
        elif isinstance(each, Together):
            yield each.id().rpartition(".")[0]
        else:
            yield each.id()


def ran(name: str) -> tuple[int, int, list[str], str]:
    """How many tests ran and failed, why some were skipped, and what is said of faults."""
    told = io.StringIO()
    test = unittest.defaultTestLoader.loadTestsFromName(name)
    result = unittest.TextTestRunner(told, verbosity=0).run(test)
    reasons = [reason for _, reason in result.skipped]
    faults = result.failures + result.errors
    failed = len({getattr(test, "test_case", test).id() for test, _ in faults})
    return result.testsRun - len(reasons), failed, reasons, told.getvalue() if failed else ""


def main() -> int:
    words = argparse.ArgumentParser(
        description=__doc__, formatter_class=argparse.RawDescriptionHelpFormatter
    )
    words.add_argument("names", nargs="*", metavar="NAME")
    given = words.parse_args()
    start = time.time()
    names = given.names or sorted(path.stem for path in HERE.glob("test_*.py"))
    suite = unittest.defaultTestLoader.loadTestsFromNames([f"tests.{name}" for name in names])
    tried, failed, skipped = 0, 0, set[str]()
    with concurrent.futures.ProcessPoolExecutor() as pool:
        for count, faults, reasons, said in pool.map(ran, dict.fromkeys(units_in(suite))):
            tried, failed, skipped = tried + count, failed + faults, skipped | set(reasons)
            print(said, end="", file=sys.stderr, flush=True)
    for reason in sorted(skipped):
        print(f"web/test: skipped: {reason}", file=sys.stderr)
    told = f"{tried - failed} passed, {failed} failed, {time.time() - start:.0f} s"
    print(f"web/test: {told}", file=sys.stderr)
    return 1 if failed else 0
