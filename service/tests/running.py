"""Tests the service with a real Redis on the loopback address: service/test [--long] [--rounds N]
[--program FILE] [--jobs N] [NAME..]

The short form takes about a minute; --long has 20,000 messages, 200 kills of sequencers and 20 of
Redis, and 200 rounds, or N, in each of which a part of a whole exchange is killed (test_rounds).
NAME is that of a module of service/tests, or of a class or a test in it (test_log.Log).
Skipped, with a line, where redis-server or python3-redis is missing (tools/setup installs them).
The program is the one that ./build makes; where that is missing, a stand-in whose every answer
depends on all that it was told before.
"""
from __future__ import annotations

import argparse
import concurrent.futures
import importlib.util
import io
import os
import pathlib
import shutil
import sys
import time
import unittest
from collections.abc import Iterator
from typing import NamedTuple

HERE = pathlib.Path(__file__).resolve().parent


def tests_in(suite: unittest.TestSuite) -> Iterator[unittest.TestCase]:
    """The tests of a suite, one by one."""
    for each in suite:
        if isinstance(each, unittest.TestSuite):
            yield from tests_in(each)
        else:
            yield each


class Told(NamedTuple):
    """What came of one test."""

    is_skipped: bool
    has_failed: bool
    said: str


def run(name: str) -> Told:
    """Runs one test."""
    said = io.StringIO()
    test = unittest.defaultTestLoader.loadTestsFromName(name)
    result = unittest.TextTestRunner(said, verbosity=0).run(test)
    if not result.wasSuccessful():
        return Told(False, True, said.getvalue())
    reasons = [f"service/test: {name} is skipped: {why}\n" for _, why in result.skipped]
    return Told(bool(reasons), False, "".join(reasons))


def main() -> int:
    if not importlib.util.find_spec("redis") or not shutil.which("redis-server"):
        print(
            "service/test: skipped, since redis-server or python3-redis is missing;"
            " tools/setup installs them"
        )
        return 0
    from ragvismo_service.words import PROGRAM
    from tests import standing

    words = argparse.ArgumentParser(
        description=__doc__, formatter_class=argparse.RawDescriptionHelpFormatter
    )
    words.add_argument("names", nargs="*", metavar="NAME")
    words.add_argument("--long", action="store_true")
    words.add_argument("--rounds", type=int, default=0, metavar="N")
    words.add_argument("--program", type=pathlib.Path, default=PROGRAM, metavar="FILE")
    jobs = 2 * len(os.sched_getaffinity(0))
    words.add_argument("--jobs", type=int, default=jobs, metavar="N")
    given = words.parse_args()
    standing.Given.program, standing.Given.is_long = given.program.resolve(), given.long
    standing.Given.rounds = given.rounds
    loader, start = unittest.defaultTestLoader, time.time()
    names = given.names or sorted(path.stem for path in HERE.glob("test_*.py"))
    ids = [
        test.id()
        for test in tests_in(loader.loadTestsFromNames([f"tests.{name}" for name in names]))
    ]
    told = []
    with concurrent.futures.ProcessPoolExecutor(given.jobs) as pool:
        for each in pool.map(run, ids):
            told.append(each)
            print(each.said, end="", file=sys.stderr, flush=True)
    failed, skipped = sum(it.has_failed for it in told), sum(it.is_skipped for it in told)
    counts = f"{len(ids) - failed - skipped} passed, {skipped} skipped, {failed} failed"
    stands = (
        "the program"
        if standing.knows_members(standing.Given.program)
        else "a stand-in for the program"
    )
    took = f"with {stands}, {time.time() - start:.0f} s"
    print(f"service/test: {counts}, {took}", file=sys.stderr)
    return 1 if failed else 0
