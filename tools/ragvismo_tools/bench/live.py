"""The word serve: tables of tools/bench."""

from __future__ import annotations

import pathlib
from collections.abc import Callable, Sequence
import os
import subprocess
import sys
import time

from ragvismo_tools import timing
from ragvismo_tools.batches import opened
from ragvismo_tools.bench.streams import SIZES, stream_texts, with_clears
from ragvismo_tools.piping import ends_of, piped
from ragvismo_tools.timing import held, run, table


def plain_stream(lines: int) -> str:
    """A stream without clears, of three kinds of lines, as long as asked for."""
    return "open,1\n" + "deposit,1,2\nbalance,1\nwithdraw,1,1\n" * (lines // 3)


def live_streams(program: pathlib.Path, quick: bool) -> None:
    """Files through serve beside run, by turns; beyond the limit of run serve stands alone."""
    count = 10_000 if quick else 100_000
    texts = {
        "orders, deposits, balances": stream_texts(SIZES[2], "mixed", count)[1],
        "a clear after 20": with_clears(20, 2000, count),
    }
    rows = []
    for kind, text in texts.items():
        if len({run([program], [word], text, keep=True)[1] for word in ("run", "serve")}) > 1:
            sys.exit("bench: serve and run do not answer the same")
        turns = [
            run([program], [word], text)[0] for _ in range(timing.RUNS) for word in ("run", "serve")
        ]
        by_run, by_serve = min(turns[::2]), min(turns[1::2])
        lines = text.count("\n") + 1
        rows.append(
            [
                kind,
                f"{lines:,}",
                f"{lines / by_run:,.0f}",
                f"{lines / by_serve:,.0f}",
                f"{by_run / by_serve:.2f}",
            ]
        )
    for lines in (10_000, 40_000) if quick else (1_000_000, 4_000_000, 16_000_000):
        spent = min(run([program], ["serve"], plain_stream(lines))[0] for _ in range(timing.RUNS))
        rows.append(
            ["deposits, balances, withdrawals", f"{lines:,}", "", f"{lines / spent:,.0f}", ""]
        )
    table(
        "Files through serve",
        ["Lines", "Count", "Lines a second of run", "of serve", "serve over run"],
        rows,
    )


def reply_times(program: pathlib.Path, start: Sequence[str], lines: Sequence[str]) -> list[float]:
    """The sorted microseconds from giving each line to having its reply, of one client that waits
    each time."""
    times = []
    with piped([program, "serve"], bufsize=0) as child:
        given, told = ends_of(child)
        for line in [*start, *lines]:
            begun, reply = time.perf_counter_ns(), b""
            given.write(line.encode() + b"\n")
            while not reply.endswith(b"\n"):
                reply += os.read(told.fileno(), 65536)
            times.append((time.perf_counter_ns() - begun) / 1000)
        return sorted(times[len(start) :])


def live_replies(program: pathlib.Path, quick: bool) -> None:
    rows, count = [], 1_000 if quick else 20_000
    texts = {
        kind: stream_texts(SIZES[1], kind, count)
        for kind in ("balance", "deposit", "order", "syntax")
    }
    texts["orders, and a clear after 20"] = "\n".join(opened(40, 4)), with_clears(20, 2000, count)
    for kind, (start, whole) in texts.items():
        lines = start.split("\n")
        times = reply_times(program, lines, whole.split("\n")[len(lines) :])
        rows.append(
            [
                kind,
                f"{len(times):,}",
                *(f"{times[len(times) * part // 100]:.0f}" for part in (50, 99)),
            ]
        )
    table(
        "A line and its reply over a pipe (microseconds)",
        ["Lines", "Count", "Median", "99th percentile"],
        rows,
    )


def live_again(program: pathlib.Path, quick: bool) -> None:
    """Starting again: the lines of a day are given again through a pipe, and their replies are read
    and thrown away (wall clock)."""
    rows, count = [], 10_000 if quick else 500_000
    texts = {
        "without clears": plain_stream(count),
        "a clear after 20": with_clears(20, 2000, count // 5),
    }
    for kind, text in texts.items():
        spent, lines = [], text.count("\n") + 1
        for _ in range(timing.RUNS):
            start = time.perf_counter()
            subprocess.run(
                [program, "serve"], input=text.encode(), stdout=subprocess.PIPE, check=True
            )
            spent.append(time.perf_counter() - start)
        rows.append([kind, f"{lines:,}", f"{min(spent):.2f}", f"{lines / min(spent):,.0f}"])
    table("Starting again", ["Lines", "Count", "Seconds", "Lines a second"], rows)


def live_memory(program: pathlib.Path, quick: bool) -> None:
    """Bytes of each kind that is kept: what twice as many hold beyond once as many."""
    entries, sessions = 20_000 if quick else 1_000_000, 1_000 if quick else 5_000
    markets = [f"market,{it},1" for it in range(1, 65)]
    orders = [f"sell,1,{it},put,10,5,1,1" for it in range(1, 65) for _ in range(256)]
    filled = ["buy,1,1,put,10,6,1,1", "sell,2,1,put,10,5,1,1"] * 128 + ["clear,1,20000"]
    kinds: tuple[tuple[str, list[str], int, Callable[[int], str]], ...] = (
        ("an entry", ["serve"], entries, lambda many: "open,1\n" + "deposit,1,1\n" * many),
        (
            "a live order",
            ["serve"],
            len(orders) // 2,
            lambda many: "\n".join(["open,1", *markets, *orders[:many]]),
        ),
        (
            "a filled order, with its entries",
            ["serve"],
            256 * (10 if quick else 200),
            lambda many: "\n".join([*opened(2, 1), *filled * (many // 256)]),
        ),
        (
            "a session",
            ["serve", "sessions"],
            sessions,
            lambda many: "\n".join(f"{it},1,balance,0" for it in range(1, many + 1)),
        ),
    )
    rows = []
    for kind, words, many, text in kinds:
        if subprocess.run([program, *words], input=b"", capture_output=True).returncode:
            why = f"the program has no word {' '.join(words)}"
            print(f"bench: the memory of {kind} is left out: {why}", file=sys.stderr)
            continue
        once, twice = (held(program, words, text(it), ends=(0,)) for it in (many, 2 * many))
        rows.append(
            [
                kind,
                f"{many:,}",
                f"{(twice - once) * 2**20 / many:.0f}",
                f"{once:.0f}",
                f"{twice:.0f}",
            ]
        )
    table("Memory of serve", ["Of", "Count", "Bytes each", "MiB", "MiB for twice the count"], rows)


def live(program: pathlib.Path, quick: bool) -> None:
    for part in (live_streams, live_replies, live_again, live_memory):
        part(program, quick)
