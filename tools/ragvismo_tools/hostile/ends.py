"""Pipes, disks and memory that end too early: trials of tools/hostile."""

from __future__ import annotations

import pathlib
from typing import IO
import os
import random
import tempfile
import threading

from ragvismo_tools.piping import ends_of, piped
from ragvismo_tools.hostile.trial import expect, run, settled


def pieces(program: pathlib.Path, quick: bool) -> tuple[int, str]:
    text, whole = settled(program)
    sizes = range(1, 9 if quick else 65)
    for size in sizes:
        child = piped([program, "run"], bufsize=0)
        given, told = ends_of(child)
        writer = threading.Thread(target=feed, args=(given, text, size))
        writer.start()
        out = b""
        while piece := os.read(told.fileno(), 1):
            out += piece
        writer.join()
        expect((child.wait(), out) == (0, whole), f"pieces of {size}: not the output")
    return len(sizes), "Done with the whole output each time"


def feed(pipe: IO[bytes], text: bytes, size: int) -> None:
    for at in range(0, len(text), size):
        pipe.write(text[at : at + size])
    pipe.close()


def closed(program: pathlib.Path, quick: bool) -> tuple[int, str]:
    """The reader takes so many bytes and goes; the pipe holds no more than the system's least."""
    text, whole = settled(program)
    many = text + b"".join(b"balance,0\n" for _ in range(20_000))
    status, longer, _ = run(program, "run", many)
    expect(status == 0, f"the longer input ended with {status}")
    counts = [*range(0, len(whole), 200 if quick else 20), 100_000, 500_000]
    for count in counts:
        child = piped([program, "run"], errors=True, bufsize=0)
        given, told = ends_of(child)
        given.write(many[: 2**16])
        writer = threading.Thread(target=feed, args=(given, many[2**16 :], 2**16))
        writer.start()
        taken = b""
        while len(taken) < count:
            taken += os.read(told.fileno(), count - len(taken))
        told.close()
        writer.join()
        assert child.stderr
        said, status = child.stderr.read(), child.wait()
        expect(
            (status, said) == (4, b"write fault\n"),
            f"closed after {count}: status {status}, {said[-200:]!r}",
        )
        expect(longer.startswith(taken), f"closed after {count}: not a front")
    return len(counts), "WriteFault each time; what was read is a front of the output"


def full(program: pathlib.Path, quick: bool) -> tuple[int, str]:
    text, whole = settled(program)
    with open("/dev/full", "wb") as device:
        status, _, said = run(program, "run", text, out=device)
    expect((status, said) == (4, b"write fault\n"), f"/dev/full: status {status}, {said[-200:]!r}")
    sizes = range(0, len(whole), 97 if quick else 1)
    for size in sizes:
        with tempfile.TemporaryFile() as file:
            status, _, said = run(program, "run", text, out=file, file_size=size)
            file.seek(0)
            written = file.read()
        expect(
            (status, said) == (4, b"write fault\n"),
            f"file of {size}: status {status}, {said[-200:]!r}",
        )
        expect(written == whole[:size], f"file of {size}: not the front of that size")
    return 1 + len(sizes), "WriteFault each time; what was written is the front that has room"


def memory(program: pathlib.Path, quick: bool) -> tuple[int, str]:
    """From too little for the process to begin to enough: out of memory with a front, or Done."""
    draw, lines = random.Random("memory"), ["open,1", "deposit,1,1000000000", "market,1,1"]
    for _ in range(40):
        for _ in range(60):
            side, kind = draw.choice(("buy", "sell")), draw.choice(("call", "put"))
            lines.append(f"{side},1,1,{kind},{draw.randint(1, 60)},{draw.randint(1, 40)},3,1")
        lines.append("clear,1,20000")
    text = "\n".join(lines).encode()
    _, whole, _ = run(program, "run", text)
    ended: dict[int, int] = {}
    before = 0
    for kib in range(1_000, 60_000, 2_000 if quick else 100):
        status, out, said = run(program, "run", text, memory=kib * 1024)
        if status in (127, -11, -9) and out == b"":
            before += 1
            continue
        expect(
            (status, said) in ((0, b""), (70, b"out of memory\n")),
            f"{kib} KiB: status {status}, {said[-200:]!r}",
        )
        expect(out == whole if status == 0 else whole.startswith(out), f"{kib} KiB: not a front")
        ended[status] = ended.get(status, 0) + 1
    told = f"{ended.get(70, 0)} out of memory with a front of the output, {ended.get(0, 0)} Done"
    return (
        sum(ended.values()),
        f"{told} (with {before} smaller limits the system does not start the process)",
    )
