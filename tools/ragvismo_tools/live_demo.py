"""Two traders at one live exchange, each with a named pipe of its own.

    tools/live-demo [FOLDER] [--play] [--program FILE]

It makes the named pipes FOLDER/one and FOLDER/two (in a new folder where none is named), and gives
`exchange serve` each line that comes through either as soon as it comes. Each line is printed with
its trader, and below it the reply. In two other terminals `cat > FOLDER/one` and `cat > FOLDER/two`
make you the traders; when both have ended, so does the exchange. With --play two made traders type
a short session, each line after the reply to the one before: the account of the second is secured,
and an order of it is refused that it could not pay at any prices. The status is that of the
exchange, or 2 for bad use, with one line on standard error.
"""
from __future__ import annotations

import argparse
import contextlib
import os
import pathlib
import queue
import tempfile
import threading

from ragvismo_tools.ending import BadUse, ended, words_of
from ragvismo_tools.piping import ends_of, piped
from ragvismo_tools.places import PROGRAM

TRADERS = ("one", "two")
PLAY = (
    ("one", "open,1"),
    ("two", "open,2"),
    ("one", "deposit,1,100"),
    ("two", "deposit,2,10"),
    ("one", "market,1,1"),
    ("two", "secure,2"),
    ("two", "sell,2,1,put,5,2,1,1"),
    ("two", "sell,2,1,put,12,7,1,1"),
    ("two", "deposit,2,2"),
    ("two", "sell,2,1,put,12,7,1,1"),
    ("one", "quote,1,100,put,10,1"),
    ("one", "buy,1,1,put,10,7,1,1"),
    ("two", "clear,1,100"),
    ("two", "need,2"),
    ("two", "settle,1,4"),
    ("one", "balance,1"),
    ("two", "balance,2"),
)
MARK = b"\xef\xbb\xbf"


class Exchange:
    """A live exchange of which one line is asked at a time."""

    def __init__(self, program: pathlib.Path) -> None:
        self.process = piped([program.resolve(), "serve"])
        self.given, self.told = ends_of(self.process)

    def ask(self, line: bytes) -> str:
        """The reply to a line that is not empty; nothing where the exchange has gone."""
        try:
            self.given.write(line + b"\n")
            self.given.flush()
        except BrokenPipeError:
            return ""
        return self.told.readline().decode().rstrip("\n")

    def end(self) -> int:
        try:
            self.given.close()
        except BrokenPipeError:
            pass
        return self.process.wait()


def pass_on(trader: str, pipe: pathlib.Path, asked: queue.Queue[tuple[str, bytes]]) -> None:
    """Passes on what comes through a trader's pipe line by line, and an empty line at its end."""
    with open(pipe, "rb") as lines:
        for line in lines:
            text = line.removesuffix(b"\n")
            if text.removesuffix(b"\r").removeprefix(MARK):
                asked.put((trader, text))
    asked.put((trader, b""))


def played(folder: pathlib.Path, asked: threading.Semaphore) -> None:
    """Types the made session, each line after the reply to the one before."""
    pipes = {trader: open(folder / trader, "wb", buffering=0) for trader in TRADERS}
    for trader, line in PLAY:
        asked.acquire()
        pipes[trader].write(line.encode() + b"\n")
    for pipe in pipes.values():
        pipe.close()


def serve(folder: pathlib.Path, given: argparse.Namespace) -> int:
    """Serves both traders until both have gone."""
    asked: queue.Queue[tuple[str, bytes]] = queue.Queue()
    may_type = threading.Semaphore(1)
    for trader in TRADERS:
        threading.Thread(target=pass_on, args=(trader, folder / trader, asked), daemon=True).start()
    if given.play:
        threading.Thread(target=played, args=(folder, may_type), daemon=True).start()
    else:
        print(f"in two other terminals: cat > {folder}/one and cat > {folder}/two", flush=True)
    exchange, here = Exchange(given.program), set(TRADERS)
    while here:
        trader, line = asked.get()
        if not line:
            here.remove(trader)
            continue
        reply = exchange.ask(line)
        typed = line.removesuffix(b"\r").decode(errors="replace")
        print(f"{trader}> {typed}\n     {reply}", flush=True)
        if not reply:
            break
        may_type.release()
    return exchange.end()


def make_pipe(path: pathlib.Path) -> None:
    try:
        os.mkfifo(path)
    except OSError as fault:
        raise BadUse(f"no pipe can be made: {fault.strerror}: {path}") from None


def main() -> int:
    words = words_of(__doc__)
    words.add_argument(
        "folder", metavar="FOLDER", nargs="?", type=pathlib.Path, help="where the pipes are made"
    )
    words.add_argument("--play", action="store_true", help="two made traders type")
    words.add_argument("--program", type=pathlib.Path, default=PROGRAM, metavar="FILE")
    given = words.parse_args()
    if not os.access(given.program, os.X_OK):
        raise BadUse(f"there is no program {given.program}, which ./build makes")
    with tempfile.TemporaryDirectory() as made, contextlib.ExitStack() as pipes:
        folder = given.folder or pathlib.Path(made)
        for trader in TRADERS:
            make_pipe(folder / trader)
            pipes.callback((folder / trader).unlink, missing_ok=True)
        status = serve(folder, given)
    return status


def run() -> int:
    return ended(main)
