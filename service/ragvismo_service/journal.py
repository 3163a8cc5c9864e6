"""Writes the messages and answers of an exchange to files, checked by the chain of sums.

    service/journal FOLDER [--at PLACE] [--size BYTES]
    service/journal FOLDER --verify

A call writes what was answered since the last one as segments, each of one day (UTC, by the ids)
and of --size bytes (67108864, if not given) and one entry at most. NNNNNN.messages has a line for
each entry, ID,SESSION,NUMBER,BODY, the ID beginning with its time in milliseconds; for one that is
no message ID!REASON,SHA256. NNNNNN.replies has what the program answered, as `audit` judges it, so
    sed -n 's/^[0-9-]*,//p' FOLDER/[0-9]*.messages | exchange serve members
writes the bytes of all of them (LC_ALL=C; the answer to an entry that is no message follows from
its line). FOLDER/segments has a line for each segment, with the sums of its files, the head of the
chain, and the sum of the line before. What is not told there does not count and is written anew.
The files follow from the log alone: calls at the same moments write the same bytes on any machine.

--verify tells whether a segment is missing or changed, by the sums and by the chain, and the last
head. Keep that elsewhere or sign it, since nothing else tells that all were made anew.

It ends with 0, or with one line on standard error and status
"""

from __future__ import annotations

import pathlib

from ragvismo_service import files
from ragvismo_service.chain import FIRST_HEAD, Answered
from ragvismo_service.history import History
from ragvismo_service.messages import time_of
from ragvismo_service.places import Keys
from ragvismo_service.segments import DAY, OpenSegment, Segment, chain_through, list_of, segments
from ragvismo_service.statuses import BadUse, Status, table
from ragvismo_service.store import Store
from ragvismo_service.streams import counts
from ragvismo_service.words import Words, status_of, store_of

SIZE = 64 * 1024 * 1024
STATUSES = (
    Status.BAD_USE,
    Status.NO_REDIS,
    Status.LOST,
    Status.CUT,
    Status.FORGED,
    Status.CHANGED,
    Status.HELD,
    Status.FILE_FAULT,
)


class Journal:
    """A folder that is being added to."""

    def __init__(self, folder: pathlib.Path, size: int) -> None:
        self.folder, self.size, self.last = folder, size, Segment()
        self.open: OpenSegment | None = None
        self.day = 0
        files.mend(list_of(folder))
        for self.last in segments(folder):
            pass

    def take(self, answered: Answered) -> None:
        day = time_of(answered.entry.id) // DAY
        if self.open and (self.day != day or self.open.size() >= self.size):
            self.close()
        if not self.open:
            self.open, self.day = OpenSegment(self.folder, self.last, answered), day
        self.open.take(answered)

    def close(self) -> None:
        if self.open:
            self.last, self.open = self.open.close(), None


def write_new(folder: pathlib.Path, store: Store, size: int) -> Segment:
    """Writes the segments of all that was answered since the last of them, and not what is answered
    meanwhile, which may never end; tells the last one. Who calls it has the lock on the folder."""
    journal, (_, told) = Journal(folder, size), counts(store, Keys.of(store.place.name))
    since, head = journal.last.last.encode(), journal.last.head.encode()
    history = History(store, since, head, told.last)
    history.begin()
    for page in history.pages():
        for answered in page:
            journal.take(answered)
    journal.close()
    return journal.last


def verify(folder: pathlib.Path) -> str:
    """How many segments stand as their lines tell; Ended where one does not."""
    if not folder.is_dir():
        raise BadUse(f"there is no folder {folder}")
    number, head = 0, FIRST_HEAD
    for segment in segments(folder):
        number, head = segment.number, chain_through(segment, folder, head)
    return f"{number} segments stand: {head.decode()}"


def size(text: str) -> int:
    """A number of bytes; raises BadUse."""
    if not text.isdecimal() or not int(text):
        raise BadUse(f"{text} is no number of bytes above 0")
    return int(text)


def run() -> None:
    words = Words(f"{__doc__}{table(*STATUSES)}")
    words.add_argument("folder", metavar="FOLDER", type=pathlib.Path)
    words.add_argument("--size", type=size, default=SIZE, metavar="BYTES")
    words.add_argument("--verify", action="store_true")
    given = words.parse_args()
    if given.verify:
        print(verify(given.folder))
    else:
        with files.lock(given.folder):
            write_new(given.folder, store_of(given), given.size)


def main() -> int:
    return status_of(run)
