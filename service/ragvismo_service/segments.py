"""The files of a journal: segments of messages and replies, and the list of them."""

from __future__ import annotations

import hashlib
import json
import pathlib
from collections.abc import Iterator
from typing import BinaryIO, NamedTuple

from ragvismo_service import files
from ragvismo_service.chain import FIRST_HEAD, Answered, head_after
from ragvismo_service.messages import START_ID, Fault, malformed
from ragvismo_service.statuses import Ended, Status

DAY = 24 * 60 * 60 * 1000
FAULTS = {fault.encode(): fault for fault in Fault}


class Segment(NamedTuple):
    """What the line of a segment tells: its ids, how many entries it has, the sums of its files,
    the head of the chain after its last answer, and the sum of the line before."""

    number: int = 0
    first: str = ""
    last: str = START_ID.decode()
    entries: int = 0
    messages: str = ""
    replies: str = ""
    head: str = FIRST_HEAD.decode()
    before: str = ""

    def text(self) -> bytes:
        return json.dumps(self._asdict(), separators=(",", ":")).encode() + b"\n"

    def follows(self, last: Segment) -> bool:
        return (self.number, self.before) == (last.number + 1, sum_of(last.text()))

    def paths(self, folder: pathlib.Path) -> tuple[pathlib.Path, pathlib.Path]:
        """The files of the messages and of the replies."""
        return folder / f"{self.number:06}.messages", folder / f"{self.number:06}.replies"


def sum_of(data: bytes) -> str:
    return hashlib.sha256(data).hexdigest()


def list_of(folder: pathlib.Path) -> pathlib.Path:
    """The file with a line for each segment."""
    return folder / "segments"


def segments(folder: pathlib.Path) -> Iterator[Segment]:
    """The segments of a folder; each has to follow the one before, or it is Ended."""
    last, path = Segment(), list_of(folder)
    # What is behind the last line feed was written in part, and does not count.
    for text in path.read_bytes().split(b"\n")[:-1] if path.exists() else []:
        try:
            segment = Segment(**json.loads(text))
            stands = segment.text() == text + b"\n" and segment.follows(last)
        except (ValueError, TypeError):
            stands = False
        if not stands:
            raise Ended(
                Status.CHANGED, f"{path}: after segment {last.number} comes no line of the next one"
            )
        yield segment
        last = segment


class SummedFile:
    """A new file, and the sum of what was written to it."""

    def __init__(self, path: pathlib.Path) -> None:
        self.file: BinaryIO = open(path, "wb")
        self.sum, self.size = hashlib.sha256(), 0

    def add(self, line: bytes) -> None:
        self.file.write(line)
        self.sum.update(line)
        self.size += len(line)

    def close(self) -> str:
        files.close(self.file)
        return self.sum.hexdigest()


class OpenSegment:
    """A segment that is being written; it counts when its line stands in the list."""

    def __init__(self, folder: pathlib.Path, last: Segment, first: Answered) -> None:
        self.folder, self.entries = folder, 0
        id = first.entry.id.decode()
        self.segment = Segment(last.number + 1, id, id, before=sum_of(last.text()))
        self.messages, self.replies = map(SummedFile, self.segment.paths(folder))

    def size(self) -> int:
        return self.messages.size + self.replies.size

    def take(self, answered: Answered) -> None:
        """Takes an entry and its answer; that to one that is no message follows from it and is not
        kept."""
        self.messages.add(answered.entry.line() + b"\n")
        if answered.entry.fault is None:
            self.replies.add(answered.answer + b"\n")
        self.entries, self.last = self.entries + 1, answered

    def close(self) -> Segment:
        messages, replies = self.messages.close(), self.replies.close()
        files.sync(self.folder)
        last, head = self.last.entry.id.decode(), self.last.head.decode()
        segment = self.segment._replace(
            last=last, entries=self.entries, messages=messages, replies=replies, head=head
        )
        files.append(list_of(self.folder), segment.text())
        return segment


def chain_through(segment: Segment, folder: pathlib.Path, head: bytes) -> bytes:
    """The head of the chain after the files of a segment; Ended where they are not those that its
    line tells."""
    sums, (messages, replies) = (hashlib.sha256(), hashlib.sha256()), segment.paths(folder)
    for path in (messages, replies):
        if not path.exists():
            raise Ended(Status.CUT, f"{path} is missing")
    with open(messages, "rb") as entries, open(replies, "rb") as answers:
        for line in entries:
            sums[0].update(line)
            answer = answer_to_none(line)
            if answer is None:
                answer = answers.readline()
                sums[1].update(answer)
            head = head_after(head, line.removesuffix(b"\n"), answer.removesuffix(b"\n"))
        sums[1].update(answers.read())
    for path, total, told in zip((messages, replies), sums, (segment.messages, segment.replies)):
        if total.hexdigest() != told:
            raise Ended(Status.CHANGED, f"{path} was changed")
    if head.decode() != segment.head:
        raise Ended(
            Status.CHANGED,
            f"the chain of sums does not hold in segment {segment.number} of {folder}",
        )
    return head


def answer_to_none(line: bytes) -> bytes | None:
    """The answer to the line of an entry that is no message; None where it is the line of one."""
    id, mark, rest = line.partition(b"!")
    fault = FAULTS.get(rest.partition(b",")[0])
    return malformed(id, fault) if mark and fault and b"," not in id else None
