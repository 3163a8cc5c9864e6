"""What was answered: the entries of a log beside their answers, the chain of sums checked."""

from __future__ import annotations

from collections.abc import Iterator

from ragvismo_service.chain import FIRST_HEAD, Answered, head_after
from ragvismo_service.columns import heads_of
from ragvismo_service.messages import GREATEST_ID, START_ID, Entry, RawEntry, Told
from ragvismo_service.places import Keys
from ragvismo_service.statuses import Ended, Status
from ragvismo_service.store import Store
from ragvismo_service.streams import Pages, counts


class History:
    """Reads what was answered after an id, under which a head of the chain stands, to another
    one."""

    def __init__(
        self,
        store: Store,
        since: bytes = START_ID,
        head: bytes = FIRST_HEAD,
        until: bytes = GREATEST_ID,
    ) -> None:
        self.store, self.since, self.head, self.count = store, since, head, 0
        self.keys = keys = Keys.of(store.place.name)
        # The answers are read first: their entries are there then.
        self.streams = Pages(store, keys.answers, since, until), Pages(
            store, keys.taken, since, until
        )
        # What was read and is not paired yet, and how often the connection had been lost then.
        self.told: list[RawEntry] = []
        self.entries: list[RawEntry] = []
        self.losses = store.losses
        # From where the answers were read that are looked at.
        self.before = since, head

    def begin(self) -> None:
        """Ended where entries or answers were taken out, or the answer to begin after is not
        there."""
        counts(self.store, self.keys)
        self._stands(self.since, self.head)

    def _stands(self, since: bytes, head: bytes) -> None:
        """Ended where the answer under an id is not there, or has another sum beside it."""
        if since == START_ID:
            return
        place, found = self.store.place, self.store.say(b"XRANGE", self.keys.answers, since, since)
        if not found:
            said = f"{place} has no answer under {since.decode()}"
            raise Ended(Status.LOST, f"{said}: it is another exchange, or lost its end")
        if Told.of(found[0]).head != head:
            said = f"{place} has another sum under {since.decode()}"
            raise Ended(Status.CHANGED, f"{said}: it is another exchange, or was changed")

    def pages(self) -> Iterator[list[Answered]]:
        """What was answered, page by page, to the last answer that there is; Ended where the chain
        does not hold."""
        while self._read_on():
            yield self._answered(*self._taken())

    def heads(self) -> Iterator[list[bytes]]:
        """The heads beside the answers, page by page, likewise; it takes half the time."""
        while self._read_on():
            entries, told = self._taken()
            heads = heads_of(self.head, entries, told) or [
                it.head for it in self._answered(entries, told)
            ]
            self.head = heads[-1]
            yield heads

    def _read_on(self) -> bool:
        """Reads from the streams of which nothing is left, and says whether there are more
        answers."""
        empty = [
            stream for stream, left in zip(self.streams, (self.told, self.entries)) if not left
        ]
        pages = self.store.ask(lambda: [stream.command() for stream in empty])
        if self.losses != self.store.losses:
            return self._read_again()
        for stream, page in zip(empty, pages):
            stream.take(page)
            if stream.key == self.keys.taken:
                self.entries = page
            else:
                self.told = page
        if self.told and not self.entries:
            id = Told.of(self.told[0]).id.decode()
            raise Ended(Status.FORGED, f"NO ENTRY has the id {id}, under which an answer stands")
        return bool(self.told)

    def _read_again(self) -> bool:
        """Reads what is not paired yet once more: another Redis may have taken the place of one
        that alone had an entry, which was not answered."""
        self.losses, self.told, self.entries = self.store.losses, [], []
        for stream in self.streams:
            stream.since = self.since
        return self._read_on()

    def _taken(self) -> tuple[list[RawEntry], list[RawEntry]]:
        """Takes as many of the entries and the answers that were read as there are of both."""
        self.before, many = (self.since, self.head), min(len(self.entries), len(self.told))
        taken = self.entries[:many], self.told[:many]
        del self.entries[:many], self.told[:many]
        self.since, self.count = taken[1][-1][0], self.count + many
        return taken

    def _answered(self, entries: list[RawEntry], told: list[RawEntry]) -> list[Answered]:
        return [
            self._next(Entry.of(entry), Told.of(answer)) for entry, answer in zip(entries, told)
        ]

    def _next(self, entry: Entry, told: Told) -> Answered:
        """The next entry with its answer; the head follows from both, or it is Ended: the log lost
        what was read before, or was changed."""
        if entry.id != told.id:
            self._stands(*self.before)
            said = f"AN ANSWER STANDS under {told.id.decode()}"
            raise Ended(Status.FORGED, f"{said}, and the next entry is {entry.id.decode()}")
        self.head = head_after(self.head, entry.line(), told.answer)
        if self.head != told.head:
            self._stands(*self.before)
            raise Ended(
                Status.CHANGED,
                f"THE LOG WAS CHANGED at {told.id.decode()}, or the sum beside its answer",
            )
        return Answered(entry, told.answer, self.head)
