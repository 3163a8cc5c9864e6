"""The chain of sums over a page of a log, column by column: no object is made of an entry."""

from __future__ import annotations

import hashlib

from ragvismo_service.messages import FIELDS, LONGEST_LINE, TOLD, RawEntry

SUMMED = b"%b\n%b,%b,%b,%b\n%b\n"


def is_plain(names: list[set[bytes]], words: tuple[bytes, ...], text: bytes) -> bool:
    """Whether there are just the fields of messages and answers, no word has a comma or begins with
    a `?`, nothing has a line feed, and no line can be too long."""
    wanted = [{name} for name in (*FIELDS, *TOLD)]
    return (
        names == wanted
        and b"," not in b"".join(words)
        and b",?" not in b",".join((b"", *words))
        and b"\n" not in text
        and len(text) < LONGEST_LINE
    )


def heads_of(head: bytes, entries: list[RawEntry], answers: list[RawEntry]) -> list[bytes] | None:
    """The heads beside the answers to as many entries, where each follows from the one before; None
    where one does not, or an entry is no message, so that the page has to be looked at one by
    one."""
    try:
        ids, fields = zip(*entries)
        answered, told = zip(*answers)
        session, sessions, number, numbers, body, bodies = zip(*fields, strict=True)
        answer, texts, chain, heads = zip(*told, strict=True)
    except ValueError:
        return None
    names = [set(column) for column in (session, number, body, answer, chain)]
    words = (*sessions, *numbers)
    if ids != answered or not is_plain(names, words, b"".join((*words, *bodies, *texts))):
        return None
    summed = map(SUMMED.__mod__, zip((head, *heads), ids, sessions, numbers, bodies, texts))
    sums = "".join([it.hexdigest() for it in map(hashlib.sha256, summed)])
    return list(heads) if sums.encode() == b"".join(heads) else None
