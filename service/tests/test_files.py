"""What is told of stands on the disk, with the names in its folders."""

from __future__ import annotations

import os
import pathlib
import stat
import tempfile
import threading
import unittest
from unittest import mock

from ragvismo_service import files
from ragvismo_service.chain import FIRST_HEAD, Answered, head_after
from ragvismo_service.journal import Journal, verify
from ragvismo_service.messages import Entry
from ragvismo_service.statuses import Ended, Status

# A file that is on the disk, by its name, or the names that the disk knows of a folder.
Synced = str | set[str]


class Folders(unittest.TestCase):
    def setUp(self) -> None:
        held = tempfile.TemporaryDirectory(prefix="ragvismo-service-")
        self.addCleanup(held.cleanup)
        self.folder = pathlib.Path(held.name)
        self.synced = list[tuple[pathlib.Path, Synced]]()
        sync = os.fsync

        def recorded(file: int) -> None:
            """Syncs, and keeps what the disk knows then."""
            sync(file)
            path = pathlib.Path(os.readlink(f"/proc/self/fd/{file}"))
            if stat.S_ISDIR(os.fstat(file).st_mode):
                self.synced.append((path, set(os.listdir(path))))
            else:
                self.synced.append((path.parent, path.name))

        patched = mock.patch("os.fsync", recorded)
        patched.start()
        self.addCleanup(patched.stop)

    def told(self) -> list[tuple[str, Synced]]:
        """What was synced since the last call, by the names of the folders."""
        told = [(folder.name, synced) for folder, synced in self.synced]
        self.synced.clear()
        return told

    def test_segments(self) -> None:
        """Files before their folder, that before the line which has them count, and its folder
        then."""
        journal, head = Journal(self.folder, 1), FIRST_HEAD
        self.assertEqual(self.told(), [])
        names = set[str]()
        for number in (1, 2):
            entry = Entry(b"%d-0" % number, b"7,%d,open,%d" % (number, number), None)
            head = head_after(head, entry.line(), b"{}")
            journal.take(Answered(entry, b"{}", head))
            journal.close()
            written = f"{number:06}.messages", f"{number:06}.replies"
            names |= {*written}
            own, listed = self.folder.name, names | {"segments"}
            told = [*((own, it) for it in written), (own, listed if number > 1 else names)]
            self.assertEqual(self.told(), [*told, (own, "segments"), (own, listed)])
        self.assertEqual(verify(self.folder), f"2 segments stand: {head.decode()}")

    def test_a_file_that_is_written_anew(self) -> None:
        """The text is on the disk before it takes the place of the old one."""
        path = self.folder / "kept"
        for text in (b"old\n", b"new\n"):
            files.write(path, text)
            own = self.folder.name
            self.assertEqual(self.told(), [(own, "kept.new"), (own, {"kept"})])
            self.assertEqual(path.read_bytes(), text)

    def test_folders_in_folders(self) -> None:
        """Each that is made is known to the one that it stands in."""
        files.make(self.folder / "one" / "two")
        self.assertCountEqual(self.told(), [("one", {"two"}), (self.folder.name, {"one"})])
        files.make(self.folder / "one" / "two")
        self.assertEqual(self.told(), [])

    def test_a_lock_that_is_waited_for(self) -> None:
        """As long as patience lasts."""
        held = files.lock(self.folder)
        with self.assertRaises(Ended) as told:
            files.lock(self.folder)
        self.assertEqual(told.exception.status, Status.HELD)
        threading.Timer(0.2, held.close).start()
        files.lock(self.folder, 120).close()

    def test_a_line_that_was_cut(self) -> None:
        path = self.folder / "lines"
        path.write_bytes(b"whole\ncu")
        files.mend(path)
        self.assertEqual(
            (path.read_bytes(), self.told()), (b"whole\n", [(path.parent.name, "lines")])
        )
