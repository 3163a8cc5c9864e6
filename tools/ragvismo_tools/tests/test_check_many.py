"""Checks of long journals by pieces."""

from __future__ import annotations

import pathlib
from collections.abc import Iterable, Sequence
import os
import subprocess

from ragvismo_tools.places import PROGRAM, TOP
from ragvismo_tools.tests.common import JOURNALS, Folder, run, wants


# Its check finds a fault in each line that is not between braces; it reads all, as the program
# does.
STAND_IN = r"""#!/bin/sh
exec awk '
fault == 0 && !/^[{].*[}]$/ { fault = NR }
/"reply":"cleared"/ { batches++ }
/"mark":"optimal"/ { optimal++ }
END {
    if (fault) { printf "{\"line\":%d,\"reason\":\"NotJson\",\"verdict\":\"no\"}\n", fault; exit 6 }
    printf "{\"batches\":%d,\"lines\":%d,", batches, NR
    printf "\"optimal\":%d,\"verdict\":\"yes\"}\n", optimal
}'
"""


# It runs the command here, whatever the host.
NO_SSH = '#!/bin/sh\nshift\n[ "$1" = -- ] && shift\nexec sh -c "$*"\n'


@wants("parallel")
class CheckMany(Folder):
    def setUp(self) -> None:
        super().setUp()
        self.programs = [self.script("stand-in", STAND_IN)]
        knows = os.access(PROGRAM, os.X_OK) and subprocess.run(
            [PROGRAM, "check"], input=b"", capture_output=True
        )
        if knows and knows.returncode == 0:
            self.programs.append(PROGRAM)

    def journal(self, name: str, lines: Iterable[str], faults: Sequence[int] = ()) -> pathlib.Path:
        lines = list(lines)
        for fault in faults:
            lines[fault - 1] = "fault"
        path = self.folder / name
        path.write_text("".join(f"{line}\n" for line in lines))
        return path

    def agrees(self, journal: pathlib.Path, *words: object) -> None:
        """The report is that of check, byte for byte, and so are the status and the line on
        standard error, also in a locale that is not there."""
        elsewhere = {**os.environ, "HOME": str(self.folder), "LC_ALL": "none"}
        for program in self.programs:
            with open(journal) as given:
                whole = subprocess.run([program, "check"], stdin=given, capture_output=True)
            asked = "--program", program, "--jobs", 4, *words
            many = run("check-many", journal, *asked, env=elsewhere)
            self.assertEqual(
                (many.stdout, many.returncode), (whole.stdout, whole.returncode), many.stderr
            )
            self.assertEqual(many.stderr, b"check failed\n" if whole.returncode else b"")

    def test_a_long_journal_with_faults(self) -> None:
        demo = (TOP / "examples/demo.replies").read_text().splitlines()
        lines = (demo * (200_000 // len(demo) + 1))[:200_000]
        for faults in ((), (3,), (199_998,), (3, 199_998), (100_000, 100_001)):
            self.agrees(self.journal("long", lines, faults), "--piece", 4_000_000)

    def test_small_pieces_and_hosts(self) -> None:
        lines = (TOP / "examples/demo.replies").read_text().splitlines()
        ssh = self.script("ssh", NO_SSH)
        for faults in ((), (1,), (145,)):
            journal = self.journal("short", lines, faults)
            self.agrees(journal, "--piece", 2000)
            self.agrees(journal, "--piece", 2000, "--sshlogin", f"{ssh} one,{ssh} two")

    def test_odd_journals(self) -> None:
        for name, text in (
            ("empty", ""),
            ("no line feed", "{}"),
            ("line feeds", "\n\n\n"),
            ("last lacks it", "{}\n{}\nx"),
        ):
            path = self.folder / name
            path.write_text(text)
            self.agrees(path)
            with open(path) as given:
                piped = run("check-many", "-", "--program", self.programs[0], stdin=given)
            self.assertEqual(
                piped.stdout, run("check-many", path, "--program", self.programs[0]).stdout
            )

    def test_a_piece_that_is_not_checked(self) -> None:
        program = self.script("wanting", "#!/bin/sh\necho 'out of memory' >&2\nexit 70\n")
        ran = run("check-many", JOURNALS[0], "--program", program)
        self.assertEqual((ran.returncode, ran.stdout), (70, b""))

    def test_bad_input(self) -> None:
        program = self.programs[0]
        for words in (
            (),
            ("none",),
            (self.folder,),
            (JOURNALS[0], "--jobs", 0),
            (JOURNALS[0], "--piece", 2**28),
            (JOURNALS[0], "--program", "none"),
        ):
            self.refused(
                run(
                    "check-many",
                    *words,
                    *(() if "--program" in words else ("--program", program)),
                    cwd=self.folder,
                )
            )
