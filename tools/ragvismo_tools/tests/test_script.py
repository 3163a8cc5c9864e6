"""The script at the top, the build, and what measures the gate."""

from __future__ import annotations

from ragvismo_tools.tests.common import Ran
import json
import os
import pathlib
import re
import shutil
import subprocess
import time

import ragvismo
from ragvismo_tools import wrong_bodies
from ragvismo_tools.places import PROGRAM, TOP
from ragvismo_tools.tests.common import Folder, run
from ragvismo_tools.wrong_bodies import BY_GATE, BY_HAND


# It tries a program that repeats its input, of which no more is read than is there at once: the kit
# does not wait long for the rest.
KIT = '#!/bin/sh\ndd bs=65536 count=1 2>/dev/null\necho "run=ended status=0" >&2\n'


class Gate(Folder):
    def test_the_house_is_summed(self) -> None:
        ran = run("house", "--top", 1)
        last = ran.stdout.decode().splitlines()[-1]
        sums = dict(re.findall(r"([a-z ]+) (\d+)(?:, |$)", last.removeprefix("sum: ")))
        edits = len(wrong_bodies.bodies(BY_GATE) + wrong_bodies.bodies(BY_HAND))
        self.assertEqual((ran.returncode, int(sums["wrong bodies"])), (0, edits), last)
        self.assertGreater(int(sums["proofs"]), int(sums["code"]))
        self.assertEqual(int(sums["unused"]), 0, ran.stdout.decode())
        self.refused(run("house", self.folder))

    def test_wrong_bodies_fit_their_crates(self) -> None:
        both = wrong_bodies.bodies(BY_GATE) + wrong_bodies.bodies(BY_HAND)
        for edit in both:
            self.assertEqual(list(wrong_bodies.misfits(edit)), [], edit)
        names = [f"{edit.parents[1].name}/{edit.stem}" for edit in both]
        listed = run("wrong-bodies", "--list").stdout.decode().replace(" (gate)", "").split()
        self.assertEqual((len(set(names)), sorted(listed)), (len(names), sorted(names)))
        self.refused(run("wrong-bodies", "nothing"))

    def test_a_bad_edit_has_its_status(self) -> None:
        path = {"PATH": f"{self.folder}:{os.environ['PATH']}"}
        for said, status, wanted in (("refused", 0, 0), ("BAD EDIT: why", 0, 1), ("", 3, 3)):
            self.script("rt", f"#!/bin/sh\necho '{said}'\nexit {status}\n")
            ran = run("wrong-bodies", "frac", env={**os.environ, **path})
            self.assertEqual((ran.returncode, ran.stdout), (wanted, f"{said}\n".encode()))

    def test_a_record_of_the_gate_is_told(self) -> None:
        kept = self.folder / "kept"
        ran = [
            {"crate": name, "kind": kind, "start": 60, "seconds": 90}
            for name, kind in (("a", "proof"), ("b", "edits"), ("b", "tests"))
        ]
        kept.write_text(
            json.dumps({"words": [], "status": 0, "wall": 600, "used": 300, "processes": ran})
        )
        told = run("gate-times", "--of", kept, "--top", 1).stdout.decode().splitlines()
        rows = [
            "| b | 0.0 | 1.5 | 1.5 | 0.0 | 0.0 | 3.0 |",
            "| 1 more | 1.5 | 0.0 | 0.0 | 0.0 | 0.0 | 1.5 |",
        ]
        self.assertEqual(told[2:5], [*rows, "| all 2 | 1.5 | 1.5 | 1.5 | 0.0 | 0.0 | 4.5 |"])
        sums = (
            "wall clock 10.0 minutes, 1.0 of them before the first process; 0.5 processor minutes"
            " outside of these"
        )
        self.assertEqual(told[5:], [sums])
        kept.write_text("{}")
        for words in (
            ("--of", kept),
            ("--of", kept, "--anew"),
            ("--of", "none"),
            ("--save", TOP / "README.md"),
            ("--top", 0),
        ):
            self.refused(run("gate-times", *words, cwd=self.folder))


class Script(Folder):
    """What ./exchange answers by itself, whether the program is built or not."""

    def said(self, *words: str) -> Ran:
        return subprocess.run(
            [TOP / "exchange", *words], capture_output=True, stdin=subprocess.DEVNULL
        )

    def test_help_names_every_word_and_status(self) -> None:
        ran = self.said("--help")
        text = ran.stdout.decode()
        self.assertEqual((ran.returncode, ran.stderr), (0, b""))
        for word in (
            "run",
            "check",
            "audit",
            "quotes",
            "guarded",
            "sessions",
            "serve",
            "serve sessions",
            "serve members",
            "propose",
            "demo SEED COUNT",
        ):
            self.assertRegex(text, rf"(?m)^  exchange {word}\b.*  \S")
        statuses = re.findall(r"(?m)^- (\d+), ", (TOP / "docs/OPERATING.md").read_text())
        self.assertEqual(re.findall(r"(?m)^  (\d+)  ", text), sorted([*statuses, "69"], key=int))
        documents = re.findall(r"(?m)^  (\S+\.md)\b", text)
        self.assertEqual(
            [it for it in documents if (TOP / it).is_file()],
            ["README.md", "docs/FORMATS.md", "docs/OPERATING.md", "CHANGELOG.md"],
        )

    def test_the_man_page_is_the_help(self) -> None:
        self.assertEqual(run("man").stdout, (TOP / "docs/exchange.1").read_bytes())

    def test_program_package_and_files_have_one_version(self) -> None:
        """The newest of CHANGELOG.md, whose versions have dates."""
        changes = (TOP / "CHANGELOG.md").read_text()
        newest = re.findall(r"(?m)^## (0\.\d+\.\d+) \(\d{4}-\d\d-\d\d\)$", changes)[0]
        lines = self.said("--version").stdout.decode().splitlines()
        self.assertEqual(
            [line.split()[0] for line in lines], ["exchange", "commit", "kit", "formats:"]
        )
        package = ragvismo.__version__
        citation = re.findall(r"(?m)^version: (.*)$", (TOP / "CITATION.cff").read_text())[0]
        title = r'\A\.TH EXCHANGE 1 "" "Ragvismo (.*)"\n'
        page = re.findall(title, (TOP / "docs/exchange.1").read_text())[0]
        self.assertEqual(
            (lines[0], package, citation, page), (f"exchange {newest}", newest, newest, newest)
        )

    def test_bash_completes_the_words(self) -> None:
        asked = (
            'eval "$(%s completions bash)"; COMP_WORDS=(exchange "$1"); COMP_CWORD=1; _exchange;'
            ' echo "${COMPREPLY[@]}"'
        )
        for begun, found in (("r", "run"), ("--v", "--version"), ("x", "")):
            words = ["bash", "-c", asked % (TOP / "exchange"), "", begun]
            ran = subprocess.run(words, capture_output=True, env={**os.environ, "LC_ALL": "C"})
            self.assertEqual((ran.stdout.decode().strip(), ran.stderr), (found, b""))

    def test_words_without_a_form(self) -> None:
        bad = (
            (),
            ("",),
            ("runs",),
            ("--all",),
            ("completions",),
            ("completions", "zsh"),
            ("run", "x", "y"),
            ("demo",),
            ("demo", "1"),
            ("demo", "01", "1"),
            ("demo", "1", "0"),
            ("demo", "1", "10001"),
            ("demo", "4294967296", "1"),
            ("demo", "+1", "1"),
            ("demo", "1", "1\n"),
            ("demo", "1", "1", "1"),
            ("demo", "9" * 40, "1"),
        )
        with_files = (
            ("run", "x"),
            ("check", "x"),
            ("serve", "x"),
            ("propose", "1"),
            ("run", "--help"),
        )
        usage = b"usage: exchange run, exchange check, or exchange demo SEED COUNT\n"
        for words in (*bad, *with_files):
            ran = self.said(*words)
            lines = (
                f"lines come by <, as in ./exchange {words[0]} < FILE; "
                if words in with_files
                else ""
            )
            more = f"exchange: {lines}./exchange --help tells all words\n".encode()
            self.assertEqual(
                (ran.returncode, ran.stdout, ran.stderr), (2, b"", usage + more), words
            )
            if os.access(PROGRAM, os.X_OK):
                by_program = subprocess.run(
                    [PROGRAM, *words], capture_output=True, stdin=subprocess.DEVNULL
                )
                self.assertEqual(
                    (by_program.returncode, by_program.stdout, by_program.stderr),
                    (2, b"", usage),
                    words,
                )

    def without_the_program(
        self, *words: str, stdin: int, kit: str | None = KIT
    ) -> subprocess.Popen[bytes]:
        """The script in a checkout that has no program, with a stand-in for the kit, or none."""
        (self.folder / "crates/exchange_cli").mkdir(parents=True, exist_ok=True)
        (self.folder / "bin/rt").unlink(missing_ok=True)
        (self.folder / "bin").mkdir(exist_ok=True)
        for name in ("exchange", "README.md"):
            shutil.copy(TOP / name, self.folder)
        if kit:
            self.script("bin/rt", kit)
        path = {**os.environ, "PATH": f"{self.folder / 'bin'}:/usr/bin:/bin"}
        command = [str(self.folder / "exchange"), *words]
        out = subprocess.PIPE
        return subprocess.Popen(command, env=path, stdin=stdin, stdout=out, stderr=out)

    def test_input_that_comes_late_is_not_lost(self) -> None:
        with self.without_the_program("run", stdin=subprocess.PIPE) as child:
            assert child.stdin
            child.stdin.write(b"open,1\nopen,2\n")
            child.stdin.flush()
            time.sleep(1)
            out, told = child.communicate(b"open,3\n")
        self.assertEqual((child.returncode, out), (0, b"open,1\nopen,2\nopen,3\n"), told)

    def test_what_cannot_be_answered_without_the_program(self) -> None:
        kit = re.findall(r"(?m)^kit (.+)$", self.said("--version").stdout.decode())[0]
        large = self.folder / "large"
        large.touch()
        os.truncate(large, 1 << 26)
        empty = pathlib.Path(os.devnull)
        cases: tuple[tuple[tuple[str, ...], pathlib.Path, str | None, int, str], ...] = (
            (("serve",), empty, KIT, 69, "make it by ./build"),
            (("serve", "sessions"), empty, KIT, 69, "make it by ./build"),
            (("serve", "members"), empty, KIT, 69, "make it by ./build"),
            (("propose",), empty, KIT, 69, "make it by ./build"),
            (("run",), empty, None, 69, f"rt version must print {kit}"),
            (("check",), large, KIT, 69, "64 MiB"),
            (("run",), self.folder, KIT, 3, "read fault"),
        )
        for words, given, stand_in, status, said in cases:
            stdin = os.open(given, os.O_RDONLY)
            child = self.without_the_program(*words, stdin=stdin, kit=stand_in)
            os.close(stdin)
            out, told = child.communicate()
            self.assertEqual((child.returncode, out), (status, b""), words)
            self.assertIn(said, told.decode().splitlines()[-1], words)

    def test_build_tells_each_crate(self) -> None:
        """By a stand-in for the kit, of which one run goes well and one does not."""
        kit = (
            '#!/bin/sh\n[ "$1" = all ] || exit 0\necho "== lists"\necho "== form"\necho "=='
            ' summary"\n[ -z "$FAULT" ] || { echo "form: failed (1)"; exit 1; }\n'
        )
        self.script("rt", kit)
        for fault, status in (("", 0), ("1", 1)):
            path = {**os.environ, "PATH": f"{self.folder}:{os.environ['PATH']}", "FAULT": fault}
            ran = subprocess.run([TOP / "build", "--jobs", "2"], capture_output=True, env=path)
            said = ran.stdout.decode()
            self.assertEqual(
                (ran.returncode, b"form: failed" in ran.stderr), (status, bool(fault)), ran.stderr
            )
            self.assertRegex(
                said,
                (
                    r"(?s)^build: (\d+) crates, 2 at once.*\[1/\1\] lists after .*\[2/\1\] form"
                    r" after [^[]*$"
                ),
            )
            self.assertEqual(
                "the program is crates/exchange_cli/out/exchange_cli" in said, not fault
            )

    def test_build_without_room_says_so(self) -> None:
        """And not that the program is built, though nothing of what the kit told was kept."""
        self.script("rt", '#!/bin/sh\n[ "$1" = all ] || exit 1\n')
        path = {"PATH": f"{self.folder}:{os.environ['PATH']}", "TMPDIR": str(self.folder / "none")}
        ran = subprocess.run(
            [TOP / "build", "--jobs", "1"], capture_output=True, env={**os.environ, **path}
        )
        self.assertEqual((ran.returncode, ran.stdout), (1, b""))
        self.assertIn(b"there is no room for what rt tells", ran.stderr)

    def test_build_tells_its_use(self) -> None:
        self.assertEqual(
            subprocess.run([TOP / "build", "--help"], capture_output=True).returncode, 0
        )
        for words in (("now",), ("--jobs", "0"), ("--jobs",)):
            self.refused(subprocess.run([TOP / "build", *words], capture_output=True))
