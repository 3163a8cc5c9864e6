"""Tests the package as it is handed on: version, wheel, what is cited."""

from __future__ import annotations

import importlib.util
import pathlib
import re
import shutil
import subprocess
import sys
import tempfile
import unittest

sys.path.append(str(pathlib.Path(__file__).resolve().parent))
import ragvismo
from test_ragvismo import PYTHON, TOP, wants


class Package(unittest.TestCase):
    def test_one_version(self) -> None:
        """That of the program, which CHANGELOG.md names first."""
        found = re.search(r"^## (\d\S*)", (TOP / "CHANGELOG.md").read_text(), re.M)
        assert found
        self.assertEqual(ragvismo.__version__, found[1])
        told = subprocess.run([TOP / "exchange", "--version"], capture_output=True, text=True)
        self.assertIn(f"exchange {ragvismo.__version__}\n", told.stdout)
        self.assertIn(f"\nversion: {found[1]}\n", (TOP / "CITATION.cff").read_text())

    def test_what_is_exported_is_there(self) -> None:
        self.assertEqual(len(ragvismo.__all__), len(set(ragvismo.__all__)))
        for name in ragvismo.__all__:
            self.assertTrue(hasattr(ragvismo, name), name)

    @wants("setuptools")
    @wants("wheel")
    def test_a_wheel_is_built_and_installed_without_a_network(self) -> None:
        if not importlib.util.find_spec("pip"):
            self.skipTest("python3-pip is missing")
        pip = [PYTHON, "-m", "pip", "--quiet", "--disable-pip-version-check"]
        alone = ["--no-index", "--no-deps"]
        with tempfile.TemporaryDirectory() as given:
            folder = pathlib.Path(given)
            left_out = shutil.ignore_patterns("build", "*.egg-info", "__pycache__")
            shutil.copytree(TOP / "python", folder / "source/python", ignore=left_out)
            shutil.copy(TOP / "CHANGELOG.md", folder / "source")
            build = [*pip, "wheel", *alone, "--no-build-isolation", "-w", given, "source/python"]
            ran = subprocess.run(build, cwd=folder, capture_output=True, text=True)
            self.assertEqual(ran.returncode, 0, ran.stderr)
            [wheel] = folder.glob("*.whl")
            self.assertEqual(wheel.name, f"ragvismo-{ragvismo.__version__}-py3-none-any.whl")
            install = [*pip, "install", *alone, "--target", f"{given}/site", str(wheel)]
            ran = subprocess.run(install, capture_output=True, text=True)
            self.assertEqual(ran.returncode, 0, ran.stderr)
            self.assertTrue((folder / "site/ragvismo/py.typed").is_file())
            (folder / "CHANGELOG.md").write_text("## 99.9\n")  # of whoever installs it there
            said = (
                "import ragvismo; print(ragvismo.__version__, ragvismo.call(5), ragvismo.__file__)"
            )
            ran = subprocess.run(
                [PYTHON, "-c", said],
                cwd=folder,
                env={"PYTHONPATH": str(folder / "site")},
                capture_output=True,
                text=True,
            )
            self.assertEqual(ran.returncode, 0, ran.stderr)
            self.assertTrue(ran.stdout.startswith(f"{ragvismo.__version__} call 5 {folder}/site"))


if __name__ == "__main__":
    unittest.main()
