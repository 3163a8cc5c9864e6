"""Whether git tracks a file: no tool writes over such a file unless it is named for that."""
import pathlib
import subprocess

from ragvismo_tools.places import TOP

# Git answers of the checkout also where it is another user's.
GIT = ("git", "-c", f"safe.directory={TOP}")


def is_tracked(path: pathlib.Path) -> bool:
    file = path.resolve()
    if not file.is_file():
        return False
    command = [*GIT, "ls-files", "--error-unmatch", file.name]
    try:
        return subprocess.run(command, cwd=file.parent, capture_output=True).returncode == 0
    except FileNotFoundError:  # where there is no git it tracks nothing
        return False
