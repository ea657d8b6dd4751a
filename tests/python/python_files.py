"""The files of Python in the repository."""
import subprocess
from collections.abc import Iterator
from pathlib import Path

ROOT = Path(__file__).resolve().parent.parent.parent
# How a script begins whose name has no ending.
SCRIPT = b"#!/usr/bin/env python3\n"
PARTS = ("python", "tools", "tests", "examples", "bench", "editor", "hardware")


def names() -> Iterator[str]:
    """The files of the parts that hold Python: those that git knows, or all that are there."""
    said = subprocess.run(["git", "-C", ROOT, "ls-files", "-z", "--", *PARTS], capture_output=True, text=True)
    if said.returncode == 0:
        yield from filter(None, said.stdout.split("\0"))
        return
    for part in PARTS:
        yield from (str(file.relative_to(ROOT)) for file in sorted((ROOT / part).glob("**/*")))


def is_python(file: Path) -> bool:
    if not file.is_file() or file.is_symlink():
        return False
    if file.suffix:
        return file.suffix == ".py"
    with file.open("rb") as start:
        return start.read(len(SCRIPT)) == SCRIPT


def python_files() -> list[Path]:
    return [file for name in names() if is_python(file := ROOT / name)]
