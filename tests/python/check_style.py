#!/usr/bin/env python3
"""Whether the repository's Python is written by the rules of its linters: pyflakes, and pycodestyle with a width of
120.

usage: tests/python/check_style.py

A line for each place that breaks a rule. The width is looked at here. Of pycodestyle's rules those are left out that
say otherwise than the code does on purpose: spaces around the colon of a slice, imports behind the line that makes them
possible, names of one letter that are a block's own, and on which side of a line break an operator stands. Where a
linter is not there the rest is looked at, and it ends with 77 unless something is found.
"""
import shutil
import subprocess
import sys
from collections.abc import Iterator
from pathlib import Path

from python_files import ROOT, python_files

WIDTH, SKIPPED = 120, 77
LEFT_OUT = "E203,E402,E501,E741,W503,W504"
# Each linter with its words and the package of Debian that has it; some versions bring another name.
LINTERS = {("pyflakes3", "pyflakes"): ((), "pyflakes3"),
           ("pycodestyle",): ((f"--ignore={LEFT_OUT}",), "pycodestyle")}


def wide(file: Path) -> Iterator[str]:
    for number, line in enumerate(file.read_text().splitlines(), 1):
        if len(line) > WIDTH:
            yield f"{file.relative_to(ROOT)}:{number}: {len(line)} columns"


def said_by(program: str, words: tuple[str, ...], files: list[Path]) -> list[str]:
    """The lines of a linter, with the files as they are called in the repository."""
    done = subprocess.run([program, *words, *files], capture_output=True, text=True)
    said = (done.stdout + done.stderr).splitlines()
    return [line.removeprefix(f"{ROOT}/") for line in said]


def main() -> int:
    files = python_files()
    found = [line for file in files for line in wide(file)]
    missing = []
    for names, (words, package) in LINTERS.items():
        program = next(filter(None, map(shutil.which, names)), None)
        if program:
            found += said_by(program, words, files)
        else:
            missing.append(package)
    if found:
        print("\n".join(found))
    if missing:
        print(f"check_style: skipped in part: there is no {' and no '.join(missing)} (apt-get install "
              f"{' '.join(missing)})")
    print(f"{len(files)} files, {len(found)} places")
    return 1 if found else SKIPPED if missing else 0


if __name__ == "__main__":
    sys.exit(main())
