#!/usr/bin/env python3
"""Whether docs/DESIGN.md says what happens: its files are made and its commands run, one after another, in one shell.

usage: tests/check_design.py            ends with 1 where an output or a picture is another, and prints what differs
       tests/check_design.py --write    writes what the commands print into the page, and the pictures that they draw

It runs the built programs, or those that `SILC` and `SILC_SHOW` name. Without SciPy it is skipped, and ends with 77.
"""
import os
import subprocess
import sys
import tempfile
from collections.abc import Iterator, Sequence
from pathlib import Path

import check_tutorial
from check_tutorial import BLOCK, BUILT, CONSOLE, ROOT, Command, commands_in, page_with, run

from silc.designing import scipy_designs
from silc.made_files import put_whole

SILC = Path(os.environ.get("SILC", BUILT)).resolve()
PAGE, PICTURES = ROOT / "docs" / "DESIGN.md", ROOT / "docs" / "pictures"
# What the commands draw, and under which name it is shown.
DRAWN = {"ranges.svg": "design_ranges.svg", "low_noise.svg": "design_noise.svg"}
SECONDS, SKIPPED = 600, 77


def drawn_in(folder: Path) -> dict[str, str]:
    return {shown: (folder / name).read_text() if (folder / name).is_file() else "" for name, shown in DRAWN.items()}


def picture_faults(drawn: dict[str, str]) -> Iterator[str]:
    for name, picture in drawn.items():
        if not (PICTURES / name).is_file() or (PICTURES / name).read_text() != picture:
            yield f"docs/pictures/{name} is not what the page draws; run tests/check_design.py --write"


def faults_of(shown: Sequence[Command], outputs: Sequence[str], drawn: dict[str, str]) -> Iterator[str]:
    for command, output in zip(shown, outputs):
        if command.output != output:
            yield f"docs/DESIGN.md: {command.words[0]} prints\n{output}in the place of\n{command.output}"
    if len(outputs) != len(shown):
        yield f"{len(outputs)} of {len(shown)} commands ran"
    yield from picture_faults(drawn)


def is_lacking() -> bool:
    """Whether SciPy is not there, which is said."""
    try:
        scipy_designs.designed(several=[])
    except scipy_designs.Lacking as why:
        print(f"design: {why}: the page is skipped")
        return True
    return False


def main(words: list[str]) -> int:
    if words not in ([], ["--write"]):
        print(__doc__, file=sys.stderr)
        return 2
    if is_lacking():
        return SKIPPED
    text = PAGE.read_text()
    blocks = [found.groups() for found in BLOCK.finditer(text)]
    shown = [command for language, _, part in blocks if language == CONSOLE for command in commands_in(part)]
    check_tutorial.SECONDS = SECONDS
    with tempfile.TemporaryDirectory(prefix="silc-design-page-") as folder:
        try:
            outputs, last = run(blocks, Path(folder).resolve(), SILC)
        except subprocess.TimeoutExpired:
            print(f"docs/DESIGN.md: its commands have not ended after {SECONDS} seconds")
            return 1
        drawn = drawn_in(last)
    if words and len(outputs) == len(shown):
        put_whole(PAGE, page_with(text, outputs))
        for name, picture in drawn.items():
            put_whole(PICTURES / name, picture)
        return 0
    faults = list(faults_of(shown, outputs, drawn))
    for fault in faults:
        print(fault)
    print(f"design: {len(outputs)} of {len(shown)} commands, {len(faults)} faults")
    return 1 if faults else 0


if __name__ == "__main__":
    sys.exit(main(sys.argv[1:]))
