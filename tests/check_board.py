#!/usr/bin/env python3
"""Whether docs/BOARD.md says what happens: its files are made and its commands run, one after another, in one shell.

usage: tests/check_board.py            ends with 1 where an output is another, and prints what differs
       tests/check_board.py --write    writes what the commands print into the page

It runs the built `silc`, or the one that `SILC` names. Without a program that the page needs it is skipped, and ends
with 77.
"""
import os
import shutil
import sys
import tempfile
from pathlib import Path

import check_tutorial
from check_tutorial import BLOCK, BUILT, CONSOLE, ROOT, commands_in, faults_of, page_with, run

from silc.hardware.routing import PACKAGES
from silc.made_files import put_whole

SILC = Path(os.environ.get("SILC", BUILT)).resolve()
PAGE = ROOT / "docs" / "BOARD.md"
# The page takes a minute on a machine of its own; what hangs is stopped.
SECONDS, SKIPPED = 3000, 77
# How a tool ends its line where something is not installed, as icetime's files of parts.
INSTALLS = "; apt-get install "


def main(words: list[str]) -> int:
    if words not in ([], ["--write"]):
        print(__doc__, file=sys.stderr)
        return 2
    lacking = next((program for program in PACKAGES if not shutil.which(program)), None)
    if lacking:
        print(f"board: skipped: there is no {lacking}; apt-get install {PACKAGES[lacking]}")
        return SKIPPED
    text = PAGE.read_text()
    blocks = [found.groups() for found in BLOCK.finditer(text)]
    shown = [command for language, _, part in blocks if language == CONSOLE for command in commands_in(part)]
    check_tutorial.SECONDS = SECONDS
    with tempfile.TemporaryDirectory(prefix="silc-board-page-") as folder:
        outputs, _ = run(blocks, Path(folder).resolve(), SILC)
    lacks = next((line for output in outputs for line in output.splitlines() if INSTALLS in line), None)
    if lacks:
        print(f"board: skipped: {lacks.partition(': ')[2]}")
        return SKIPPED
    if words and len(outputs) == len(shown):
        put_whole(PAGE, page_with(text, outputs))
        return 0
    faults = list(faults_of(PAGE, shown, outputs, {}))
    for fault in faults:
        print(fault)
    print(f"board: {len(outputs)} of {len(shown)} commands, {len(faults)} faults")
    return 1 if faults else 0


if __name__ == "__main__":
    sys.exit(main(sys.argv[1:]))
