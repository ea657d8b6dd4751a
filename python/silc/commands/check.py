"""Says what is wrong with a source as `FILE:LINE:COLUMN-END: text`, which editors turn into a mark at that place.

usage: tools/check [--all] [--warn] [--library FOLDER] FILE

It runs `silc eval` with no samples, and prints the first fault on standard output. COLUMN is that of what is wrong, END
the column after it, and the text is the first sentence of `tools/explain`. Where `silc_show` is not built and the line
of `silc` alone does not tell the place, the text is that of `silc` at columns 1-2; so is a fault without a line, at
line 1.

  --all    all faults that can be told: those too that are found where items with faults are left out, and that can't
           come from what was left out
  --warn   of a source without a fault what is doubtful, as `FILE:LINE:COLUMN-END: warning: text`: a sum that passes the
           range of a type that wraps, a number that a comparison has rounded to its other side, and what is declared
           and never read. Each is certain. Meant are a sum with a comment `/* wraps .. */` in its lines and a name that
           begins with `_`

A source that begins with `use` or `let` is linked first, as tools/link does it, with blocks of library/ and before
these of each
--library FOLDER; a block is taken by itself, with its own numbers. What is found is told in FILE, or at its place in
the block, with the line of FILE that uses it.

The exit status is 0 where the source has no fault, whatever the warnings are, 1 where it has one, and 2, with a line on
standard error, where it could not be checked. It builds nothing: it runs the programs that are built, or those that
`SILC` and `SILC_SHOW` name in the environment.
"""
import subprocess
import sys
from collections.abc import Sequence
from pathlib import Path

from silc.checking.every import every_fault
from silc.checking.findings import Finding
from silc.checking.first import Unchecked, first_fault
from silc.checking.warn import warnings_of
from silc.explaining.command import DEPTH
from silc.explaining.text import Text
from silc.linking.opening import opened, without_folders
from silc.linking.places import Unlinked

CLEAN, FAULTY, UNCHECKED = 0, 1, 2
ALL, WARN = "--all", "--warn"


class Checked:
    """A source that is looked at: its text, which may be linked, and how what is found in it is said."""

    def __init__(self, file: str, folders: Sequence[str]) -> None:
        try:
            content = Path(file).read_bytes()
        except OSError as fault:
            raise Unchecked(fault.strerror) from fault
        self.file, self.told = file, opened(file, content, folders)
        self.text = self.told.text if self.told else Text(file, content)

    def faults(self, is_all: bool) -> list[Finding]:
        try:
            if is_all:
                return every_fault(self.text)
            first = first_fault(self.text)
        except (OSError, subprocess.SubprocessError) as fault:
            raise Unchecked(str(fault)) from fault
        return [first.finding()] if first else []

    def said(self, found: Finding) -> str:
        return self.told.found(found).said() if self.told else found.said(self.file)


def checked(file: str, options: Sequence[str], folders: Sequence[str]) -> tuple[int, list[str]]:
    """The exit status, and a line for each fault or warning."""
    try:
        source = Checked(file, folders)
    except Unlinked as fault:
        from silc.linking.told import found_unlinked
        return FAULTY, [found_unlinked(fault).said()]
    faults = source.faults(ALL in options)
    found = faults or (warnings_of(source.text) if WARN in options else [])
    return FAULTY if faults else CLEAN, [source.said(one) for one in found]


def main(words: list[str]) -> int:
    words, folders = without_folders(words)
    options, files = [word for word in words if word.startswith("-")], [word for word in words
                                                                        if not word.startswith("-")]
    if len(files) != 1 or set(options) - {ALL, WARN}:
        print(__doc__, file=sys.stderr)
        return UNCHECKED
    sys.setrecursionlimit(DEPTH)
    try:
        status, lines = checked(files[0], options, folders)
    except Unchecked as why:
        print(f"check: {files[0]}: {why}", file=sys.stderr)
        return UNCHECKED
    for line in lines:
        print(line)
    return status
