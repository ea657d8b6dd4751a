"""Prints the words of the inner elements of a source over samples.

usage: tools/values [--json] [--library FOLDER ..] SRC SAMPLES [NAME ..]

A row for each sample, behind a row of the names. NAME is an element, or an array of which all are meant; `*` in it
stands for anything, as in 'w[*]'. Without one it prints all. With --json it is a line, `{"NAME": [word, ..], ..}`. It
runs the `silc_show` that is built, or the one that `SILC_SHOW` names; the words are those of its `values`.

A source that begins with `use` or `let` is linked first, as tools/link does it, with blocks of each FOLDER before those
of library/. Its elements have the names of the linked source, and faults are told at the places of its own file or of a
block's.
"""
from __future__ import annotations

import argparse
import json
import sys
from pathlib import Path

from silc.commands import add_library, ended
from silc.designing.programs import rows_of
from silc.programs import NoProgram
from silc.refused import ROWS, Refused
from silc.source import Source


def options_of(words: list[str]) -> argparse.Namespace:
    parser = argparse.ArgumentParser(prog="values", usage=(__doc__ or "").partition("usage: ")[2].partition("\n")[0],
                                     description=__doc__, formatter_class=argparse.RawDescriptionHelpFormatter)
    parser.add_argument("source", metavar="SRC")
    parser.add_argument("samples", metavar="SAMPLES")
    parser.add_argument("names", metavar="NAME", nargs="*")
    parser.add_argument("--json", action="store_true")
    add_library(parser)
    return parser.parse_args(words)


def found(options: argparse.Namespace) -> dict[str, list[int]]:
    """The words of the elements that are meant, by their names."""
    source = Source(options.source, library=options.library)
    try:
        rows = rows_of(Path(options.samples).read_text())
        columns = len(source.inputs)
        if any(len(row) != columns for row in rows):
            raise ValueError(f"there are rows that do not have {columns} words")
    except ValueError as why:
        raise ValueError(f"{options.samples}: {why}") from why
    return source.values([row[0] for row in rows] if columns == 1 else rows, options.names or "*")


def put(options: argparse.Namespace) -> int | None:
    try:
        elements = found(options)
    except Refused as why:
        said = str(why).replace(f"{ROWS}:", f"{options.samples}:", 1) if why.file == ROWS else str(why)
        print(f"values: {said}", file=sys.stderr)
        return why.status
    except KeyError as why:
        raise ValueError(f"{options.source}: {why.args[0]}") from why
    if options.json:
        print(json.dumps(elements))
    else:
        print(",".join(elements))
        sys.stdout.write("".join(",".join(map(str, row)) + "\n" for row in zip(*elements.values())))
    return None


def main(words: list[str]) -> int:
    options = options_of(words)
    return ended("values", lambda: put(options), NoProgram, ValueError)
