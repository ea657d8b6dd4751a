"""Says how much of its range each element of a source uses, and where it wraps or saturates.

usage: tools/ranges [--all] [--json] [--wraps NAME ..] [--library FOLDER ..] [--picture FILE] [--force] SRC SAMPLES
       tools/ranges --worst [--seconds S] [--all] [--json] [--library FOLDER ..] [--picture FILE]
       [--worst-input FILE [--element NAME]] [--force] SRC

A line for each element, the tightest first: its shape, the least and the greatest of its words and of their values, the
bits that these words need and how many are left, the share of the range, and the first sample, from 1, at which it
passed the range. The words are the exact ones of the same program in which nothing wraps or saturates, so that this is
seen: `wraps` where the word has no place in the element, `saturates` where the element then has the nearest word,
`overflows inside` where only a part of its expression did that, `follows` where only something before it did. It is
also counted how often, but where an overflow comes back by feedback. Elements that never change are left out, but with
--all.

--wraps NAME says that an element is meant to wrap, or all of an array; `*` in NAME stands for anything, as in
'osc#*.phase'. It has its wrapped word there, and what follows it is judged by that.

With --worst, the words are bounds: no input brings the program's own words further, rounding included, as long as
nothing wraps. They come from the sums of the magnitudes of all responses, each up to some sample, and a proved bound of
what comes after. In so many seconds of the processor's time, 4 where none are given, they become as tight as they can.
A line says

  may pass its range   the bound does: it is what the word would be if it did not wrap
  may saturate         the same of an element that saturates; what reads it is bounded by its range
  may overflow inside  a part of the element's expression may wrap or saturate
  follows              an element before it may wrap: the bound is that of the program without wrapping
  not linear           something before it is not linear, and was taken as any word of its range
  at least             no bound was found in the time: an input is known by which it gets as far as this

and the exit status is 3 where a line says `at least`. --worst-input writes the samples that come nearest to the bound,
for the tightest linear element or the one that is named, to such a length that what is left out is less than half of
its last bit.

With --json the table is a line of JSON (docs/PYTHON.md).

A source that begins with `use` or `let` is linked first, as tools/link does it, with blocks of each FOLDER before those
of library/. Its elements have the names of the linked source, and faults are told at the places of its own file or of a
block's.
"""
import argparse
import json

from silc.commands import add_library, measured
from silc.designing.programs import text_of
from silc.designing.ranges import Range, ranges_in, ranges_on
from silc.designing.samples import samples_in
from silc.designing.sources import words_of_main
from silc.designing.worst import SECONDS, chosen, worst_of
from silc.linking.opening import plain
from silc.made_files import MadeFiles, add_force
from silc.pictures.ranges import draw_ranges

HEAD = ("element", "shape", "words", "values", "bits", "left", "range", "")
RIGHT = (4, 5, 6)
COMES_BACK = "the program has feedback, so what is after the first overflow of all may come from it"
# The exit status where there is no bound of an element.
UNBOUNDED = 3


class Unranged(ValueError):
    """Why there is no table."""


def text_in(options: argparse.Namespace) -> tuple[str, list[str]]:
    """The text of the source, and the files of the blocks in it."""
    try:
        return plain(options.source, options.library)
    except OSError as fault:
        raise Unranged(fault.strerror) from fault


def ranges_of(source: str, rows: list[tuple[int, ...]], options: argparse.Namespace) -> tuple[list[Range], list[str]]:
    """The ranges of all elements over the rows, and what is to be said of the whole."""
    made, is_fed_back = ranges_on(source, rows, options.wraps, options.all)
    return made, [COMES_BACK] if is_fed_back else []


def bounds_of(options: argparse.Namespace, source: str, files: MadeFiles) -> tuple[list[Range], list[str], int]:
    """The bounds of all elements, and what is to be said of the whole; writes the worst input where it is asked for."""
    worst = worst_of(source, options.seconds)
    bounds, notes = worst.bounds(), []
    if options.worst_input:
        rows, note = worst.input_of(chosen(bounds, options.element))
        files.write(options.worst_input, text_of(rows))
        notes.append(note)
    return ranges_in(bounds, options.all), notes, 0 if all(bound.is_bound for bound in bounds) else UNBOUNDED


def show(ranges: list[Range], notes: list[str]) -> None:
    """The table, the tightest element first."""
    rows = [HEAD, *(each.row() for each in sorted(ranges, key=lambda each: -each.share))]
    widths = [max(len(row[column]) for row in rows) for column in range(len(HEAD))]
    for row in rows:
        cells = [cell.rjust(width) if column in RIGHT else cell.ljust(width)
                 for column, (cell, width) in enumerate(zip(row, widths))]
        print("  ".join(cells).rstrip())
    for note in notes:
        print(note)


def picture_of(ranges: list[Range]) -> str:
    return draw_ranges([(each.name, each.shape.width, each.needed, each.said)
                        for each in sorted(ranges, key=lambda each: -each.share)])


def make(options: argparse.Namespace) -> int:
    """Prints the table and makes the files; returns the exit status."""
    (source, blocks), status = text_in(options), 0
    files = MadeFiles([options.source, *blocks, options.samples], options.force)
    for name in (options.picture, options.worst_input):
        files.look_at(name)
    if options.worst:
        ranges, notes, status = bounds_of(options, source, files)
    else:
        ranges, notes = ranges_of(source, samples_in(options.samples, words_of_main(source)[0]), options)
    if not ranges:
        raise Unranged("no element changes")
    if options.json:
        print(json.dumps([each.as_json() for each in sorted(ranges, key=lambda each: -each.share)]))
    else:
        show(ranges, notes)
    if options.picture:
        files.write(options.picture, picture_of(ranges) + "\n")
    return status


def options_of(words: list[str]) -> argparse.Namespace:
    parser = argparse.ArgumentParser(prog="ranges", usage=__doc__.partition("usage: ")[2].partition("\n\n")[0],
                                     description=__doc__.partition("\n\n")[0], allow_abbrev=False)
    parser.add_argument("source", metavar="SRC")
    parser.add_argument("samples", metavar="SAMPLES", nargs="?")
    parser.add_argument("--worst", action="store_true")
    parser.add_argument("--seconds", metavar="S", type=float)
    parser.add_argument("--worst-input", metavar="FILE")
    parser.add_argument("--element", metavar="NAME")
    parser.add_argument("--picture", metavar="FILE")
    parser.add_argument("--wraps", metavar="NAME", action="append", default=[])
    parser.add_argument("--all", action="store_true")
    parser.add_argument("--json", action="store_true")
    add_library(parser)
    add_force(parser)
    options = parser.parse_args(words)
    if options.worst == bool(options.samples):
        parser.error("it takes SAMPLES, or else --worst")
    if options.worst and options.wraps:
        parser.error("--wraps goes with SAMPLES")
    if not options.worst and (options.seconds or options.worst_input):
        parser.error("--seconds and --worst-input go with --worst")
    if options.element and not options.worst_input:
        parser.error("--element goes with --worst-input")
    options.seconds = SECONDS if options.seconds is None else options.seconds
    if not options.seconds > 0:
        parser.error("--seconds is above 0")
    return options


def main(words: list[str]) -> int:
    options = options_of(words)
    return measured("ranges", lambda: make(options), options.source, [options.samples] if options.samples else [])
