"""Says whether microcode runs a source, and of microcode that is not shown to, on which row it differs.

usage: tools/compare SRC MIC [DP] [--rows N] [--seeds N] [--samples FILE [--force]]

It asks `silc_same`, whose answer is proved: where that shows that the microcode runs the source, and with a DP that it
is for that datapath, nothing is printed and the status is 0. Where it is `not shown`, the microcode may run the source
for all that. Then `silc eval` runs the source and `silc sim` the microcode on the same rows: zeros, impulses of the
greatest and the least word at each input, the greatest and the least words, both in turn, and random words of some
seeds. What is printed is one of

    wrong: at zeros, row 3 is 4,7, and 4,6 by SRC       and the status is 1
    wrong: at zeros, conflict at cycle 12: busy 3       and the status is 1
    not shown, and no row differs on 24 streams of 1100 rows      and the status is 3

behind the line of `silc_same`. The first two are so whatever else holds; the last says nothing of other rows. Any other
fault is the line of `silc_same` alone, with status 1.

--rows N        how many rows a stream has: 1100, a few more than the longest delay of a source, if left out
--seeds N       of how many seeds there are random words: 16, if left out
--samples FILE  the rows on which they differ, where there are some
"""
import argparse
import os
import sys
import tempfile
import time
from argparse import Namespace
from pathlib import Path

from silc.commands import ended, positive
from silc.excitations import Excitation, excitations, text_of
from silc.made_files import MadeFiles, NotMade, add_force
from silc.micro_file import BadImage, image_of
from silc.programs import SAME, SILC, NoProgram
from silc.running import ran

ROWS, SEEDS, SECONDS_BETWEEN = 1100, 16, 5
WRONG, UNDECIDED = 1, 3
# The code of `silc sim` where it meets a conflict; the rows before it are written.
CONFLICT = 12
OTHER_WORDS = "not shown: the input or output words are others than those of the source"


class Failed(Exception):
    """A program does not do what it has to."""


def rows_of(words: list[str], rows: bytes) -> tuple[list[str], str | None]:
    """The rows that a command puts on these rows, and the conflict that ends them."""
    with tempfile.TemporaryDirectory(prefix="silc-compare-") as folder:
        out = Path(folder) / "rows"
        answer = ran(SILC.found(), [*words, rows, str(out)])
        if answer.status not in (0, CONFLICT):
            raise Failed(answer.said)
        put = out.read_text().splitlines()
    return put, answer.said.removeprefix("silc: ") if answer.status else None


def difference(source: str, microcode: str, stream: Excitation) -> str | None:
    """Where the rows of the microcode differ from those of the source, if they do."""
    rows = text_of(stream.rows)
    wanted, _ = rows_of(["eval", source], rows)
    put, conflict = rows_of(["sim", microcode], rows)
    for number, (has, wants) in enumerate(zip(put, wanted)):
        if has != wants:
            return f"wrong: at {stream.name}, row {number} is {has}, and {wants} by {source}"
    return f"wrong: at {stream.name}, {conflict}" if conflict else None


def first_difference(options: Namespace, widths: list[int]) -> tuple[int, str]:
    """The status, and what is said of microcode that is not shown to run the source."""
    last, count = time.monotonic(), 0
    for stream in excitations(widths, options.rows, options.seeds):
        if time.monotonic() - last > SECONDS_BETWEEN:
            last = time.monotonic()
            print(f"compare: no row differs on {count} streams so far", file=sys.stderr, flush=True)
        found = difference(options.source, options.microcode, stream)
        if found:
            if options.samples is not None:
                MadeFiles(inputs=[options.source, options.microcode, options.datapath],
                          is_forced=options.force).write(options.samples, text_of(stream.rows))
            return WRONG, found
        count += 1
    return UNDECIDED, f"not shown, and no row differs on {count} streams of {options.rows} rows"


def options_of(words: list[str]) -> Namespace:
    usage = __doc__.partition("usage: ")[2].partition("\n\n")[0]
    parser = argparse.ArgumentParser(prog="compare", usage=usage, description=__doc__,
                                     formatter_class=argparse.RawDescriptionHelpFormatter)
    parser.add_argument("source", metavar="SRC")
    parser.add_argument("microcode", metavar="MIC")
    parser.add_argument("datapath", metavar="DP", nargs="?")
    parser.add_argument("--rows", metavar="N", type=positive, default=ROWS)
    parser.add_argument("--seeds", metavar="N", type=positive, default=SEEDS)
    parser.add_argument("--samples", metavar="FILE")
    add_force(parser)
    return parser.parse_args(words)


def judge(options: Namespace) -> int:
    files = [options.source, options.microcode, *filter(None, [options.datapath])]
    answer = ran(SAME.found(), files)
    if answer.status == 0:
        return 0
    line = answer.said.removeprefix("silc_same: ")
    print(f"compare: {line}", file=sys.stderr, flush=True)
    said = line.removeprefix(f"{options.microcode}: ")
    if said == line or not said.startswith("not shown: ") or said == OTHER_WORDS:
        return WRONG
    status, found = first_difference(options, image_of(Path(options.microcode).read_bytes()).inputs)
    print(f"compare: {options.microcode}: {found}", file=sys.stderr, flush=True)
    return status


def main(words: list[str]) -> int:
    options = options_of(words)
    for file in (options.source, options.microcode):
        if not os.path.exists(file):
            print(f"compare: {file}: No such file or directory", file=sys.stderr, flush=True)
            return 1
    return ended("compare", lambda: judge(options), NoProgram, Failed, BadImage, NotMade)
