#!/usr/bin/env python3
"""Whether filters that are scaled by l1 never wrap: on 100,000 samples of noise at full scale, and on the worst input
itself, which is made of the impulse response. And whether tools/ranges sees where one wraps that is not scaled, and
finds the same words as an evaluator in Python, also where nothing brings them to a width: on the examples and on random
programs.

usage: tests/design/check_ranges.py

It runs the built `silc` and `silc_show`, or those that `SILC` and `SILC_SHOW` name. Without SciPy the filters are
skipped, and it ends with 77 where nothing else is wrong.
"""
import itertools
import random
import re
import subprocess
import sys
import tempfile
from collections.abc import Iterator
from concurrent.futures import ProcessPoolExecutor
from pathlib import Path

import reference
from silc.designing import scipy_designs
from silc.designing.flat import flat_of
from silc.designing.programs import evaluated, rows_of, text_of, valued
from silc.designing.sources import widened
from silc.designing.unbounded import Passed, Run, own_run, unbounded_run
from silc.fuzzing import samples, sources

ROOT = Path(__file__).resolve().parent.parent.parent
TOOLS = ROOT / "tools"
SAMPLES, LEAST, GREATEST, SKIPPED = 100_000, -32768, 32767, 77
FILTERS = (("df1", ["butter", "6", "lowpass", "1000"]),
           ("df2t", ["cheby1", "2", "bandpass", "800", "1600", "--ripple", "1"]),
           ("lattice", ["ellip", "3", "highpass", "1200", "--ripple", "1", "--attenuation", "40"]))
SHAPES = ["--rate", "8000", "--shape", "16,13", "--input", "16,15"]
# As many random programs are looked into, with words of so many bits in turn.
PROGRAMS, WIDTHS = 24, (8, 16, 32, 40)
# All samples are compared at the output, and as many at all elements.
LOOKED_INTO, WRAP = 10_000, re.compile("wraps|saturates|follows|overflows")
# The word of a source, a wrap at its second sample, and one that follows from it at the third.
WRAPPING = """func main(x : fix<8,4>) y : fix<8,4> =
begin
  var a : fix<8,4>;
  a = x + x;
  y = a@1 >> 1;
end;
"""
WRAPPED = {"a": "wraps at sample 2, 1 in all", "y": "follows at sample 3, 1 in all", "x": ""}
SATURATED = {"a": "saturates at sample 2, 1 in all", "y": "follows at sample 3, 1 in all", "x": ""}


def said(*words: str | Path, room: Path) -> str:
    done = subprocess.run(words, cwd=room, capture_output=True, text=True, stdin=subprocess.DEVNULL)
    if done.returncode:
        sys.exit(f"{' '.join(map(str, words))}: {done.stderr.strip()}")
    return done.stdout


def noise() -> list[tuple[int, ...]]:
    dice = random.Random(1)
    return [(dice.choice((LEAST, GREATEST, dice.randint(LEAST, GREATEST))),) for _ in range(SAMPLES)]


def judged(form: str, words: list[str], rows: list[tuple[int, ...]]) -> list[str]:
    """How a filter that is scaled by l1 wraps."""
    with tempfile.TemporaryDirectory(prefix="silc-ranges-test-") as folder:
        return list(scaled_faults(Path(folder), form, words, rows))


def scaled_faults(room: Path, form: str, words: list[str], rows: list[tuple[int, ...]]) -> Iterator[str]:
    named = f"{' '.join(words)} {form}"
    source = said(TOOLS / "design", "iir", *words, *SHAPES, "--form", form, room=room)
    (room / "filter.sil").write_text(source)
    if evaluated(source, rows) != evaluated(widened(source), rows):
        yield f"{named}: on noise it is another than with words of 40 bits"
    (room / "noise.txt").write_text(text_of(rows[:LOOKED_INTO]))
    if WRAP.search(said(TOOLS / "ranges", "filter.sil", "noise.txt", room=room)):
        yield f"{named}: an element of it wraps on noise"
    table = said(TOOLS / "ranges", "--worst", "filter.sil", "--worst-input", "worst.txt", room=room)
    if "may pass" in table or "die out" in table:
        yield f"{named}: by --worst it may pass its range"
    worst = said(TOOLS / "ranges", "filter.sil", "worst.txt", room=room)
    if WRAP.search(worst):
        yield f"{named}: it wraps on the worst input"
    tightest = next(line for line in worst.splitlines()[1:] if not line.startswith("x "))
    if float(tightest.split("%")[0].split()[-1]) < 97:
        yield f"{named}: the worst input is none: {tightest}"


def seen_faults(room: Path) -> Iterator[str]:
    """What is seen of a program that wraps, and of the same that saturates."""
    (room / "samples.txt").write_text("16\n80\n-16\n0\n")
    for source, wanted in ((WRAPPING, WRAPPED), (WRAPPING.replace("a : fix<8,4>", "a : fix<8,4,sat>"), SATURATED)):
        (room / "passing.sil").write_text(source)
        lines = said(TOOLS / "ranges", "passing.sil", "samples.txt", room=room).splitlines()[1:]
        got = {line.split()[0]: line.partition("%")[2].strip() for line in lines}
        if got != wanted:
            yield f"tools/ranges says {got} in the place of {wanted}"


def value_faults() -> Iterator[str]:
    """How the words of all elements differ from those of an evaluator in Python."""
    for name in ("biquads", "lowpass16", "dtmf", "halfband"):
        folder = ROOT / "examples" / name
        source, rows = (folder / f"{name}.sil").read_text(), rows_of((folder / "samples.txt").read_text())[:80]
        program = reference.Program(source)
        wanted = [(e.instance + e.text(), words) for e, words in zip(program.elements, program.words(rows))]
        if [(e.name, e.words) for e in valued(source, rows)] != wanted:
            yield f"{name}: the words of its elements are others"


def programs() -> Iterator[tuple[str, str, list]]:
    """Sources with samples: the examples, and random ones."""
    for file in sorted((ROOT / "examples").glob("*/*.sil")):
        if file.stem == file.parent.name:
            yield file.stem, file.read_text(), rows_of(file.with_name("samples.txt").read_text())[:40]
    for seed in range(PROGRAMS):
        dice = random.Random(seed)
        made = sources.Program(dice, WIDTHS[seed % len(WIDTHS)]).source()
        yield f"random program {seed}", made.text, [tuple(row) for row in samples.rows_of(dice, made.inputs)]


def words_by(run: Run, rows: list) -> list[list[int]]:
    """The words of a run over the rows, in two blocks."""
    made = [[] for _ in run.elements]
    for block in (rows[:5], rows[5:]):
        run.over(block)
        for number, words in enumerate(made):
            words += run.block(number)
    return made


def exact_faults() -> Iterator[str]:
    """How the words of programs, and those that nothing brings to a width, differ from those of an evaluator in
    Python."""
    fit = reference.fit
    for name, source, rows in programs():
        flat, program = flat_of(source), reference.Program(source)
        if [each.name for each in flat.elements] != [each.instance + each.text() for each in program.elements]:
            yield f"{name}: its elements have other names"
        if words_by(own_run(flat.elements), rows) != program.words(rows):
            yield f"{name}: its own words are others"
        try:
            words = words_by(unbounded_run(flat.elements, frozenset()), rows)
        except Passed:
            continue
        reference.fit = lambda number, of: number
        try:
            if words != reference.Program(source).words(rows):
                yield f"{name}: its words without a width are others"
        finally:
            reference.fit = fit


def main() -> int:
    sys.setrecursionlimit(100_000)
    try:
        scipy_designs.designed(several=[])
        filters = FILTERS
    except scipy_designs.Lacking as why:
        print(f"ranges: {why}: {len(FILTERS)} filters skipped")
        filters = ()
    rows = noise()
    with tempfile.TemporaryDirectory(prefix="silc-ranges-test-") as folder:
        faults = [*seen_faults(Path(folder)), *value_faults(), *exact_faults()]
    with ProcessPoolExecutor() as pool:
        for found in pool.map(judged, *zip(*filters), itertools.repeat(rows)) if filters else ():
            faults += found
    for fault in faults:
        print(fault)
    print(f"ranges: {len(filters)} filters on {SAMPLES} samples and on their worst input, {len(faults)} faults")
    return 1 if faults else 0 if filters else SKIPPED


if __name__ == "__main__":
    sys.exit(main())
