#!/usr/bin/env python3
"""Whether microcode with one field changed passes `silc_same` though it puts other rows.

usage: tests/same/check_fields.py [--changes N] [--all N] [--rows N] [--jobs N] [--seed WORD] [--judges-all]

The microcode that `silc compile` makes of each example on each of its datapaths is changed in one field, N times each,
4 where no number is given; with --all N there are N changes in all, as many of each. A field is a number of a unit, a
word that a register or cell starts with, an operation, its format, argument or registers, the unit or the bus of a
drive, a number of a take, or a whole issue, drive or take that is left out, moved to another word or added. One that
`silc_same` shows to run the source has to put the rows of `silc eval`, without a conflict, on zeros, impulses, steps
and random words, N rows of each, 160 where no number is given. The same seed makes the same changes. It says how far
it is.

The last lines say how many changes are refused, with --judges-all of how many of these the rows differ too, and how
many pass; and 'N passed, M failed', of the examples, of which 25 changes count as one. Where `silc` or `silc_same` is
not built, it is skipped with 77.
"""
import argparse
import copy
import os
import subprocess
import sys
import tempfile
import time
from argparse import Namespace
from collections import Counter
from collections.abc import Callable, Iterator
from concurrent.futures import ProcessPoolExecutor
from dataclasses import replace
from pathlib import Path
from random import Random
from typing import NamedTuple

from silc.excitations import Excitation, excitations, text_of
from silc.micro_file import bytes_of, image_of
from silc.micro_file.image import Format, Image, Issue, Take, Unit, Word
from silc.programs import SAME, SILC, in_checkout, is_program

CHANGES, A_PART, ROWS, SEEDS, SKIPPED, SECONDS_BETWEEN = 4, 25, 160, 2, 77, 5
# A changed size or count may leave a file that is too short, too long, or none at a later field.
NO_MICROCODE = tuple(f"silc_same: changed: {fault} at " for fault in ("bad field", "short", "trailing bytes"))
CONFLICT = 12
# How many changes end in which way.
Told = Counter[str]


class Wrong(Exception):
    """What is otherwise than it has to be."""


class Pair(NamedTuple):
    """An example on one of its datapaths, and which of its changes are meant."""
    source: Path
    datapath: Path
    part: int = 0
    changes: int = 0

    def name(self) -> str:
        return f"{self.source.stem} on {self.datapath.stem}"


def other(rng: Random, number: int, most: int) -> int:
    """Another number from 0 to the most, most often one beside it."""
    near = [near for near in (number - 1, number + 1) if 0 <= near <= most]
    return rng.choice(near) if near and rng.random() < 0.5 else rng.randint(0, most)


def other_word(rng: Random, word: int) -> int:
    return word ^ (1 << rng.randrange(16)) if rng.random() < 0.5 else rng.randint(-(1 << 15), (1 << 15) - 1)


def picked(rng: Random, image: Image, holds: Callable[[Word], object] = lambda word: True) -> Word:
    """A word of the image of which something holds, in a copy that is changed in its place."""
    at = rng.choice([number for number, word in enumerate(image.words) if holds(word)])
    image.words[at] = copy.deepcopy(image.words[at])
    return image.words[at]


def change_unit(rng: Random, image: Image) -> None:
    """A number of a unit, or a word that it starts with."""
    unit: Unit = rng.choice(image.units)
    stores = [file for file in [*unit.files, unit.cells] if file]
    what = rng.randrange(4)
    if what == 0:
        unit.latency = 1 + other(rng, unit.latency - 1, 7)
    elif what == 1:
        unit.gap = 1 + other(rng, unit.gap - 1, 7)
    elif stores:
        store = rng.choice(stores)
        at = rng.randrange(len(store))
        store[at] = other_word(rng, store[at])


def change_format(rng: Random, was: Format) -> Format:
    what = rng.randrange(3)
    if what == 0:
        return was._replace(shift=was.shift + rng.choice([-1, 1]))
    if what == 1:
        return was._replace(mode=rng.choice(["trunc", "round", "sat", "round,sat"]))
    return was._replace(width=was.width + rng.choice([-1, 1]))


OPERATIONS = {"alu": ["add", "sub", "neg", "pass", "lt", "le", "eq", "ne", "and", "or", "not"],
              "ram": ["load", "store"]}


def change_issue(rng: Random, image: Image, word: Word) -> None:
    """A field of an issue, or the unit or word that it stands in."""
    if not word.issues:
        return
    unit, was = rng.choice(sorted(word.issues.items()))
    operation, fmt, argument, registers = was.operation, was.format, was.argument, list(was.registers)
    what = rng.randrange(6)
    if what == 0:
        operation = rng.choice(OPERATIONS.get(image.units[unit].kind, [operation]))
    elif what == 1 and fmt is not None:
        fmt = change_format(rng, fmt)
    elif what == 2:
        argument = other_word(rng, argument) if operation == "const" else max(0, argument + rng.choice([-1, 1]))
    elif what == 3 and registers:
        port = rng.randrange(len(registers))
        registers[port] = other(rng, registers[port], len(image.units[unit].files[port]) - 1)
    del word.issues[unit]
    if what == 4:
        unit = rng.choice([number for number, of in enumerate(image.units) if of.kind == image.units[unit].kind])
    if what == 5:
        word = picked(rng, image)
        if rng.random() < 0.3:
            return
    word.issues[unit] = Issue(unit, operation, fmt, argument, tuple(registers))


def change_drive(rng: Random, image: Image, word: Word) -> None:
    """The unit or the bus of a drive, or whether it is there."""
    unit, bus = rng.choice(word.enables) if word.enables else (0, 0)
    if word.enables and rng.random() < 0.8:
        word.enables.remove((unit, bus))
    what = rng.randrange(4)
    if what == 0:
        unit = other(rng, unit, len(image.units) - 1)
    elif what == 1:
        bus = other(rng, bus, image.buses - 1)
    elif what == 2:
        word = picked(rng, image)
    else:
        return
    word.enables = sorted({*word.enables, (unit, bus)})


def change_take(rng: Random, image: Image, word: Word) -> None:
    """A number of a take, or whether it is there."""
    if not word.takes:
        return
    was = rng.choice(word.takes)
    if rng.random() < 0.9:
        word.takes.remove(was)
    ports = [(unit, port) for unit, of in enumerate(image.units) for port in range(len(of.files))]
    what = rng.randrange(5)
    if what == 0:
        was = was._replace(register=other(rng, was.register, len(image.units[was.unit].files[was.port]) - 1))
    elif what == 1:
        was = was._replace(bus=other(rng, was.bus, image.buses - 1))
    elif what == 2:
        unit, port = rng.choice(ports)
        was = Take(unit, port, was.bus, min(was.register, len(image.units[unit].files[port]) - 1))
    elif what == 3:
        word = picked(rng, image)
    else:
        return
    word.takes = sorted({*word.takes, was})


def change(rng: Random, image: Image) -> None:
    word = picked(rng, image, lambda word: word.issues or word.takes)
    what: list[Callable[[], None]] = [lambda: change_issue(rng, image, word), lambda: change_drive(rng, image, word),
                                      lambda: change_take(rng, image, word), lambda: change_unit(rng, image)]
    rng.choices(what, [4, 2, 3, 1])[0]()


def changed(rng: Random, image: Image, data: bytes) -> bytes:
    """The microcode with a field changed, which may be one that no file has."""
    while True:
        copied = replace(image, units=copy.deepcopy(image.units), words=list(image.words))
        change(rng, copied)
        try:
            found = bytes_of(copied, 2)
        except (ValueError, KeyError, IndexError, OverflowError):
            continue
        if found != data:
            return found


def ended(folder: Path, *words: object) -> tuple[int, str]:
    done = subprocess.run([*map(str, words)], cwd=folder, stdin=subprocess.DEVNULL, capture_output=True, text=True)
    return done.returncode, done.stderr


def rows_of(folder: Path, command: str, file: object, stream: Excitation) -> tuple[int, str]:
    """How a command ends on rows, and the rows that it puts."""
    (folder / "samples").write_bytes(text_of(stream.rows))
    status, said = ended(folder, SILC.found(), command, file, "samples", "rows")
    if status not in (0, CONFLICT):
        raise Wrong(f"`silc {command}` ends with {status}: {said}")
    return status, (folder / "rows").read_text()


def differing(folder: Path, streams: list[tuple[Excitation, str]]) -> str | None:
    """The stream on which the changed microcode puts other rows than the source or meets a conflict, if there is
    one."""
    for stream, wanted in streams:
        status, rows = rows_of(folder, "sim", "changed", stream)
        if status or rows != wanted:
            return stream.name
    return None


def judge(folder: Path, source: Path, streams: list[tuple[Excitation, str]], told: Told, judges_all: bool) -> None:
    """One changed file."""
    status, line = ended(folder, SAME.found(), source, "changed")
    if status == 0:
        told["pass"] += 1
        where = differing(folder, streams)
        if where:
            raise Wrong(f"it passes, and puts other rows at {where}")
        return
    if line.startswith(NO_MICROCODE):
        return
    if not line.startswith("silc_same: changed: not shown: "):
        raise Wrong(f"silc_same says {line!r}")
    told["refused"] += 1
    if judges_all and differing(folder, streams):
        told["differ"] += 1


def check_pair(pair: Pair, options: Namespace) -> tuple[Told, str | None]:
    """The changes of one example on one datapath, and what is wrong, where something is."""
    told, rng = Told(), Random(f"{options.seed} {pair.name()} {pair.part}")
    with tempfile.TemporaryDirectory(prefix="silc-fields-") as made:
        folder = Path(made)
        status, line = ended(folder, SILC.found(), "compile", pair.source, pair.datapath, "whole")
        if status:
            return told, f"it is not compiled: {line}"
        data = (folder / "whole").read_bytes()
        image = image_of(data)
        try:
            streams = [(stream, rows_of(folder, "eval", pair.source, stream)[1])
                       for stream in excitations(image.inputs, options.rows, SEEDS)]
            while told["pass"] + told["refused"] < pair.changes:
                (folder / "changed").write_bytes(changed(rng, image, data))
                judge(folder, pair.source, streams, told, options.judges_all)
        except Wrong as why:
            return told, f"part {pair.part}, change {told['pass'] + told['refused']}: {why}"
    return told, None


def pairs() -> list[Pair]:
    """The examples of one program, each with each of its datapaths."""
    found = [Pair(datapath.with_name(f"{datapath.parent.name}.sil"), datapath)
             for datapath in sorted(Path(in_checkout("examples")).glob("*/*.toml"))]
    return [pair for pair in found if pair.source.is_file()]


def checked(options: Namespace) -> Iterator[tuple[Pair, Told, str | None]]:
    """The changes of each pair, some at a time, as they are done."""
    found = pairs()
    changes = -(-options.all // len(found)) if options.all else options.changes
    parts = [pair._replace(part=part, changes=min(A_PART, changes - first))
             for part, first in enumerate(range(0, changes, A_PART)) for pair in found]
    with ProcessPoolExecutor(options.jobs) as pool:
        doing = [pool.submit(check_pair, part, options) for part in parts]
        for part, done in zip(parts, doing):
            yield part, *done.result()


def counts(told: Told, options: Namespace) -> str:
    """How many changes ended in which way."""
    differ = f", of which {told['differ']} put other rows," if options.judges_all else ""
    return f"of {told['refused'] + told['pass']} files with one field changed {told['refused']} are refused{differ} " \
        f"and {told['pass']} put the same rows"


def options_of(words: list[str]) -> Namespace:
    parser = argparse.ArgumentParser(prog="check_fields", description=__doc__,
                                     formatter_class=argparse.RawDescriptionHelpFormatter)
    parser.add_argument("--changes", type=int, default=CHANGES)
    parser.add_argument("--all", type=int)
    parser.add_argument("--rows", type=int, default=ROWS)
    parser.add_argument("--jobs", type=int, default=os.cpu_count())
    parser.add_argument("--seed", default="fields")
    parser.add_argument("--judges-all", action="store_true", help="runs what is refused too")
    return parser.parse_args(words)


def main(words: list[str]) -> int:
    options = options_of(words)
    for program in (SILC, SAME):
        if not is_program(program.place()):
            print(f"check_fields: skipped: there is no program {program.place()}; `tools/build {program.crate}` "
                  "builds it")
            return SKIPPED
    told, passed, failed, last = Told(), 0, 0, time.monotonic()
    for pair, found, wrong in checked(options):
        told += found
        if wrong:
            failed += 1
            print(f"{pair.name()}: {wrong}", flush=True)
        else:
            passed += 1
        if time.monotonic() - last > SECONDS_BETWEEN:
            last = time.monotonic()
            print(f"check_fields: {counts(told, options)}, so far", file=sys.stderr, flush=True)
    print(counts(told, options))
    print(f"{passed} passed, {failed} failed")
    return 1 if failed or not passed else 0


if __name__ == "__main__":
    sys.exit(main(sys.argv[1:]))
