#!/usr/bin/env python3
"""Whether the words by which tools/check judges sums are those of `silc eval`, on the examples and on random sources.

usage: tests/check_warnings.py

Of each output that depends on no past of itself it compares the words at random inputs, half of them at the ends of
their ranges. It runs the built `silc`, or the one that `SILC` names.
"""
import random
import subprocess
import sys
import tempfile
from pathlib import Path

from silc.checking.elements import INPUT, Elements
from silc.explaining.command import DEPTH
from silc.explaining.grammar import Node, Type
from silc.explaining.program import Source
from silc.explaining.text import Text
from silc.fuzzing.sources import Program
from silc.programs import SILC

ROOT = Path(__file__).resolve().parent.parent
SOURCES, ROWS, MOST_AGE, STEPS = 60, 12, 300, 3_000_000
SECONDS = 60


def rows_of(data: bytes, rows: list[list[int]]) -> list[list[int]]:
    """The rows that `silc eval` has for a source."""
    with tempfile.TemporaryDirectory(prefix="silc-warnings-") as folder:
        Path(folder, "source").write_bytes(data)
        Path(folder, "rows").write_text("".join(",".join(map(str, row)) + "\n" for row in rows))
        done = subprocess.run([SILC.found(), "eval", "source", "rows", "/dev/stdout"], cwd=folder,
                              stdin=subprocess.DEVNULL, capture_output=True, text=True, timeout=SECONDS)
    return [[int(word) for word in row.split(",")] for row in done.stdout.splitlines()]


def random_word(rng: random.Random, of: Type) -> int:
    least, greatest = (0, 1) if of.width is None else (-(1 << (of.width - 1)), (1 << (of.width - 1)) - 1)
    return rng.choice((least, greatest, rng.randint(least, greatest), rng.randint(least, greatest)))


def compared(data: bytes, rng: random.Random) -> tuple[int, int]:
    """How many words of a source were compared, and how many of them differ."""
    elements = Elements(Source(Text("source", data)), STEPS)
    inputs = [number for number, element in enumerate(elements.elements) if element.kind == INPUT]
    scope, cones = elements.main, {}
    for column, number in enumerate(elements.results):
        name, place = next((name, number - span[0]) for name, span in scope.signals.items() if number in span)
        dims = elements.source.decl(scope.func, name).dims
        places = [place] if len(dims) == 1 else [place // dims[1], place % dims[1]] if dims else []
        read = Node("read", 0, 0, 0, name, subs=[Node("whole", 0, 0, 0, value=one) for one in places])
        cone = elements.cone(read, scope)
        if cone and max(age for _, ages in cone for age in ages) <= MOST_AGE:
            cones[column] = cone
    length = ROWS + max((age for cone in cones.values() for _, ages in cone for age in ages), default=0)
    rows = [[random_word(rng, elements.elements[number].type) for number in inputs] for _ in range(length)]
    expected = rows_of(data, rows) if cones else []
    found = differ = 0
    for column, cone in cones.items():
        for last in range(length - ROWS, length):
            words = {(number, age): rows[last - age][at] for at, number in enumerate(inputs) for age in range(last + 1)}
            found += 1
            differ += elements.run(cone, words)[elements.results[column], 0].word != expected[last][column]
    return found, differ


def main() -> int:
    sys.setrecursionlimit(DEPTH)
    sources = {path.name: path.read_bytes() for path in sorted(ROOT.glob("examples/*/*.sil"))}
    sources |= {f"random {seed}": Program(random.Random(seed)).source().text.encode() for seed in range(SOURCES)}
    words = faults = 0
    for name, data in sources.items():
        found, differ = compared(data, random.Random(name))
        words, faults = words + found, faults + differ
        if differ:
            print(f"warnings: {name}: {differ} of {found} words differ")
    print(f"warnings: {words} words of {len(sources)} sources, {faults} faults")
    return 1 if faults or not words else 0


if __name__ == "__main__":
    sys.exit(main())
