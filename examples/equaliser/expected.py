#!/usr/bin/env python3
"""Computes the coefficients, the samples and the expected rows of this example.

usage: expected.py [--check | --ratio | --sections]     the last prints the sections as rows b0 b1 b2 a0 a1 a2
"""
import math
import sys
from collections.abc import Callable, Iterable, Iterator, Sequence
from pathlib import Path
from typing import TypeAlias, TypeVar

FOLDER = Path(__file__).resolve().parent
sys.path.insert(0, str(FOLDER.parent))
import fixed  # noqa: E402

# A word, or a number of the design.
Number = TypeVar("Number", int, float)
Numbers: TypeAlias = tuple[float, ...]
# The frequency, the gain and the quality of each band.
Bands: TypeAlias = Sequence[tuple[float, float, float]]

RATE = 48000
# In hertz and decibels.
BANDS: Bands = ((100, 6, 0.7), (1000, -4, 1.4), (8000, 3, 1.0))
COEFFICIENT, SIGNAL = (24, 22), (32, 28)


def design(bands: Bands = BANDS) -> Iterator[tuple[Numbers, Numbers]]:
    """Of each band b[0..2] and a[0..2] of a peaking equaliser, by the cookbook of Robert Bristow-Johnson."""
    for hertz, gain, quality in bands:
        root, angle = 10 ** (gain / 40), 2 * math.pi * hertz / RATE
        width = math.sin(angle) / (2 * quality)
        yield ((1 + width * root, -2 * math.cos(angle), 1 - width * root),
               (1 + width / root, -2 * math.cos(angle), 1 - width / root))


def sections(bands: Bands = BANDS) -> Iterator[tuple[Numbers, Numbers]]:
    """The same with a0 = 1, without it."""
    for b, (a0, a1, a2) in design(bands):
        yield tuple(x / a0 for x in b), (a1 / a0, a2 / a0)


def words(bands: Bands = BANDS) -> Iterator[list[list[int]]]:
    """The coefficients as raw words."""
    for parts in sections(bands):
        yield [[fixed.literal(x, *COEFFICIENT) for x in part] for part in parts]


def product(coefficient: int, word: int) -> int:
    """A product as a word of the signal."""
    return fixed.quantised(fixed.number(coefficient * word, COEFFICIENT[1] + SIGNAL[1]), *SIGNAL, fixed.ROUND)


def wrapped(total: int) -> int:
    return fixed.wrap(total, SIGNAL[0])


def section(b: Sequence[Number], a: Sequence[Number], samples: Iterable[Number],
            times: Callable[[Number, Number], Number], result: Callable[[Number], Number]) -> Iterator[Number]:
    x1 = x2 = y1 = y2 = 0
    for x in samples:
        y = result(times(b[0], x) + times(b[1], x1) + times(b[2], x2) - times(a[0], y1) - times(a[1], y2))
        x1, x2, y1, y2 = x, x1, y, y1
        yield y


def filtered(samples: Iterable[int], bands: Bands = BANDS) -> list[int]:
    made = [fixed.quantised(fixed.number(word, 15), *SIGNAL, fixed.ROUND) for word in samples]
    for b, a in words(bands):
        made = list(section(b, a, made, product, wrapped))
    return made


def real(samples: Iterable[int], bands: Bands = BANDS) -> list[float]:
    """The output of the design, in units of its last bit."""
    made = [word * 2 ** (SIGNAL[1] - 15) for word in samples]
    for b, a in sections(bands):
        made = list(section(b, a, made, lambda coefficient, x: coefficient * x, lambda total: total))
    return made


def samples() -> list[int]:
    """An impulse, tones in the three bands, and noise."""
    tone = [round(9000 * math.sin(2 * math.pi * hertz * n / RATE)) for hertz in (100, 1000, 8000) for n in range(240)]
    return [16384] + [0] * 127 + tone + fixed.noise(192, 32767, seed=3)


if __name__ == "__main__":
    if sys.argv[1:] == ["--sections"]:
        for b, a in design():
            print(*(f"{x / a[0]:.12f}" for x in (*b, *a)))
        sys.exit()
    given = samples()
    rows = filtered(given)
    fixed.main(FOLDER, [(word,) for word in given], [(word,) for word in rows], lambda: (rows, real(given)))
