#!/usr/bin/env python3
"""Computes the coefficients, the samples and the expected rows of this example.

usage: expected.py [--check | --ratio]
"""
import math
import sys
from collections.abc import Callable, Iterable, Iterator, Sequence
from pathlib import Path
from typing import TypeAlias, TypeVar

FOLDER = Path(__file__).resolve().parent
sys.path.insert(0, str(FOLDER.parent))
import fixed  # noqa: E402

# A word, or a number of the design.
Number = TypeVar("Number", int, float)
# A section: b0, b1 and b2, and a1 and a2.
Section: TypeAlias = tuple[tuple[float, float, float], tuple[float, float]]

SECTIONS, CUTOFF, RATE = 3, 1000, 8000


def design() -> Iterator[Section]:
    """Of each section b[0..2] and a[0..1] by the bilinear transform."""
    warped = math.tan(math.pi * CUTOFF / RATE)
    for k in range(SECTIONS):
        damping = 2 * math.cos(math.pi * (2 * k + 1) / (4 * SECTIONS))
        scale = 1 / (1 + warped * damping + warped**2)
        low = warped**2 * scale
        a = (2 * (warped**2 - 1) * scale, (1 - warped * damping + warped**2) * scale)
        yield (low, 2 * low, low), a


def sections() -> Iterator[list[list[int]]]:
    """The same as raw words of fix<16,14>."""
    for parts in design():
        yield [[fixed.literal(c, 16, 14) for c in part] for part in parts]


def rounded(exact: int) -> int:
    return fixed.quantised(fixed.number(exact, 28), 16, 14, fixed.ROUND)


def section(b: Sequence[Number], a: Sequence[Number], words: Iterable[Number],
            result: Callable[[Number], Number]) -> Iterator[Number]:
    x1 = x2 = y1 = y2 = 0
    for x in words:
        y = result(b[0] * x + b[1] * x1 + b[2] * x2 - a[0] * y1 - a[1] * y2)
        x1, x2, y1, y2 = x, x1, y, y1
        yield y


def filtered(words: Iterable[int]) -> list[int]:
    words = [fixed.quantised(fixed.number(word, 15), 16, 14, fixed.ROUND) for word in words]
    for b, a in sections():
        words = list(section(b, a, words, rounded))
    return words


def real(words: Iterable[int]) -> list[float]:
    """The output of the design, in units of its last bit."""
    words = [word / 2 for word in words]
    for b, a in design():
        words = list(section(b, a, words, lambda exact: exact))
    return words


def samples() -> list[int]:
    """An impulse, a step, tones of 500 and 2,000 Hz, and noise."""
    tone = [round(20000 * math.sin(2 * math.pi * hertz * n / RATE)) for hertz in (500, 2000) for n in range(80)]
    return [32767] + [0] * 63 + [-32768] * 64 + tone + fixed.noise(96, 32767, seed=7)


if __name__ == "__main__":
    words = samples()
    rows = filtered(words)
    fixed.main(FOLDER, [(word,) for word in words], [(word,) for word in rows], lambda: (rows, real(words)))
