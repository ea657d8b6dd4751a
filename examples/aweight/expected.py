#!/usr/bin/env python3
"""Computes the coefficients, the samples and the expected rows of this example.

usage: expected.py [--check | --ratio | --sections]     the last prints the sections as rows b0 b1 b2 a0 a1 a2
"""
import math
import sys
from collections.abc import Callable, Iterable, Iterator, Sequence
from pathlib import Path
from typing import TypeAlias, TypeVar

FOLDER = Path(__file__).resolve().parent
sys.path.insert(0, str(FOLDER.parent))
import fixed  # noqa: E402

# A word, or a number of the design.
Number = TypeVar("Number", int, float)
# A section of the first order: b0 and b1, and a.
Section: TypeAlias = tuple[tuple[float, float], float]

RATE = 48000
# The poles of the A-weighting in hertz: two pairs below 1 kHz, with zeros at 0 Hz, and one pair above.
LOW, HIGH = (20.598997, 20.598997, 107.65265, 737.86223), 12194.217
REFERENCE = 1000
COEFFICIENT, SIGNAL, SUM = (24, 22), (24, 21), (32, 29)


def pole(hertz: float) -> float:
    """Where the bilinear transform puts a pole."""
    return (2 * RATE - 2 * math.pi * hertz) / (2 * RATE + 2 * math.pi * hertz)


def gain_at(sections: Sequence[Section], hertz: float) -> float:
    turn = complex(math.cos(2 * math.pi * hertz / RATE), -math.sin(2 * math.pi * hertz / RATE))
    return math.prod(abs(b0 + b1 * turn) / abs(1 + a * turn) for (b0, b1), a in sections)


def sections() -> list[Section]:
    """Of each section b[0..1] and a: the pairs of high-pass poles, then those of the low-pass; 1 kHz has the gain 1."""
    high = pole(HIGH)
    low_pass = ((1 - high) / 2, (1 - high) / 2), -high
    made = [((1.0, -1.0), -pole(hertz)) for hertz in LOW] + [low_pass, low_pass]
    gain = gain_at(made, REFERENCE)
    (b0, b1), a = low_pass
    return [*made[:-1], ((b0 / gain, b1 / gain), a)]


def words() -> Iterator[tuple[list[int], int]]:
    """The coefficients as raw words."""
    for b, a in sections():
        yield [fixed.literal(x, *COEFFICIENT) for x in b], fixed.literal(a, *COEFFICIENT)


def product(coefficient: int, word: int) -> int:
    """A product as a word of the sum."""
    return fixed.quantised(fixed.number(coefficient * word, COEFFICIENT[1] + SIGNAL[1]), *SUM, fixed.ROUND)


def rounded(total: int) -> int:
    return fixed.quantised(fixed.number(fixed.wrap(total, SUM[0]), SUM[1]), *SIGNAL, fixed.ROUND)


def section(b: Sequence[Number], a: Number, samples: Iterable[Number], times: Callable[[Number, Number], Number],
            result: Callable[[Number], Number]) -> Iterator[Number]:
    x1 = y1 = 0
    for x in samples:
        y = result(times(b[0], x) + times(b[1], x1) - times(a, y1))
        x1, y1 = x, y
        yield y


def filtered(samples: Iterable[int]) -> list[int]:
    made = [fixed.quantised(fixed.number(word, 15), *SIGNAL, fixed.ROUND) for word in samples]
    for b, a in words():
        made = list(section(b, a, made, product, rounded))
    return made


def real(samples: Iterable[int]) -> list[float]:
    """The output of the design, in units of its last bit."""
    made = [word * 2 ** (SIGNAL[1] - 15) for word in samples]
    for b, a in sections():
        made = list(section(b, a, made, lambda coefficient, x: coefficient * x, lambda total: total))
    return made


def samples() -> list[int]:
    """An impulse, tones of 63, 1,000 and 8,000 Hz, and noise."""
    tone = [round(20000 * math.sin(2 * math.pi * hertz * n / RATE)) for hertz in (63, 1000, 8000) for n in range(240)]
    return [32767] + [0] * 127 + tone + fixed.noise(192, 32767, seed=5)


if __name__ == "__main__":
    if sys.argv[1:] == ["--sections"]:
        for b, a in sections():
            print(*(f"{x:.12f}" for x in (*b, 0, 1, a, 0)))
        sys.exit()
    given = samples()
    rows = filtered(given)
    fixed.main(FOLDER, [(word,) for word in given], [(word,) for word in rows], lambda: (rows, real(given)))
