#!/usr/bin/env python3
"""Computes the coefficients, the samples and the expected rows of this example.

usage: expected.py [--check | --ratio | --coefficients]     the last prints those of the source
"""
import math
import sys
from collections.abc import Callable, Iterable, Sequence
from pathlib import Path
from typing import TypeVar

FOLDER = Path(__file__).resolve().parent
sys.path.insert(0, str(FOLDER.parent))
import fixed  # noqa: E402

# A word, or a number of the design.
Number = TypeVar("Number", int, float)

# Where the filter resonates, as a share of the sample rate, and how much it raises that.
RESONANCE, QUALITY = 0.1, 2
COEFFICIENT, SIGNAL, SUM = (16, 14), (16, 15), (32, 29)
# Samples of the tone at each level, and of the silence behind it.
TONE, SILENCE, HALF, FULL = 60, 160, 16000, 32767


def design() -> tuple[list[float], list[float]]:
    """A low-pass of the audio cookbook: b and a, without the a0, which is 1."""
    angle = 2 * math.pi * RESONANCE
    width = math.sin(angle) / (2 * QUALITY)
    whole = 1 - math.cos(angle)
    return ([gain / (1 + width) for gain in (whole / 2, whole, whole / 2)],
            [-2 * math.cos(angle) / (1 + width), (1 - width) / (1 + width)])


def coefficients() -> list[list[int]]:
    return [[fixed.literal(value, *COEFFICIENT) for value in part] for part in design()]


def filtered(words: Sequence[Number], b: Sequence[Number], a: Sequence[Number],
             cut: Callable[[Number], Number]) -> list[Number]:
    """The section in direct form I, with `cut` of each sum."""
    x1 = x2 = y1 = y2 = 0
    made = []
    for x in words:
        y = cut(b[0] * x + b[1] * x1 + b[2] * x2 - a[0] * y1 - a[1] * y2)
        x1, x2, y1, y2 = x, x1, y, y1
        made.append(y)
    return made


def word_by(mode: str) -> Callable[[int], int]:
    """What a sum of exact products becomes in a mode."""
    def cut(total: int) -> int:
        if total != fixed.wrap(total, SUM[0]):
            raise ValueError("a sum has no place in its type")
        return fixed.quantised(fixed.number(total, SUM[1]), *SIGNAL, mode)
    return cut


def rows_of(words: Sequence[int]) -> list[tuple[int, int]]:
    b, a = coefficients()
    return list(zip(filtered(words, b, a, word_by(fixed.TRUNC)), filtered(words, b, a, word_by(fixed.SAT))))


def samples() -> list[int]:
    """The tone at the resonance, at half of full scale and at full scale, and then silence."""
    tone = [[round(level * math.sin(2 * math.pi * RESONANCE * n)) for n in range(TONE)] for level in (HALF, FULL)]
    return tone[0] + tone[1] + [0] * SILENCE


def compared(words: Sequence[int], rows: Iterable[Sequence[int]]) -> tuple[list[int], list[float]]:
    """The output that saturates, and the design in real numbers, which stops at full scale too."""
    limit = 2 ** (SIGNAL[0] - 1)
    return [row[1] for row in rows], filtered(words, *design(), lambda total: max(-limit, min(limit - 1, total)))


if __name__ == "__main__":
    if sys.argv[1:] == ["--coefficients"]:
        for part in coefficients():
            print(", ".join(fixed.decimal(word, COEFFICIENT[1]) for word in part))
        sys.exit()
    given = samples()
    rows = rows_of(given)
    fixed.main(FOLDER, [(word,) for word in given], rows, lambda: compared(given, rows))
