#!/usr/bin/env python3
"""Computes the samples and the expected rows of this example.

usage: expected.py [--check | --ratio]
"""
import math
import sys
from collections.abc import Iterable, Iterator
from pathlib import Path

FOLDER = Path(__file__).resolve().parent
sys.path.insert(0, str(FOLDER.parent))
import fixed  # noqa: E402

ATTACK, RELEASE = fixed.literal("0.25", 16, 15), fixed.literal("0.005", 16, 15)
LARGEST, HALF, QUARTER = 32767, 1 << 14, 1 << 13


def followed(words: Iterable[int]) -> Iterator[tuple[int, int]]:
    level, is_over = 0, 0
    for x in words:
        size = min(abs(x), LARGEST)
        step = (size << 7) - level
        factor = ATTACK if step > 0 else RELEASE
        level += fixed.quantised(fixed.number(step * factor, 37), 24, 22, fixed.ROUND)
        out = fixed.quantised(fixed.number(level, 22), 16, 15, fixed.ROUND)
        is_over = 1 if out > HALF else 0 if out < QUARTER else is_over
        yield out, is_over


def design(words: Iterable[int]) -> Iterator[float]:
    """The levels in real numbers, in units of the last bit."""
    level = 0.0
    for x in words:
        level += (abs(x) - level) * (0.25 if abs(x) > level else 0.005)
        yield level


def samples() -> list[int]:
    """Silence, a loud tone, a soft tone, the two ends of the range, silence."""
    loud = [round(30000 * math.sin(2 * math.pi * n / 16)) for n in range(96)]
    soft = [round(3000 * math.sin(2 * math.pi * n / 10)) for n in range(160)]
    return [0] * 8 + loud + soft + [-32768, 32767] * 8 + [0] * 240


if __name__ == "__main__":
    words = samples()
    rows = list(followed(words))
    fixed.main(FOLDER, [(word,) for word in words], rows, lambda: ([level for level, _ in rows], list(design(words))))
