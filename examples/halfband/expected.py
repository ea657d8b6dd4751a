#!/usr/bin/env python3
"""Computes the coefficients, the samples and the expected rows of this example.

usage: expected.py [--check | --ratio | --taps]     the last prints the taps of the first phase, one a line
"""
import math
import sys
from collections.abc import Callable, Iterable, Sequence
from pathlib import Path
from typing import Any

FOLDER = Path(__file__).resolve().parent
sys.path.insert(0, str(FOLDER.parent))
import fixed  # noqa: E402

# The taps of the whole filter, every second of which is 0 but for the one in the middle; the attenuation in decibels.
TAPS, ATTENUATION = 55, 83
MIDDLE = TAPS // 2
# The middle tap is alone in the second phase, which is the input so many samples ago.
DELAY = MIDDLE // 2
COEFFICIENT, SUM, OUTPUT = (20, 19), (32, 29), (24, 21)


def design() -> list[float]:
    """The taps of the first phase: a sinc under a Kaiser window, which together have the gain 1."""
    beta = 0.1102 * (ATTENUATION - 8.7)
    taps = []
    for n in range(0, TAPS, 2):
        taps.append(fixed.kaiser(n, TAPS, beta) * math.sin(math.pi * (n - MIDDLE) / 2) / (math.pi * (n - MIDDLE) / 2))
    return [tap / sum(taps) for tap in taps]


def coefficients() -> list[int]:
    return [fixed.literal(tap, *COEFFICIENT) for tap in design()]


def sums(taps: Sequence[float], words: list[int], product: Callable[[Any, int], Any] = lambda tap,
         word: tap * word) -> list[Any]:
    past = [0] * (len(taps) - 1) + words
    return [sum(product(tap, past[n + len(taps) - 1 - k]) for k, tap in enumerate(taps)) for n in range(len(words))]


def rounded_product(tap: int, word: int) -> int:
    """A product as a word of the sum."""
    return fixed.quantised(fixed.number(tap * word, COEFFICIENT[1] + 15), *SUM, fixed.ROUND)


def delayed(words: list[int]) -> list[int]:
    return [0] * DELAY + words[: len(words) - DELAY]


def interpolated(words: list[int]) -> list[tuple[int, int]]:
    """Two output words for each input word."""
    first = [fixed.quantised(fixed.number(total, SUM[1]), *OUTPUT, fixed.ROUND)
             for total in sums(coefficients(), words, rounded_product)]
    second = [fixed.quantised(fixed.number(word, 15), *OUTPUT) for word in delayed(words)]
    return list(zip(first, second))


def compared(words: list[int], rows: Iterable[Sequence[int]]) -> tuple[list[int], list[float]]:
    """All output words in order, and those of the design in units of the last bit."""
    scale = 2 ** (OUTPUT[1] - 15)
    real = [value * scale for pair in zip(sums(design(), words), delayed(words)) for value in pair]
    return [word for row in rows for word in row], real


def samples() -> list[int]:
    """An impulse, a step, tones at a fifth and at a third of the rate, and noise."""
    tone = [round(24000 * math.sin(2 * math.pi * n / period)) for period in (5, 3) for n in range(60)]
    return [32767] + [0] * 31 + [-32768] * 40 + tone + fixed.noise(64, 32767, seed=9)


if __name__ == "__main__":
    if sys.argv[1:] == ["--taps"]:
        print("\n".join(f"{tap:.12f}" for tap in design()))
        sys.exit()
    given = samples()
    rows = interpolated(given)
    fixed.main(FOLDER, [(word,) for word in given], rows, lambda: compared(given, rows))
