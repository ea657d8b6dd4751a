#!/usr/bin/env python3
"""Computes the samples and the expected rows of this example.

usage: expected.py [--check | --ratio]
"""
import math
import sys
from collections.abc import Callable, Iterable, Iterator, Sequence
from pathlib import Path
from typing import TypeVar

FOLDER = Path(__file__).resolve().parent
sys.path.insert(0, str(FOLDER.parent))
import fixed  # noqa: E402

# A word, or a number of the design.
Number = TypeVar("Number", int, float)

DELAYS, GAIN, RATE = (1009, 1013, 1017, 1021), 0.7, 32000
FACTOR = fixed.literal("0.7", 16, 15)
MORE = 2  # bits after the point that the lines have more than the samples


def allpass(words: Iterable[Number], delay: int, product: Callable[[Number], Number]) -> Iterator[Number]:
    """The allpass filter (z^-D - g) / (1 - g z^-D), by what goes into its line."""
    line = []
    for n, word in enumerate(words):
        late = line[n - delay] if n >= delay else 0
        line.append(word + product(late))
        yield late - product(line[n])


def reverberated(words: Iterable[Number], product: Callable[[Number], Number]) -> list[Number]:
    wet = words
    for delay in DELAYS:
        wet = list(allpass(wet, delay, product))
    return wet


def rounded(word: int) -> int:
    return fixed.quantised(fixed.number(FACTOR * word, 32), 24, 17, fixed.ROUND)


def limited(number: Number) -> Number:
    return min(max(number, -32768), 32767)


def filtered(words: Sequence[int]) -> Iterator[int]:
    dry = [word << MORE for word in words]
    for word, wet in zip(dry, reverberated(dry, rounded)):
        mixed = word + fixed.quantised(fixed.number(wet, 18), 24, 17, fixed.ROUND)
        yield limited(fixed.quantised(fixed.number(mixed, 17), 24, 15, fixed.ROUND))


def design(words: Sequence[int]) -> list[float]:
    """The output in real numbers, in units of its last bit."""
    return [limited(dry + wet / 2) for dry, wet in zip(words, reverberated(words, lambda word: GAIN * word))]


def samples() -> list[int]:
    """A click and its echoes, then a tone that is struck twice, loud enough for the limit."""
    click = [20000] + [0] * 2599
    struck = [round(32700 * 0.998**n * math.sin(2 * math.pi * 220 * n / RATE)) for n in range(1000)]
    return click + struck + [-word for word in struck] + [0] * 400


if __name__ == "__main__":
    words = samples()
    rows = list(filtered(words))
    fixed.main(FOLDER, [(word,) for word in words], [(word,) for word in rows], lambda: (rows, design(words)))
