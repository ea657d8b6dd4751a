#!/usr/bin/env python3
"""Computes the samples and the expected rows of this example.

usage: expected.py [--check | --ratio]
"""
import math
import sys
from collections.abc import Iterable, Iterator
from fractions import Fraction
from pathlib import Path

FOLDER = Path(__file__).resolve().parent
sys.path.insert(0, str(FOLDER.parent))
import fixed  # noqa: E402

RATE, LEAST, GREATEST = 8000, 16, 16384
FACTORS = [fixed.literal(text, 16, 13) for text in ("0.9", "0.9", "0.9", "0.9", "1.2", "1.6", "2.0", "2.4")]
# Levels with the tones of a vowel, each half as strong as the first, or a third.
VOWELS = [(9000, (250, 600, 2300)), (3000, (300, 900, 2200)), (600, (270, 2100, 2900)), (14000, (660, 1100))]


def nearest(exact: Fraction) -> int:
    return math.floor(exact + Fraction(1, 2))


def limited(word: int) -> int:
    return min(max(word, -32768), 32767)


class Decoder:
    """What both sides know: the step, and the last two samples."""

    def __init__(self) -> None:
        self.step, self.last, self.before = LEAST, 0, 0

    def guess(self) -> int:
        return limited(nearest(Fraction(5 * self.last - 2 * self.before, 4)))

    def take(self, code: int) -> int:
        """The sample of a code. Of the sign and the size the interval's middle is taken."""
        size = code % 8
        move = nearest(Fraction(self.step * (2 * size + 1), 8))
        sample = limited(self.guess() + (-move if code < 0 else move))
        self.last, self.before = sample, self.last
        self.step = min(max(nearest(fixed.number(self.step * FACTORS[size], 13)), LEAST), GREATEST)
        return sample


def code_of(word: int, guess: int, step: int) -> int:
    """The sign, and how many quarters of the step the difference has; those are the step's halves, cut."""
    difference = word - guess
    rest, size = abs(difference), 0
    for bit, part in ((4, step), (2, step // 2), (1, step // 4)):
        if rest >= part:
            rest, size = rest - part, size + bit
    return size - 8 if difference < 0 else size


def coded(words: Iterable[int]) -> Iterator[tuple[int, int]]:
    decoder = Decoder()
    for word in words:
        code = code_of(word, decoder.guess(), decoder.step)
        yield code, decoder.take(code)


def samples() -> list[int]:
    """Vowels: three tones with the level of a syllable, at four levels; then silence."""
    made = []
    for level, tones in VOWELS:
        for n in range(400):
            wave = sum(math.sin(2 * math.pi * hertz * n / RATE) / (k + 1) for k, hertz in enumerate(tones))
            made.append(round(level * math.sin(math.pi * n / 400) * wave))
    return made + [0] * 100


if __name__ == "__main__":
    words = samples()
    rows = list(coded(words))
    fixed.main(FOLDER, [(word,) for word in words], rows, lambda: ([sample for _, sample in rows], words))
