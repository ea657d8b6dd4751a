#!/usr/bin/env python3
"""Computes the samples and the expected rows of this example, from what the pages of its blocks say.

usage: rows.py [--check]
"""
import sys
from collections.abc import Iterator
from fractions import Fraction
from pathlib import Path

FOLDER = Path(__file__).resolve().parent
sys.path.insert(0, str(FOLDER.parent))
import fixed  # noqa: E402

RATE = 8000
# Notes in hertz, each with how many samples its gate is true, and how many it is false behind that.
NOTES = ((110.0, 300, 100), (164.81, 200, 60), (220.0, 200, 60), (329.63, 300, 280))
CUTOFF, SUSTAIN, ONE = 1.2, 1 << 14, 1 << 15
TOP = (ONE - 1) << 15


def nearest(number: Fraction | int, width: int) -> int:
    """The nearest word, and the last one of the range beyond it."""
    return fixed.quantised(number, width, 0, fixed.ROUND_SAT)


class Voice:
    """The state of all blocks."""

    def __init__(self) -> None:
        self.phases, self.level, self.is_rising, self.was = [0, 0], 0, False, 0
        self.low, self.band = 0, 0

    def saw(self, number: int, step: int) -> int:
        self.phases[number] = fixed.wrap(self.phases[number] + step, 24)
        return self.phases[number]

    def envelope(self, gate: int) -> int:
        """A line up in 2^6 samples, then shares of 2^-8 toward the sustain and of 2^-7 toward 0, with 15 bits more."""
        self.is_rising = bool(gate) and (not self.was or self.is_rising and self.level < TOP)
        self.was = gate
        if self.is_rising:
            self.level = min(self.level + (1 << 30 - 6), TOP)
        elif gate:
            self.level += (SUSTAIN << 15) - self.level >> 8
        else:
            self.level -= self.level >> 7
        return self.level >> 15

    def filter(self, x: int, f: int) -> int:
        """The low-pass of the state variable filter with Q = 2."""
        self.low = nearest(self.low + Fraction(f * self.band, 1 << 14), 20)
        high = nearest(x - self.low - Fraction(self.band, 2), 20)
        self.band = nearest(self.band + Fraction(f * high, 1 << 14), 20)
        return self.low

    def next(self, gate: int, step: int, cutoff: int) -> int:
        other = step + (step >> 8)
        a, b = (nearest(Fraction(self.saw(number, one), 1 << 7), 24) for number, one in enumerate((step, other)))
        level = self.envelope(gate)
        f = nearest(Fraction(cutoff * level, 1 << 15), 16)
        low = self.filter(a + b, f)
        loud = nearest(Fraction(low * level, 1 << 16), 18)
        v = fixed.clip(loud, 16)
        square = nearest(Fraction(v * v, ONE), 17)
        return nearest(Fraction(v * (3 * ONE - square), 2 * ONE), 16)


def samples() -> Iterator[tuple[int, int, int]]:
    """The melody: gate, step and cutoff of each sample."""
    for hertz, held, left in NOTES:
        row = (round(2 * hertz / RATE * 2**23), fixed.literal(CUTOFF, 16, 14))
        yield from [(1, *row)] * held + [(0, *row)] * left


if __name__ == "__main__":
    given, voice = list(samples()), Voice()
    fixed.main(FOLDER, given, [(voice.next(*row),) for row in given], None)
