#!/usr/bin/env python3
"""Computes the coefficients, the samples and the expected rows of this example, at the fast rate and over frames of
four samples, of which the first alone has an input word.

usage: expected.py [--check | --ratio]
"""
import math
import sys
from pathlib import Path

FOLDER = Path(__file__).resolve().parent
sys.path.insert(0, str(FOLDER.parent))
import fixed  # noqa: E402

PHASES, TAPS, CUTOFF, RATE, BETA = 4, 64, 24000, 192000, 3.9
COEFFICIENT, OUTPUT = (16, 14), (16, 15, fixed.ROUND_SAT)
PLACES = COEFFICIENT[1] + 15


def design() -> list[float]:
    """A sinc of the cutoff under a Kaiser window. Its sum is that of the samples of a frame, three of which are 0."""
    return fixed.lowpass(TAPS, CUTOFF / RATE, BETA, PHASES)


def coefficients() -> list[int]:
    return [fixed.literal(tap, *COEFFICIENT) for tap in design()]


def interpolated(words: list[int]) -> list[int]:
    return [fixed.quantised(fixed.number(exact, PLACES), *OUTPUT) for exact in fixed.filtered(coefficients(), words)]


def compared(words: list[int]) -> tuple[list[int], list[float]]:
    """The output words, and those of the design, which stops at the full scale too."""
    reals = fixed.filtered(design(), words)
    return interpolated(words), [max(-32768, min(32767, real)) for real in reals]


def samples() -> list[int]:
    """An impulse, a step, tones of 1,000 and 15,000 Hz, and noise, at the slow rate."""
    tones = [round(24000 * math.sin(2 * math.pi * hertz * PHASES * n / RATE)) for hertz in (1000, 15000)
             for n in range(96)]
    return [32767] + [0] * 31 + [-32768] * 32 + tones + fixed.noise(64, 32767, seed=11)


if __name__ == "__main__":
    given = fixed.stuffed(samples(), PHASES)
    fixed.main(FOLDER, [(word,) for word in given], [(word,) for word in interpolated(given)], lambda: compared(given),
               (PHASES, [], [0]))
