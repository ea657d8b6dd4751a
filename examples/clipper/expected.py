#!/usr/bin/env python3
"""Computes the coefficients, the samples and the expected rows of this example, at the fast rate and over frames of
four samples, of which the first alone has an input word and an output word.

usage: expected.py [--check | --ratio | --aliases]     the last prints how loud what a tone of 15,000 Hz has at 3,000 Hz
                                                       is
"""
import cmath
import math
import sys
from collections.abc import Sequence
from pathlib import Path

FOLDER = Path(__file__).resolve().parent
sys.path.insert(0, str(FOLDER.parent))
import fixed  # noqa: E402

PHASES, TAPS, CUTOFF, RATE, BETA, DRIVE = 4, 32, 22000, 192000, 3.0, 2
SLOW_RATE = RATE // PHASES
BEFORE, AFTER = (16, 13), (16, 15)
# The output has a bit more than the words of the curve, since a tone that is clipped is greater without its harmonics.
WORD, OUTPUT = (16, 15, fixed.ROUND_SAT), (17, 15, fixed.ROUND)
SQUARE, SLOPE = (17, 15, fixed.ROUND), (18, 16)
# A tone whose third harmonic is above the half of the slow rate, and where it is heard then.
TONE, ALIAS = 15000, 3000


def design() -> list[list[float]]:
    """The filters before and after the curve: a sinc of the cutoff under a Kaiser window. The sum of the one is the
    drive, for samples three of four of which are 0."""
    return [fixed.lowpass(TAPS, CUTOFF / RATE, BETA, gain) for gain in (DRIVE * PHASES, 1)]


def coefficients() -> list[list[int]]:
    return [[fixed.literal(tap, *of) for tap in taps] for taps, of in zip(design(), (BEFORE, AFTER))]


def curve(value: float) -> float:
    """The curve in real numbers."""
    inside = max(-1, min(1, value))
    return 1.5 * inside - 0.5 * inside**3


def bent(word: int) -> int:
    """The curve in words, the square and the product rounded."""
    square = fixed.quantised(fixed.number(word * word, 30), *SQUARE)
    slope = fixed.quantised(1.5 - fixed.number(square, 15) / 2, *SLOPE)
    return fixed.quantised(fixed.number(word * slope, 15 + SLOPE[1]), *WORD)


def clipped(words: list[int]) -> list[int]:
    before, after = coefficients()
    inside = [fixed.quantised(fixed.number(exact, 15 + BEFORE[1]), *WORD) for exact in fixed.filtered(before, words)]
    bends = list(map(bent, inside))
    return [fixed.quantised(fixed.number(exact, 15 + AFTER[1]), *OUTPUT) for exact in fixed.filtered(after, bends)]


def compared(words: list[int]) -> tuple[list[int], list[float]]:
    """The output words, and those of real numbers."""
    before, after = design()
    bends = [2**15 * curve(real / 2**15) for real in fixed.filtered(before, words)]
    return clipped(words), fixed.filtered(after, bends)


def tone(hertz: float, level: float, count: int) -> list[int]:
    return [round(level * math.sin(2 * math.pi * hertz * n / SLOW_RATE)) for n in range(count)]


def samples() -> list[int]:
    """An impulse that the curve hardly bends, one of full scale, tones of 1,000 and 15,000 Hz, and noise, at the slow
    rate."""
    impulses = [1024] + [0] * 31 + [32767] + [0] * 31
    return impulses + tone(1000, 32000, 96) + tone(TONE, 29000, 96) + fixed.noise(64, 32767, seed=7)


def loudness(words: Sequence[float], hertz: float) -> float:
    """The size of a tone in words of a whole number of its periods."""
    return abs(sum(word * cmath.exp(-2j * math.pi * hertz * n / SLOW_RATE) for n, word in enumerate(words)))


def alias(words: Sequence[float]) -> float:
    """How many decibels the alias is below the tone, behind the first samples."""
    settled = words[96:]
    return 20 * math.log10(loudness(settled, ALIAS) / loudness(settled, TONE))


if __name__ == "__main__":
    if sys.argv[1:] == ["--aliases"]:
        given = tone(TONE, 29000, 576)
        plain = [2**15 * curve(DRIVE * word / 2**15) for word in given]
        kept = clipped(fixed.stuffed(given, PHASES))[::PHASES]
        print(f"without frames {alias(plain):.1f} dB, with frames {alias(kept):.1f} dB")
        sys.exit()
    given = fixed.stuffed(samples(), PHASES)
    fixed.main(FOLDER, [(word,) for word in given], [(word,) for word in clipped(given)], lambda: compared(given),
               (PHASES, [0], [0]))
