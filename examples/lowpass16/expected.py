#!/usr/bin/env python3
"""Computes the coefficients, the samples and the expected rows of this example.

usage: expected.py [--check | --ratio]
"""
import math
import sys
from collections.abc import Sequence
from pathlib import Path
from typing import Any

FOLDER = Path(__file__).resolve().parent
sys.path.insert(0, str(FOLDER.parent))
import fixed  # noqa: E402

TAPS, CUTOFF, RATE = 16, 1000, 8000


def design() -> list[float]:
    """A sinc of the cutoff under a Hamming window, scaled to a sum of 1."""
    middle, share = (TAPS - 1) / 2, CUTOFF / RATE
    taps = []
    for k in range(TAPS):
        window = 0.54 - 0.46 * math.cos(2 * math.pi * k / (TAPS - 1))
        taps.append(window * math.sin(2 * math.pi * share * (k - middle)) / (math.pi * (k - middle)))
    return [tap / sum(taps) for tap in taps]


def coefficients() -> list[int]:
    return [fixed.literal(tap, 16, 15) for tap in design()]


def sums(taps: Sequence[float], words: list[int]) -> list[Any]:
    past = [0] * (TAPS - 1) + words
    return [sum(tap * past[n + TAPS - 1 - k] for k, tap in enumerate(taps)) for n in range(len(words))]


def filtered(words: list[int]) -> list[int]:
    return [fixed.quantised(fixed.number(exact, 30), 16, 15, fixed.ROUND) for exact in sums(coefficients(), words)]


def samples() -> list[int]:
    """An impulse, a step, tones of 500 and 3,000 Hz, and noise."""
    tone = [round(16000 * math.sin(2 * math.pi * hertz * n / RATE)) for hertz in (500, 3000) for n in range(64)]
    return [32767] + [0] * 31 + [-29000] * 32 + tone + fixed.noise(64, 29000)


if __name__ == "__main__":
    words = samples()
    rows = filtered(words)
    fixed.main(FOLDER, [(word,) for word in words], [(word,) for word in rows], lambda: (rows, sums(design(), words)))
