#!/usr/bin/env python3
"""Computes the coefficients, the samples and the expected rows of this example.

usage: expected.py [--check | --ratio]
"""
import math
import sys
from collections.abc import Iterator, Sequence
from pathlib import Path
from typing import Any, TypeAlias

FOLDER = Path(__file__).resolve().parent
sys.path.insert(0, str(FOLDER.parent))
import fixed  # noqa: E402

# Rows of as many samples as there are phases.
Rows: TypeAlias = Sequence[Sequence[int]]

PHASES, TAPS, CUTOFF, RATE, BETA = 4, 96, 4000, 32000, 5.65


def design() -> list[float]:
    """A sinc of the cutoff under a Kaiser window, scaled to a sum of 1."""
    return fixed.lowpass(TAPS, CUTOFF / RATE, BETA)


def coefficients() -> list[int]:
    return [fixed.literal(tap, 16, 15) for tap in design()]


def stream(rows: Rows) -> list[int]:
    """The samples of the fast rate, after a silence that is as long as the filter."""
    return [0] * TAPS + [word for row in rows for word in row]


def sums(taps: Sequence[float], rows: Rows) -> Iterator[Any]:
    """Of the filter at the fast rate each fourth sample, the last one of a row."""
    past = stream(rows)
    for end in range(TAPS + PHASES - 1, len(past), PHASES):
        yield sum(tap * past[end - k] for k, tap in enumerate(taps))


def filtered(rows: Rows) -> list[int]:
    return [fixed.quantised(fixed.number(exact, 30), 16, 15, fixed.ROUND) for exact in sums(coefficients(), rows)]


def samples() -> list[tuple[int, ...]]:
    """An impulse in each phase, tones of 1,000 and 6,000 Hz, both, and noise."""
    impulses = [30000 if n in (0, 97, 194, 291) else 0 for n in range(400)]
    tones = [[(1000, 16000)], [(6000, 16000)], [(1000, 8000), (6000, 12000)]]
    parts = [sum(level * math.sin(2 * math.pi * hertz * n / RATE) for hertz, level in tone)
             for tone in tones for n in range(256)]
    words = impulses + [round(part) for part in parts] + fixed.noise(256, 16000, seed=5)
    return [tuple(words[k : k + PHASES]) for k in range(0, len(words), PHASES)]


if __name__ == "__main__":
    rows = samples()
    words = filtered(rows)
    fixed.main(FOLDER, rows, [(word,) for word in words], lambda: (words, list(sums(design(), rows))))
