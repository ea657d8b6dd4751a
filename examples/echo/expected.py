#!/usr/bin/env python3
"""Computes the samples and the expected rows of this example.

usage: expected.py [--check | --ratio]
"""
import sys
from collections.abc import Iterable, Iterator
from pathlib import Path
from typing import TypeAlias

FOLDER = Path(__file__).resolve().parent
sys.path.insert(0, str(FOLDER.parent))
import fixed  # noqa: E402

# Rows of a word of the loudspeaker and one of the microphone.
Rows: TypeAlias = Iterable[tuple[int, int]]

TAPS, RATE, COUNT = 16, 0.25, 800
# The ways of the sound, in 128ths: that of a room, and that of the same room when somebody has moved.
ROOMS = [(0, 0, 0, 51, 38, -25, -19, 13, 10, -6, -5, 3, 2, -2, -1, 1),
         (0, 0, -13, 38, 45, 10, -29, -6, 13, 3, -8, 0, 4, 0, -2, 0)]


def cancelled(rows: Rows) -> Iterator[int]:
    """The errors by integers: sums with 37 bits after the point, taps with 22, words with 15."""
    taps, far, error = [0] * TAPS, [0] * (TAPS + 1), 0
    for newest, heard in rows:
        far = [newest] + far[:TAPS]
        step = fixed.quantised(fixed.number(fixed.literal(RATE, 16, 15) * error, 30), 24, 22, fixed.ROUND)
        moves = [fixed.quantised(fixed.number(step * word, 37), 24, 22, fixed.ROUND) for word in far[1:]]
        taps = [fixed.wrap(tap + move, 24) for tap, move in zip(taps, moves)]
        parts = [fixed.quantised(fixed.number(tap * word, 37), 32, 27, fixed.ROUND) for tap, word in zip(taps, far)]
        echo = fixed.quantised(fixed.number(fixed.wrap(sum(parts), 32), 27), 16, 15, fixed.ROUND)
        error = fixed.wrap(heard - echo, 16)
        yield error


def design(rows: Rows) -> Iterator[float]:
    """The errors in real numbers, in units of the last bit."""
    taps, far, error = [0.0] * TAPS, [0.0] * (TAPS + 1), 0.0
    for newest, heard in rows:
        far = [newest / 2**15] + far[:TAPS]
        taps = [tap + RATE * error * word for tap, word in zip(taps, far[1:])]
        error = heard / 2**15 - sum(tap * word for tap, word in zip(taps, far))
        yield error * 2**15


def samples() -> Iterator[tuple[int, int]]:
    """Noise in the loudspeaker, and its echo in the microphone, with a little noise of its own; then the other room."""
    far, hiss = fixed.noise(2 * COUNT, 16000, seed=11), fixed.noise(2 * COUNT, 8, seed=12)
    past = [0] * TAPS + far
    for n, word in enumerate(far):
        room = ROOMS[n // COUNT]
        yield word, sum(share * past[n + TAPS - k] for k, share in enumerate(room)) // 128 + hiss[n]


if __name__ == "__main__":
    rows = list(samples())
    words = list(cancelled(rows))
    fixed.main(FOLDER, rows, [(word,) for word in words], lambda: (words, list(design(rows))))
