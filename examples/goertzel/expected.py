#!/usr/bin/env python3
"""Computes the coefficient, the samples and the expected rows of this example.

usage: expected.py [--check | --ratio]
"""
import math
import sys
from collections.abc import Iterator, Sequence
from fractions import Fraction
from pathlib import Path

FOLDER = Path(__file__).resolve().parent
sys.path.insert(0, str(FOLDER.parent))
import fixed  # noqa: E402

TONE, RATE, BLOCK, ENOUGH = 697, 8000, 205, 105 << 14
COEFFICIENT = fixed.literal(2 * math.cos(2 * math.pi * TONE / RATE), 16, 14)


def cut(exact: Fraction | int, width: int) -> int:
    return fixed.quantised(exact, width, 14, fixed.ROUND)


def power_of(block: Sequence[int]) -> int:
    """The power of the tone in a block, by the words of the resonator at its last two samples."""
    last = before = 0
    for x in block:
        turned = cut(fixed.number(COEFFICIENT * last, 28), 24)
        last, before = fixed.wrap(cut(fixed.number(x, 15), 24) + turned - before, 24), last
    squares = [cut(fixed.number(word * word, 28), 32) for word in (last, before)]
    both = cut(fixed.number(cut(fixed.number(COEFFICIENT * last, 28), 24) * before, 28), 32)
    return fixed.wrap(sum(squares) - both, 32)


def real_power_of(block: Sequence[int]) -> float:
    """The same by a Fourier sum in real numbers, in units of the last bit."""
    parts = [sum(x / 2**15 * wave(2 * math.pi * TONE * n / RATE) for n, x in enumerate(block))
             for wave in (math.cos, math.sin)]
    return (parts[0] ** 2 + parts[1] ** 2) * 2**14


def decided(words: Sequence[int]) -> Iterator[tuple[int, int]]:
    power = 0
    for n in range(len(words)):
        if n % BLOCK == BLOCK - 1:
            power = power_of(words[n + 1 - BLOCK : n + 1])
        yield int(power > ENOUGH), power


def samples() -> list[int]:
    """Blocks of silence, of the tone, of the next key's 770 Hz, of the tone at a twentieth, and of the tone in
    noise."""
    parts = [(0, 0, 0), (16000, TONE, 0), (16000, 770, 0), (1600, TONE, 0), (8000, TONE, 6000)]
    made = []
    for amplitude, hertz, level in parts:
        hiss = fixed.noise(BLOCK, level, seed=3)
        made += [round(amplitude * math.sin(2 * math.pi * hertz * n / RATE)) + hiss[n] for n in range(BLOCK)]
    return made


if __name__ == "__main__":
    words = samples()
    blocks = [words[start : start + BLOCK] for start in range(0, len(words), BLOCK)]
    fixed.main(FOLDER, [(word,) for word in words], list(decided(words)),
               lambda: ([power_of(block) for block in blocks], [real_power_of(block) for block in blocks]))
