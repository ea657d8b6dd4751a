#!/usr/bin/env python3
"""Computes the samples and the expected rows of this example.

usage: expected.py [--check | --ratio]
"""
import math
import sys
from collections.abc import Iterator, Sequence
from fractions import Fraction
from pathlib import Path

FOLDER = Path(__file__).resolve().parent
sys.path.insert(0, str(FOLDER.parent))
import fixed  # noqa: E402

ROWS, COLUMNS, RATE, BLOCK = (697, 770, 852, 941), (1209, 1336, 1477, 1633), 8000, 205
ENOUGH = 50 << 14


def turns() -> list[float]:
    """For each tone 2 cos(2 pi f / rate), to five places."""
    return [round(2 * math.cos(2 * math.pi * tone / RATE), 5) for tone in ROWS + COLUMNS]


def cut(exact: Fraction | int, width: int) -> int:
    return fixed.quantised(exact, width, 14, fixed.ROUND)


def power_of(block: Sequence[int], factor: int) -> int:
    """The power of a tone in a block, by the words of the resonator at its last two samples."""
    last = before = 0
    for x in block:
        turned = cut(fixed.number(factor * last, 28), 24)
        last, before = fixed.wrap(cut(fixed.number(x, 15), 24) + turned - before, 24), last
    squares = [cut(fixed.number(word * word, 28), 32) for word in (last, before)]
    both = cut(fixed.number(cut(fixed.number(factor * last, 28), 24) * before, 28), 32)
    return fixed.wrap(sum(squares) - both, 32)


def powers(block: Sequence[int]) -> list[int]:
    return [power_of(block, fixed.literal(str(turn), 16, 14)) for turn in turns()]


def real_powers(block: Sequence[int]) -> Iterator[float]:
    """The same by a Fourier sum in real numbers at the nominal tones, in units of the last bit."""
    for tone in ROWS + COLUMNS:
        parts = [sum(x / 2**15 * wave(2 * math.pi * tone * n / RATE) for n, x in enumerate(block))
                 for wave in (math.cos, math.sin)]
        yield (parts[0] ** 2 + parts[1] ** 2) * 2**14


def only(four: list[int]) -> tuple[int, int, bool]:
    """Which of four powers is the greatest, and whether the others have less than a quarter of it."""
    most = max(four)
    return four.index(most), most, sum(four) - most < math.floor(Fraction(most, 4) + Fraction(1, 2))


def found(block: Sequence[int]) -> int | None:
    """The key that is held in a block, or nothing."""
    power = powers(block)
    (row, low, is_row), (column, high, is_column) = only(power[:4]), only(power[4:])
    is_loud = min(low, high) > ENOUGH and low < 4 * high and high < 4 * low
    return 4 * row + column if is_row and is_column and is_loud else None


def blocks(words: Sequence[int]) -> list[Sequence[int]]:
    return [words[start : start + BLOCK] for start in range(0, len(words), BLOCK)]


def decided(words: Sequence[int]) -> list[tuple[int, int, int]]:
    """A decision stands from the last sample of its block to the one before the last of the next."""
    key, held = 0, None
    made = [(0, 0, 0)] * (BLOCK - 1)
    for block in blocks(words):
        before, held = held, found(block)
        key = key if held is None else held
        is_held = int(held is not None)
        made += [(key, is_held, int(is_held and held != before))] + [(key, is_held, 0)] * (BLOCK - 1)
    return made[: len(words)]


def samples() -> list[int]:
    """Silence, keys, a key that is held, one in noise, and what is no key: one tone, noise, two rows, unequal tones."""
    parts = [((), 0), ((697, 1209), 0), ((), 0), ((852, 1336), 0), ((852, 1336), 0), ((941, 1477), 0),
             ((941, 1633), 3000), ((770,), 0), ((), 12000), ((697, 770, 1209), 0), ((770, 1477), 0)]
    levels = {(770, 1477): (9000, 3000)}
    made = []
    for place, (tones, level) in enumerate(parts):
        hiss, loud = fixed.noise(BLOCK, level, seed=place), levels.get(tones, [9000] * len(tones))
        for n in range(BLOCK):
            wave = sum(size * math.sin(2 * math.pi * tone * n / RATE) for size, tone in zip(loud, tones))
            made.append(round(wave) + hiss[n])
    return made


def compared(words: Sequence[int]) -> tuple[list[int], list[float]]:
    """The powers of all blocks in words and in real numbers."""
    return ([power for block in blocks(words) for power in powers(block)],
            [power for block in blocks(words) for power in real_powers(block)])


if __name__ == "__main__":
    words = samples()
    fixed.main(FOLDER, [(word,) for word in words], decided(words), lambda: compared(words))
