#!/usr/bin/env python3
"""Computes the samples and the expected rows of this example, from the cookbook's formulas and what its page says.

usage: rows.py [--check]
       rows.py --click       by how much the output moves more than before where a band is turned, all at once and not
"""
import math
import sys
from collections.abc import Iterable, Iterator, Sequence
from fractions import Fraction
from pathlib import Path
from typing import TypeAlias

FOLDER = Path(__file__).resolve().parent
sys.path.insert(0, str(FOLDER.parent))
import fixed  # noqa: E402

# b0, b1, b2, a1, a2 as words; and index and value in one sample.
Words: TypeAlias = tuple[int, ...]
Control: TypeAlias = tuple[int, int]

RATE, ROWS = 48000, 1040
INPUT, SIGNAL, PLACES = 24, 28, 23
COEFFICIENT, COEFFICIENT_PLACES = 24, 22
# Each band as it is at the start: kind, hertz, decibels, quality.
FLAT = math.sqrt(0.5)
BANDS = (("low", 120, 4, FLAT), ("peak", 500, -3, 1.4), ("peak", 2500, 2, 1), ("high", 8000, 3, FLAT))
IDLE, TAKES = -1, 5


def designed(kind: str, hertz: float, decibels: float, quality: float) -> Words:
    """A band of the audio cookbook, as words."""
    w, a = 2 * math.pi * hertz / RATE, 10 ** (decibels / 40)
    alpha, c = math.sin(w) / (2 * quality), math.cos(w)
    if kind == "peak":
        b, over = (1 + alpha * a, -2 * c, 1 - alpha * a), (1 + alpha / a, -2 * c, 1 - alpha / a)
    else:
        s, r = (1 if kind == "low" else -1), 2 * math.sqrt(a) * alpha
        b = (a * (a + 1 - s * (a - 1) * c + r), s * 2 * a * (a - 1 - s * (a + 1) * c),
             a * (a + 1 - s * (a - 1) * c - r))
        over = (a + 1 + s * (a - 1) * c + r, -s * 2 * (a - 1 + s * (a + 1) * c), a + 1 + s * (a - 1) * c - r)
    return tuple(fixed.literal(number / over[0], COEFFICIENT, COEFFICIENT_PLACES) for number in (*b, *over[1:]))


class Section:
    """The past of one band of one channel."""

    def __init__(self) -> None:
        self.xs, self.ys = [0, 0], [0, 0]

    def next(self, x: int, words: Words) -> int:
        terms = [*zip(words[:3], (x, *self.xs)), *zip((-words[3], -words[4]), self.ys)]
        total = 0
        for place, (word, signal) in enumerate(terms):
            # What is taken off is rounded as it stands, before it is taken off.
            sign = -1 if place >= 3 else 1
            exact = Fraction(sign * word * signal, 2 ** (COEFFICIENT_PLACES + PLACES))
            product = fixed.quantised(exact, SIGNAL, PLACES, fixed.ROUND_SAT)
            total = fixed.clip(total + sign * product, SIGNAL)
        self.xs, self.ys = [x, self.xs[0]], [total, self.ys[0]]
        return total


class Equaliser:
    """Both channels, the coefficients of each band, and the five that come next."""

    def __init__(self) -> None:
        self.next_words = [0] * 5
        self.bands = [designed(*band) for band in BANDS]
        self.channels = [[Section() for _ in BANDS] for _ in range(2)]

    def next(self, left: int, right: int, index: int, value: int) -> tuple[int, int]:
        if 0 <= index < 5:
            self.next_words[index] = value
        if TAKES <= index < TAKES + len(BANDS):
            self.bands[index - TAKES] = tuple(self.next_words)
        made = []
        for x, sections in zip((left, right), self.channels):
            for section, words in zip(sections, self.bands):
                x = section.next(x, words)
            made.append(fixed.clip(x, INPUT))
        return made[0], made[1]


def turned(number: int, words: Words) -> list[Control]:
    """How a host turns a band: five words that nothing uses yet, and the strobe."""
    return [*enumerate(words), (TAKES + number, 0)]


def in_pieces(number: int, words: Words) -> list[Control]:
    """The same with a strobe behind each word, as if the five did not wait for one another."""
    return [step for one in enumerate(words) for step in (one, (TAKES + number, 0))]


# The samples


def controls() -> Iterator[Control]:
    """A knob that goes from -3 to 12 dB and back in steps of 1.5 dB, one that goes from 200 to 5,000 Hz, words that no
    band takes, an index that is none, and 18 dB at once."""
    for step in (*range(1, 11), *range(9, -1, -1)):
        yield from turned(1, designed("peak", 500, -3 + 1.5 * step, 1.4)) + [(IDLE, 0)] * 10
    for step in range(17):
        yield from turned(2, designed("peak", 200 * 25 ** (step / 16), 6, 3)) + [(IDLE, 77)] * 14
    yield from list(enumerate(designed("low", 60, -12, 1)))[:4]
    yield from [(100, 1 << 20), (-128, 5), (9, -1)] + [(IDLE, 0)] * 13
    yield from turned(0, designed("low", 300, 18, 1))
    while True:
        yield IDLE, 0


def samples() -> Iterator[tuple[int, int, int, int]]:
    """Tones and noise on the left, and on the right a tone and, at the end, the ends of the range."""
    full = (1 << INPUT - 1) - 1
    hiss, steps = fixed.noise(ROWS, full // 8), controls()
    for n in range(ROWS):
        tones = sum(math.sin(2 * math.pi * hertz * n / RATE) for hertz in (110, 500, 3000)) / 8
        left = fixed.clip(round(full * tones) + hiss[n], INPUT)
        right = round(full * 0.3 * math.sin(2 * math.pi * 700 * n / RATE)) if n < ROWS - 160 else (
            full if n // 40 % 2 else -full - 1)
        yield left, right, *next(steps)


# A click


def greatest_step(words: Sequence[int]) -> int:
    """By how much the output moves at most from one sample to the next."""
    return max(abs(word - last) for word, last in zip(words[1:], words))


def steps_of(control: Sequence[Control]) -> tuple[int, int]:
    """The greatest step of a tone of 250 Hz before and behind a turn of the first band."""
    before, equaliser, made = 960, Equaliser(), []
    for n in range(2 * before):
        x = round(0.25 * 2 ** (INPUT - 1) * math.sin(2 * math.pi * 250 * n / RATE))
        index, value = control[n - before] if before <= n < before + len(control) else (IDLE, 0)
        made.append(equaliser.next(x, 0, index, value)[0])
    return greatest_step(made[before // 2: before]), greatest_step(made[before:])


def told() -> Iterable[str]:
    words = designed("low", 120, -8, FLAT)
    for name, way in (("at once", turned), ("one by one", in_pieces)):
        before, behind = steps_of(way(0, words))
        yield f"{name}: the greatest step is {before} before, and {behind} behind"


if __name__ == "__main__":
    if sys.argv[1:] == ["--click"]:
        print("\n".join(told()))
    else:
        given, equaliser = list(samples()), Equaliser()
        fixed.main(FOLDER, given, [equaliser.next(*row) for row in given], None)
