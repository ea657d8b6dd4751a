#!/usr/bin/env python3
"""Computes the samples and the expected rows of this example, from what the pages of its blocks say.

usage: rows.py [--check | --errors | --picture]

With --errors it says how many of the symbols that were sent come out as others, behind the first 300, which the loops
take; with --picture it draws the points of these.
"""
import math
import random
import sys
from collections.abc import Iterable, Iterator, Sequence
from fractions import Fraction
from pathlib import Path

FOLDER = Path(__file__).resolve().parent
sys.path.insert(0, str(FOLDER.parent))
import fixed  # noqa: E402

TAPS = [fixed.literal(text, 16, 15)
        for text in ("0.006425", "-0.019827", "-0.044057", "-0.040141", "0.009982", "0.100642", "0.200021",
                     "0.264972")]
SINE = [fixed.literal(text, 20, 18) for text in ("1.570794851", "-0.645920978", "0.079487663", "-0.004362476")]
# The carrier as a share of the rate, its phase, the samples of a symbol, when the first one begins, the size.
CARRIER, PHASE, PERIOD, START, SIZE = 0.2004, 0.9, 4.005, 1.7, 0.55
SYMBOLS, SETTLED, ROLL_OFF, SPAN = 1000, 300, 0.35, 6
STEP, UNIT, MOST = fixed.literal("0.4", 32, 31), 1 << 30, 1 << 27


def nearest(number: Fraction | int, width: int) -> int:
    """The nearest word, and the last one of the range beyond it."""
    return fixed.quantised(number, width, 0, fixed.ROUND_SAT)


def sine(p: int) -> int:
    """The sine of a phase by the polynomial of the page, with words of 18 places."""
    folded = fixed.wrap((1 << 15) - p, 16) if abs(p) > 1 << 14 else p
    t = Fraction(folded, 1 << 14)
    square = fixed.quantised(t * t, 20, 18, fixed.ROUND)
    total = Fraction(SINE[3], 1 << 18)
    for term in SINE[2::-1]:
        total = Fraction(fixed.quantised(total * Fraction(square, 1 << 18), 20, 18, fixed.ROUND) + term, 1 << 18)
    return nearest(t * total * (1 << 15), 16)


class Timing:
    """The counter that finds the times of symbols."""

    def __init__(self) -> None:
        self.count, self.stays, self.error, self.is_symbol = 0, 0, 0, False
        self.before, self.symbol, self.half = 0, 0, 0

    def next(self, x: int) -> tuple[bool, int, int]:
        """Whether a symbol is taken, the last one, and the place between the samples."""
        moved = self.stays + (self.error >> 4)
        share = min(self.count << 1, UNIT) >> 15
        self.count -= (UNIT >> 1) + max(-MOST, min(MOST, moved))
        word, self.before = nearest(self.before + Fraction(share * (x - self.before), 1 << 15), 16), x
        is_taken = self.count < 0
        if is_taken:
            self.count, self.is_symbol = self.count + UNIT, not self.is_symbol
            self.take(word)
        return is_taken and self.is_symbol, self.symbol, share

    def take(self, word: int) -> None:
        if not self.is_symbol:
            self.half = word
            return
        change = fixed.clip(word - self.symbol, 16)
        self.symbol = word
        self.error = nearest(Fraction(change * self.half, 1 << 15), 16) << 15
        self.stays = max(-MOST, min(MOST, self.stays + (self.error >> 10)))


def matched(words: Sequence[int]) -> int:
    """The sum of the last 16 words with taps that are the same from both ends."""
    return nearest(Fraction(sum(tap * word for tap, word in zip(TAPS + TAPS[::-1], words)), 1 << 15), 16)


class Receiver:
    def __init__(self) -> None:
        self.phase, self.turns, self.error, self.timing = 0, 0, 0, Timing()
        self.first, self.second = [0] * 16, [0] * 16
        self.before, self.q = 0, 0

    def next(self, x: int) -> tuple[int, int, int]:
        self.turns += self.error >> 12
        self.phase = fixed.wrap(self.phase + STEP + self.turns + (self.error >> 5), 32)
        p = self.phase >> 16
        c, s = sine(fixed.wrap(p + (1 << 14), 16)), sine(p)
        self.first = [nearest(Fraction(x * c, 1 << 15), 16), *self.first[:-1]]
        self.second = [nearest(Fraction(-x * s, 1 << 15), 16), *self.second[:-1]]
        is_on, i, share = self.timing.next(matched(self.first))
        n = matched(self.second)
        if is_on:
            self.q = nearest(self.before + Fraction(share * (n - self.before), 1 << 15), 16)
        self.before, self.error = n, self.turned(i) << 16 if is_on else 0
        return int(is_on), i, self.q

    def turned(self, i: int) -> int:
        """How far a point is turned from the nearest of the four."""
        along = fixed.clip(-self.q if i < 0 else self.q, 16)
        return fixed.clip(along - fixed.clip(-i if self.q < 0 else i, 16), 16)


def pulse(time: float) -> float:
    """A root raised cosine, in symbols."""
    if abs(time) < 1e-9:
        return 1 - ROLL_OFF + 4 * ROLL_OFF / math.pi
    below = math.pi * time * (1 - (4 * ROLL_OFF * time)**2)
    if abs(below) < 1e-9:
        return pulse(time + 1e-6)
    return (math.sin(math.pi * time * (1 - ROLL_OFF)) + 4 * ROLL_OFF * time
            * math.cos(math.pi * time * (1 + ROLL_OFF))) / below


def symbols() -> list[tuple[int, int]]:
    dice = random.Random(7)
    return [(dice.choice((-1, 1)), dice.choice((-1, 1))) for _ in range(SYMBOLS)]


def samples() -> Iterator[int]:
    """What is sent, with noise 26 dB below it."""
    sent, dice = symbols(), random.Random(8)
    for n in range(int(PERIOD * SYMBOLS)):
        time = (n - START) / PERIOD
        near = range(max(0, int(time) - SPAN), min(SYMBOLS, int(time) + SPAN + 1))
        i, q = (sum(sent[k][part] * pulse(time - k) for k in near) for part in (0, 1))
        angle = 2 * math.pi * CARRIER * n + PHASE
        x = SIZE * (i * math.cos(angle) - q * math.sin(angle)) + dice.gauss(0, SIZE / 20)
        yield fixed.clip(round(x * 2**15), 16)


def errors(rows: Iterable[tuple[int, int, int]]) -> tuple[int, int]:
    """The symbols that come out as others than were sent, at the best delay and turn of a quarter."""
    made = [complex(i < 0, q < 0) for on, i, q in rows if on][SETTLED:SYMBOLS - 20]
    sent = [complex(*point) for point in symbols()]
    best = len(made)
    for delay in range(-20, 20):
        for turn in (1, 1j, -1, -1j):
            moved = [point * turn for point in sent[SETTLED + delay:]]
            wrong = sum(one != complex(two.real < 0, two.imag < 0) for one, two in zip(made, moved))
            best = min(best, wrong)
    return best, len(made)


def picture(rows: Iterable[tuple[int, int, int]]) -> str:
    """The points as a picture that reaches from -1/2 to 1/2."""
    points = [(i, q) for on, i, q in rows if on][SETTLED:]
    dots = "".join(f'<circle cx="{200 + i / 2**15 * 400:.1f}" cy="{200 - q / 2**15 * 400:.1f}" r="2"/>\n'
                   for i, q in points)
    axes = '<path d="M0 200H400M200 0V400" stroke="#999" fill="none"/>\n'
    return ('<svg xmlns="http://www.w3.org/2000/svg" viewBox="0 0 400 400">\n'
            '<rect width="400" height="400" fill="white"/>\n'
            f'{axes}<g fill="#1f6fb4" fill-opacity="0.6">\n{dots}</g>\n</svg>\n')


if __name__ == "__main__":
    given, receiver = list(samples()), Receiver()
    rows = [receiver.next(x) for x in given]
    if sys.argv[1:] == ["--errors"]:
        print("{} of {} symbols are wrong".format(*errors(rows)))
    elif sys.argv[1:] == ["--picture"]:
        (FOLDER / "constellation.svg").write_text(picture(rows))
    else:
        fixed.main(FOLDER, [(x,) for x in given], rows, None)
