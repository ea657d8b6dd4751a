#!/usr/bin/env python3
"""Computes the samples and the expected rows of the amplifier and of its clipper by itself, from what the pages of the
blocks say, and the coefficients of its tone stack and its filters, from the circuit and the band.

usage: rows.py [--check | --coefficients | --impulse]
"""
import cmath
import math
import sys
from collections.abc import Iterator
from fractions import Fraction
from pathlib import Path

FOLDER = Path(__file__).resolve().parent
CLIPPER = FOLDER / "clipper"
sys.path.insert(0, str(FOLDER.parent))
import fixed  # noqa: E402

RATE = 32000
# The tone stack: resistors in ohms, of which treble, bass and middle are turned to these shares, and capacitors in
# farads.
TREBLE, BASS, MIDDLE, SLOPE = 250e3, 1e6, 25e3, 56e3
TURNED_TREBLE, TURNED_BASS, TURNED_MIDDLE = 0.6, 0.3, 0.4
C1, C2, C3 = 250e-12, 20e-9, 20e-9
# The lowest pole is that of `low_cut`, whose mean moves by the share 2^-LOW_CUT.
LOW_CUT, TONE_PLACES = 8, 16
# The oversampling, the taps of its filters, their cutoff as a share of the fast rate, and the beta of their Kaiser
# window.
FAST, TAPS, EDGE, BETA = 4, 24, 0.115, 4.0
UP_PLACES, DOWN_PLACES = 14, 15
OPEN, PLACES = 0.01, 16
ROOM, ROOM_GAIN, VOLUME, WET = (971, 331, 113), 0.7, 0.6, 0.3


# The design, in real numbers


def cubic() -> tuple[list[float], list[float]]:
    """Numerator and denominator of the circuit, from the power 0 of s on: the stack of the '59 Bassman (Yeh and Smith,
    2006)."""
    t, b, m = TURNED_TREBLE, TURNED_BASS, TURNED_MIDDLE
    r1, r2, r3, r4 = TREBLE, BASS, MIDDLE, SLOPE
    c12, c13, c23, c123 = C1 * C2, C1 * C3, C2 * C3, C1 * C2 * C3
    over = [0, t * C1 * r1 + m * C3 * r3 + b * (C1 + C2) * r2 + (C1 + C2) * r3,
            t * (c12 + c13) * r1 * r4 - m * m * (c13 + c23) * r3**2 + m * (c13 * r1 * r3 + (c13 + c23) * r3**2)
            + b * (c12 * r1 * r2 + (c12 + c13) * r2 * r4) + b * m * (c13 + c23) * r2 * r3
            + c12 * r1 * r3 + (c12 + c13) * r3 * r4,
            c123 * (b * m * (r1 + r4) * r2 * r3 + (m - m * m) * (r1 + r4) * r3**2 + t * (1 - m) * r1 * r3 * r4 + t * b
                    * r1 * r2 * r4)]
    under = [1, C1 * r1 + (C1 + C2) * r3 + (C2 + C3) * r4 + m * C3 * r3 + b * (C1 + C2) * r2,
             m * (c13 * r1 * r3 - c23 * r3 * r4 + (c13 + c23) * r3**2) + b * m * (c13 + c23) * r2 * r3 - m * m
             * (c13 + c23) * r3**2
             + b * (c12 * r1 + (c12 + c13 + c23) * r4) * r2 + (c12 + c13) * r1 * r4 + c12 * r3 * r4 + c12 * r1 * r3
             + (c13 + c23) * r3 * r4,
             c123 * (b * m * (r1 + r4) * r2 * r3 - m * m * (r1 + r4) * r3**2 + m * ((r1 + r4) * r3**2 - r1 * r3 * r4)
                     + b * r1 * r2 * r4 + r1 * r3 * r4)]
    return over, under


def poles(under: list[float]) -> list[float]:
    """The three poles, which are real and below 0, the lowest first."""
    def value(s: float) -> float:
        return sum(part * s**power for power, part in enumerate(under))

    found, places = [], [-(10 ** (k / 1000)) for k in range(6001)]
    for low, high in zip(places, places[1:]):
        if value(low) * value(high) < 0:
            for _ in range(100):
                middle = (low + high) / 2
                low, high = (middle, high) if value(low) * value(middle) > 0 else (low, middle)
            found.append(low)
    return found


def turned(s: complex) -> complex:
    """Where the bilinear transform brings a pole or a zero."""
    return (2 * RATE + s) / (2 * RATE - s)


def tone_design() -> list[float]:
    """The coefficients b0 b1 b2 a1 a2 of the section that makes the stack with `low_cut`, with one that fits at 2,000
    Hz."""
    over, under = cubic()
    _, *rest = poles(under)
    root = cmath.sqrt(over[2]**2 - 4 * over[1] * over[3])
    zeros = [turned((-over[2] + sign * root) / (2 * over[3])) for sign in (1, -1)]
    own = [turned(pole) for pole in rest]
    above = [1, -sum(zeros).real, (zeros[0] * zeros[1]).real]
    below = [1, -sum(own), own[0] * own[1]]
    z = cmath.exp(-2j * math.pi * 2000 / RATE)
    s = 2 * RATE * (1 - z) / (1 + z)
    wanted = abs(sum(part * s**power for power, part in enumerate(over))
                 / sum(part * s**power for power, part in enumerate(under)))
    made = abs(low_cut_response(z) * sum(part * z**power for power, part in enumerate(above))
               / sum(part * z**power for power, part in enumerate(below)))
    return [*(part * wanted / made for part in above), *below[1:]]


def low_cut_response(z: complex) -> complex:
    keeps = 1 - 2**-LOW_CUT
    return keeps * (1 - z) / (1 - keeps * z)


def bessel(x: float) -> float:
    """The modified Bessel function of the first kind and the order 0."""
    return sum((x / 2) ** (2 * k) / math.factorial(k) ** 2 for k in range(40))


def taps() -> list[float]:
    """A sinc under a Kaiser window, with the sum 1."""
    middle, made = (TAPS - 1) / 2, []
    for k in range(TAPS):
        time = k - middle
        window = bessel(BETA * math.sqrt(1 - (time / middle) ** 2)) / bessel(BETA)
        made.append(math.sin(2 * math.pi * EDGE * time) / (math.pi * time) * window)
    return [tap / sum(made) for tap in made]


TONE = [fixed.literal(number, 18, TONE_PLACES) for number in tone_design()]
UP = [fixed.literal(FAST * tap, 16, UP_PLACES) for tap in taps()]
DOWN = [fixed.literal(tap, 16, DOWN_PLACES) for tap in taps()]


# The amplifier, in whole numbers


def nearest(number: Fraction | int, width: int) -> int:
    """The nearest word, and the last one of the range beyond it."""
    return fixed.quantised(number, width, 0, fixed.ROUND_SAT)


class Past:
    """The words of a signal, zeros before the first."""

    def __init__(self) -> None:
        self.words: list[int] = []

    def add(self, word: int) -> None:
        self.words.append(word)

    def __getitem__(self, back: int) -> int:
        return self.words[-back] if back <= len(self.words) else 0


class Gate:
    """Opens above a bound, waits 512 samples below the half of it, and fades within 64."""

    def __init__(self) -> None:
        self.wait, self.gain = 0, 0

    def next(self, x: int, bound: int) -> int:
        size = min(abs(x), 2**15 - 1)
        if size > bound:
            self.wait = 512
        elif self.wait:
            self.wait = self.wait - 1 if size < bound // 2 else 512
        self.gain = min(max(self.gain + (512 if self.wait else -512), 0), 2**15 - 1)
        return nearest(Fraction(self.gain * x, 2**15), 16)


class LowPass:
    """Goes toward the input by the share 2^-K."""

    def __init__(self, share: int) -> None:
        self.share, self.total, self.out = share, 0, 0

    def next(self, x: int) -> int:
        self.total += x - self.out
        self.out = math.floor(Fraction(self.total, 2**self.share) + Fraction(1, 2))
        return self.out


class Tone:
    """The tone stack: the input less its mean, and a section of the second order in direct form 1."""

    def __init__(self) -> None:
        self.mean, self.x, self.y = LowPass(LOW_CUT), Past(), Past()

    def next(self, x: int) -> int:
        cut = fixed.clip(x - self.mean.next(x), 20)
        b0, b1, b2, a1, a2 = TONE
        total = b0 * cut + b1 * self.x[1] + b2 * self.x[2] - a1 * self.y[1] - a2 * self.y[2]
        self.x.add(cut)
        self.y.add(nearest(Fraction(total, 2**TONE_PLACES), 20))
        return self.y[1]


class Clipper:
    """The cubic curve at four times the rate, between two filters."""

    def __init__(self) -> None:
        self.slow, self.fast = Past(), Past()

    def next(self, x: int) -> int:
        self.slow.add(x)
        for phase in range(FAST):
            total = sum(UP[FAST * k + phase] * self.slow[k + 1] for k in range(TAPS // FAST))
            self.fast.add(self.curve(nearest(Fraction(total, 2**UP_PLACES), 20)))
        return nearest(Fraction(sum(tap * self.fast[k + 1] for k, tap in enumerate(DOWN)), 2**DOWN_PLACES), 17)

    @staticmethod
    def curve(x: int) -> int:
        one = 2**PLACES
        v = fixed.clip(x, 17)
        square = nearest(Fraction(v * v, one), 18)
        return nearest(Fraction(v * (3 * one - square), 2 * one), 17)


class Allpass:
    """An echo of echoes, with a gain of 1 at all frequencies."""

    def __init__(self, delay: int) -> None:
        self.delay, self.x, self.y = delay, Past(), Past()

    def next(self, x: int) -> int:
        g = fixed.literal(ROOM_GAIN, 16, 15)
        self.y.add(nearest(self.x[self.delay] + Fraction(g * (self.y[self.delay] - x), 2**15), 20))
        self.x.add(x)
        return self.y[1]


class Amplifier:
    def __init__(self) -> None:
        self.gate, self.tone, self.clipper, self.speaker = Gate(), Tone(), Clipper(), LowPass(1)
        self.room = [Allpass(delay) for delay in ROOM]

    def driven(self, x: int, drive: int) -> int:
        """What goes into the clipper."""
        heard = self.gate.next(x, fixed.literal(OPEN, 16, 15))
        tone = self.tone.next(heard << 3)
        return nearest(Fraction(tone * drive, 2**(18 + 11 - PLACES)), 20)

    def next(self, hot: int) -> tuple[int, int]:
        """The clipper's word, and the output."""
        clipped = self.clipper.next(hot)
        dry = echo = self.speaker.next(clipped)
        for part in self.room:
            echo = part.next(echo)
        mixed = fixed.literal(VOLUME, 16, 15) * dry + fixed.literal(WET, 16, 15) * echo
        return clipped, nearest(Fraction(mixed, 2**PLACES), 16)


# The samples: how many are before the string, held and behind it

COUNTS = (250, 1450, 700)


def string(hertz: float, count: int, size: int, seed: int) -> Iterator[int]:
    """A string that is plucked (Karplus and Strong)."""
    line = fixed.noise(round(RATE / hertz), size, seed)
    line = [(a + b + c) // 3 for a, b, c in zip(line, line[1:] + line[:1], line[2:] + line[:2])]
    for n in range(count):
        yield line[n % len(line)]
        line[n % len(line)] = (line[n % len(line)] + line[(n + 1) % len(line)]) * 497 // 1000


def samples() -> Iterator[tuple[int, int]]:
    """Hum alone, a fifth that is plucked, and hum again: the sample, and the drive, which rises from 4 to 12 on the
    way."""
    hum = fixed.noise(sum(COUNTS), 60, 3)
    before, held, after = COUNTS
    fifth = [a + b for a, b in zip(string(110.0, held, 22000, 1), string(164.81, held, 18000, 2))]
    chord = [0] * before + fifth + [0] * after
    for n, (soft, loud) in enumerate(zip(hum, chord)):
        yield fixed.clip(soft + loud, 16), min(12, 4 + n // 150) * 2**11


def printed() -> None:
    """The coefficients as the sources have them."""
    for name, words, places in (("stack", TONE, TONE_PLACES), ("wide", UP, UP_PLACES), ("narrow", DOWN, DOWN_PLACES)):
        print(f"{name}: {', '.join(fixed.decimal(word, places) for word in words)}")


def impulse() -> list[tuple[int]]:
    """What the tone stack makes of a sample of a half, for the picture."""
    tone = Tone()
    return [(tone.next(2**17 if n == 0 else 0),) for n in range(4096)]


def main() -> int:
    if sys.argv[1:] == ["--coefficients"]:
        printed()
        return 0
    if sys.argv[1:] == ["--impulse"]:
        print(fixed.text_of(impulse()), end="")
        return 0
    given, amplifier = list(samples()), Amplifier()
    hot = [amplifier.driven(*row) for row in given]
    made = [amplifier.next(word) for word in hot]
    # The clipper by itself keeps the first sample of a frame, behind which its output stands: that of the frame before.
    alone = [(0,), *((clipped,) for clipped, _ in made[:-1])]
    status = 0
    for folder, rows, expected in ((FOLDER, given, [(out,) for _, out in made]),
                                   (CLIPPER, [(word,) for word in hot], alone)):
        try:
            fixed.main(folder, rows, expected, None)
        except SystemExit as ended:
            if not isinstance(ended.code, int):
                raise
            status = status or ended.code
    return status


if __name__ == "__main__":
    sys.exit(main())
