#!/usr/bin/env python3
"""Whether the filters among the examples that are others' designs do what these ask for, by the rows of `silc eval` on
an impulse: the A-weighting of IEC 61672, three bands of the equaliser cookbook, and a half-band filter with 80 dB.

usage: tests/design/check_examples.py

It runs the built `silc`, or the one that `SILC` names.
"""
import cmath
import math
import sys
from collections.abc import Iterator, Sequence
from pathlib import Path

from silc.designing.programs import evaluated

ROOT = Path(__file__).resolve().parent.parent.parent
EXAMPLES, RATE = ROOT / "examples", 48000
# The nominal thirds of an octave from 40 Hz to 8 kHz. Up to 4 kHz the weighting may be off by 1 dB, above by these.
THIRDS = (40, 50, 63, 80, 100, 125, 160, 200, 250, 315, 400, 500, 630, 800, 1000, 1250, 1600, 2000, 2500, 3150, 4000,
          5000, 6300, 8000)
MIDDLE, NEAR, ABOVE, BELOW = 4000, 1.0, 1.5, -2.5
# The centre, gain in decibels and quality of each band of the equaliser, and by how much its response may be off.
BANDS, EQUAL = ((100, 6, 0.7), (1000, -4, 1.4), (8000, 3, 1.0)), 0.01
# Where the interpolator's pass band ends and its stop band begins, as shares of the rate that it puts out.
PASS_END, STOP_BEGIN, RIPPLE, STOPPED = 0.2, 0.3, 0.01, -80.0


def response_of(name: str, impulse: int, length: int, places: int) -> list[list[float]]:
    """The rows of an example on an impulse, as values for each output."""
    source = (EXAMPLES / name / f"{name}.sil").read_text()
    rows = evaluated(source, [(impulse,), *[(0,)] * (length - 1)])
    return [[word * 2.0**15 / impulse / 2.0**places for word in column] for column in zip(*rows)]


def decibels(values: Sequence[float], share: float) -> float:
    turn = cmath.exp(-2j * math.pi * share)
    total = 0
    for value in reversed(values):
        total = total * turn + value
    return 20 * math.log10(max(abs(total), 1e-9))


def a_weighting(f: float) -> float:
    """The curve of IEC 61672 at a frequency, in decibels."""
    return 2.00 + 20 * math.log10(12194.217**2 * f**4 / ((f * f + 20.598997**2) * math.sqrt(
        (f * f + 107.65265**2) * (f * f + 737.86223**2)) * (f * f + 12194.217**2)))


def weighting_faults() -> Iterator[str]:
    (values,) = response_of("aweight", 32767, 8192, 21)
    for f in THIRDS:
        off = decibels(values, f / RATE) - a_weighting(f)
        low, high = (-NEAR, NEAR) if f <= MIDDLE else (BELOW, ABOVE)
        if not low <= off <= high:
            yield f"aweight: {off:.2f} dB off at {f} Hz"


def peaking(hertz: float, gain: float, quality: float, share: float) -> float:
    """The magnitude of a band of the cookbook, in decibels."""
    root, angle = 10 ** (gain / 40), 2 * math.pi * hertz / RATE
    width, cosine, turn = math.sin(angle) / (2 * quality), -2 * math.cos(angle), cmath.exp(-2j * math.pi * share)
    made = (1 + width * root + cosine * turn + (1 - width * root) * turn**2) / (
        1 + width / root + cosine * turn + (1 - width / root) * turn**2)
    return 20 * math.log10(abs(made))


def equaliser_faults() -> Iterator[str]:
    (values,) = response_of("equaliser", 16384, 4096, 28)
    for f in (25, *THIRDS, 12000, 20000):
        off = decibels(values, f / RATE) - sum(peaking(*band, f / RATE) for band in BANDS)
        if abs(off) > EQUAL:
            yield f"equaliser: {off:.3f} dB off at {f} Hz"


def interpolator_faults() -> Iterator[str]:
    first, second = response_of("halfband", 32767, 64, 21)
    values = [value / 2 for pair in zip(first, second) for value in pair]
    for share in (k / 2000 for k in range(1001)):
        level = decibels(values, share)
        if share <= PASS_END and abs(level) > RIPPLE or share >= STOP_BEGIN and level > STOPPED:
            yield f"halfband: {level:.2f} dB at {share} of the rate"


def main() -> int:
    faults = [*weighting_faults(), *equaliser_faults(), *interpolator_faults()]
    for fault in faults:
        print(fault)
    print(f"design: three filters of others, {len(faults)} faults")
    return 1 if faults else 0


if __name__ == "__main__":
    sys.exit(main())
