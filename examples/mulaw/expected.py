#!/usr/bin/env python3
"""Computes the samples and the expected rows of this example.

usage: expected.py [--check | --ratio]
"""
import math
import sys
from pathlib import Path

FOLDER = Path(__file__).resolve().parent
sys.path.insert(0, str(FOLDER.parent))
import fixed  # noqa: E402

BIAS, LARGEST = 33, 8191


def compressed(sample: int) -> int:
    """The byte on the line: sign, segment and step, each bit inverted; as a number from -128 to 127."""
    biased = min(abs(sample) + BIAS, LARGEST)
    segment = biased.bit_length() - BIAS.bit_length()
    step = (biased >> (segment + 1)) & 15
    byte = (128 if sample < 0 else 0) | segment << 4 | step
    return fixed.wrap(byte ^ 255, 8)


def expanded(code: int) -> int:
    """The sample in the middle of those that have a code."""
    byte = code % 256 ^ 255
    size = ((byte & 15) * 2 + BIAS << (byte >> 4 & 7)) - BIAS
    return -size if byte & 128 else size


def samples() -> list[int]:
    """Each border of a segment with the samples beside it, both ends, a tone that decays, and noise."""
    borders = [sign * ((1 << k) - BIAS + d) for k in range(6, 14) for d in (-1, 0, 1) for sign in (1, -1)]
    decay = [round(8191 * 0.96**n * math.sin(2 * math.pi * n / 11)) for n in range(120)]
    inside = [min(max(sample, -8192), 8191) for sample in borders]
    return [0, 1, -1, 8191, -8192, 8158, 8159, -8158, -8159] + inside + decay + fixed.noise(64, 8191)


if __name__ == "__main__":
    words = samples()
    rows = [(compressed(word),) for word in words]
    fixed.main(FOLDER, [(word,) for word in words], rows, lambda: ([expanded(code) for (code,) in rows], words))
