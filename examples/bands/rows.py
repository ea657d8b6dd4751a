#!/usr/bin/env python3
"""Computes the samples and the expected rows of this example, by the script of the equaliser of three bands.

usage: rows.py [--check | --ratio]
"""
import math
import sys
from pathlib import Path

FOLDER = Path(__file__).resolve().parent
sys.path.insert(0, str(FOLDER.parent))
import fixed  # noqa: E402

equaliser = fixed.script_of(FOLDER.parent / "equaliser")
QUALITY = 1.4
# Of each band the frequency in hertz and the gain in decibels.
GAINS = ((125, 3), (250, -2), (500, 4), (1000, -5), (2000, 3), (4000, -3), (8000, 5), (16000, -2))
BANDS = [(*band, QUALITY) for band in GAINS]


def samples() -> list[int]:
    """An impulse, a tone in each band, and noise."""
    tones = [round(9000 * math.sin(2 * math.pi * hertz * n / equaliser.RATE)) for hertz, _ in GAINS for n in range(96)]
    return [16384] + [0] * 127 + tones + fixed.noise(128, 32767, seed=31)


if __name__ == "__main__":
    given = samples()
    rows = equaliser.filtered(given, BANDS)
    fixed.main(FOLDER, [(word,) for word in given], [(word,) for word in rows],
               lambda: (rows, equaliser.real(given, BANDS)))
