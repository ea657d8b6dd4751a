#!/usr/bin/env python3
"""Computes the samples and the expected rows of this example, at the fast rate and over frames of four samples.

The taps and the samples are those of the example `decimate`.

usage: expected.py [--check | --ratio]
"""
import runpy
import sys
from pathlib import Path

FOLDER = Path(__file__).resolve().parent
sys.path.insert(0, str(FOLDER.parent))
import fixed  # noqa: E402

DECIMATE = runpy.run_path(str(FOLDER.parent / "decimate" / "expected.py"))
# The newest sample of a sum is the one before, so that those of the first sample of a frame need no other of that
# frame.
NEWEST, PHASES = 1, 4


def filtered(words: list[int]) -> list[int]:
    sums = fixed.filtered(DECIMATE["coefficients"](), words, NEWEST)
    return [fixed.quantised(fixed.number(exact, 30), 16, 15, fixed.ROUND) for exact in sums]


if __name__ == "__main__":
    given = [word for row in DECIMATE["samples"]() for word in row]
    words = filtered(given)
    fixed.main(FOLDER, [(word,) for word in given], [(word,) for word in words],
               lambda: (words, fixed.filtered(DECIMATE["design"](), given, NEWEST)), (PHASES, [0], []))
