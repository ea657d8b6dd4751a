#!/usr/bin/env python3
"""Computes the samples and the expected rows of this example, by the scripts of the three examples that it joins.

usage: rows.py [--check]
"""
import math
import sys
from collections.abc import Iterator
from pathlib import Path

FOLDER = Path(__file__).resolve().parent
sys.path.insert(0, str(FOLDER.parent))
import fixed  # noqa: E402

echo, dtmf, adpcm = (fixed.script_of(FOLDER.parent / name) for name in ("echo", "dtmf", "adpcm"))
LOUD, QUIET, HISS = 16000, 600, 8
# Of each block how loud the loudspeaker is, and which key is held at the near end, or that somebody speaks there.
KEYS = {"5": (770, 1336), "#": (941, 1477)}
BLOCKS = [(LOUD, None)] * 4 + [(QUIET, what) for what in (None, "5", "5", None, "#", None, "speech", "speech")]
LEVEL, VOWEL = 9000, (9000, (250, 600, 2300))


def near_end(what: str | None) -> Iterator[int]:
    """What is said at the near end in a block."""
    level, tones = (LEVEL, KEYS[what]) if what in KEYS else VOWEL if what else (0, ())
    for n in range(dtmf.BLOCK):
        shares = (math.sin(2 * math.pi * hertz * n / dtmf.RATE) / (1 if what in KEYS else k + 1)
                  for k, hertz in enumerate(tones))
        yield round(level * sum(shares))


def samples() -> Iterator[tuple[int, int]]:
    """The loudspeaker, and in the microphone its echo, what is said at the near end, and noise of its own."""
    count = len(BLOCKS) * dtmf.BLOCK
    loud = [level for level, _ in BLOCKS for _ in range(dtmf.BLOCK)]
    far = [word * level // LOUD for word, level in zip(fixed.noise(count, LOUD, seed=21), loud)]
    near = [word for _, what in BLOCKS for word in near_end(what)]
    past = [0] * echo.TAPS + far
    for n, (word, said, hiss) in enumerate(zip(far, near, fixed.noise(count, HISS, seed=22))):
        heard = sum(share * past[n + echo.TAPS - k] for k, share in enumerate(echo.ROOMS[0])) // 128
        yield word, heard + said + hiss


def put(rows: list[tuple[int, int]]) -> list[tuple[int, ...]]:
    """Of each sample the code of what the canceller leaves, and the key that is received in it."""
    left = list(echo.cancelled(rows))
    return [(code, *key) for (code, _), key in zip(adpcm.coded(left), dtmf.decided(left))]


if __name__ == "__main__":
    given = list(samples())
    fixed.main(FOLDER, given, put(given), None)
