#!/usr/bin/env python3
"""Whether `silc list` and `silc sim` read microcode as python/silc/micro_file does, in both versions.

usage: tests/microcode/check_listings.py [--silc PROGRAM]

It takes the microcode files of tests/ and images that are made here, among them one with each number at the ends of its
range. In each version the listing is that of the fields which python/silc/micro_file reads, and `sim` ends on the same
samples with the same line and the same rows. Where the program is not built it is skipped, with 77. The last line is
'N passed, M failed'.
"""
import os
import random
import subprocess
import sys
import tempfile
from collections.abc import Iterator, Sequence
from pathlib import Path

from images import directed_images, random_images
from silc import micro_file
from silc.fuzzing.microcode import busy, crowded, image, issue, unit, verbose, wide, word
from silc.micro_file.operations import KINDS

HERE = Path(__file__).resolve().parent
ROOT = HERE.parent.parent
SILC = ROOT / "crates" / "silc_main" / "out" / "silc_main"
RANDOM, ROWS, SMALL, SKIPPED = 60, 6, 60_000, 77
HALF = 1 << 39


def ends_of_ranges() -> bytes:
    """Each number at both ends of its range, in an image of 16 inputs and outputs, 32 units and 32 buses."""
    units = [unit(kind, 8 if number < 16 else 1, 8 if number < 8 else 1, cells=cells_of(number),
                  ram=30 if number > 15 else 6) for number, kind in enumerate(list(KINDS) * 4)]
    last = word([issue(0, "input", argument=15), issue(1, "output", [15], 15), issue(2, "const", argument=-HALF),
                 issue(3, "add", [15, 15], width=40, shift=80, mode=3), issue(4, "mul", [0, 15], width=1, shift=-40),
                 issue(5, "sel", [0, 15, 7]), issue(6, "store", [15, 15]), issue(7, "addr", argument=65535)],
                [(0, 0), (0, 31), (31, 0), (31, 31)], [(1, 0, 0, 0), (1, 0, 31, 15), (30, 1, 31, 15)])
    first = word([issue(2, "const", argument=HALF - 1), issue(3, "not", [15, 0]), issue(6, "load", [15, 0])])
    return image(4096, 1, [0, 1, 40] * 5 + [1], 16, units, 32, [first] + [word()] * 4094 + [last])


def cells_of(number: int) -> list[int]:
    return [0] * 65535 + [-HALF] if number == 6 else [0] * (number + 1)


def images() -> Iterator[tuple[str, bytes]]:
    """Microcode of version 1 with its name."""
    for file in sorted((ROOT / "tests").glob("*/*.mic")):
        yield str(file.relative_to(ROOT)), file.read_bytes()
    for name, data, _ in (*directed_images(), *random_images(RANDOM)):
        yield name, data
    for made in (wide, crowded, verbose):
        yield f"{made.__name__} words", made(SMALL)
    yield "a busy image", busy()
    yield "the ends of ranges", ends_of_ranges()


def samples_for(inputs: Sequence[int]) -> str:
    """Rows of words of these widths, the same each time."""
    rng = random.Random(str(inputs))
    return "".join(",".join(str(word_of(rng, width)) for width in inputs) + "\n" for _ in range(ROWS))


def word_of(rng: random.Random, width: int) -> int:
    half = 1 << max(width - 1, 0)
    return rng.choice([-half, half - 1, rng.randrange(-half, half)]) if width else rng.randrange(2)


def ran(silc: Path, folder: Path, *words: str) -> tuple[int, str, str, str | None]:
    (folder / "OUT").unlink(missing_ok=True)
    done = subprocess.run([silc, *words], cwd=folder, stdin=subprocess.DEVNULL, capture_output=True, text=True)
    out = folder / "OUT"
    return done.returncode, done.stdout, done.stderr, out.read_text() if out.exists() else None


def faults_of(silc: Path, folder: Path, data: bytes) -> Iterator[str]:
    """How the program reads the image of these bytes otherwise than python/silc/micro_file, or otherwise in one
    version."""
    made, runs = micro_file.image_of(data), []
    (folder / "SAMPLES").write_text(samples_for(made.inputs))
    for version in micro_file.VERSIONS:
        (folder / "MIC").write_bytes(micro_file.bytes_of(made, version))
        listed = ran(silc, folder, "list", "MIC")
        if listed != (0, made.listing(), "", None):
            yield f"version {version}: list ended with {listed[0]}, {listed[2]}, or the listing is another"
        runs.append(ran(silc, folder, "sim", "MIC", "SAMPLES", "OUT"))
    if runs[0] != runs[1]:
        yield f"sim ends with {runs[0][0]}, {runs[0][2]} and {runs[1][0]}, {runs[1][2]}, or the rows are others"


def main(words: list[str]) -> int:
    if words and (len(words) != 2 or words[0] != "--silc"):
        print(__doc__, file=sys.stderr)
        return 2
    silc = Path(words[1]).resolve() if words else SILC
    if not os.access(silc, os.X_OK):
        print(f"check_listings: skipped: there is no program {silc}; `tools/build silc_main` builds it")
        return SKIPPED
    passed = failed = 0
    with tempfile.TemporaryDirectory(prefix="silc-listings-") as folder:
        for name, data in images():
            faults = list(faults_of(silc, Path(folder), data))
            passed, failed = passed + (not faults), failed + bool(faults)
            for fault in faults:
                print(f"{name}: {fault}", flush=True)
    print(f"{passed} passed, {failed} failed")
    return 1 if failed or not passed else 0


if __name__ == "__main__":
    sys.exit(main(sys.argv[1:]))
