#!/usr/bin/env python3
"""Whether what tools/design says of levels is so. Its bounds, of sections with poles near the unit circle, are no less
than sums of magnitudes that are added up here to the last bit of a double, and hardly more; what needs more time is
told as such. The noise that it expects is within a decibel of what tools/noise measures, against the same source with
finer words.

usage: tests/design/check_levels.py

It runs the built `silc`, or the one that `SILC` names.
"""
import math
import random
import re
import subprocess
import sys
import tempfile
from collections.abc import Iterator
from concurrent.futures import ThreadPoolExecutor
from pathlib import Path

ROOT = Path(__file__).resolve().parent.parent.parent
DESIGN, NOISE = ROOT / "tools" / "design", ROOT / "tools" / "noise"
# Sections b0 a1 a2: a real pole at 0.99998, and a resonator at 50 Hz with the radius 0.99995.
# Random ones have radii up to 1 - 2^-NEAREST.
SLOW = [(0.000026, -0.99998, 0.0), (3.2725e-7, -1.99985717, 0.9999000025)]
RANDOM, NEAREST, PLACES = 6, 15, 30
# A bound is no more than this above the sum, and a sum is over where so little of a response is left.
LOOSE, OVER = 1.02, 1e-12
SHAPES = ["--shape", f"32,{PLACES}", "--input", "24,23", "--signal", "32"]
BOUND = re.compile(r"signals in fix<32,(\d+)>, scaled by l1, up to ([\d.]+) of .*? at most ([\d.]+) of the output")
# The elliptic low-pass of docs/DESIGN.md, and an equaliser.
ELLIPTIC = """0.01172741 0.01172741 0 1 -0.71404968 0
0.10615 0.034678 0.10615 0.1 -0.136203 0.06407
1 -0.51775 1 1 -1.313008 0.878966
"""
EQUALISER = """1.00654442 -1.98667862 0.9803045 1 -1.98667862 0.98684892
0.97954265 -1.87297131 0.9095902 1 -1.87297131 0.88913285
1.1101649 -0.7329578 0.355751 1 -0.7329578 0.465916
"""
NARROW = ["--shape", "16,14", "--input", "16,15", "--signal", "16"]
WIDE = ["--shape", "24,22", "--input", "16,15", "--signal", "32,28", "--norm", "none", "--order", "given"]
NOISES = [(sections, [*words, "--form", form, "--rounding", rounding]) for sections, words, form in (
    (ELLIPTIC, NARROW, "df1"), (ELLIPTIC, NARROW, "lattice"), (EQUALISER, WIDE, "df2t"))
    for rounding in ("nearest", "down")]
EXPECTED, MEASURED = re.compile(r"expected at (-[\d.]+) dB"), re.compile(r"noise (-[\d.]+) dB of full scale")
SAMPLES, LOUDNESS, DECIBEL = 6000, 5000, 1.0
# The processes of one check.
AT_A_TIME = 2


def ran(*words: str | Path, room: str, status: int = 0) -> subprocess.CompletedProcess:
    done = subprocess.run(words, cwd=room, capture_output=True, text=True, stdin=subprocess.DEVNULL)
    if done.returncode != status:
        raise ValueError(f"{' '.join(map(str, words))}: it ended with {done.returncode}: {done.stderr.strip()}")
    return done


def slow_sections() -> Iterator[tuple[float, float, float]]:
    dice = random.Random(1)
    yield from SLOW
    for _ in range(RANDOM):
        radius, angle = 1 - 2 ** -dice.uniform(5, NEAREST), dice.uniform(0.001, math.pi - 0.001)
        yield (1 - radius) * math.sin(angle), -2 * radius * math.cos(angle), radius * radius


def magnitudes(b0: float, a1: float, a2: float) -> tuple[float, float]:
    """The sum of magnitudes of 1 / (1 + a1 z^-1 + a2 z^-2), and b0, from words of the coefficients."""
    b0, a1, a2 = (math.floor(x * 2**PLACES + 0.5) / 2**PLACES for x in (b0, a1, a2))
    total, y, before = 0.0, 1.0, 0.0
    radius = math.sqrt(a2) if a1 * a1 < 4 * a2 else (abs(a1) + math.sqrt(a1 * a1 - 4 * a2)) / 2
    for _ in range(int(math.log(OVER) / math.log(radius))):
        total += abs(y)
        y, before = -a1 * y - a2 * before, y
    return total, b0


def bound_faults(section: tuple[float, float, float]) -> list[str]:
    """How the bounds of a section are not those of its words."""
    total, b0 = magnitudes(*section)
    with tempfile.TemporaryDirectory(prefix="silc-levels-test-") as folder:
        Path(folder, "slow").write_text("{} 0 0 1 {} {}\n".format(*map(repr, section)))
        said = BOUND.search(" ".join(ran(DESIGN, "sos", "slow", *SHAPES, room=folder).stdout.split()))
    if not said:
        return [f"{section}: there is no bound"]
    step, share, bits = 2.0 ** -int(said[1]), float(said[2]), float(said[3])
    products = 3 + 2 * bool(section[2])
    least = (b0 * total + total * products / 2 * step) / (2**31 - 1) / step
    faults = []
    if not least * (1 - 1e-9) <= share <= least * LOOSE + 0.001:
        faults.append(f"{section}: {share} of the range is said, and it is {least}")
    if not total * products / 2 * (1 - 1e-9) <= bits <= total * products / 2 * LOOSE + 0.1:
        faults.append(f"{section}: {bits} last bits are said, and it is {total * products / 2}")
    return faults


def time_faults() -> Iterator[str]:
    """Whether it is told that no bound was found in the time."""
    with tempfile.TemporaryDirectory(prefix="silc-levels-test-") as folder:
        Path(folder, "slow").write_text("{} 0 0 1 {} {}\n".format(*SLOW[0]))
        done = ran(DESIGN, "sos", "slow", *SHAPES, "--seconds", "1e-9", room=folder, status=3)
    said = " ".join(done.stdout.split())
    if done.stderr != "design: no bound was found within 1e-09 s; --seconds gives more time\n":
        yield f"without time it says {done.stderr}"
    wanted = ("by some input at least", "No bound was found of all errors of rounding")
    unwanted = ("no input", "up to", "together are")
    if any(text not in said for text in wanted) or any(text in said for text in unwanted):
        yield f"without time the comment is {said}"


def finer(source: str) -> str:
    """The same source with signals of 36 bits at least and sums of 40, in which each product is rounded."""
    body = source[source.index("*/") + 2:]
    signal = re.search(r"func main\(.*?\) y : fix<(\d+),(\d+)", body)
    width, places = map(int, signal.groups())
    body = re.sub(r"fix<32,(?!28)\d+>", f"fix<40,{40 - width + places},round>", body)
    wide = 36 if width < 32 else 40
    return re.sub(rf"fix<{width},{places}(,round)?>", f"fix<{wide},{wide - width + places},round>", body)


def noise_faults(sections: str, words: list[str]) -> list[str]:
    named = " ".join(words)
    dice = random.Random(named)
    with tempfile.TemporaryDirectory(prefix="silc-levels-test-") as folder:
        room = Path(folder)
        (room / "sections").write_text(sections)
        source = ran(DESIGN, "sos", "sections", *words, room=folder).stdout
        (room / "own.sil").write_text(source)
        (room / "fine.sil").write_text(finer(source))
        (room / "samples").write_text("".join(f"{round(max(-32768, min(32767, dice.gauss(0, LOUDNESS))))}\n"
                                              for _ in range(SAMPLES)))
        said = ran(NOISE, "own.sil", "samples", "--against", "fine.sil", room=folder).stdout
    expected, measured = (float(found.search(text)[1]) for found, text in (
        (EXPECTED, " ".join(source.split())), (MEASURED, said)))
    if abs(expected - measured) <= DECIBEL:
        return []
    return [f"{named}: {expected} dB are expected, and {measured} dB measured"]


def main() -> int:
    with ThreadPoolExecutor(AT_A_TIME) as pool:
        faults = [fault for found in pool.map(bound_faults, slow_sections()) for fault in found]
        faults += [fault for found in pool.map(noise_faults, *zip(*NOISES)) for fault in found]
    faults += time_faults()
    for fault in faults:
        print(fault)
    print(
        f"levels: bounds of {len(SLOW) + RANDOM} sections, and the noise of {len(NOISES)} filters, {len(faults)} "
        f"faults")
    return 1 if faults else 0


if __name__ == "__main__":
    sys.exit(main())
