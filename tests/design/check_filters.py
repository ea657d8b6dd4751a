#!/usr/bin/env python3
"""Whether tools/design does what the comments of its sources say: 50 random filters of the orders 1 to 12, designed by
SciPy, each written as a source, compiled over a datapath, and evaluated on an impulse. The response of the rows is
compared with that of the coefficients that SciPy gave.

usage: tests/design/check_filters.py [COUNT]

It runs the built `silc`, or the one that `SILC` names. Without SciPy all are skipped, and it ends with 77.
"""
import cmath
import math
import random
import re
import subprocess
import sys
import tempfile
from collections.abc import Iterator, Sequence
from concurrent.futures import ProcessPoolExecutor
from pathlib import Path
from typing import Any, TypeAlias

from silc import programs
from silc.designing import scipy_designs
from silc.designing.filters import roots
from silc.designing.spectra import fft

# Rows of b0, b1, b2, a0, a1 and a2.
Sections: TypeAlias = Sequence[Sequence[float]]

HERE = Path(__file__).resolve().parent
ROOT = HERE.parent.parent
SILC = Path(programs.SILC.place())
COUNT, RATE, MOST_ORDER, SKIPPED = 50, 48000, 12, 77
COEFFICIENTS = "coefficients"
KINDS = ("butter", "cheby1", "cheby2", "ellip")
FORMS = ("df1", "df2t", "lattice")
SHAPE, BETTER = "24,22", re.compile(r"; fix<(\d+,\d+)> has one")
NORMS = ("l1", "l2", "peak")
# The impulse, as a word of fix<16,15> and as a number; how long its response is looked at.
IMPULSE, SIZE, LEAST_LENGTH, MOST_LENGTH, OVER, BINS = 16384, 0.5, 32, 1 << 14, 1e-7, 1024
# The bands, as docs/DESIGN.md has them: down to 3 dB and from 20 dB on below the greatest gain.
PASS, STOP = -3.0, -20.0
SAID = re.compile(
    r"rounding together are at most ([\d.]+) of .*? by at most ([\d.]+) dB in the pass band(?:, and in the stop band "
    r"by at most (-?[\d.]+) dB)?")


class Asked:
    """A filter that a seed makes."""

    def __init__(self, seed: int) -> None:
        dice = random.Random(seed)
        self.order, self.kind = seed % MOST_ORDER + 1, KINDS[seed % len(KINDS)]
        self.band = dice.choice(["lowpass", "highpass"] + ["bandpass", "bandstop"] * (self.order % 2 == 0))
        edge = RATE * dice.uniform(0.03, 0.3)
        is_wide = self.band in ("bandpass", "bandstop")
        self.edges = [edge, edge * dice.uniform(1.3, 1.6)] if is_wide else [edge]
        self.sections = self.order // 2 if is_wide else self.order
        self.ripple, self.attenuation = dice.uniform(0.1, 2), dice.uniform(30, 70)
        self.form, self.norm = dice.choice(FORMS), dice.choice(NORMS)

    def __str__(self) -> str:
        return (f"{self.kind} {self.order} {self.band} {' '.join(f'{edge:.0f}' for edge in self.edges)} {self.form} "
                f"{self.norm}")

    def words(self, shape: str) -> list[str]:
        return ["sos", COEFFICIENTS, "--shape", shape, "--input", "16,15", "--signal", "32", "--form", self.form,
                "--norm", self.norm]

    def design(self) -> dict[str, Any]:
        """What SciPy is asked for."""
        return {"design": "iir", "order": self.sections, "edges": self.edges, "band": self.band, "kind": self.kind,
                "ripple": self.ripple, "attenuation": self.attenuation, "rate": float(RATE)}


def gain_of(sections: Sections, share: float) -> float:
    """The magnitude of sections, rows b0 b1 b2 a0 a1 a2, at a share of the rate."""
    turn = cmath.exp(-2j * math.pi * share)
    return math.prod(abs(b0 + turn * (b1 + turn * b2)) / abs(a0 + turn * (a1 + turn * a2))
                     for b0, b1, b2, a0, a1, a2 in sections)


def datapath() -> str:
    """A processor with room for the greatest of the filters."""
    units = {"inp": ("in", 0), "rom": ("rom", 0), "alu": ("alu", 2), "mul": ("mul", 2), "pick": ("sel", 3),
             "mem": ("ram", 2), "outp": ("out", 1)}
    text = "period = 400\nword = 32\n"
    for name, (kind, ports) in units.items():
        files = f"files = {[200] * ports}\n" if ports else ""
        text += f"[[unit]]\nname = '{name}'\nkind = '{kind}'\n{files}" + ("cells = 200\n" if kind == "ram" else "")
    text += "[[unit]]\nname = 'adr'\nkind = 'acu'\nram = 'mem'\n"
    ends = [f"{name}.{port}" for name, (_, ports) in units.items() for port in range(ports)]
    for bus in ("a", "b", "c"):
        text += f"[[bus]]\nname = '{bus}'\nfrom = {[name for name in units if name != 'outp']}\nto = {ends}\n"
    return text + "[[bus]]\nname = 'place'\nfrom = ['adr']\nto = ['mem.0']\n"


def ran(*words: str | Path, room: Path) -> str:
    done = subprocess.run(words, cwd=room, capture_output=True, text=True, stdin=subprocess.DEVNULL)
    if done.returncode:
        raise ValueError(done.stderr.strip() or f"{words[0]} ended with {done.returncode}")
    return done.stdout


def length_of(sections: Sections) -> int:
    """How long the response of sections goes on, by the distance of their poles from the unit circle."""
    radius = max(max(map(abs, roots(*section[3:]))) for section in sections)
    length = math.log(OVER) / math.log(radius) if radius > 0 else LEAST_LENGTH
    return int(min(max(length, LEAST_LENGTH), MOST_LENGTH))


def response_of(room: Path, places: int, length: int) -> list[float]:
    """The response of the rows on an impulse."""
    (room / "samples").write_text(f"{IMPULSE}\n" + "0\n" * (length - 1))
    ran(SILC, "eval", "source", "samples", "rows", room=room)
    return [int(line) / 2**places / SIZE for line in (room / "rows").read_text().split()]


def spectrum(rows: Sequence[float], size: int) -> list[float]:
    """The magnitudes of rows at the shares of the rate from 0 to a half, in steps of one in this many."""
    return [abs(x) for x in fft([*rows, *[0.0] * (size - len(rows))])[: size // 2 + 1]]


def source_of(asked: Asked, room: Path) -> str:
    """The source, with coefficients in the shape that the tool names where there is no place for one of them."""
    try:
        return ran(ROOT / "tools" / "design", *asked.words(SHAPE), room=room)
    except ValueError as why:
        named = BETTER.search(str(why))
        if not named:
            raise
        return ran(ROOT / "tools" / "design", *asked.words(named[1]), room=room)


def faults_of(asked: Asked, sections: Sections, room: Path) -> Iterator[str]:
    """How a filter's response is not what its source's comment says."""
    (room / COEFFICIENTS).write_text("".join(" ".join(map(repr, section)) + "\n" for section in sections))
    source = source_of(asked, room)
    (room / "source").write_text(source)
    (room / "datapath").write_text(datapath())
    ran(SILC, "compile", "source", "datapath", "image", room=room)
    rounded, passed, stopped = SAID.search(" ".join(source.split())).groups()
    places = int(re.search(r"func main\(.*?\) y : fix<32,(\d+)", source)[1])
    length = length_of(sections)
    size = max(BINS, 1 << (length - 1).bit_length())
    rows = response_of(room, places, 2 * length)
    # What goes on after the response has died out comes from rounding alone.
    made, rest = spectrum(rows[:length], size), spectrum(rows[length:], size)
    wanted = [gain_of(sections, k / size) for k in range(len(made))]
    top, bit = max(wanted), 1 / 2**places / SIZE
    if length < MOST_LENGTH and max(map(abs, rows[length:])) > float(rounded) * bit + OVER:
        yield f"{asked}: it goes on with {max(map(abs, rows[length:])) / bit:.1f} last bits, and {rounded} is said"
    # Up to then the errors of rounding, at most so many last bits in each row, add up as noise does, or as they go on.
    noise = math.sqrt(length) * float(rounded) * bit + OVER
    for share, (one, other, after) in enumerate(zip(wanted, made, rest)):
        level = 20 * math.log10(max(one / top, 1e-12))
        off = abs(other - one) - noise - after
        if level >= PASS and off > one * (10 ** (float(passed) / 20) - 1):
            yield (f"{asked}: it moved by {20 * math.log10(other / one):.4f} dB at {share / size:.5f}, and {passed} is "
                   f"said")
        if level <= STOP and off > top * 10 ** (float(stopped) / 20):
            yield (f"{asked}: at {share / size:.5f} it is {other:.3g} in the place of {one:.3g}, and {stopped} dB is "
                   f"said")


def judged(asked: Asked, sections: Sections) -> list[str]:
    with tempfile.TemporaryDirectory(prefix="silc-design-test-") as folder:
        try:
            return list(faults_of(asked, sections, Path(folder)))
        except ValueError as fault:
            return [f"{asked}: {fault}"]


def main(words: list[str]) -> int:
    count = int(words[0]) if words else COUNT
    filters = list(map(Asked, range(count)))
    try:
        designs = scipy_designs.designed(several=[asked.design() for asked in filters])
    except scipy_designs.Lacking as why:
        print(f"design: {why}: {count} filters skipped")
        return SKIPPED
    with ProcessPoolExecutor() as pool:
        faults = list(pool.map(judged, filters, designs))
    for fault in (fault for found in faults for fault in found[:3]):
        print(fault)
    failed = sum(map(bool, faults))
    print(
        f"design: of {count} random filters {count - failed} compile and respond as their comments say, {failed} do "
        f"not")
    return 1 if failed else 0


if __name__ == "__main__":
    sys.exit(main(sys.argv[1:]))
