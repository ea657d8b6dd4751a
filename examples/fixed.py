"""Exact fixed-point arithmetic on raw words, for the scripts that compute expected rows.

It uses whole numbers and fractions alone, and nothing of silc.
"""
import importlib.util
import math
import sys
from collections.abc import Callable, Collection, Iterable, Sequence
from fractions import Fraction
from pathlib import Path
from types import ModuleType
from typing import TypeAlias, TypeVar

# Rows of raw words.
Rows: TypeAlias = Iterable[Sequence[int]]
# The M, DOWN and UP of an example that runs over frames.
Rates: TypeAlias = tuple[int, Collection[int], Collection[int]]
Number = TypeVar("Number", int, float)

TRUNC, ROUND, SAT, ROUND_SAT = "trunc", "round", "sat", "round,sat"


def wrap(number: int, width: int) -> int:
    """The two's-complement word of so many bits."""
    half = 1 << (width - 1)
    return (number + half) % (2 * half) - half


def clip(number: int, width: int) -> int:
    """The nearest word of so many bits."""
    half = 1 << (width - 1)
    return max(-half, min(half - 1, number))


def fit(number: int, width: int, mode: str = TRUNC) -> int:
    """A whole number as a word: clipped where the mode saturates, else wrapped."""
    return clip(number, width) if mode in (SAT, ROUND_SAT) else wrap(number, width)


def quantised(exact: Fraction | int, width: int, places: int, mode: str = TRUNC) -> int:
    """The raw word of an exact number in fix<width,places>: cut or rounded by the mode, then fitted."""
    scaled = Fraction(exact) * 2**places
    return fit(math.floor(scaled + Fraction(1, 2)) if mode in (ROUND, ROUND_SAT) else math.floor(scaled), width, mode)


def number(word: int, places: int) -> Fraction:
    """The exact number that a raw word stands for."""
    return Fraction(word, 2**places)


def literal(value: str | float | Fraction, width: int, places: int) -> int:
    """The raw word of a number that is written in a source: the nearest one."""
    word = math.floor(Fraction(value) * 2**places + Fraction(1, 2))
    if word != wrap(word, width):
        raise ValueError(f"{value} is not in fix<{width},{places}>")
    return word


def decimal(word: int, places: int) -> str:
    """A raw word as the decimal number that it is exactly, as a source has it."""
    exact = Fraction(word, 2**places)
    digits = f"{abs(exact.numerator) * 10**places // exact.denominator:0{places + 1}d}"
    text = f"{digits[:-places]}.{digits[-places:]}".rstrip("0")
    return ("-" if exact < 0 else "") + (text + "0" if text.endswith(".") else text)


def rows_of(file: str | Path) -> list[tuple[int, ...]]:
    return [tuple(map(int, line.split(","))) for line in Path(file).read_text().split()]


def text_of(rows: Rows) -> str:
    return "".join(",".join(map(str, row)) + "\n" for row in rows)


def bessel(x: float) -> float:
    """The modified Bessel function of the first kind and order 0, by its series."""
    term = total = 1.0
    for k in range(1, 60):
        term *= (x / 2 / k) ** 2
        total += term
    return total


def kaiser(n: int, taps: int, beta: float) -> float:
    """Tap n of a Kaiser window."""
    middle = (taps - 1) / 2
    return bessel(beta * math.sqrt(1 - ((n - middle) / middle) ** 2)) / bessel(beta)


def lowpass(taps: int, cutoff: float, beta: float, gain: float = 1) -> list[float]:
    """A sinc with its cutoff at a share of the rate under a Kaiser window, of an even number of taps, scaled to a
    sum."""
    made = []
    for n in range(taps):
        place = n - (taps - 1) / 2
        made.append(kaiser(n, taps, beta) * math.sin(2 * math.pi * cutoff * place) / (math.pi * place))
    return [gain * tap / sum(made) for tap in made]


def stuffed(words: Iterable[int], phases: int) -> list[int]:
    """The samples of the fast rate, of which so many come for each word: the word, and zeros."""
    return [sample for word in words for sample in (word, *[0] * (phases - 1))]


def filtered(taps: Sequence[Number], words: Sequence[Number], first: int = 0) -> list[Number]:
    """The exact sums of taps and words, as many words ago as each tap's number and `first` say; all before is 0."""
    past = [*[0] * (len(taps) - 1 + first), *words]
    ends = range(len(taps) - 1, len(taps) - 1 + len(words))
    return [sum(tap * past[end - k] for k, tap in enumerate(taps)) for end in ends]


def frames_of(rows: Sequence[Sequence[int]], phases: int, slow: Collection[int]) -> list[tuple[int, ...]]:
    """Rows of so many samples at a time as rows of frames: the words in order, each with its samples in turn, and those
    that are slow with the first sample alone."""
    frames = [rows[first:first + phases] for first in range(0, len(rows), phases)]
    return [tuple(row[word] for word in range(len(frame[0])) for row in frame[:1 if word in slow else phases])
            for frame in frames]


def listed(words: Iterable[int]) -> str:
    """A list of words as the command `frame` has it."""
    return ",".join(map(str, words)) or "-"


def ratio(words: Sequence[int], reals: Sequence[float]) -> float:
    """How many decibels the words are above their difference from real numbers, both in units of the last bit."""
    noise_power = sum((word - real) ** 2 for word, real in zip(words, reals, strict=True))
    return 10 * math.log10(sum(real**2 for real in reals) / noise_power)


def made_frames(samples: Sequence[Sequence[int]], rows: Sequence[Sequence[int]], phases: int, down: Collection[int],
                up: Collection[int]) -> dict[str, str]:
    """The files of an example over frames: the words M, DOWN and UP of `frame`, the samples and the expected rows."""
    return {"frames/rates.txt": f"{phases} {listed(down)} {listed(up)}\n",
            "frames/samples.txt": text_of(frames_of(samples, phases, up)),
            "frames/expected.txt": text_of(frames_of(rows, phases, down))}


def main(folder: Path, samples: Rows, rows: Rows, compared: Callable[[], tuple[Sequence[int], Sequence[float]]] | None,
         rates: Rates | None = None) -> None:
    """Writes the samples and the expected rows of an example, or with --check compares them with those that stand
    there.

    Where the example runs over frames too, `rates` are its M, DOWN and UP. With --ratio it prints the signal-to-noise
    ratio in decibels of the words against the real numbers that `compared` gives.
    """
    if sys.argv[1:] == ["--ratio"]:
        print(f"{ratio(*compared()):.1f}")
        return
    made = {"samples.txt": text_of(samples), "expected.txt": text_of(rows)}
    if rates:
        made |= made_frames(samples, rows, *rates)
    if sys.argv[1:] == ["--check"]:
        wrong = [name for name, text in made.items() if (folder / name).read_text() != text]
        for name in wrong:
            print(f"{folder.name}: {name} is not what this script computes", file=sys.stderr)
        sys.exit(1 if wrong else 0)
    if sys.argv[1:]:
        sys.exit("usage: expected.py [--check | --ratio]")
    for name, text in made.items():
        (folder / name).parent.mkdir(exist_ok=True)
        (folder / name).write_text(text)


def script_of(folder: Path) -> ModuleType:
    """The script that computes the rows of another example, as a module."""
    spec = importlib.util.spec_from_file_location(f"{folder.name}_rows", folder / "expected.py")
    assert spec and spec.loader
    script = importlib.util.module_from_spec(spec)
    spec.loader.exec_module(script)
    return script


def noise(count: int, limit: int, seed: int = 1) -> list[int]:
    """Numbers that look random, the same each time, from -limit to limit."""
    state, made = seed, []
    for _ in range(count):
        state = (1103515245 * state + 12345) % 2**31
        made.append((state >> 8) % (2 * limit + 1) - limit)
    return made
