"""Bands as designers order them, `peak,1000,3,0.7`: a kind with hertz, decibels and a quality, each a few sections."""
from __future__ import annotations

import math
from collections.abc import Callable, Sequence
from dataclasses import dataclass, replace

from silc import design
from silc.design import Design
from silc.designing.filters import Section

HERTZ, DECIBELS, QUALITY = "HZ", "DB", "Q"


class NoBand(ValueError):
    """Why a word is no band."""


@dataclass(frozen=True)
class Kind:
    """A kind of band: the names of its numbers, how many of them have to be there, and the design of them."""
    numbers: tuple[str, ...]
    least: int
    made: Callable[..., Design]

    def form(self, name: str) -> str:
        """How it is written, as peak,HZ,DB,Q."""
        needed, free = self.numbers[: self.least], self.numbers[self.least:]
        return ",".join((name, *needed)) + "".join(f"[,{number}]" for number in free)


KINDS = {
    "peak": Kind((HERTZ, DECIBELS, QUALITY), 3, design.peak),
    "lowshelf": Kind((HERTZ, DECIBELS, QUALITY), 2, design.low_shelf),
    "highshelf": Kind((HERTZ, DECIBELS, QUALITY), 2, design.high_shelf),
    "lowpass": Kind((HERTZ, QUALITY), 1, design.lowpass),
    "highpass": Kind((HERTZ, QUALITY), 1, design.highpass),
    "bandpass": Kind((HERTZ, QUALITY), 2, design.bandpass),
    "notch": Kind((HERTZ, QUALITY), 2, design.notch),
    "allpass": Kind((HERTZ, QUALITY), 1, design.allpass),
    "onepole": Kind((HERTZ,), 1, design.one_pole),
    "dcblock": Kind((HERTZ,), 1, design.dc_block),
    "aweight": Kind((), 0, design.a_weighting),
    "cweight": Kind((), 0, design.c_weighting),
}
# How the numbers are called where a design takes them.
NAMES = {DECIBELS: "db", QUALITY: "q"}
FORMS = ", ".join(kind.form(name) for name, kind in KINDS.items())
MOST_DECIBELS = 120.0


def number_of(word: str, name: str) -> float:
    try:
        number = float(word)
    except ValueError:
        raise NoBand(f"{word} is no number") from None
    if not math.isfinite(number) or name == QUALITY and number <= 0 or name == DECIBELS and abs(number) > MOST_DECIBELS:
        raise NoBand(f"{word} is no {'quality above 0' if name == QUALITY else 'number of ' + name}")
    return number


def designed(word: str, rate: float) -> Design:
    """The design of a band."""
    name, *numbers = word.split(",")
    if name not in KINDS:
        raise NoBand(f"{name} is no kind of band; a band is {FORMS}")
    kind = KINDS[name]
    if not kind.least <= len(numbers) <= len(kind.numbers):
        raise NoBand(f"it has {len(numbers)} numbers; {name} is written {kind.form(name)}")
    given = {of: number_of(number, of) for number, of in zip(numbers, kind.numbers)}
    place = [given.pop(HERTZ)] if HERTZ in given else []
    return kind.made(*place, **{NAMES[of]: number for of, number in given.items()}, rate=rate)


def band_of(word: str, rate: float) -> tuple[str, list[Section]]:
    """What a band is, in words, and its sections."""
    try:
        made = designed(word, rate)
    except ValueError as why:
        raise NoBand(f"--band {word}: {why}") from None
    return made.asked, [replace(section, place=f"--band {word}") for section in made.sections]


def bands_of(words: Sequence[str], rate: float) -> tuple[list[str], list[Section]]:
    """What bands are, in words, and the sections of all of them."""
    made = [band_of(word, rate) for word in words]
    return [asked for asked, _ in made], [section for _, sections in made for section in sections]
