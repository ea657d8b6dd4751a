"""Coefficients as SciPy, Octave and MATLAB print them: rows of numbers, with or without brackets."""
import math
import re
from collections.abc import Iterator
from pathlib import Path

from silc.designing.filters import Section
from silc.designing.samples import lines_of

SECTION_NAMES = "b0 b1 b2 a0 a1 a2"
SECTION_WORDS = len(SECTION_NAMES.split())
# A factor before all numbers, as MATLAB has it: 1.0e-03 *
FACTOR = re.compile(r"\s*(\S+)\s*\*\s*")
# What is no number in such a text: a comment, the name of a variable, a heading of columns.
HEADING = re.compile(r"\s*(?:[#%].*|\w+\s*=\s*(?:array\()?|ans\s*=|Columns? .*)?\s*")
ENDING = re.compile(r"\]\s*\)?\s*;?\s*$")


class BadFile(ValueError):
    """What is wrong with a file, and where."""


def number_of(word: str, place: str) -> float:
    try:
        number = float(word)
    except ValueError as fault:
        raise BadFile(f"{place}: {word} is no number") from fault
    if not math.isfinite(number):
        raise BadFile(f"{place}: {word} is no finite number")
    return number


def rows_in(file: str | Path) -> Iterator[tuple[str, list[float]]]:
    """The rows of numbers of a file, each with its place. A row in brackets may go over several lines."""
    factor = 1.0
    open_row: tuple[str, list[float]] | None = None
    for number, line in enumerate(lines_of(file, BadFile), 1):
        place = f"{file}:{number}"
        if scaled := FACTOR.fullmatch(line):
            factor = number_of(scaled[1], place)
        elif not HEADING.fullmatch(line):
            is_open = "[" in line or open_row is not None
            said = re.sub(r"^\s*\w+\s*=\s*", "", line).replace("array(", "")
            words = [number_of(word, place) * factor for word in re.split(r"[\s,;\[\]]+", ENDING.sub("", said)) if word]
            place, before = open_row or (place, list[float]())
            if is_open and not re.search(r"[\];]", line):
                open_row = place, before + words
            elif before + words:
                open_row = None
                yield place, before + words
    if open_row:
        yield open_row


def section_of(place: str, numbers: list[float]) -> Section:
    if len(numbers) != SECTION_WORDS:
        raise BadFile(f"{place}: it has {len(numbers)} numbers, and a section has {SECTION_WORDS}: {SECTION_NAMES}")
    *b, a0, a1, a2 = numbers
    if a0 == 0:
        raise BadFile(f"{place}: a0 is 0")
    section = Section(tuple(x / a0 for x in b), (a1 / a0, a2 / a0), place)
    if not any(section.b):
        raise BadFile(f"{place}: b0, b1 and b2 are 0")
    if not section.is_stable():
        raise BadFile(f"{place}: the section is unstable, with a pole at {section.radius():.6g} from the centre")
    return section


def sections_in(file: str | Path) -> list[Section]:
    """The second-order sections of a file, a row each."""
    made = [section_of(place, numbers) for place, numbers in rows_in(file)]
    if not made:
        raise BadFile(f"{file}: it has no section")
    return made


def taps_in(file: str | Path) -> list[float]:
    """The taps of a FIR filter, in one row or one a line."""
    rows = list(rows_in(file))
    if len(rows) > 1 and (long := next((place for place, numbers in rows if len(numbers) != 1), None)):
        raise BadFile(f"{long}: a line has one tap, or one row has all")
    taps = [tap for _, numbers in rows for tap in numbers]
    if not any(taps):
        raise BadFile(f"{file}: it has no tap but 0")
    return taps
