"""Guarded images: the text that `silc_show guarded` prints of a plan over several stages."""
from __future__ import annotations

import re
from dataclasses import dataclass

from .image import Format, Image, Issue, Take, Unit, Word
from .operations import CALLED, reads

NUMBERS = r"((?: -?\d+)*)"
UNIT = re.compile(r"unit \d+ (\w+) latency (\d+) gap (\d+) ram (\d+)")
FILE, CELLS = re.compile("  file" + NUMBERS), re.compile("  cells" + NUMBERS)
ISSUE = re.compile(r"  issue unit (\d+) (\w+) shift (-?\d+) ([a-z,]+) width (\d+) argument (-?\d+) registers" + NUMBERS
                   + r" stage (\d+)")
DRIVE = re.compile(r"  drive unit (\d+) bus (\d+) stage \d+")
TAKE = re.compile(r"  take unit (\d+) port (\d+) bus (\d+) register (\d+) stage \d+")


@dataclass
class Guarded:
    """An image, and of each issue, by its cycle and its unit, the stage: from the sample of that number on it is
    obeyed."""
    image: Image
    stages: dict[tuple[int, int], int]


class Lines:
    """The lines of a text, and where the reading stands."""

    def __init__(self, text: str) -> None:
        self.lines, self.at = text.splitlines(), 0

    def next_is(self, form: re.Pattern[str]) -> bool:
        return self.at < len(self.lines) and form.fullmatch(self.lines[self.at]) is not None

    def groups(self, form: re.Pattern[str] | str) -> tuple[str, ...]:
        """The parts of the next line, which has to be of this form."""
        line = self.lines[self.at] if self.at < len(self.lines) else ""
        found = re.fullmatch(form, line)
        if not found:
            raise ValueError(f"line {self.at + 1}: it is no line of a guarded image")
        self.at += 1
        return found.groups()

    def each(self, form: re.Pattern[str]) -> list[tuple[str, ...]]:
        """The parts of all lines of this form that come."""
        made = []
        while self.next_is(form):
            made.append(self.groups(form))
        return made


def numbers(text: str) -> list[int]:
    return list(map(int, text.split()))


def unit_of(lines: Lines) -> Unit:
    kind, latency, gap, ram = lines.groups(UNIT)
    files = [numbers(words) for words, in lines.each(FILE)]
    cells = [number for words, in lines.each(CELLS) for number in numbers(words)]
    return Unit(kind, int(latency), int(gap), files, cells, int(ram) if kind == "acu" else None)


def issue_of(parts: tuple[str, ...]) -> Issue:
    unit, operation, shift, mode, width, argument, registers, _ = parts
    form = Format(int(shift), mode, int(width)) if CALLED[operation].is_formatted else None
    return Issue(int(unit), operation, form, int(argument), tuple(numbers(registers)))


def word_of(lines: Lines, cycle: int, stages: dict[tuple[int, int], int]) -> Word:
    """The next word; the stages of its issues are added to the others."""
    lines.groups(f"word {cycle}")
    word = Word()
    for parts in lines.each(ISSUE):
        issue = issue_of(parts)
        if len(issue.registers) < reads(issue.operation):
            raise ValueError(f"line {lines.at}: an operation has too few registers")
        word.issues[issue.unit] = issue
        stages[cycle, issue.unit] = int(parts[-1])
    word.enables = [(int(unit), int(bus)) for unit, bus in lines.each(DRIVE)]
    word.takes = [Take(*map(int, parts)) for parts in lines.each(TAKE)]
    return word


def guarded_of(text: str) -> Guarded:
    """The guarded image of a text; ValueError says which line is none of it."""
    lines, stages = Lines(text), dict[tuple[int, int], int]()
    (period,), (unroll,) = lines.groups(r"period (\d+)"), lines.groups(r"unroll (\d+)")
    (inputs,), (outputs,) = lines.groups("inputs" + NUMBERS), lines.groups(r"outputs (\d+)")
    units = []
    while lines.next_is(UNIT):
        units.append(unit_of(lines))
    buses, = lines.groups(r"buses (\d+)")
    words = [word_of(lines, cycle, stages) for cycle in range(int(period) * int(unroll))]
    return Guarded(Image(int(period), int(unroll), numbers(inputs), int(outputs), units, int(buses), words), stages)
