"""Sources with ranges in the place of numbers, and how far the output of each is from a reference."""
from __future__ import annotations

import math
import subprocess
from collections.abc import Iterator, Sequence
from fractions import Fraction
from hashlib import sha256
from pathlib import Path

from silc.designing.noise import noise_of, reference_rows, values
from silc.designing.overflows import passing_samples
from silc.designing.programs import rows_of, text_of
from silc.designing.samples import samples_in
from silc.designing.sources import words_of_main
from silc.exploring.template import DIGITS, MOST, Choice
from silc.linking.blocks import Let, Library, Source
from silc.linking.linker import Linked, link
from silc.linking.places import File, Unlinked
from silc.linking.told import Told

# The status of silc for a source with a fault.
BAD_SOURCE = 4
# What stands for an output without any error, in decibels.
NO_ERROR = -300.0


class PlainSource:
    """A source without a head, of which there is one combination."""
    blocks = ()
    count = 1

    def __init__(self, text: str) -> None:
        self.text = text
        self.ranges: dict[str, str] = {}

    def choices(self) -> Iterator[Choice]:
        yield {}

    def source(self, choice: Choice) -> str:
        return self.text

    def said(self, choice: Choice, text: str) -> str:
        return text


class LinkedTemplate:
    """A source that is linked for each combination of the numbers of those `let` that have a range."""

    def __init__(self, file: File, library: Library) -> None:
        self.main, self.library = Source(file), library
        # What is wrong with its own numbers is wrong with the source.
        self.blocks = link(library, self.main).blocks
        self.ranges: dict[str, str] = {let.name: let.range for let in self.main.lets if let.range}
        self.found = self.all_numbers()
        self.count = len(self.found)

    @property
    def text(self) -> str:
        """The source and its blocks, without the ranges."""
        ranged = {let.at: let.name for let in self.main.lets if let.range}
        parts, at = [], 0
        for statement in self.main.head:
            if statement.at in ranged:
                parts += [self.main.file.text[at:statement.at], ranged[statement.at]]
                at = statement.end
        return "".join([*parts, self.main.file.text[at:], *(block.file.text for block in self.blocks)])

    def all_numbers(self) -> list[dict[str, Fraction]]:
        """The numbers of all combinations. A range may depend on those before it."""
        made: list[dict[str, Fraction]] = [{}]
        for let in self.main.lets:
            made = [numbers | {let.name: number} for numbers in made
                    for number in self.numbers_of(let, numbers, MOST // len(made))]
            if not made:
                raise self.main.file.fault(let.at, f"the range of {let.name} has no number")
        return made

    def numbers_of(self, let: Let, numbers: dict[str, Fraction], most: int) -> list[Fraction]:
        allowed = self.main.range(let, numbers)
        if allowed is None:
            return [self.main.number(let.number, numbers, let.at)]
        if allowed.count() > most:
            raise self.main.file.fault(let.at, f"there are more than {MOST} combinations")
        return allowed.numbers()

    def choices(self) -> Iterator[Choice]:
        for numbers in self.found:
            yield {name: whole(numbers[name]) for name in self.ranges}

    def linked(self, choice: Choice) -> Linked:
        return link(self.library, self.main, {name: Fraction(number) for name, number in choice.items()})

    def source(self, choice: Choice) -> str:
        """The source of a combination. Raises `Unlinked` where a block does not take its numbers."""
        return self.linked(choice).text

    def said(self, choice: Choice, text: str) -> str:
        """What `silc` says of a combination, in the lines of the files that it is linked from."""
        return Told(self.linked(choice)).said(text)


def whole(number: Fraction) -> int | Fraction:
    return int(number) if number.denominator == 1 else number


class Judgement:
    """The samples on which sources are judged, and the reference that their outputs are compared with."""

    def __init__(self, samples: str, against: str) -> None:
        self.samples, self.against = samples, against

    def digits(self) -> str:
        """Some digits that are others where the samples or the reference are."""
        files = (open(file, "rb").read() for file in (self.samples, self.against))
        return sha256(b"".join(files)).hexdigest()[:DIGITS]

    def judge(self, silc: str | Path, room: Path, source: str) -> tuple[float | None, int | None]:
        """The power of the error beside that of the signal in decibels, and at how many samples a word is another than
        that of the program in which nothing wraps or saturates; nothing where silc refuses the source."""
        inputs, outputs = words_of_main(source)
        rows = samples_in(self.samples, inputs)
        made = evaluated(silc, room, source, rows)
        if made is None:
            return None, None
        try:
            reference = reference_rows(self.against, rows, inputs, outputs)
        except Unlinked as why:
            raise ValueError(str(why)) from why
        own = values(made, outputs)
        ratios = [noise_of(column, wanted, shape).ratio()
                  for column, wanted, shape in zip(zip(*own), zip(*reference), outputs) if shape]
        return max(-min(ratios, default=math.inf), NO_ERROR) + 0.0, passing_samples(source, rows, made)


def evaluated(silc: str | Path, room: Path, source: str, rows: Sequence[Sequence[int]]) -> list[tuple[int, ...]] | None:
    """The output rows of a source, or nothing where silc refuses it."""
    (room / "judged").write_text(source)
    (room / "judged.samples").write_text(text_of(rows))
    done = subprocess.run([silc, "eval", "judged", "judged.samples", "judged.rows"], cwd=room, stdin=subprocess.DEVNULL,
                          capture_output=True, text=True)
    if done.returncode == BAD_SOURCE:
        return None
    if done.returncode:
        raise ValueError(done.stderr.strip() or f"silc ended with {done.returncode}")
    return rows_of((room / "judged.rows").read_text())
