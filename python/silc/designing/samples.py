"""Sample files: rows of words for the inputs of a program, or of real numbers."""
import os
from collections.abc import Sequence
from pathlib import Path

from silc.designing.shapes import Shape


class BadSamples(ValueError):
    """What is wrong with a file of samples, and where."""


def lines_of(file: str | os.PathLike[str], wrong: type[ValueError] = BadSamples) -> list[str]:
    """The lines of a file, or a fault that names it."""
    try:
        return Path(file).read_text().splitlines()
    except OSError as fault:
        raise wrong(f"{file}: {fault.strerror}") from fault
    except UnicodeDecodeError as fault:
        raise wrong(f"{file}: it is no text") from fault


def range_of(shape: Shape | None) -> tuple[int, int]:
    return (0, 1) if shape is None else (shape.least, shape.greatest)


def word_of(text: str, shape: Shape | None, place: str) -> int:
    try:
        word = int(text)
    except ValueError as fault:
        raise BadSamples(f"{place}: {text!r} is no whole number") from fault
    least, greatest = range_of(shape)
    if not least <= word <= greatest:
        raise BadSamples(f"{place}: {word} is no word of {shape or 'bool'}, which goes from {least} to {greatest}")
    return word


def samples_in(file: str | os.PathLike[str], shapes: Sequence[Shape | None]) -> list[tuple[int, ...]]:
    """The rows of a file, a word of each of the shapes in each."""
    rows = []
    for number, line in enumerate(lines_of(file), 1):
        words, place = line.split(","), f"{file}:{number}"
        if len(words) != len(shapes):
            raise BadSamples(f"{place}: it has {len(words)} words, and a sample has {len(shapes)}")
        rows.append(tuple(word_of(word.strip(), shape, place) for word, shape in zip(words, shapes)))
    if not rows:
        raise BadSamples(f"{file}: it has no sample")
    return rows


def reals_in(file: str | os.PathLike[str], count: int) -> list[tuple[float, ...]]:
    """The rows of real numbers of a file, so many in each."""
    rows = []
    for number, line in enumerate(lines_of(file), 1):
        words = line.split(",")
        if len(words) != count:
            raise BadSamples(f"{file}:{number}: it has {len(words)} numbers, and the output has {count}")
        try:
            rows.append(tuple(map(float, words)))
        except ValueError as fault:
            raise BadSamples(f"{file}:{number}: {line!r} is no row of numbers") from fault
    return rows
