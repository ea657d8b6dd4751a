"""The error of a program's output against a reference, and what its output does without input."""
import math
import os
from collections.abc import Iterator, Sequence
from dataclasses import dataclass
from typing import TypeAlias

from silc.designing.programs import Unrun, evaluated, graph_of, longest_delay, valued
from silc.designing.samples import BadSamples, reals_in
from silc.designing.shapes import Shape
from silc.designing.sources import words_of_main
from silc.designing.spectra import welch
from silc.linking.opening import plain


# Shapes of words, `None` for a truth value.
WordShapes: TypeAlias = Sequence[Shape | None]

SOURCE_ENDING, WINDOW, BANDS = ".sil", 1024, 8


def reference_rows(file: str | os.PathLike[str], rows: Sequence[Sequence[int]], inputs: WordShapes,
                   outputs: WordShapes, folders: Sequence[str] = ()) -> list[tuple[float, ...]]:
    """The rows of a reference in real numbers: of a file, or of a source over the same samples, which is linked with
    blocks of these folders where it is to be. Raises `Unlinked` where it can't be."""
    if not str(file).endswith(SOURCE_ENDING):
        made = reals_in(file, len(outputs))
        if len(made) != len(rows):
            raise BadSamples(f"{file}: it has {len(made)} rows, and there are {len(rows)} samples")
        return made
    source, _ = plain(os.fspath(file), folders)
    try:
        own_inputs, own_outputs = words_of_main(source)
    except ValueError as why:
        raise BadSamples(f"{file}: {why}") from why
    if len(own_inputs) != len(inputs) or len(own_outputs) != len(outputs):
        raise BadSamples(f"{file}: it has {len(own_inputs)} inputs and {len(own_outputs)} outputs, and the source "
                         f"{len(inputs)} and {len(outputs)}")
    try:
        put = evaluated(source, [scaled(row, inputs, own_inputs, file) for row in rows])
    except Unrun as why:
        raise BadSamples(f"{file}: {why}") from why
    return values(put, own_outputs)


def scaled(row: Sequence[int], shapes: WordShapes, others: WordShapes, file: str | os.PathLike[str]) -> list[int]:
    """A row of words as words of other shapes, with the same values."""
    made = []
    for word, shape, other in zip(row, shapes, others):
        wanted, given = (each.places if each else 0 for each in (other, shape))
        if wanted < given:
            raise BadSamples(f"{file}: an input has {wanted} places, and the samples have {given}")
        made.append(word << wanted - given)
    return made


def values(rows: Sequence[Sequence[int]], shapes: WordShapes) -> list[tuple[float, ...]]:
    return [tuple(word * (shape.step if shape else 1.0) for word, shape in zip(row, shapes)) for row in rows]


@dataclass
class Noise:
    """The error of one output: powers, means and peaks in values, and spectra."""
    shape: Shape
    signal: float
    error: float
    mean: float
    peak: float
    peak_at: int
    signal_spectrum: list[float]
    error_spectrum: list[float]

    def ratio(self) -> float:
        """Signal to noise in decibels, or infinity without noise."""
        if not self.error:
            return math.inf
        return 10 * math.log10(self.signal / self.error) if self.signal else -math.inf

    def level(self) -> float:
        """The power of the error in decibels of the full scale: of the least word, squared."""
        full = (self.shape.step * -self.shape.least) ** 2
        return 10 * math.log10(self.error / full) if self.error else -math.inf

    def bands(self) -> Iterator[tuple[float, float, float]]:
        """The power of the error in bands of equal width, in decibels of the full scale."""
        full = (self.shape.step * -self.shape.least) ** 2
        size = (len(self.error_spectrum) - 1) // BANDS
        for band in range(BANDS):
            power = sum(self.error_spectrum[band * size : (band + 1) * size])
            yield band / (2 * BANDS), (band + 1) / (2 * BANDS), 10 * math.log10(power / full) if power else -math.inf


def noise_of(own: Sequence[float], reference: Sequence[float], shape: Shape) -> Noise:
    """The noise of an output, a column of values, against another one."""
    errors = [value - wanted for value, wanted in zip(own, reference)]
    peak_at = max(range(len(errors)), key=lambda n: abs(errors[n]))
    return Noise(shape, sum(x * x for x in reference) / len(own), sum(x * x for x in errors) / len(own),
                 sum(errors) / len(errors), errors[peak_at], peak_at, welch(reference, WINDOW), welch(errors, WINDOW))


def noises(source: str, rows: Sequence[Sequence[int]], file: str | os.PathLike[str],
           folders: Sequence[str] = ()) -> list[Noise]:
    """The noise of each output of a source over the samples, against a reference as in `reference_rows`."""
    inputs, outputs = words_of_main(source)
    reference = reference_rows(file, rows, inputs, outputs, folders)
    made = values(evaluated(source, rows), outputs)
    return [noise_of(own, wanted, shape) for own, wanted, shape in zip(zip(*made), zip(*reference), outputs) if shape]


@dataclass
class Silence:
    """What the output does after an impulse: since when the program's state repeats, how often, and the words then; the
    last sample at which it is not 0; and whether there is a state."""
    start: int | None
    period: int | None
    words: list[tuple[int, ...]]
    last: int
    has_state: bool

    def dies_out(self) -> bool:
        return self.period is not None and not any(map(any, self.words))


def repetition(columns: Sequence[tuple[int, ...]], delay: int) -> tuple[int, int] | tuple[None, None]:
    """Where the state of a program, all its words over the longest delay, is first one that it was before, and how long
    before that was."""
    numbers: dict[tuple[int, ...], int] = {}
    seen: dict[tuple[int, ...], int] = {}
    ids = [numbers.setdefault(column, len(numbers)) for column in columns]
    for n in range(delay, len(ids)):
        state = tuple(ids[n - delay + 1 : n + 1])
        if state in seen:
            return seen[state], n - seen[state]
        seen[state] = n
    return None, None


def silence_after(source: str, word: int, length: int) -> Silence:
    """What a program does after an impulse of this word at its first input."""
    inputs, outputs = words_of_main(source)
    zeros = (0,) * len(inputs)
    elements = valued(source, [(word, *zeros[1:]), *[zeros] * length])
    columns = list(zip(*(element.words for element in elements)))
    put = [element.words for element in elements[len(inputs) : len(inputs) + len(outputs)]]
    rows, longest = list(zip(*put)), longest_delay(graph_of(source))
    last = max((n for n, row in enumerate(rows) if any(row)), default=-1)
    if not longest:
        return Silence(0, 1, rows[1:2], last, False)
    # The first sample is the impulse, and a state reaches back over the longest delay.
    start, period = repetition(columns[1:], longest)
    words = rows[start + 2 : start + 2 + period] if period and start is not None else []
    return Silence(start, period, words, last, True)
