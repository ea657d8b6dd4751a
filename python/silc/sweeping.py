"""Sweeps: a source with numbers to choose, evaluated at each combination of them."""
from __future__ import annotations

import itertools
import math
import os
import re
from collections.abc import Iterable, Iterator, Mapping, Sequence
from dataclasses import dataclass
from multiprocessing.pool import ThreadPool
from typing import Any

from silc.programs import SILC
from silc.refused import ROWS, File, Refused, explained
from silc.running import STDOUT, ran
from silc.source import Source, real_rows
from silc.words import Port, Rows, is_array, numpy, quantised, rows_of, scaled, text_of

Choice = Mapping[str, int]
# What `main` declares stands before its first `begin`; a comment may have these words too.
COMMENT, HEAD = re.compile(rb"/\*.*?\*/", re.S), re.compile(rb"\bfunc\s+main\b.*?\bbegin\b", re.S)


@dataclass
class Point:
    """A combination: the number of each name, and the power of the first output's error beside that of the reference,
    or why the source is refused."""
    choice: dict[str, int]
    signal: float = math.nan
    error: float = math.nan
    peak: float = math.nan
    refused: Refused | None = None

    @property
    def ratio(self) -> float:
        """Signal to noise in decibels; infinity without an error, and no number where the source is refused."""
        if self.refused or math.isnan(self.error):
            return math.nan
        if not self.signal:
            return -math.inf
        return 10 * math.log10(self.signal / self.error) if self.error else math.inf

    def as_json(self) -> dict[str, Any]:
        """The row as docs/PYTHON.md has it."""
        if self.refused:
            return {**self.choice, "refused": self.refused.as_json()}
        return {**self.choice, "signal": self.signal, "error": self.error, "peak": self.peak, "ratio": self.ratio}


def choices_of(names: Mapping[str, Iterable[int]]) -> Iterator[dict[str, int]]:
    """All combinations of the numbers of some names."""
    for numbers in itertools.product(*names.values()):
        yield dict(zip(names, numbers))


def template_of(template: str | os.PathLike[str]) -> tuple[str, str]:
    """The name and the text of a template: of a file, or of a text with an equation in it."""
    text = os.fspath(template)
    if isinstance(template, str) and "func" in text:
        return "template.sil", text
    with open(text, encoding="latin-1") as file:
        return text, file.read()


class Sweep:
    """What is the same at each point: the template, the input, and the values that are wanted."""

    def __init__(self, template: str | os.PathLike[str], x: Rows, wanted: Sequence[float] | None, real: bool,
                 silc: str | os.PathLike[str] | None) -> None:
        self.name, self.text = template_of(template)
        self.x, self.real, self.silc, self.wanted = x, real, SILC.found(silc), wanted
        self.array = numpy().asarray(wanted, dtype=float) if is_array(x) and wanted is not None else None
        self.signal = mean_square(wanted, [0.0] * len(wanted)) if wanted else math.nan
        self.samples: dict[str, bytes] = {}

    def source(self, choice: Choice) -> str:
        """The source of a combination: each {NAME} has its number."""
        text = self.text
        for name, number in choice.items():
            text = text.replace(f"{{{name}}}", str(number))
        return text

    def point(self, choice: dict[str, int]) -> Point:
        """Evaluates one combination."""
        content = self.source(choice).encode("latin-1")
        ports = ports_in(content, self.name)
        inputs, outputs = ports if ports else ([], [])
        answer = ran(self.silc, ["eval", content, self.samples_for(inputs) if ports else b"", STDOUT])
        if answer.status or not ports:
            files = {"SRC": File(self.name, content), "SAMPLES": File(ROWS, self.samples_for(inputs))}
            return Point(choice, refused=explained("eval", files, ["SRC", "SAMPLES", "OUT"], answer.status, answer.said,
                                                   self.silc))
        made = Point(choice)
        if self.wanted is not None:
            rows = rows_of(answer.out, len(outputs), is_array(self.x))
            self.measure(made, scaled(rows, [port.type for port in outputs]), self.wanted)
        return made

    def samples_for(self, inputs: Sequence[Port]) -> bytes:
        """The text of the input in words of some types."""
        types = [port.type for port in inputs]
        key = ",".join(map(str, types)) if self.real else ""
        if key not in self.samples:
            self.samples[key] = text_of(quantised(self.x, types) if self.real else self.x, max(len(types), 1))
        return self.samples[key]

    def measure(self, made: Point, y: Rows, wanted: Sequence[float]) -> None:
        """Compares the first output with what is wanted."""
        made.signal = self.signal
        if self.array is not None:
            errors = (y if y.ndim == 1 else y[:, 0]) - self.array
            made.error, made.peak = float((errors ** 2).mean()), float(abs(errors).max())
        else:
            own = y if isinstance(y[0], float) else [row[0] for row in y]
            made.error = mean_square(own, wanted)
            made.peak = max([abs(value - other) for value, other in zip(own, wanted)])


def mean_square(values: Sequence[float], others: Sequence[float]) -> float:
    """The mean of the squares of differences; `ValueError` where there are not as many of both."""
    return math.dist(values, others) ** 2 / len(values)


def ports_in(content: bytes, name: str) -> tuple[list[Port], list[Port]] | None:
    """The input and output words of a source, or nothing where it declares none. Its equations, which the program
    judges, are not read."""
    from silc.explaining.program import Source as Program
    from silc.explaining.text import Text
    from silc.source import ports_of
    head = HEAD.search(COMMENT.sub(b" ", content))
    main = Program(Text(name, head[0] + b" end;")).funcs.get("main") if head else None
    return (ports_of(main.params), ports_of(main.results)) if main else None


def wanted_of(against: Source | Rows | None, x: Rows, real: bool) -> list[float] | None:
    """The values of the first output that are wanted."""
    if against is None:
        return None
    if not isinstance(against, Source):
        rows = against
    elif real:
        rows = against.evaluate(x, real=True)
    else:
        rows = scaled(against.evaluate(x), [port.type for port in against.outputs])
    return [row[0] for row in real_rows(rows, 1)]


def sweep(template: str | os.PathLike[str], names: Mapping[str, Iterable[int]], x: Rows,
          against: Source | Rows | None = None,
          jobs: int | None = None, real: bool = False, silc: str | os.PathLike[str] | None = None) -> list[Point]:
    """Evaluates a source at each combination of some numbers, `jobs` at a time, and gives a `Point` for each, in their
    order.

    `template` is the name of a file, or its text; `{W}` in it is the number of the name W. `x` and `real` are as in
    `Source.evaluate`, and `against` is a source or values of the shape (n,) that the first output is compared with. A
    combination that is no program is a point with the refusal.
    """
    made = Sweep(template, x, wanted_of(against, x, real), real, silc)
    with ThreadPool(jobs or len(os.sched_getaffinity(0))) as pool:
        return pool.map(made.point, choices_of(names))
