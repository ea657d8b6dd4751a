"""Sources: equations between sampled signals (docs/LANGUAGE.md), evaluated, measured and planned."""
from __future__ import annotations

import math
import os
import queue
import re
import sys
from collections.abc import Collection, Iterable, Iterator, Mapping, Sequence
from typing import TYPE_CHECKING, Any, NoReturn

from silc.designing.shapes import Shape
from silc.explaining.command import DEPTH
from silc.explaining.grammar import Decl
from silc.explaining.program import Source as Program
from silc.explaining.program import element_name
from silc.explaining.text import Text
from silc.linking.opening import opened
from silc.linking.places import Unlinked
from silc.programs import SHOW, SILC
from silc.refused import ROWS, File, explained
from silc.running import STDIN, STDOUT, Ended, Word, placed, ran, streamed
from silc.words import Port, Reader, Rows, Type, is_array, pieces_of, quantised, scaled, text_of, tuples

if TYPE_CHECKING:
    from silc.exploring.exploration import Exploration
    from silc.designing.noise import Noise
    from silc.designing.ranges import Range
    from silc.linking.told import Told
    from silc.microcode import Microcode
    from silc.plan import Plan
    from silc.response import Response

MODE = re.compile(r",([a-z,]+)>")
# The number of a row in a line about samples.
ROW = re.compile(r"(samples line )(\d+)")
UNNAMED = "source.sil"


def ports_of(decls: Iterable[Decl]) -> list[Port]:
    """The words of declarations, those of an array in row-major order."""
    made = []
    for decl in decls:
        mode = MODE.search("".join(decl.type.text.split()))
        shape = Shape(decl.type.width, decl.type.places) if decl.type.width else None
        of = Type(shape, mode[1] if mode else "trunc")
        made += [Port(element_name(decl, place), of) for place in range(math.prod(decl.dims))]
    return made


class Source:
    """A source without a fault.

    `file` is the name of one, or `text` its text. It is read once, here, and `Refused` tells its first fault with the
    line, the column and the cure. `silc` and `show` name other programs than those that are found (docs/PYTHON.md).

    One that begins with `use` or `let` is linked first (docs/LIBRARY.md), with blocks of the folders `library` before
    those of library/. What is said of it is told at its own places, or at those of a block; `text` is what is linked.
    """

    def __init__(self, file: str | os.PathLike[str] | None = None, *, text: str | bytes | None = None,
                 silc: str | os.PathLike[str] | None = None, show: str | os.PathLike[str] | None = None,
                 library: Iterable[str | os.PathLike[str]] = ()) -> None:
        if (file is None) == (text is None):
            raise TypeError("a source has a file, or a text")
        if file is not None:
            with open(file, "rb") as held:
                self.content = held.read()
        else:
            self.content = text if isinstance(text, bytes) else str(text).encode()
        self.name = os.fspath(file) if file is not None else UNNAMED
        self.told = told_by(self.name, self.content, library)
        if self.told:
            self.content = self.told.text.data
        self.silc: str = SILC.found(silc)
        self._show = show
        answer = ran(self.silc, self._eval)
        if answer.status:
            self._refuse("eval", answer.status, answer.said)
        sys.setrecursionlimit(max(DEPTH, sys.getrecursionlimit()))
        main = Program(Text(self.name, self.content)).funcs["main"]
        self.inputs: list[Port] = ports_of(main.params)
        self.outputs: list[Port] = ports_of(main.results)

    def __repr__(self) -> str:
        return f"<Source {self.name}: {', '.join(map(str, self.inputs))} -> {', '.join(map(str, self.outputs))}>"

    @property
    def blocks(self) -> list[str]:
        """The files of the blocks that are linked into it."""
        return [block.file.name for block in self.told.linked.blocks] if self.told else []

    @property
    def text(self) -> str:
        """The text of the source, as it is linked."""
        return self.content.decode("latin-1")

    def evaluate(self, x: Rows, real: bool = False) -> Rows:
        """The output rows of the one solution of the equations.

        `x` has the shape (n,) for one input word and (n, k) for k, raw words as whole numbers; the answer is an array
        where `x` is one, else a list, of the shape (n,) for one output word and (n, m) for m. With `real`, `x` and the
        answer are values: each is quantised to the next word of its input, and the last one of the range beyond it.
        """
        given = quantised(x, self._types(self.inputs)) if real else x
        reader = Reader(len(self.outputs), is_array(given))
        try:
            for piece in streamed(self.silc, self._eval, pieces_of(given, len(self.inputs))):
                reader.add(piece)
        except Ended as why:
            text = text_of(given, len(self.inputs))
            why = placed(self.silc, self._eval, why, text)
            self._refuse("eval", why.status, why.said, text)
        rows = reader.rows()
        return scaled(rows, self._types(self.outputs)) if real else rows

    def stream(self, blocks: Iterable[Rows], real: bool = False) -> Iterator[Rows]:
        """The output rows of each block of rows, before the next block is asked for: one process for all, in memory
        that does not grow. Blocks and `real` are as in `evaluate`, and so are the answers."""
        waiting: queue.SimpleQueue[bytes | None] = queue.SimpleQueue()
        pieces, given, done = streamed(self.silc, self._eval, iter(waiting.get, None)), [], 0
        try:
            for block in blocks:
                given = quantised(block, self._types(self.inputs)) if real else block
                for text in pieces_of(given, len(self.inputs)):
                    waiting.put(text)
                reader, left = Reader(len(self.outputs), is_array(given)), len(given)
                while left:
                    piece = next(pieces)
                    reader.add(piece)
                    left -= piece.count(b"\n")
                rows = reader.rows()
                yield scaled(rows, self._types(self.outputs)) if real else rows
                done += len(given)
            waiting.put(None)
            for _ in pieces:
                pass
        except Ended as why:
            why = placed(self.silc, self._eval, why, text_of(given, len(self.inputs)))
            self._refuse("eval", why.status, ROW.sub(lambda found: f"{found[1]}{done + int(found[2])}", why.said))
        finally:
            waiting.put(None)
            pieces.close()

    def values(self, x: Rows, names: str | Sequence[str] = "*", real: bool = False) -> dict[str, Rows]:
        """The words of inner elements by their names, each with the shape (n,), over input rows as in `evaluate`. A
        name means an element, or all of an array; `*` in it stands for anything, as in `w[*]`. It takes `silc_show`."""
        from silc.designing.overflows import is_named
        given = quantised(x, self._types(self.inputs)) if real else x
        patterns = [names] if isinstance(names, str) else list(names)
        found: dict[str, Rows] = {}
        for element in self._elements(given):
            if any(is_named(element.name, pattern) for pattern in patterns):
                of = Type(element.shape)
                words = element.words
                if is_array(given):
                    from silc.words import numpy
                    words = numpy().array(words, dtype=numpy().int64)
                found[element.name] = scaled(words, [of]) if real else words
        for pattern in patterns:
            if not any(is_named(name, pattern) for name in found):
                raise KeyError(f"no element is called {pattern}")
        return found

    def plan(self, datapath: str | os.PathLike[str] | Mapping[str, Any] | None = None, *,
             text: str | bytes | None = None) -> Plan:
        """The plan over a datapath: the name of its file, its tree as `tomllib` reads one, or its text. `Refused` tells
        the first thing that has no place there, with what it lacks."""
        from silc.plan import Plan, datapath_of
        return Plan(self, *datapath_of(datapath, text))

    def frame(self, datapath: str | os.PathLike[str] | Mapping[str, Any] | None = None, phases: int = 1,
              down: Collection[int] = (), up: Collection[int] = (), *, text: str | bytes | None = None) -> Microcode:
        """Microcode that runs the source `phases` times, 1 to 8, in each sample of the machine, over a datapath as in
        `plan`.

        A row of it is a frame (docs/RATES.md): it has each word of the source `phases` times, for a sample after the
        other. The slow words it has once: the output words with the numbers in `down`, of which those at the first
        sample of a frame are kept, and the input words with the numbers in `up`, which are 0 at the other samples. So
        `run` takes rows of the shape (n, k * phases) for k input words, those of the first one in front, or (n, k)
        where all are slow, and gives the same for the output words; where that is one word a row, (n,). `origin.inputs`
        and `origin.outputs` name them, as `x.0` and `x.1`. `Refused` tells why there are no such frames, or what has no
        place over the datapath.
        """
        from silc.frames import framed
        from silc.plan import datapath_of
        return framed(self, *datapath_of(datapath, text), phases, down, up)

    def response(self, count: int = 512, amplitude: int | None = None, input: int = 0, output: int = 0,
                 rate: float | None = None) -> Response:
        """The response to an impulse of `count` samples, and its magnitude over frequency. `amplitude` is the raw word
        of the impulse, the greatest one where none is given; `rate` the samples a second, for the picture."""
        from silc.response import Response
        port = self.inputs[input]
        word = port.raw[1] if amplitude is None else amplitude
        first = tuple(word if place == input else 0 for place in range(len(self.inputs)))
        rows = [first, *[(0,) * len(self.inputs)] * (count - 1)]
        put = tuples(self.evaluate([row[0] for row in rows] if len(self.inputs) == 1 else rows), len(self.outputs))
        unit = word * port.type.step / self.outputs[output].type.step
        return Response([row[output] for row in put], unit, rate)

    def ranges(self, x: Rows | None = None, *, wraps: Iterable[str] = (), all: bool = False,
               seconds: float = 4.0) -> list[Range]:
        """How much of its range each element uses, the tightest first: on rows as in `evaluate`, where `wraps` names
        the elements that are meant to wrap; or, without rows, at most on any input, found in so many seconds
        (tools/ranges)."""
        from silc.designing import ranges
        found = ranges.ranges_on(self.text, tuples(x, len(self.inputs)), wraps, all)[0] if x is not None else \
            ranges.bounds_within(self.text, seconds, all)
        return sorted(found, key=lambda each: -each.share)

    def noise(self, x: Rows, against: Source | str | os.PathLike[str] | Rows) -> list[Noise]:
        """The error of each output that is a number, on rows as in `evaluate`, against a reference: another source, its
        file, or rows of values."""
        from silc.designing.noise import noise_of, reference_rows, values
        inputs, outputs = ([port.type.shape for port in ports] for ports in (self.inputs, self.outputs))
        rows = tuples(x, len(self.inputs))
        if isinstance(against, Source):
            reference = against._values_of(rows, self.inputs)
        elif isinstance(against, (str, os.PathLike)):
            try:
                reference = reference_rows(against, rows, inputs, outputs)
            except Unlinked as fault:
                from silc.linking.told import refused_unlinked
                raise refused_unlinked(fault) from None
        else:
            reference = real_rows(against, len(outputs))
        own = values(tuples(self.evaluate(x), len(outputs)), outputs)
        return [noise_of(column, other, shape) for column, other, shape in zip(zip(*own), zip(*reference), outputs)
                if shape]

    def explore(self, template: str | os.PathLike[str], jobs: int | None = None) -> Exploration:
        """The plans on all datapaths of a template (docs/COMMANDS.md), `jobs` of them at a time: what each takes of the
        hardware, or why it is refused."""
        from silc.exploring.exploration import explored
        return explored(self, template, jobs)

    @property
    def _eval(self) -> list[Word]:
        """The words of the command that evaluates it from stream to stream."""
        return ["eval", self.content, STDIN, STDOUT]

    def _types(self, ports: Sequence[Port]) -> list[Type]:
        return [port.type for port in ports]

    def _values_of(self, rows: Sequence[tuple[int, ...]], ports: Sequence[Port]) -> list[tuple[float, ...]]:
        """The values that come out where the words of other ports, with the same values, come in."""
        moved = [tuple(own.type.quantised(word * port.type.step) for own, port, word in zip(self.inputs, ports, row))
                 for row in rows]
        put = tuples(self.evaluate([row[0] for row in moved] if len(ports) == 1 else moved), len(self.outputs))
        return [tuple(word * port.type.step for word, port in zip(row, self.outputs)) for row in put]

    def _elements(self, x: Rows) -> list[Any]:
        from silc.designing.programs import elements_in, fault_in
        answer = ran(SHOW.found(self._show), ["values", self.content, text_of(x, len(self.inputs))])
        said = answer.out.decode("latin-1")
        if answer.status or fault_in(said):
            checked = ran(self.silc, self._eval, text_of(x, len(self.inputs)))
            self._refuse("eval", checked.status or answer.status, checked.said or said.strip() or answer.said,
                         text_of(x, len(self.inputs)))
        return elements_in(said)

    def _refuse(self, command: str, status: int, said: str, samples: bytes = b"") -> NoReturn:
        """Raises why a command on this source was refused."""
        files = {"SRC": File(self.name, self.content), "SAMPLES": File(ROWS, samples)}
        raise explained(command, files, ["SRC", "SAMPLES", "OUT"], status, said, self.silc, self.told) from None


def told_by(name: str, content: bytes, library: Iterable[str | os.PathLike[str]]) -> Told | None:
    """A source that is to be linked, as it is told; nothing of a plain one. `Refused` tells what can't be linked."""
    try:
        return opened(name, content, [os.fspath(folder) for folder in library])
    except Unlinked as fault:
        from silc.linking.told import refused_unlinked
        raise refused_unlinked(fault) from None


def real_rows(rows: Rows, columns: int) -> list[tuple[float, ...]]:
    """Rows of values as tuples."""
    listed = rows.tolist() if is_array(rows) else list(rows)
    return [(float(row),) if isinstance(row, (int, float)) else tuple(map(float, row)) for row in listed]
