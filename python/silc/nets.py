"""Nets of processors (docs/NETS.md): the net file with its faults, the words that its wires bring, and the rows that it
puts.

    net = Net("net.toml")
    rows = net.evaluate(samples)

The file is read by Python's TOML 1.0; what only TOML 1.1 has is refused. Names of files are taken from the folder in
which a program runs, as `silc` takes them, or from the one that is given. The rows are those of the net's one solution:
each processor's are its program's over the rows that its wires bring, by `silc eval`.
"""
from __future__ import annotations

import os
import re
import tomllib
from collections.abc import Callable, Iterator, Sequence
from dataclasses import dataclass
from functools import cached_property
from pathlib import Path
from typing import TYPE_CHECKING, Any

from silc.explaining.program import Source as Program
from silc.explaining.text import Text
from silc.source import Source, ports_of
from silc.words import Port, Type, tuples

if TYPE_CHECKING:
    from silc.plan import Plan

MOST_BYTES, MOST_WORDS, MOST_ROWS, MOST_PROCESSORS = 1 << 20, 16, 64, 8
LEAST_WHOLE, GREATEST_WHOLE = -(1 << 63), (1 << 63) - 1
WRONG_KIND, OUT_OF_RANGE = "wrong kind", "out of range"
TOP = "top"
ROW = re.compile(r"-?[0-9]+(?:,-?[0-9]+)*")
Row = tuple[int, ...]
# What a processor puts for the rows that it takes, by its number.
Stage = Callable[[int, list[Row]], list[Row]]


class NetFault(ValueError):
    """Why a net is refused, as `silc` says it."""


class Misfit(Exception):
    """Why a value may not stand at its key."""


@dataclass(frozen=True)
class Wire:
    """Where an input word of a processor comes from: the net's row, or the row of a processor of a smaller number."""
    processor: int | None
    word: int

    def __str__(self) -> str:
        return f"{'in' if self.processor is None else self.processor}.{self.word}"

    def of(self, row: Row, put: Sequence[Row]) -> int:
        """The word that it brings, of the net's row and of what each processor puts for it."""
        return (row if self.processor is None else put[self.processor])[self.word]


@dataclass(frozen=True)
class Processor:
    """A processor: the files of its program and its datapath, and a wire for each of its input words."""
    src: str
    dp: str
    feed: tuple[Wire, ...]

    def reads(self) -> list[int]:
        """The processors that it reads, each by a queue."""
        return sorted({wire.processor for wire in self.feed if wire.processor is not None})


@dataclass(frozen=True)
class NetFile:
    """What a net file says: how many words the net's row has, how many rows a queue holds, and the processors."""
    inputs: int
    capacity: int
    processors: tuple[Processor, ...]

    def queues(self) -> list[tuple[int, int]]:
        """Each queue by the processor that fills it and the one that reads it, in the order of the latter."""
        return [(filled, reader) for reader, one in enumerate(self.processors) for filled in one.reads()]

    def wires(self) -> Iterator[tuple[int, int, Wire]]:
        """Each wire with its processor and the number of the input word there, in the order of the file."""
        for number, processor in enumerate(self.processors):
            for word, wire in enumerate(processor.feed):
                yield number, word, wire


def is_net(name: str) -> bool:
    """Whether the name of a file is that of a net file, where one of microcode may stand too."""
    return name.endswith(".toml")


# The file, a row a key: how its value is judged, and what stands for it where it is missing.


def whole(most: int) -> Callable[[Any], int]:
    def judged(value: Any) -> int:
        if type(value) is not int:
            raise Misfit(WRONG_KIND)
        if not 1 <= value <= most:
            raise Misfit(OUT_OF_RANGE)
        return value
    return judged


def a_table(value: Any) -> dict[str, Any]:
    if not isinstance(value, dict):
        raise Misfit(WRONG_KIND)
    return value


def file_name(value: Any) -> str:
    if not isinstance(value, str):
        raise Misfit(WRONG_KIND)
    if not value:
        raise Misfit(OUT_OF_RANGE)
    return value


def wire_to(inputs: int, number: int) -> Callable[[Any], Wire]:
    """What judges a wire to a processor, in a net whose row has so many words."""
    wires = [Wire(None, word) for word in range(inputs)]
    wires += [Wire(before, word) for before in range(number) for word in range(MOST_WORDS)]
    spelled = {str(wire): wire for wire in wires}

    def judged(value: Any) -> Wire:
        if not isinstance(value, str):
            raise Misfit(WRONG_KIND)
        if value not in spelled:
            raise Misfit(OUT_OF_RANGE)
        return spelled[value]
    return judged


def array_within(most: int, judge: Callable[[Any], Any]) -> Callable[[Any], list[Any]]:
    """What judges an array of 1 to so many values. One of a wrong kind comes before one out of its range."""
    def judged(value: Any) -> list[Any]:
        if not isinstance(value, list):
            raise Misfit(WRONG_KIND)
        made, misfits = [], []
        for one in value:
            try:
                made.append(judge(one))
            except Misfit as why:
                misfits.append(str(why))
        if WRONG_KIND in misfits:
            raise Misfit(WRONG_KIND)
        if misfits or not 1 <= len(value) <= most:
            raise Misfit(OUT_OF_RANGE)
        return made
    return judged


class Table:
    """A table of the file, whose faults are told with its name."""

    def __init__(self, section: str, entries: dict[str, Any], keys: Sequence[str]) -> None:
        self.section, self.entries = section, entries
        if not entries.keys() <= set(keys):
            raise self.fault("unknown key")

    def fault(self, what: str) -> NetFault:
        return NetFault(f"net {self.section}: {what}")

    def at(self, key: str, judge: Callable[[Any], Any], default: Any = None) -> Any:
        """What stands at a key, or its default."""
        if key not in self.entries:
            if default is None:
                raise self.fault("missing key")
            return default
        try:
            return judge(self.entries[key])
        except Misfit as why:
            raise self.fault(str(why)) from why


def has_long_number(value: Any) -> bool:
    """Whether a whole number of more than 64 bits is in a value, which is none of TOML."""
    if isinstance(value, dict):
        return any(map(has_long_number, value.values()))
    if isinstance(value, list):
        return any(map(has_long_number, value))
    return isinstance(value, int) and not LEAST_WHOLE <= value <= GREATEST_WHOLE


def tree_of(data: bytes) -> dict[str, Any]:
    """The top table of the bytes of a net file."""
    if len(data) > MOST_BYTES:
        raise NetFault("net too long")
    try:
        tree = tomllib.loads(data.decode("utf-8-sig"))
        is_toml = not has_long_number(tree)
    except (UnicodeDecodeError, tomllib.TOMLDecodeError, RecursionError):
        is_toml = False
    if not is_toml:
        raise NetFault("net is not TOML")
    return tree


def processor_in(inputs: int, number: int, entries: dict[str, Any]) -> Processor:
    table = Table(f"processor {number}", entries, ("src", "dp", "feed"))
    src, dp = table.at("src", file_name), table.at("dp", file_name)
    return Processor(src, dp, tuple(table.at("feed", array_within(MOST_WORDS, wire_to(inputs, number)))))


def net_file_of(data: bytes) -> NetFile:
    """What the bytes of a net file say, or their first fault."""
    top = Table(TOP, tree_of(data), ("inputs", "capacity", "proc"))
    inputs, capacity = top.at("inputs", whole(MOST_WORDS)), top.at("capacity", whole(MOST_ROWS), 1)
    tables = top.at("proc", array_within(MOST_PROCESSORS, a_table))
    return NetFile(inputs, capacity, tuple(processor_in(inputs, number, one) for number, one in enumerate(tables)))


# What a net has to keep beside the form of its file


def check_names(net: NetFile, out: str | None) -> None:
    """Refuses a word of the net's row that nobody reads, and an output that is a file of a processor."""
    fed = {wire.word for _, _, wire in net.wires() if wire.processor is None}
    unfed = [word for word in range(net.inputs) if word not in fed]
    if unfed:
        raise NetFault(f"net input {unfed[0]} unused")
    for number, processor in enumerate(net.processors):
        if out in (processor.src, processor.dp):
            raise NetFault(f"net output overwrites a file of processor {number}")


@dataclass(frozen=True)
class Ports:
    """The words that a program takes and those that it puts."""
    inputs: list[Port]
    outputs: list[Port]


def row_types(net: NetFile, ports: Sequence[Ports]) -> list[Type]:
    """The types of the words of the net's row, each that of the first word that it feeds. Refuses a processor whose
    words are not as many as its wires, and a wire that brings a word that is not there, or of another shape."""
    types: dict[int, Type] = {}
    for number, processor in enumerate(net.processors):
        taken = ports[number].inputs
        if len(processor.feed) != len(taken):
            raise NetFault(f"wrong feeds of processor {number}")
        for word, wire in enumerate(processor.feed):
            own = taken[word].type
            if wire.processor is None:
                brought: Type | None = types.setdefault(wire.word, own)
            else:
                put = ports[wire.processor].outputs
                brought = put[wire.word].type if wire.word < len(put) else None
            if brought is None or brought.shape != own.shape:
                raise NetFault(f"feed {word} of processor {number} does not fit")
    return [types[word] for word in range(net.inputs)]


def solution(net: NetFile, rows: Sequence[Row], stage: Stage) -> list[list[Row]]:
    """The rows that each processor puts for the net's rows: a stage gives those of one, whose wires bring what it
    takes."""
    put: list[list[Row]] = []
    for number, processor in enumerate(net.processors):
        taken = [tuple(wire.of(row, [one[place] for one in put]) for wire in processor.feed)
                 for place, row in enumerate(rows)]
        put.append(stage(number, taken))
    return put


class Net:
    """A net of a file that is well formed, whose programs have no fault and whose wires fit: else `NetFault`, or the
    `ValueError` of a program that can't be read."""

    def __init__(self, file: str | os.PathLike[str], *, folder: str | os.PathLike[str] = "", out: str | None = None,
                 silc: str | os.PathLike[str] | None = None) -> None:
        self.name, self.folder, self._silc = os.fspath(file), os.fspath(folder), silc
        self.file = net_file_of(Path(file).read_bytes())
        check_names(self.file, out)
        self.ports = [declared_ports(self.placed(processor.src)) for processor in self.file.processors]
        self.types = row_types(self.file, self.ports)

    def placed(self, name: str) -> str:
        """A file of a processor."""
        return os.path.join(self.folder, name)

    def files(self) -> list[str]:
        """The files of all processors, each once."""
        return list(dict.fromkeys(self.placed(name) for one in self.file.processors for name in (one.src, one.dp)))

    @cached_property
    def sources(self) -> list[Source]:
        """The programs, each read by `silc`."""
        return [Source(self.placed(processor.src), silc=self._silc) for processor in self.file.processors]

    @cached_property
    def plans(self) -> list[Plan]:
        """The plan of each program over its datapath, by `silc`."""
        return [source.plan(self.placed(processor.dp)) for source, processor in zip(self.sources, self.file.processors)]

    @property
    def outputs(self) -> list[Port]:
        """The words of a row that the net puts: those of the last processor."""
        return self.ports[-1].outputs

    def rows_of(self, text: str) -> list[Row]:
        """The rows of a sample file of the net; `ValueError` has the first line that is none."""
        rows = []
        for number, line in enumerate(text.removesuffix("\n").split("\n") if text else [], 1):
            row = tuple(map(int, line.split(","))) if ROW.fullmatch(line) else ()
            if len(row) != len(self.types) or not all(of.raw[0] <= word <= of.raw[1]
                                                      for of, word in zip(self.types, row)):
                raise ValueError(f"samples line {number}: {line!r} is no row of this net")
            rows.append(row)
        return rows

    def evaluate(self, rows: Sequence[Row]) -> list[Row]:
        """The rows of the net's one solution."""
        def stage(number: int, taken: list[Row]) -> list[Row]:
            source = self.sources[number]
            return tuples(source.evaluate(taken), len(source.outputs))
        return solution(self.file, rows, stage)[-1]


def declared_ports(file: str) -> Ports:
    """The words that the program of a file takes and puts, as it declares them."""
    program = Program(Text(file, Path(file).read_bytes()))
    if "main" not in program.funcs:
        raise ValueError(
            f"{file}: {'it is no program' if program.unexpected or program.bad_place else 'it has no main'}")
    main = program.funcs["main"]
    return Ports(ports_of(main.params), ports_of(main.results))
