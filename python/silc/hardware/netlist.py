"""What a core is made of: units with the register files at their ports, buses, and which words each can hold.

There are two ways to it: what one image needs, or what any image over a datapath may need.
"""
from __future__ import annotations

from collections.abc import Iterator
from dataclasses import dataclass, field
from typing import TYPE_CHECKING, TypeAlias

from silc.micro_file.image import Image, Issue, Take, Unit
from silc.sure import sure

from .idle import keep_needed, without_idle, without_units
from .words import TRUTH, Range, index_bits, of_width, of_words

if TYPE_CHECKING:
    from .datapath import Ends, Names

# What a format does to a result, which sorts: shift, mode and width.
Quantisation: TypeAlias = tuple[int, str, int]
# An operation with its format, where it has one.
Code: TypeAlias = tuple[str, Quantisation | None]


class NoCore(Exception):
    """Why there is no core for an image."""


@dataclass
class File:
    """A register file, or the cells of a memory, with what it holds first."""
    words: Range
    first: list[int]
    sources: list[int] = field(default_factory=list)

    @property
    def size(self) -> int:
        return len(self.first)

    def address_bits(self) -> int:
        return index_bits(self.size)


@dataclass
class Part:
    """A unit. Of its operations and formats each has a number where they are listed; without lists any may come."""
    kind: str
    latency: int
    name: str
    files: dict[int, File] = field(default_factory=dict)
    result: Range | None = None
    inputs: list[int] = field(default_factory=list)
    operations: list[Code] = field(default_factory=list)
    formats: list[Quantisation] = field(default_factory=list)
    cells: File | None = None
    ram: int | None = None
    stores: bool = True
    is_large: bool = False

    def gives(self) -> Range:
        """The words that it may give, where something takes them."""
        return sure(self.result)

    def memory(self) -> File:
        """The cells of a memory."""
        return sure(self.cells)

    def can_stray(self) -> bool:
        """Whether an address may be outside of the memory."""
        return self.cells is not None and not Range(0, self.cells.size - 1).covers(self.files[0].words)

    def has_memory(self) -> bool:
        """Whether what is loaded is used. Of a memory that nothing loads from, addresses alone matter."""
        return self.cells is not None and self.result is not None

    def is_ahead(self, port: int) -> bool:
        """Whether a memory reads the address in the file at this port a clock ahead."""
        return self.has_memory() and self.latency == 1 and port == 0


@dataclass
class Bus:
    name: str
    drivers: list[int]
    words: Range


@dataclass
class Core:
    """The parts by the number of their unit, the buses by theirs, and the words of each input and output port."""
    name: str
    is_full: bool
    word: int | None
    period: int
    rows: int
    start: int
    inputs: list[Range]
    outputs: list[Range]
    parts: dict[int, Part] = field(default_factory=dict)
    buses: dict[int, Bus] = field(default_factory=dict)
    # Of issues by their cycles and units: from which sample on each is obeyed, where that is not the first.
    stages: dict[tuple[int, int], int] = field(default_factory=dict)

    def widest(self) -> int:
        """The bits of the datapath's word, of a core for any image over it."""
        return sure(self.word)

    def last_stage(self) -> int:
        return max(self.stages.values(), default=0)

    def memories(self) -> Iterator[tuple[str, File]]:
        """Each file with its name."""
        for part in self.parts.values():
            for port, file in part.files.items():
                yield f"{part.name}_{port}", file
            if part.has_memory():
                yield f"{part.name}_cells", part.memory()


def transfers_of(image: Image) -> Iterator[tuple[Issue, Take]]:
    """Each issue whose result is taken, with the take."""
    for cycle, word in enumerate(image.words):
        driver = {bus: unit for unit, bus in word.enables}
        for take in word.takes:
            yield sure(image.issue_for_result(cycle, driver[take.bus])), take


def issues_of(image: Image, unit: int) -> list[Issue]:
    return [word.issues[unit] for word in image.words if unit in word.issues]


# For one image


def files_needed(image: Image, issues: list[Issue]) -> dict[int, File]:
    """The files of a unit at the ports that are read, cut behind the last register that is read or taken."""
    unit = image.units[issues[0].unit]
    last: dict[int, int] = {}
    for issue in issues:
        for port, register in issue.operands():
            last[port] = max(last.get(port, 0), register)
    for word in image.words:
        for take in word.takes:
            if take.unit == issues[0].unit and take.port in last:
                last[take.port] = max(last[take.port], take.register)
    firsts = {port: unit.files[port][: last[port] + 1] for port in sorted(last)}
    return {port: File(of_words(first), first) for port, first in firsts.items()}


def part_needed(image: Image, issues: list[Issue], name: str) -> Part:
    """The part for a unit that has these issues, with the ranges of what it holds first."""
    unit = image.units[issues[0].unit]
    part = Part(unit.kind, unit.latency, name, files_needed(image, issues), ram=unit.ram)
    operations = [issue.operation for issue in issues]
    part.inputs = sorted({issue.argument for issue in issues if issue.operation == "input"})
    part.operations = sorted({(name, format_of(issue)) for issue, name in zip(issues, operations)}, key=str)
    part.formats = sorted({form for _, form in part.operations if form}, key=lambda form: (-form[2], form))
    part.stores = "store" in operations
    if unit.cells:
        part.cells = File(of_words(unit.cells), unit.cells)
    return part


def format_of(issue: Issue) -> Quantisation | None:
    """The format of an issue as a tuple, which sorts."""
    form = issue.format
    return (form.shift, form.mode, form.width) if form else None


def result_of(image: Image, core: Core, issue: Issue) -> Range:
    """The words that an issue may give, by what the files hold so far."""
    part = core.parts[issue.unit]
    if issue.format:
        return of_width(issue.format.width)
    if issue.operation == "input":
        return of_width(image.inputs[issue.argument])
    if issue.operation == "const":
        return Range(issue.argument, issue.argument)
    if issue.operation == "sel":
        return part.files[1].words.with_(part.files[2].words)
    if issue.operation == "load":
        return part.memory().words
    if issue.operation == "addr":
        return Range(0, len(image.units[sure(part.ram)].cells) - 1)
    return TRUTH


def widen(image: Image, core: Core, transfers: list[tuple[Issue, Take]]) -> bool:
    """Widens each file by what is taken into it once, and answers whether something changed."""
    files = [file for part in core.parts.values() for file in (*part.files.values(), part.cells) if file]
    before = [file.words for file in files]
    for issue, take in transfers:
        file = core.parts[take.unit].files[take.port]
        file.words = file.words.with_(result_of(image, core, issue))
    for part in core.parts.values():
        if part.cells and part.stores:
            part.cells.words = part.cells.words.with_(part.files[1].words)
    return before != [file.words for file in files]


def needed_buses(image: Image, core: Core, transfers: list[tuple[Issue, Take]], names: Names) -> None:
    """The buses that something is taken from, with those that drive them, and where each file takes from."""
    for issue, take in transfers:
        words = result_of(image, core, issue)
        bus = core.buses.setdefault(take.bus, Bus(names.buses[take.bus], [], words))
        bus.words = bus.words.with_(words)
        if issue.unit not in bus.drivers:
            bus.drivers.append(issue.unit)
        file = core.parts[take.unit].files[take.port]
        if take.bus not in file.sources:
            file.sources.append(take.bus)
    core.buses = dict(sorted(core.buses.items()))
    files = [file for part in core.parts.values() for file in part.files.values()]
    for made in (*(bus.drivers for bus in core.buses.values()), *(file.sources for file in files)):
        made.sort()


def fit(core: Core) -> None:
    """Cuts each bus to the bits that files take from it, and each result to those that buses carry."""
    taken: dict[int, int] = {}
    carried: dict[int, int] = {}
    for part in core.parts.values():
        for file in part.files.values():
            for source in file.sources:
                taken[source] = max(taken.get(source, 0), file.words.bits())
    for number, bus in core.buses.items():
        bus.words = bus.words.cut(taken[number])
        for unit in bus.drivers:
            carried[unit] = max(carried.get(unit, 0), bus.words.bits())
    for unit, bits in carried.items():
        core.parts[unit].result = core.parts[unit].gives().cut(bits)


def core_for_image(image: Image, name: str, names: Names,
                   stages: dict[tuple[int, int], int] | None = None) -> tuple[Image, Core]:
    """The core that runs this image alone, behind the image without what has no effect: what never occurs is not there.
    Of a guarded image it knows the stages."""
    while True:
        image = without_idle(image)
        core = whole_core(image, name, names)
        idle = [unit for unit, part in core.parts.items()
                if part.kind == "ram" and not part.result and not part.can_stray()]
        if not idle:
            fit(core)
            core.stages = stages or {}
            return image, core
        image = without_units(image, idle)


def whole_core(image: Image, name: str, names: Names) -> Core:
    """The core that has what occurs in an image."""
    circle = image.circle()
    core = Core(name, False, None, image.period, circle, circle - 1, [of_width(width) for width in image.inputs], [])
    for number in range(len(image.units)):
        issues = issues_of(image, number)
        if issues:
            core.parts[number] = part_needed(image, issues, names.units[number])
    transfers = list(transfers_of(image))
    while widen(image, core, transfers):
        pass
    needed_buses(image, core, transfers, names)
    for issue, _ in transfers:
        part = core.parts[issue.unit]
        part.result = result_of(image, core, issue).with_(part.result)
    core.outputs = [Range(0, 0)] * image.outputs
    for number, part in core.parts.items():
        for issue in issues_of(image, number):
            if issue.operation == "output":
                core.outputs[issue.argument] = core.outputs[issue.argument].with_(part.files[0].words)
    return core


# For any image over a datapath


def any_part(unit: Unit, name: str, word: Range) -> Part:
    part = Part(unit.kind, unit.latency, name, ram=unit.ram)
    part.files = {port: File(word, first) for port, first in enumerate(unit.files)}
    part.result = None if unit.kind == "out" else word
    if unit.cells:
        part.cells = File(word, unit.cells)
    return part


def widen_any(core: Core, buses: list[Ends]) -> bool:
    """Widens buses, files, cells and results by each other once, and answers whether something changed."""
    before = str(core)
    for number, bus in core.buses.items():
        for unit in bus.drivers:
            bus.words = core.parts[unit].gives().with_(bus.words)
        for unit, port in buses[number].to:
            file = core.parts[unit].files[port]
            file.words = file.words.with_(bus.words)
    for part in core.parts.values():
        if part.kind == "sel":
            part.result = part.files[1].words.with_(part.files[2].words)
        elif part.kind == "ram":
            part.memory().words = part.result = part.files[1].words
    return before != str(core)


def core_for_datapath(image: Image, name: str, datapath: Names, inputs: int, outputs: int) -> Core:
    """The core that runs any image over this datapath with so many input and output words."""
    word, ends = of_width(sure(datapath.word)), sure(datapath.ends)
    most = 4 * image.period
    core = Core(name, True, datapath.word, image.period, most + 1, most, [word] * inputs, [])
    for number, unit in enumerate(image.units):
        part = core.parts[number] = any_part(unit, datapath.units[number], word)
        part.inputs = list(range(inputs)) if unit.kind == "in" else []
        if unit.kind == "acu":
            part.result = Range(0, len(image.units[sure(unit.ram)].cells) - 1)
    for number, bus in enumerate(ends):
        core.buses[number] = Bus(bus.name, [unit for unit in bus.from_ if core.parts[unit].result], word)
        for to, port in bus.to:
            core.parts[to].files[port].sources.append(number)
    while widen_any(core, ends):
        pass
    made = [part.files[0].words for part in core.parts.values() if part.kind == "out"]
    core.outputs = [Range(min([word.low, *(one.low for one in made)]),
                          max([word.high, *(one.high for one in made)]))] * outputs
    check_fits(image, core)
    keep_needed(core)
    return core


def check_fits(image: Image, core: Core) -> None:
    """Refuses an image with words that the datapath's are too narrow for."""
    for part in core.parts.values():
        for file in (*part.files.values(), *([part.cells] if part.cells else [])):
            if not file.words.covers(of_words(file.first)):
                raise NoCore(f"{part.name} has a first word that is out of the range of the datapath's words")
    wide = of_width(core.widest())
    if any(not wide.covers(of_width(width)) for width in image.inputs):
        raise NoCore(f"an input word has more than the {core.word} bits of the datapath's word")
    for number, part in core.parts.items():
        for issue in issues_of(image, number):
            if issue.format and issue.format.width > core.widest():
                raise NoCore(
                    f"{part.name} gives a word of {issue.format.width} bits, and the datapath's word has {core.word}")
            if issue.operation == "const" and not wide.has(issue.argument):
                raise NoCore(f"{part.name} gives {issue.argument}, which is out of the range of the datapath's words")
