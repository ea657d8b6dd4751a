"""The columns of the microprogram: what each field of a row says, and its value for each cycle of the circle."""
from collections.abc import Callable, Iterator, Sequence
from dataclasses import dataclass

from silc.micro_file.image import ROUNDING, SATURATING, SHIFTS, Format, Image, Issue, Take, Word
from silc.micro_file.operations import number_bits, number_of
from silc.sure import sure

from .netlist import Bus, Code, Core, File, Part, Quantisation
from .words import index_bits

SHIFT_BIAS, SHIFT_BITS, OP_BITS = -SHIFTS[0], 7, number_bits("alu")
AHEAD = 1


@dataclass
class Column:
    """A field. Its values are those of the cycles in which it is used, None where it does not matter; `early` rows
    before stands what a cycle uses."""
    name: str
    bits: int
    values: list[int | None]
    says: str
    early: int = 0

    def rows(self) -> list[int]:
        """The values by rows. Where none matters, that of the row before stands."""
        count = len(self.values)
        turned = [self.values[(row + self.early) % count] for row in range(count)]
        known = [value for value in turned if value is not None]
        value, rows = known[-1] if known else 0, []
        for given in turned:
            value = value if given is None else given
            rows.append(value & ((1 << self.bits) - 1))
        return rows


def by_cycle(image: Image, unit: int, value: Callable[[Issue], int | None], later: int = 0) -> list[int | None]:
    """For each cycle what `value` says of the unit's issue `later` cycles before, or None."""
    circle = image.circle()
    found = [image.words[(cycle - later) % circle].issues.get(unit) for cycle in range(circle)]
    return [None if issue is None else value(issue) for issue in found]


def flags(image: Image, unit: int, operation: str) -> list[int | None]:
    """For each cycle whether the unit begins this operation."""
    return [int(unit in word.issues and word.issues[unit].operation == operation) for word in image.words]


def due_column(image: Image, core: Core, number: int, part: Part, operation: str) -> Iterator[Column]:
    """From which sample on the unit does what a cycle has, where that is not always the first. What is not due yet may
    be done all the same where it leaves nothing behind; a store and an output do."""
    stages = [core.stages.get((cycle, number), 0) if is_there else None
              for cycle, is_there in enumerate(flags(image, number, operation))]
    if any(stages):
        yield Column(f"cu_{part.name}_due", index_bits(core.last_stage() + 1), stages,
                     f"sample from which on {part.name} does so")


def stages(latency: int) -> tuple[int, int, int]:
    """Of a product: the cycles before the multiplier, those behind it, and those behind the format."""
    before, after = int(latency > 2), int(latency > 1)
    return before, after, latency - 1 - before - after


def code_columns(image: Image, core: Core, number: int, part: Part, later: int) -> Iterator[Column]:
    """Which operation in which format: one number of those that occur, or fields for any."""
    name = f"cu_{part.name}"

    def column(suffix: str, bits: int, value: Callable[[Issue], int | None], says: str) -> Column:
        return Column(f"{name}_{suffix}", bits, by_cycle(image, number, value, later), says)

    def format_field(value: Callable[[Format], int]) -> Callable[[Issue], int | None]:
        return lambda issue: value(issue.format) if issue.format else None

    if not core.is_full:
        codes: Sequence[Code | Quantisation] = [*part.operations] if part.kind == "alu" else [*part.formats]
        if len(codes) == 1:
            return
        listed = ", ".join(f"{code} {shown(one)}" for code, one in enumerate(codes))

        def code_in(issue: Issue) -> int:
            return codes.index(code_of(issue) if part.kind == "alu" else code_of(issue)[1])

        yield column("code", index_bits(len(codes)), code_in, f"operation of {part.name}: {listed}")
        return
    if part.kind == "alu":
        yield column("op", OP_BITS, lambda issue: number_of(issue.operation), f"operation of {part.name}")
    yield column("shift", SHIFT_BITS, format_field(lambda form: form.shift + SHIFT_BIAS),
                 f"shift of {part.name}, and {SHIFT_BIAS}")
    yield column("round", 1, format_field(lambda form: int(form.mode in ROUNDING)), f"whether {part.name} rounds")
    yield column("sat", 1, format_field(lambda form: int(form.mode in SATURATING)), f"whether {part.name} saturates")
    yield column("width", index_bits(core.widest()), format_field(lambda form: form.width - 1),
                 f"width of {part.name}, less 1")


def code_of(issue: Issue) -> Code:
    form = issue.format
    return issue.operation, (form.shift, form.mode, form.width) if form else None


def shown(code: Code | Quantisation) -> str:
    """An operation with its format, or a format, as the listing has them."""
    name, form = code if isinstance(code[0], str) else ("mul", code)
    return name if form is None else f"{name} fmt {form[0]} {form[1]} {form[2]}"


def unit_columns(image: Image, core: Core, number: int, part: Part) -> Iterator[Column]:
    """What a unit does."""
    name, what = f"cu_{part.name}", part.name
    if part.kind == "in" and len(part.inputs) > 1:
        yield Column(f"{name}_word", index_bits(len(part.inputs)),
                     by_cycle(image, number, lambda issue: part.inputs.index(issue.argument)),
                     f"input word of {what}" + ("" if core.is_full else f", of {part.inputs}"))
    elif part.kind == "out":
        yield Column(f"{name}_does", 1, flags(image, number, "output"), f"whether {what} begins an output")
        yield from due_column(image, core, number, part, "output")
        if len(core.outputs) > 1:
            yield Column(f"{name}_word", index_bits(len(core.outputs)),
                         by_cycle(image, number, lambda issue: issue.argument, part.latency - 1),
                         f"output word that {what} ends")
    elif part.kind == "rom":
        yield Column(f"{name}_value", part.gives().bits(),
                     by_cycle(image, number, lambda issue: issue.argument, part.latency - 1),
                     f"constant that {what} gives")
    elif part.kind == "alu":
        yield from code_columns(image, core, number, part, 0)
    elif part.kind == "mul":
        before, after, _ = stages(part.latency)
        yield from code_columns(image, core, number, part, before + after)
    elif part.kind == "ram":
        if part.can_stray():
            yield Column(f"{name}_loads", 1, flags(image, number, "load"), f"whether {what} begins a load")
        yield Column(f"{name}_stores", 1, flags(image, number, "store"), f"whether {what} begins a store")
        yield from due_column(image, core, number, part, "store")
    elif part.kind == "acu":
        cells = len(image.units[sure(part.ram)].cells)
        yield Column(f"{name}_offset", index_bits(cells),
                     by_cycle(image, number, lambda issue: issue.argument % cells), f"offset of {what}")


def file_columns(image: Image, number: int, part: Part, port: int, file: File) -> Iterator[Column]:
    """What a register file reads and takes."""
    def read(issue: Issue) -> int | None:
        return dict(issue.operands()).get(port)

    def taken(value: Callable[[Take], int]) -> list[int | None]:
        return [next((value(take) for take in word.takes if (take.unit, take.port) == (number, port)), None)
                for word in image.words]

    name, what, bits = f"cf_{part.name}_{port}", f"{part.name}.{port}", file.address_bits()
    if file.size > 1:
        yield Column(f"{name}_read", bits, by_cycle(image, number, read),
                     f"register that {what} reads in the next cycle", AHEAD)
    if file.sources:
        yield Column(f"{name}_take", 1, [int(value is not None) for value in taken(lambda take: take.bus)],
                     f"whether {what} takes")
        if len(file.sources) > 1:
            yield Column(f"{name}_from", index_bits(len(file.sources)),
                         taken(lambda take: file.sources.index(take.bus)),
                         f"bus that {what} takes from, of {file.sources}")
        if file.size > 1:
            yield Column(f"{name}_into", bits, taken(lambda take: take.register), f"register of {what} that takes")


def bus_column(image: Image, number: int, bus: Bus) -> Column:
    def driver(word: Word) -> int | None:
        return next((bus.drivers.index(unit) for unit in word.drivers(number) if unit in bus.drivers), None)
    return Column(f"cb_{bus.name}_from", index_bits(len(bus.drivers)), [driver(word) for word in image.words],
                  f"unit that drives bus {bus.name}, of {bus.drivers}")


def columns_of(image: Image, core: Core) -> Iterator[Column]:
    """All columns, the lowest bits first."""
    circle = image.circle()
    yield Column("c_last", 1, [int((cycle + 1) % image.period == 0) for cycle in range(circle)],
                 "the last cycle of a sample")
    yield Column("c_again", 1, [int((cycle + 2) % circle == 0) for cycle in range(circle)],
                 "the next row is the last of the circle")
    for number, part in core.parts.items():
        yield from unit_columns(image, core, number, part)
        for port, file in part.files.items():
            yield from file_columns(image, number, part, port, file)
    for number, bus in core.buses.items():
        if len(bus.drivers) > 1:
            yield bus_column(image, number, bus)


class Program:
    """The microprogram: columns with the lowest bit of each, and those that are the same in each row. A row has one bit
    at least, which is that of its first column."""

    def __init__(self, image: Image, core: Core) -> None:
        self.core, self.columns, self.width = core, list(columns_of(image, core)), 0
        self.places: dict[str, int] = {}
        self.constants: dict[str, int] = {}
        rows = {column.name: column.rows() for column in self.columns}
        if not core.is_full:
            self.constants = {name: values[0] for name, values in rows.items() if len(set(values)) == 1}
        if len(self.constants) == len(self.columns):
            del self.constants[self.columns[0].name]
        for column in self.columns:
            if column.name not in self.constants:
                self.places[column.name] = self.width
                self.width += column.bits
        self.rows = [sum(rows[name][row] << place for name, place in self.places.items())
                     for row in range(image.circle())]

    def has(self, name: str) -> bool:
        return any(column.name == name for column in self.columns)

    def lines(self) -> str:
        """The rows for $readmemh. Where the core runs any program, those that are not used are 0, and the last of the
        circle stands once more at the end, for the fetch after a reset."""
        rows = self.rows
        if self.core.is_full:
            rows = rows + [0] * (self.core.rows - 1 - len(rows)) + [rows[-1]]
        digits = (self.width + 3) // 4
        return "".join(f"{row:0{digits}x}\n" for row in rows)
