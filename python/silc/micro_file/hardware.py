"""The fields of a microcode file before its words: the hardware, and what it starts with, in the order that both
versions have."""
from collections.abc import Iterator

from .bits import Field, Reader, Spelling
from .fields import (BUSES, CELLS, FIRST_CELL, FIRST_REGISTER, GAP, INPUT_WIDTH, INPUTS, KIND, LATENCY, OUTPUTS, PERIOD,
                     PRELOAD, RAM, REGISTERS, UNITS, UNROLL, Row, called)
from .image import Image, Unit
from .operations import PORTS

# Reading


def read_hardware(reader: Reader) -> Image:
    """The image of the fields that follow the version, which has no words yet."""
    period, unroll = reader.number(PERIOD), reader.one_of(UNROLL)
    inputs = [reader.number(INPUT_WIDTH, number) for number in range(reader.number(INPUTS))]
    outputs = reader.number(OUTPUTS)
    units = read_units(reader)
    return Image(period, unroll, inputs, outputs, units, reader.number(BUSES), [])


def read_units(reader: Reader) -> list[Unit]:
    """The units. The ram of an acu may be a later one, and is judged when all are read."""
    units, places, bits = [], [], RAM.bits(reader.version).size
    for number in range(reader.number(UNITS)):
        units.append(read_unit(reader, number))
        places.append(reader.bit - bits)
    for number, unit in enumerate(units):
        if unit.ram is not None and not (unit.ram < len(units) and units[unit.ram].kind == "ram"):
            reader.refuse(Field(called(RAM.name, (number,)), places[number], bits, unit.ram), RAM.allowed, unit.ram)
    return units


def read_unit(reader: Reader, number: int) -> Unit:
    kind, latency = reader.one_of(KIND, number), reader.number(LATENCY, number)
    unit = Unit(kind, latency, reader.number(GAP, number, high=latency), [])
    for port in range(PORTS[kind]):
        count = reader.number(REGISTERS, number, port)
        unit.files.append(read_first(reader, count, f"at port {port} of unit {number}", FIRST_REGISTER, number, port))
    if kind == "ram":
        count = reader.number(CELLS, number)
        unit.cells = read_first(reader, count, f"of the cells of unit {number}", FIRST_CELL, number)
    if kind == "acu":
        unit.ram = reader.number(RAM, number)
    return unit


def read_first(reader: Reader, count: int, where: str, row: Row, *place: int) -> list[int]:
    """What so many registers or cells start with. In version 2 a flag says whether that is not 0 throughout."""
    if not PRELOAD.is_in(reader.version):
        return read_words(reader, count, row, *place)
    flag = reader.bit
    if not reader.number(PRELOAD, where):
        return [0] * count
    words = read_words(reader, count, row, *place)
    if not any(words):
        reader.refuse(Field(called(PRELOAD.name, (where,)), flag, 1, 1), "0 where all words are 0", 1)
    return words


def read_words(reader: Reader, count: int, row: Row, *place: int) -> list[int]:
    return [reader.number(row, *place, number) for number in range(count)]


# Writing


def spelled_hardware(spelling: Spelling, image: Image) -> Iterator[str]:
    """The fields from the period to the number of buses, as texts of 0 and 1."""
    yield spelling.number(PERIOD, image.period)
    yield spelling.one_of(UNROLL, image.unroll)
    yield spelling.number(INPUTS, len(image.inputs))
    for width in image.inputs:
        yield spelling.number(INPUT_WIDTH, width)
    yield spelling.number(OUTPUTS, image.outputs)
    yield spelling.number(UNITS, len(image.units))
    for unit in image.units:
        yield from spelled_unit(spelling, unit)
    yield spelling.number(BUSES, image.buses)


def spelled_unit(spelling: Spelling, unit: Unit) -> Iterator[str]:
    yield spelling.one_of(KIND, unit.kind)
    yield spelling.number(LATENCY, unit.latency)
    yield spelling.number(GAP, unit.gap)
    for file in unit.files:
        yield spelling.number(REGISTERS, len(file))
        yield from spelled_first(spelling, FIRST_REGISTER, file)
    if unit.kind == "ram":
        yield spelling.number(CELLS, len(unit.cells))
        yield from spelled_first(spelling, FIRST_CELL, unit.cells)
    if unit.ram is not None:
        yield spelling.number(RAM, unit.ram)


def spelled_first(spelling: Spelling, row: Row, words: list[int]) -> Iterator[str]:
    has_flag = PRELOAD.is_in(spelling.version)
    if has_flag:
        yield spelling.number(PRELOAD, any(words))
    if any(words) or not has_flag:
        for word in words:
            yield spelling.number(row, word)
