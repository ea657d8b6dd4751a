"""The fields of an issue behind its unit, in the order that both versions have."""
from collections.abc import Iterator

from .bits import Reader, Spelling
from .fields import ARGUMENT, MODE, NO_MODE, NO_SHIFT, NO_WIDTH, NOT_READ, OPERATION, READ, SHIFT, WIDTH
from .image import Format, Image, Issue, Unit, argument_range
from .operations import FORMATTED, reads


def read_issue(reader: Reader, image: Image, number: int, what: str, reading: str) -> Issue:
    """What a unit is issued. Texts say of which issue a field is, and which registers it reads."""
    unit = image.units[number]
    operation = reader.one_of(OPERATION[unit.kind], what, number)
    form = read_format(reader, operation, what)
    low, high = argument_range(operation, image)
    argument = reader.number(ARGUMENT[operation], what, low=low, high=high)
    return Issue(number, operation, form, argument, read_registers(reader, unit, operation, reading))


def read_format(reader: Reader, operation: str, what: str) -> Format | None:
    if operation in FORMATTED:
        return Format(reader.number(SHIFT, what), reader.one_of(MODE, what), reader.number(WIDTH, what))
    for row in (NO_SHIFT, NO_MODE, NO_WIDTH):
        reader.number(row, what)
    return None


def read_registers(reader: Reader, unit: Unit, operation: str, reading: str) -> tuple[int, ...]:
    """A register for each port of the unit. One that is not read is 0."""
    count = reads(operation)
    return tuple(reader.number(READ, reading, port, high=len(file) - 1) if port < count else
                 reader.number(NOT_READ, reading, port) for port, file in enumerate(unit.files))


def spelled_issue(spelling: Spelling, unit: Unit, issue: Issue) -> Iterator[str]:
    """The fields of an issue of the unit, as texts of 0 and 1."""
    yield spelling.one_of(OPERATION[unit.kind], issue.operation)
    if issue.format:
        yield spelling.number(SHIFT, issue.format.shift)
        yield spelling.one_of(MODE, issue.format.mode)
        yield spelling.number(WIDTH, issue.format.width)
    else:
        yield from (spelling.number(row, 0) for row in (NO_SHIFT, NO_MODE, NO_WIDTH))
    yield spelling.number(ARGUMENT[issue.operation], issue.argument)
    count = reads(issue.operation)
    for port, register in enumerate(issue.registers):
        yield spelling.number(READ if port < count else NOT_READ, register)
