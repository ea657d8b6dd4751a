"""Microwords in version 2: a flag for each unit that may have an issue and each bus that a unit may drive, and the
takes file by file, each behind a 1."""
from collections.abc import Iterator

from .bits import Field, Reader, Spelling
from .fields import ENABLE_FLAG, ISSUE_FLAG, TAKE_BUS, TAKE_FLAG, TAKE_REGISTER
from .image import MOST_MOVES, Image, Take, Word
from .issues import read_issue, spelled_issue


def read_word(reader: Reader, image: Image, where: str) -> Word:
    word = Word()
    for number in range(len(image.units)):
        if reader.number(ISSUE_FLAG, where, number):
            what = f"of the issue of unit {number} {where}"
            word.issues[number] = read_issue(reader, image, number, what, what)
    word.enables = [(number, bus) for number in range(len(image.units)) for bus in range(image.buses)
                    if reader.number(ENABLE_FLAG, where, number, bus)]
    for number, unit in enumerate(image.units):
        for port in range(len(unit.files)):
            read_takes(reader, image, word.takes, (number, port), where)
    return word


def read_takes(reader: Reader, image: Image, takes: list[Take], place: tuple[int, int], where: str) -> None:
    """The takes of one file, each behind a 1, and the 0 at their end. A take too many is told by its 1."""
    number, port = place
    at = f"at {number}.{port} {where}"
    while True:
        start = reader.bit
        if not reader.number(TAKE_FLAG, at, high=0 if len(takes) == MOST_MOVES else 1):
            return
        bus = reader.number(TAKE_BUS, at, high=image.buses - 1)
        register = reader.number(TAKE_REGISTER, at, high=len(image.units[number].files[port]) - 1)
        take = Take(number, port, bus, register)
        if takes and takes[-1] >= take:
            order = Field(f"the bus and register of a take {at}", start, reader.bit - start, 0)
            reader.refuse(order, f"more than {takes[-1].bus}.{takes[-1].register}", f"{bus}.{register}")
        takes.append(take)


def spelled_word(spelling: Spelling, image: Image, word: Word) -> Iterator[str]:
    """The fields of a word, as texts of 0 and 1."""
    for number, unit in enumerate(image.units):
        yield spelling.number(ISSUE_FLAG, number in word.issues)
        if number in word.issues:
            yield from spelled_issue(spelling, unit, word.issues[number])
    enables = set(word.enables)
    for number in range(len(image.units)):
        for bus in range(image.buses):
            yield spelling.number(ENABLE_FLAG, (number, bus) in enables)
    for number, unit in enumerate(image.units):
        for port in range(len(unit.files)):
            yield from spelled_takes(spelling, [take for take in word.takes if take[:2] == (number, port)])


def spelled_takes(spelling: Spelling, takes: list[Take]) -> Iterator[str]:
    """The takes of one file, and the 0 at their end."""
    for take in takes:
        yield spelling.number(TAKE_FLAG, 1)
        yield spelling.number(TAKE_BUS, take.bus)
        yield spelling.number(TAKE_REGISTER, take.register)
    yield spelling.number(TAKE_FLAG, 0)
