"""Microwords in version 1: a list of issues, one of enables and one of takes, each behind how many they are."""
from collections.abc import Callable, Iterator
from typing import TypeVar

from .bits import Field, Reader, Spelling
from .fields import (ENABLE_BUS, ENABLE_UNIT, ENABLES, ISSUE_UNIT, ISSUES, TAKE_BUS, TAKE_PORT, TAKE_REGISTER,
                     TAKE_UNIT, TAKES, Row, called)
from .image import Image, Issue, Take, Word
from .issues import read_issue, spelled_issue

Move = TypeVar("Move", tuple[int, int], Take)


def read_word(reader: Reader, image: Image, where: str) -> Word:
    word, last = Word(), len(image.units) - 1
    for _ in range(reader.number(ISSUES, where, high=len(image.units))):
        issue = read_unit_and_issue(reader, image, where, max(word.issues, default=-1))
        word.issues[issue.unit] = issue
    word.enables = read_moves(reader, ENABLES, where, lambda: (
        reader.number(ENABLE_UNIT, where, high=last), reader.number(ENABLE_BUS, where, high=image.buses - 1)))
    word.takes = read_moves(reader, TAKES, where, lambda: read_take(reader, image, where))
    return word


def read_unit_and_issue(reader: Reader, image: Image, where: str, last: int) -> Issue:
    """An issue of a unit behind the last one that has some."""
    number = reader.number(ISSUE_UNIT, where, low=last + 1, high=len(image.units) - 1)
    return read_issue(reader, image, number, f"of an issue {where}", f"that an issue {where} reads")


def read_moves(reader: Reader, row: Row, where: str, one: Callable[[], Move]) -> list[Move]:
    """A list of drives or takes, which rises strictly. The first byte of one that does not is told."""
    moves: list[Move] = []
    for _ in range(reader.number(row, where)):
        start = reader.bit
        moves.append(one())
        if moves[1:] and moves[-2] >= moves[-1]:
            name = called(row.name, (where,)).replace("the number of", "the order of the")
            reader.refuse(Field(name, start, reader.bit - start, 0), f"more than {'.'.join(map(str, moves[-2]))}",
                          ".".join(map(str, moves[-1])))
    return moves


def read_take(reader: Reader, image: Image, where: str) -> Take:
    unit = reader.number(TAKE_UNIT, where, high=len(image.units) - 1)
    files = image.units[unit].files
    port = reader.number(TAKE_PORT, where, unit, high=len(files) - 1)
    bus = reader.number(TAKE_BUS, where, high=image.buses - 1)
    return Take(unit, port, bus, reader.number(TAKE_REGISTER, where, high=len(files[port]) - 1))


def spelled_word(spelling: Spelling, image: Image, word: Word) -> Iterator[str]:
    """The fields of a word, as texts of 0 and 1."""
    yield spelling.number(ISSUES, len(word.issues))
    for unit, issue in sorted(word.issues.items()):
        yield spelling.number(ISSUE_UNIT, unit)
        yield from spelled_issue(spelling, image.units[unit], issue)
    yield spelling.number(ENABLES, len(word.enables))
    for unit, bus in word.enables:
        yield spelling.number(ENABLE_UNIT, unit)
        yield spelling.number(ENABLE_BUS, bus)
    yield spelling.number(TAKES, len(word.takes))
    for take in word.takes:
        for row, number in zip((TAKE_UNIT, TAKE_PORT, TAKE_BUS, TAKE_REGISTER), take):
            yield spelling.number(row, number)
