"""The picture of a block's page: words in and out over samples, or the response of a filter.

The last paragraph of a block's first comment may be `Picture: words SEGMENTS` or `Picture: response COUNT of ROW; ROW`.
Segments have ; between them and are COUNT x CELL,CELL ..: a cell is a word, sin(SIZE/PERIOD) or ramp(FROM/TO). A
response is that to the first row with the second one after it, and its unit the first word of the first.
"""
from __future__ import annotations

import math
import re
from collections.abc import Sequence

from silc.designing.programs import evaluated, text_of
from silc.designing.sources import COMMENT, MAIN
from silc.linking.blocks import Block, Library
from silc.linking.linker import alone
from silc.linking.trying import setting_at
from silc.pictures.response import draw_response
from silc.pictures.words import draw_words

ASKED = re.compile(r"Picture: (?:words (?P<words>.*)|response (?P<count>\d+) of (?P<first>[^;]*);(?P<rest>[^;]*))")
SEGMENT = re.compile(r"\s*(\d+) x (.*?)\s*")
WAVE = re.compile(r"(sin|ramp)\((-?\d+)/(-?\d+)\)")
NAMED = re.compile(r"(\w+)((?:\[\d+\])*)\s*:")
# As many words of a row are shown.
MOST_SHOWN = 3
Row = tuple[int, ...]


class NoPicture(ValueError):
    """Why a block has no picture."""


def cell_at(cell: str, n: int, count: int) -> int:
    """A cell of a segment at one of its samples."""
    wave = WAVE.fullmatch(cell.strip())
    if not wave:
        return int(cell)
    kind, first, second = wave[1], int(wave[2]), int(wave[3])
    if kind == "sin":
        return round(first * math.sin(2 * math.pi * n / second))
    return first + round((second - first) * n / max(1, count - 1))


def segment_rows(text: str) -> list[Row]:
    found = SEGMENT.fullmatch(text)
    if not found:
        raise NoPicture(f"`{text.strip()}` is no COUNT x CELL,CELL ..")
    count, cells = int(found[1]), found[2].split(",")
    return [tuple(cell_at(cell, n, count) for cell in cells) for n in range(count)]


def row_of(text: str) -> Row:
    return tuple(map(int, text.split(",")))


def names_of(source: str) -> tuple[list[str], list[str]]:
    """The names of the words of main's inputs and outputs."""
    found = MAIN.search(COMMENT.sub(" ", source))
    if not found:
        raise NoPicture("it has no main")
    inputs, outputs = ([name for declared in NAMED.finditer(part) for name in elements_of(*declared.groups())]
                       for part in found.groups())
    return inputs, outputs


def elements_of(name: str, dims: str) -> list[str]:
    count = math.prod(map(int, re.findall(r"\d+", dims)))
    return [name] if not dims else [f"{name}[{k}]" for k in range(count)]


def figure_of(library: Library, block: Block, asked: str) -> str:
    """The picture that is asked for, as SVG."""
    found = ASKED.fullmatch(asked)
    if not found:
        raise NoPicture(f"`{asked}` is no picture")
    source = alone(library, setting_at(block, {})).text
    if found["words"] is None:
        first, rest = row_of(found["first"]), row_of(found["rest"])
        rows = [first, *[rest] * (int(found["count"]) - 1)]
        return draw_response(text_of(evaluated(source, rows)), str(first[0])) + "\n"
    rows = [row for segment in found["words"].split(";") for row in segment_rows(segment)]
    inputs, outputs = names_of(source)
    shown = [*columns_of(inputs, rows)[:1], *columns_of(outputs, evaluated(source, rows))[:MOST_SHOWN]]
    return draw_words(*shown) + "\n"


def columns_of(names: Sequence[str], rows: Sequence[Row]) -> list[tuple[str, list[int]]]:
    return [(name, list(words)) for name, words in zip(names, zip(*rows))]
