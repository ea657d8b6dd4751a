"""A text file by its lines: places, tokens, and a place as it is shown."""
from __future__ import annotations

import re
from bisect import bisect_right
from dataclasses import dataclass
from typing import NamedTuple

from silc.sure import sure

SYMBOLS = r"->|\.\.|::|\|\||<<|>>|<=|>=|==|!=|@@|[-+*@&|!<>=;:,()\[\]]"
TOKEN = re.compile(rf"(?P<space>\s+|/\*.*?\*/)|(?P<number>\d+(?:\.\d+)?)|(?P<name>[A-Za-z_]\w*)|(?P<symbol>{SYMBOLS})",
                   re.S | re.A)
KEYWORDS = ("func", "const", "var", "begin", "end", "fix", "bool", "trunc", "round", "sat", "if", "fi", "true", "false")
KEPT_FOR_LATER = ("down", "up")
RESERVED = {*KEYWORDS, *KEPT_FOR_LATER}
# Characters that take no place, or another, on a screen; a tab stays.
UNSEEN = re.compile("[\x00-\x08\x0a-\x1f\x7f\ufeff]")
# A line is shown up to this many characters.
SHOWN = 160


class Token(NamedTuple):
    """A token of a source, with the places of its first character and of the one after its last."""
    kind: str
    text: str
    start: int
    end: int


class Text:
    """A file as characters, one for each byte, so that a place is the number of a byte."""

    def __init__(self, name: str, data: bytes) -> None:
        self.name, self.data = name, data
        self.chars = data.decode("latin-1")
        self.starts = [0, *(found.end() for found in re.finditer("\n", self.chars))]

    def line_of(self, place: int) -> int:
        return bisect_right(self.starts, place)

    def line(self, number: int) -> bytes:
        """The bytes of a line, without its end."""
        end = self.starts[number] if number < len(self.starts) else len(self.data)
        return self.data[self.starts[number - 1]:end].rstrip(b"\r\n")

    def column_of(self, place: int) -> int:
        """The column of a place from 1 on, in characters."""
        before = self.data[self.starts[self.line_of(place) - 1]:place]
        return len(before.decode(errors="replace")) + 1

    def after(self, place: int, count: int) -> int:
        """The place some characters behind another."""
        if self.data[place:place + count].isascii():
            return min(place + count, len(self.data))
        for _ in range(count):
            place += 1
            while place < len(self.data) and self.data[place] & 0xC0 == 0x80:
                place += 1
        return min(place, len(self.data))

    def place(self, line: int, column: int) -> int:
        """The place of a line and a column from 1 on."""
        return self.after(self.starts[min(line, len(self.starts)) - 1], column - 1)

    def span(self, start: int, end: int | None = None) -> Span:
        """A place of this file, which ends at the end of its line where it would go on after it."""
        line = self.line_of(start)
        last = self.starts[line - 1] + len(self.line(line))
        end = max(min(start + 1 if end is None else end, last), start)
        length = len(self.data[start:end].decode(errors="replace"))
        return Span(self.name, line, self.column_of(start), max(length, 1), self.line(line).decode(errors="replace"))

    def edit(self, start: int, end: int, text: str) -> Edit:
        """The replacement of what stands between two places by a text."""
        return Edit(self.name, self.line_of(start), self.column_of(start),
                    len(self.data[start:end].decode(errors="replace")), text)

    def line_span(self, number: int) -> Span:
        """A whole line, without the blanks around it."""
        number = min(max(number, 1), len(self.starts))
        line = self.line(number)
        start = self.starts[number - 1] + len(line) - len(line.lstrip())
        return self.span(start, self.starts[number - 1] + len(line.rstrip()))


@dataclass(frozen=True)
class Span:
    """A place in a line of a file: the column, how many characters from there on, and the whole line."""
    file: str
    line: int
    column: int
    length: int
    shown: str

    def lines(self, width: int) -> list[str]:
        """The line with its number, and the place underlined."""
        start = max(0, self.column - SHOWN // 2) if len(self.shown) > SHOWN else 0
        shown = UNSEEN.sub("?", self.shown[start:start + SHOWN])
        lead = re.sub(r"[^\t]", " ", shown[:self.column - 1 - start])
        length = max(1, min(self.length, len(shown) - len(lead)))
        return [f"{self.line:>{width}} | {shown}", f"{'':>{width}} | {lead}{'^' * length}"]


@dataclass(frozen=True)
class Edit:
    """A part of a cure: from a column of a line of a file on, so many characters are replaced by a text. The end of a
    line is one of the characters."""
    file: str
    line: int
    column: int
    length: int
    text: str


def tokens_of(chars: str) -> tuple[list[Token], int | None]:
    """The tokens of a source up to the first place at which none begins, and that place, or None."""
    made, place = list[Token](), 0
    while place < len(chars):
        found = TOKEN.match(chars, place)
        if not found or (found.lastgroup == "number" and re.match(r"\w", chars[found.end():found.end() + 1], re.A)):
            return made, place
        if found.lastgroup != "space":
            kind = "reserved" if found.lastgroup == "name" and found[0] in RESERVED else sure(found.lastgroup)
            made.append(Token(kind, found[0], place, found.end()))
        place = found.end()
    return made, None
