"""Files as texts, places in them, and why nothing is made of one."""
from __future__ import annotations

import re
from typing import TYPE_CHECKING

from silc.explaining.text import Span, Text

if TYPE_CHECKING:
    from pathlib import Path

COMMENT = re.compile(r"/\*.*?(?:\*/|\Z)", re.S)
NAME = re.compile(r"[A-Za-z_]\w*", re.A)
KEYWORDS = frozenset("func const var begin end fix bool trunc round sat if fi true false down up".split())
# A line of the head of a source that is to be linked.
STATEMENT = re.compile(r"\s*(?P<word>let|use)\b(?P<rest>[^;]*)(?P<end>;?)", re.A)


class Unlinked(Exception):
    """Why no source is made: what is wrong, and the file, the line and the column, from 1 on, where it is."""

    def __init__(self, file: str, line: int, column: int | None, text: str, span: Span | None = None) -> None:
        self.file, self.line, self.column, self.text, self.span = file, line, column, text, span
        # Where the `use` of the source stands that led there, where one did.
        self.by: int | None = None
        super().__init__(f"{file}:{line}:{f'{column}:' if column else ''} {text}")


def blanked(text: str) -> str:
    """The text with blanks in the place of comments, and each line where it was."""
    return COMMENT.sub(lambda found: re.sub(r"[^\n]", " ", found[0]), text)


class File:
    """A file by the name that it is told by, with its content."""

    def __init__(self, name: str, content: bytes) -> None:
        self.name, self.content = name, content
        self.lines = Text(name, content)
        self.text = self.lines.chars
        self.code = blanked(self.text)

    def line_of(self, at: int) -> int:
        return self.lines.line_of(at)

    def fault(self, at: int, text: str, end: int | None = None) -> Unlinked:
        """A fault from an offset of the text to another in its line: of a statement that begins there, to its end."""
        statement = STATEMENT.match(self.code, at)
        last = end or (statement.end() if statement and statement.start("word") == at else None)
        span = self.lines.span(at, last)
        return Unlinked(self.name, span.line, span.column, text, span)

    def names(self) -> set[str]:
        """All names outside the comments."""
        return set(NAME.findall(self.code))


def has_head(text: str) -> bool:
    """Whether a source is one to be linked: a plain one begins with a function or a table."""
    return STATEMENT.match(blanked(text)) is not None


def file_at(path: Path, name: str | None = None) -> File:
    return File(name or str(path), path.read_bytes())
