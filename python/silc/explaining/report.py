"""What is said of a refusal, and how it is put."""
from __future__ import annotations

import json
import re
from collections.abc import Iterable
from dataclasses import dataclass, field

from silc.explaining.text import Edit, Span

WIDTH = 100


@dataclass
class Note:
    """A sentence, with the place that it is about where there is one."""
    text: str
    span: Span | None = None


@dataclass
class Report:
    """Why a command is refused: what is wrong, where, what else there is to see, what would be right, and the rule."""
    short: str
    cure: str
    rule: str
    span: Span | None = None
    notes: list[Note] = field(default_factory=list)
    # What the report is about where it has no place: a file, or the command.
    about: str = ""
    # The cure as edits of files, all of which are applied together; none where it is a choice, or asks for something
    # new.
    edits: list[Edit] = field(default_factory=list)

    def note(self, text: str, span: Span | None = None) -> Report:
        self.notes.append(Note(text, span))
        return self

    def by(self, *edits: Edit) -> Report:
        """The report with the cure as edits."""
        self.edits += edits
        return self


def folded(text: str, first: str, rest: str) -> list[str]:
    """The words of a text in lines of WIDTH characters. What stands between two backquotes stays in one line."""
    lines, line = [], first
    for word in re.findall(r"(?:`[^`]*`|[^ `])+", text):
        if len(line) + len(word) > WIDTH and line.strip():
            lines.append(line.rstrip())
            line = rest
        line += word + " "
    return [*lines, line.rstrip()]


def lines_of(report: Report) -> list[str]:
    """The lines of a report."""
    spans = [span for span in [report.span, *(note.span for note in report.notes)] if span]
    width = max((len(str(span.line)) for span in spans), default=1)
    place = f"{report.span.file}:{report.span.line}:{report.span.column}" if report.span else report.about
    made = folded(report.short, f"{place}: " if place else "", "  ")
    if report.span:
        made += report.span.lines(width)
    for note in report.notes:
        if note.span:
            where = note.span.file + ":" if report.span is None or note.span.file != report.span.file else ""
            made += folded(note.text, f"{where}{note.span.line}:{note.span.column}: ", "  ")
            made += note.span.lines(width)
        else:
            made += folded(note.text, "", "  ")
    made += folded(report.cure, "cure: ", "  ")
    return [*made, f"rule: {report.rule}"]


def edit_line(edit: Edit) -> str:
    """An edit as a line for a program to read: its place, and the new text as JSON."""
    return f"edit: {edit.file}:{edit.line}:{edit.column}-{edit.column + edit.length}: {json.dumps(edit.text)}"


def listed(words: Iterable[str], last: str = "and") -> str:
    """Words in a row: `a`, `a and b`, `a, b and c`."""
    words = list(words)
    return f" {last} ".join(filter(None, [", ".join(words[:-1]), *words[-1:]]))


def counted(number: int, one: str, more: str | None = None) -> str:
    """A number with its word: 1 cycle, 2 cycles."""
    return f"{number} {one if number == 1 else more or one + 's'}"
