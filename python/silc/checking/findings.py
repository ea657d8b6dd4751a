"""What is said of a place in a source, as editors read it."""
from dataclasses import dataclass

from silc.explaining.report import Report

# The first sentence of a fault of which no more is known is the line of silc, at the first column of its line.
FIRST_COLUMNS = (1, 2)


@dataclass(frozen=True)
class Finding:
    """A fault or a warning: its line, its first column and the one after it, from 1 on, and its text."""
    line: int
    column: int
    end: int
    text: str
    is_warning: bool = False
    # The cure in words, and as edits where it is some.
    cure: str = ""
    edits: tuple = ()

    def said(self, file: str) -> str:
        return f"{file}:{self.line}:{self.column}-{self.end}: {'warning: ' if self.is_warning else ''}{self.text}"


def finding_of(report: Report, is_warning: bool = False) -> Finding:
    """What a report says in a line."""
    span = report.span
    line, column, end = (span.line, span.column, span.column + span.length) if span else (1, *FIRST_COLUMNS)
    return Finding(line, column, end, report.short, is_warning, report.cure, tuple(report.edits))
