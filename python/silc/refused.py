"""What is refused, with the place, the reason and the cure that `tools/explain` tells."""
from __future__ import annotations

import os
import sys
import tempfile
from collections.abc import Callable, Mapping, Sequence
from dataclasses import asdict, dataclass, replace
from functools import cached_property
from typing import TYPE_CHECKING, Any

from silc.explaining.command import DEPTH, Case, report_of
from silc.explaining.report import Report, lines_of
from silc.explaining.text import Edit, Span

if TYPE_CHECKING:
    from silc.linking.told import Told

PREFIX = "silc: "
# What rows are called that no file has.
ROWS = "rows"


@dataclass
class File:
    """An input of a command: the name by which it is told, and its content."""
    name: str
    content: bytes


class Refused(Exception):
    """A command that is refused. `status` is its exit code and `said` its line; `text` tells what is wrong, in `file`
    at `line` and `column`, both from 1, up to before the column `end`, where there is a place; `cure` what would be
    right, `rule` where the rule is, and `edits` the cure as edits of files, where it is some. All but the first two are
    looked for where one is asked for, which may take some plans."""

    def __init__(self, status: int, said: str, look: Callable[[], Report | None] = lambda: None) -> None:
        self.status, self.said, self._look = status, said.removeprefix(PREFIX), look
        super().__init__(status, self.said)

    @cached_property
    def report(self) -> Report | None:
        """What is known of it."""
        return self._look()

    @property
    def text(self) -> str:
        return self.report.short if self.report else self.said

    @property
    def cure(self) -> str:
        return self.report.cure if self.report else ""

    @property
    def rule(self) -> str:
        return self.report.rule if self.report else ""

    @property
    def edits(self) -> list[Edit]:
        return list(self.report.edits) if self.report else []

    @property
    def span(self) -> Span | None:
        """The place, with the line as it stands there."""
        return self.report.span if self.report else None

    @property
    def file(self) -> str | None:
        return self.span.file if self.span else None

    @property
    def line(self) -> int | None:
        return self.span.line if self.span else None

    @property
    def column(self) -> int | None:
        return self.span.column if self.span else None

    @property
    def end(self) -> int | None:
        return self.span.column + self.span.length if self.span else None

    def __str__(self) -> str:
        place = f"{self.file}:{self.line}:{self.column}: " if self.file else ""
        return f"{place}{self.text}" + (f" ({self.said})" if self.said != self.text else "")

    def explanation(self) -> str:
        """The lines that `tools/explain` adds: the place as it stands in its file, what else there is to see, the
        cure."""
        return "\n".join(lines_of(self.report)) if self.report else self.said

    def as_json(self) -> dict[str, Any]:
        """What is told of it, as docs/PYTHON.md has it."""
        return {"status": self.status, "said": self.said, "text": self.text, "file": self.file, "line": self.line,
                "column": self.column, "end": self.end, "cure": self.cure, "rule": self.rule,
                "edits": [asdict(edit) for edit in self.edits]}


def explained(command: str, files: Mapping[str, File], words: Sequence[str], status: int, said: str,
              silc: str, told: Told | None = None) -> Refused:
    """The refusal of a command, whose words `words` are, with a role of `files` in the place of each file. Of a source
    that is linked, which `told` is, places are those of the files that it is made of."""
    def look() -> Report | None:
        report = report_on(command, files, words, status, said, silc)
        return told.reported(status, report) if told else report
    return Refused(status, told.said(PREFIX + said.removeprefix(PREFIX)) if told else said, look)


def report_on(command: str, files: Mapping[str, File], words: Sequence[str], status: int, said: str,
              silc: str) -> Report | None:
    """What `tools/explain` knows of a refused command."""
    sys.setrecursionlimit(max(DEPTH, sys.getrecursionlimit()))
    with tempfile.TemporaryDirectory(prefix="silc-refused-") as folder:
        placed = {}
        for role, file in files.items():
            placed[role] = os.path.join(folder, role, os.path.basename(file.name))
            os.mkdir(os.path.dirname(placed[role]))
            with open(placed[role], "wb") as made:
                made.write(file.content)
        case = Case([command, *(placed.get(word, word) for word in words)], status, said, silc, is_quiet=True)
        report = told_of(case)
    return renamed(report, {place: files[role].name for role, place in placed.items()}) if report else None


def told_of(case: Case) -> Report | None:
    """The report on a case, or what its refusal means where no more is known."""
    try:
        report: Report | None = report_of(case)
    except Exception:
        # Whatever is wrong here, the command was refused, and what the refusal means is known.
        report = None
    return report or (case.refusal.report(about="silc") if case.known else None)


def renamed(report: Report, names: Mapping[str, str]) -> Report:
    """The report with the names that files have for a user."""
    def told(text: str) -> str:
        for place, name in names.items():
            text = text.replace(place, name)
        return text

    def placed(span: Any) -> Any:
        return span and replace(span, file=told(span.file))

    report.span, report.about = placed(report.span), told(report.about)
    report.short, report.cure = told(report.short), told(report.cure)
    report.notes = [replace(note, text=told(note.text), span=placed(note.span)) for note in report.notes]
    report.edits = [placed(edit) for edit in report.edits]
    return report
