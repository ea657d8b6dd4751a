"""A source as an editor has it, and positions in it: a line, and UTF-16 units in that line."""
import bisect

from silc.checking.findings import Finding
from silc.explaining.text import Text

UNIT = 2
# The name of the text of a document in reports, whose edits are of it.
NAME = "source.sil"
# The columns of a fault of which only the line is known.
LINE_ALONE = (1, 2)


class Document:
    """The text of a source, perhaps unsaved."""

    def __init__(self, text: str, version: int | None = None) -> None:
        self.text, self.version = text, version
        # What is found in it, once it is looked for, and which of it the cure takes away, once that is tried.
        self.findings: list[Finding] = []
        self.cured: dict[Finding, bool] = {}
        self.starts = [0]
        for place, character in enumerate(text):
            if character == "\n":
                self.starts.append(place + 1)

    def source_text(self) -> Text:
        """The text as the tools read it."""
        return Text(NAME, self.text.encode(errors="replace"))

    def position(self, offset: int) -> dict:
        line = bisect.bisect_right(self.starts, offset) - 1
        before = self.text[self.starts[line]: offset].encode("utf-16-le", "surrogatepass")
        return {"line": line, "character": len(before) // UNIT}

    def line(self, number: int) -> str:
        """A line by its number from 0, without its end."""
        if number >= len(self.starts):
            return ""
        end = self.starts[number + 1] - 1 if number + 1 < len(self.starts) else len(self.text)
        return self.text[self.starts[number]: end]

    def offset(self, position: dict) -> int:
        number = min(position["line"], len(self.starts) - 1)
        before = self.line(number).encode("utf-16-le", "surrogatepass")[: UNIT * position["character"]]
        return self.starts[number] + len(before.decode("utf-16-le", "ignore"))

    def range(self, start: int, end: int) -> dict:
        return {"start": self.position(start), "end": self.position(end)}

    def place(self, line: int, column: int) -> int:
        """The offset of a line and a column from 1 on."""
        return self.starts[min(line, len(self.starts)) - 1] + column - 1

    def range_of(self, found: Finding) -> dict:
        """Where a finding is, or its line where only that is known."""
        column, end = found.column, found.end
        if (column, end) == LINE_ALONE:
            text = self.line(found.line - 1)
            column, end = len(text) - len(text.lstrip()) + 1, max(len(text.rstrip()) + 1, end)
        return self.range(self.place(found.line, column), self.place(found.line, end))

    def edits_of(self, found: Finding) -> list[tuple[int, int, str]]:
        """The cure of a finding: places from one to another, each with the text that is written there."""
        places = [(self.place(edit.line, edit.column), edit) for edit in found.edits]
        return sorted((place, place + edit.length, edit.text) for place, edit in places)

    def edited(self, edits: list[tuple[int, int, str]]) -> str:
        text = self.text
        for start, end, new in reversed(edits):
            text = text[:start] + new + text[end:]
        return text


def whole(document: Document) -> dict:
    return document.range(0, len(document.text))


def is_unused(found: Finding) -> bool:
    """Whether a warning is of something that could be taken away."""
    return found.is_warning and found.text.endswith(("is never read", "is never called", "by its own equation alone"))
