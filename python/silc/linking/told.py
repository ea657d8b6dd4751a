"""What is said of a linked source, told at the places of the files that it is made of."""
from __future__ import annotations

import re
from collections.abc import Sequence
from dataclasses import dataclass, replace
from pathlib import PurePath

from silc.checking.findings import Finding
from silc.checking.first import Fault, first_fault
from silc.explaining.hardware import Node
from silc.explaining.report import Note, Report
from silc.explaining.text import Edit, Span, Text
from silc.linking.blocks import Block, Library, Source
from silc.linking.linker import MAIN, Linked, Part, Placed, Setting, alone, link
from silc.linking.places import NAME, File, Unlinked, has_head
from silc.refused import Refused, renamed

QUOTED = re.compile(r"`([^`]*)`")
ELEMENT = re.compile(r"(?:[A-Za-z_]\w*\.)+[A-Za-z_]\w*(?:\[\d+\])*", re.A)
IN_LINE = re.compile(r"\bin line (\d+)")
BAD_SOURCE = 4
# The statuses at which a report is on the source.
OF_SOURCE = (BAD_SOURCE, 6, 7, 8, 9)
RULE = 'docs/LIBRARY.md, "Sources with a head"'
SAID_LINE = re.compile(r"(silc(?:_place)?: )line (\d+): (.*)")


@dataclass(frozen=True)
class Found:
    """What is found at its place in a file. Of a block it has where it is used."""
    file: str
    finding: Finding
    placed: Placed | None = None
    led: Span | None = None

    def said(self) -> str:
        """What it is in a line, as `Finding.said`."""
        by = f" (of {self.placed.setting}, by {self.led.file}:{self.led.line})" if self.placed and self.led else ""
        return self.finding.said(self.file) + by


class Told:
    """A linked source as the tools read it, by a name of its own where it is a file, and what they say of it at its own
    places."""

    def __init__(self, linked: Linked, name: str | None = None) -> None:
        self.linked = linked
        self.uses = {use.name for use in linked.source.uses}
        self.text = Text(name or linked.main.name, linked.text.encode("latin-1"))

    def named(self, name: str) -> Told:
        return Told(self.linked, name)

    # Places

    def own_span(self, start: int, end: int) -> Span:
        """The place in its file of a part of the linked source."""
        origin = self.linked.traced.origin(start, end)
        return origin.file.lines.span(origin.at, origin.end) if origin else self.linked.main.lines.span(0)

    def places(self, span: Span) -> tuple[int, int]:
        return self.text.place(span.line, span.column), self.text.place(span.line, span.column + span.length)

    def span(self, span: Span | None) -> Span | None:
        """A place of the linked source, told in its file; one of another file stays."""
        return self.own_span(*self.places(span)) if span and span.file == self.text.name else span

    def part_of(self, span: Span | None) -> Part | None:
        return self.linked.part_at(self.places(span)[0]) if span and span.file == self.text.name else None

    def led(self, placed: Placed) -> Span:
        """The `use` of the source that brought a block in."""
        return self.linked.main.lines.span(placed.by.at, placed.by.end)

    def line_span(self, line: int) -> Span:
        """A line of the linked source, in its file."""
        span = self.text.line_span(line)
        return self.own_span(*self.places(span))

    def node(self, node: Node) -> Node:
        """A node with its line and its element as they are told in its file."""
        span, part = self.line_span(node.line), self.part_of(self.text.line_span(node.line))
        file = "" if span.file == self.linked.main.name else PurePath(span.file).name
        return replace(node, line=span.line, file=file, element=self.element(node.element, part))

    # Words

    def element(self, name: str, part: Part | None) -> str:
        """The name of an element, as `filter.s[1]`: a call by the name that the source has for a block, or by the
        block's own, and the signal as the file of a part has it."""
        *calls, signal = name.split(".")
        blocks = {one.placed.name: one.placed.setting.block.name for one in self.linked.parts}
        named = [call if call in self.uses else blocks.get(call, call) for call in calls]
        return ".".join([*named, self.own_names(signal, part)])

    def own_names(self, text: str, part: Part | None) -> str:
        """The names in a text as they stand in the file of a part."""
        renamed = part.placed.renamed if part else {old: new for old, new in self.linked.same.items() if new == MAIN}
        names = {new: old for old, new in renamed.items()}
        return NAME.sub(lambda found: names.get(found[0], found[0]), text)

    def words(self, text: str, part: Part | None) -> str:
        """The words of a report, with names as they stand in the file, and with its lines."""
        def line(found: re.Match[str]) -> str:
            span = self.line_span(int(found[1]))
            here = part.placed.setting.block.file.name if part else self.linked.main.name
            return f"in line {span.line}" + ("" if span.file == here else f" of {PurePath(span.file).name}")

        def own(found: re.Match[str]) -> str:
            if ELEMENT.fullmatch(found[1]):
                return f"`{self.element(found[1], part)}`"
            return self.own_names(found[0], part)

        return IN_LINE.sub(line, QUOTED.sub(own, text))

    def said(self, text: str) -> str:
        """The lines of silc, with the file before the line of a block."""
        def line(found: re.Match[str]) -> str:
            number = int(found[2])
            part = self.linked.part_at(self.text.starts[min(number, len(self.text.starts)) - 1])
            # What is no program at the first token of a part was not whole before it.
            is_before = part and self.text.line_of(part.at) == number and found[3] == "syntax"
            span = self.own_span(part.marked_at - 1, part.marked_at) if part and is_before else self.line_span(number)
            where = f"{span.file}: " if span.file != self.linked.main.name else ""
            return f"{found[1]}{where}line {span.line}: {found[3]}"
        return SAID_LINE.sub(line, text)

    # Reports

    def edits(self, edits: Sequence[Edit]) -> list[Edit]:
        """Edits of the source itself. Those of a block, which others use, and of what stands in the place of braces are
        none."""
        made = []
        for edit in edits:
            start = self.text.place(edit.line, edit.column)
            origin = self.linked.traced.origin(start, self.text.after(start, edit.length))
            if edit.file != self.text.name or not origin or not origin.is_kept or origin.file is not self.linked.main:
                return []
            made.append(self.linked.main.lines.edit(origin.at, origin.end, edit.text))
        return made

    def report(self, report: Report) -> Report:
        """A report on the linked source, at the places of its files."""
        part = self.part_of(report.span)
        if part and report.span and self.places(report.span)[0] == part.at:
            fault = self.before(part)
            report = fault.report if fault and fault.report else report
            part = self.part_of(report.span)
        notes = [Note(self.words(note.text, self.part_of(note.span) or part), self.span(note.span))
                 for note in report.notes]
        if part:
            notes.append(Note(f"`{part.placed.setting}` is used here.", self.led(part.placed)))
        made = replace(report, short=self.words(report.short, part), cure=self.words(report.cure, part), notes=notes,
                       span=self.span(report.span), edits=self.edits(report.edits))
        return self.renamed(made)

    def reported(self, status: int, report: Report | None) -> Report | None:
        """A report on a command that ended with a status, at the places of the user's files."""
        if report is None:
            return None
        return self.report(report) if status in OF_SOURCE else self.renamed(report)

    def renamed(self, report: Report) -> Report:
        """A report with the name that the source has for a user."""
        return renamed(report, {self.text.name: self.linked.main.name})

    def found(self, finding: Finding) -> Found:
        """A finding at its place."""
        start, end = (self.text.place(finding.line, column) for column in (finding.column, finding.end))
        part = self.linked.part_at(start)
        if part and start == part.at and not finding.is_warning:
            fault = self.before(part)
            finding = fault.finding() if fault else finding
            start, end = (self.text.place(finding.line, column) for column in (finding.column, finding.end))
            part = self.linked.part_at(start)
        span = self.own_span(start, end)
        if part and self.is_use(part, start):
            # A function that is never called is a `use` that is not needed.
            span, part = self.led(part.placed), None
        made = replace(finding, line=span.line, column=span.column, end=span.column + span.length,
                       text=self.words(finding.text, part), cure=self.words(finding.cure, part),
                       edits=tuple(self.edits(finding.edits)))
        return Found(span.file, made, part.placed, self.led(part.placed)) if part else Found(span.file, made)

    def is_use(self, part: Part, place: int) -> bool:
        """Whether a place is the name, where it is declared, of a function that the source uses."""
        name = NAME.match(self.linked.text, place)
        return re.fullmatch(r"func\s+",
                            self.linked.text[part.at:place]) is not None and name is not None and name[0] in self.uses

    def before(self, part: Part) -> Fault | None:
        """What is wrong before a part, where a fault is at its first token: what stands there is not whole."""
        return first_fault(Text(self.text.name, self.text.data[:part.marked_at - 1]))


def told_of(name: str, content: bytes, library: Library) -> Told | None:
    """A source that is to be linked, as the tools read it, or nothing of a plain one. A block is taken by itself, with
    its own numbers. Raises `Unlinked`."""
    if not has_head(content.decode("latin-1")):
        return None
    file, stem = File(name, content), PurePath(name).stem
    source = Source(file)
    if source.declares(MAIN) or not source.declares(stem):
        return Told(link(library, source))
    block = Block(stem, file)
    return Told(alone(library, Setting(block, tuple(block.numbers().items()))))


def found_unlinked(fault: Unlinked) -> Found:
    """A fault of the linker as a finding."""
    column = fault.column or 1
    return Found(fault.file, Finding(fault.line, column, column + (fault.span.length if fault.span else 1), fault.text))


def report_unlinked(fault: Unlinked) -> Report:
    """A fault of the linker as a report."""
    return Report(fault.text, "see the rule.", RULE, fault.span, about=fault.file)


def refused_unlinked(fault: Unlinked) -> Refused:
    """A fault of the linker as a refusal."""
    return Refused(BAD_SOURCE, str(fault), lambda: report_unlinked(fault))
