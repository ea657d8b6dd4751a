"""All faults of a source that can be told: the first one, and those that are found where items with faults are left
out. A fault that may come from what was left out is none."""
import re
import time
from array import array
from collections.abc import Callable

from silc.explaining.found import is_unknown
from silc.explaining.of_names import unknown_name
from silc.explaining.program import Source
from silc.explaining.text import Edit, Span, Text

from silc.checking.findings import Finding, finding_of
from silc.checking.first import Fault, first_fault
from silc.checking.left_out import IN_TEXT, TOPS, Omission, omission
from silc.sure import sure

MOST_FAULTS, MOST_SECONDS, MOST_BYTES = 20, 3.0, 1 << 16
NOWHERE = -1


class Edited(Text):
    """A source in which something is left out, whose places are told as those of the source. Its lines are the same."""

    def __init__(self, original: Text, data: bytes, origins: array) -> None:
        super().__init__(original.name, data)
        self.original, self.origins = original, origins

    def origin(self, place: int) -> int:
        """The place of a byte in the source, or of the next one that is there."""
        return next((origin for origin in self.origins[place:] if origin != NOWHERE), len(self.original.data))

    def is_there(self, place: int) -> bool:
        """Whether what stands at a place stands in the source."""
        return place >= len(self.origins) or self.origins[place] != NOWHERE

    def span(self, start: int, end: int | None = None) -> Span:
        first = self.origin(start)
        return self.original.span(first, None if end is None else first + end - start)

    def edit(self, start: int, end: int, text: str) -> Edit:
        first = self.origin(start)
        return self.original.edit(first, first + end - start, text)

    def without(self, left: Omission) -> "Edited":
        """The source with something more left out, with as many ends of lines as before."""
        lines = self.data[left.start:left.end].count(b"\n")
        text = left.text.encode("latin-1") + b"\n" * lines
        data = self.data[:left.start] + text + self.data[left.end:]
        origins = self.origins[:left.start] + array("q", [NOWHERE]) * len(text) + self.origins[left.end:]
        return Edited(self.original, data, origins)


class Search:
    """The faults that are found one after another, and what else than the source may be the cause of the next one."""

    def __init__(self, text: Text) -> None:
        self.text = Edited(text, text.data, array("q", range(len(text.data))))
        self.found: list[Finding] = []
        self.unknown: set[tuple[str, str]] = set()
        # The functions that may lack definitions, the words that begin what is left out whole, and where the last of it
        # that could not be read ends.
        self.open: set[int] = set()
        self.tops: set[str] = set()
        self.last = NOWHERE
        # The names in what could not be read, and its lines.
        self.names: set[str] = set()
        self.lines: set[int] = set()
        self.is_doubled = False
        # What it declares that is left out whole.
        self.declared: set[str] = set()

    def take(self, fault: Fault) -> bool:
        """Keeps a fault, and leaves out what has it. Whether there may be another."""
        source = Source(self.text)
        left = omission(source, fault.kind, fault.place)
        if fault.kind == "Unknown":
            self.found += self.unknowns(source, fault)
        elif not self.is_consequence(source, fault, left) and not self.is_about(fault.finding().text):
            self.found.append(fault.finding())
        if left is None or left.start == left.end and not left.text:
            return False
        self.is_doubled = self.is_doubled or fault.kind == "DefinedTwice"
        if left.func is not None:
            self.open.add(self.text.origin(left.func))
        if left.top:
            self.tops |= {left.top} if left.top in TOPS else {*TOPS}
            self.declared |= left.names
        if fault.kind in IN_TEXT:
            self.last = self.text.origin(left.end)
            self.names |= left.names
            self.lines |= {*range(self.text.line_of(left.start),
                                  self.text.line_of(left.end) + 1)} if not left.top else set()
        self.text = self.text.without(left)
        return True

    def is_consequence(self, source: Source, fault: Fault, left: Omission | None) -> bool:
        """Whether a fault may come from what was left out."""
        if fault.kind == "NoMain":
            return bool(self.tops)
        if fault.kind in IN_TEXT:
            return self.is_torn(left)
        if fault.kind == "Loop":
            # Of two definitions the one that is kept may be the wrong one.
            return self.is_doubled
        if fault.place is None:
            return False
        if fault.kind == "NotDefined":
            return self.text.origin(source.function(fault.place).at) in self.open
        return not self.text.is_there(fault.place) or source.line(fault.place) in self.lines

    def is_about(self, text: str) -> bool:
        """Whether what is said of a fault is about a function or table that was left out."""
        return not self.declared.isdisjoint(re.findall(r"\w+", text))

    def is_torn(self, left: Omission | None) -> bool:
        """Whether a function can't be read for what was left out in it, or in front of it."""
        if left is None:
            return False
        places = range(self.text.origin(left.start), self.text.origin(left.end))
        between = self.text.original.chars[
            self.last:places.start] if NOWHERE < self.last <= places.start else "something"
        is_next = not between.strip() and (bool(left.top) or "\n" not in between)
        return is_next or bool(left.top) and any(place in places for place in self.open)

    def unknowns(self, source: Source, fault: Fault) -> list[Finding]:
        """The unknown names of an item, each once in its function."""
        at = sure(fault.place)
        func = source.function(at)
        contexts = {context.node.at: context for context in source.contexts(func) if is_unknown(source, context)
                    and any(other.node.at == at and other.item is context.item
                            for other in source.contexts(func))}
        made = []
        for place in sorted({*contexts, at}):
            name = sure(source.token_at(place)).text
            is_call = place in contexts and contexts[place].role == "call"
            # What is left out may have declared it.
            is_lost = not self.text.is_there(place) or ("func" if is_call
                                                        else "const") in self.tops or name in self.names
            if (func.name, name) not in self.unknown and not is_lost:
                report = unknown_name(source, place)
                report.span = report.span or source.at_span(place)
                made.append(finding_of(report))
            self.unknown.add((func.name, name))
        return made


def every_fault(text: Text, is_stale: Callable[[], bool] = lambda: False) -> list[Finding]:
    """The faults of a source by their places. It ends early where nobody wants them any more."""
    fault = first = first_fault(text)
    if first is None:
        return []
    if len(text.data) > MOST_BYTES or first.kind is None:
        return [first.finding()]
    search, until = Search(text), time.monotonic() + MOST_SECONDS
    while fault and search.take(fault) and len(
            search.found) < MOST_FAULTS and time.monotonic() < until and not is_stale():
        fault = next_fault(search.text)
    found = search.found or [first.finding()]
    return sorted(dict.fromkeys(found), key=lambda one: (one.line, one.column))[:MOST_FAULTS]


def next_fault(text: Text) -> Fault | None:
    """The first fault of a source in which something is left out, or nothing where its place is not known."""
    fault = first_fault(text)
    return fault if fault and fault.kind else None
