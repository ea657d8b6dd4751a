"""Why a source is refused, at its place."""
import re

from silc.explaining import of_syntax
from silc.explaining.found import fault_in
from silc.explaining.of_elements import (bad_delay, bad_index, bad_shift, defined_twice, delayless_loop, not_defined,
                                         out_of_bounds, too_large)
from silc.explaining.of_names import bad_size, declared_twice, no_main, recursive_function, unknown_name, wrong_count
from silc.explaining.of_types import of_types
from silc.explaining.program import Source
from silc.explaining.refusals import Refusal, language
from silc.explaining.report import Report
from silc.explaining.text import Text
from silc.explaining.typing_rules import LITERAL, MISMATCH, NEEDS_CAST, NOT_BOOL
from silc.sure import sure

BY_FAULT = {
    "Unknown": unknown_name, "Twice": declared_twice, "Recursive": recursive_function, "Arity": wrong_count,
    "Size": bad_size,
    "Index": bad_index, "Bounds": out_of_bounds, "Delay": bad_delay, "Shift": bad_shift, "DefinedTwice": defined_twice,
    "NotDefined": not_defined, "TooLarge": too_large,
}
FAULT = re.compile(r"fault (?:\w+\()?(\w+)(?:\((\d+)\)| \{ elem: (\d+) \})?\)? ?(?:line \d+)?\s*")


def report_of(text: Text, answer: str) -> Report | None:
    """The report on a source, by the fault that `silc_show` answers for it."""
    found = FAULT.fullmatch(answer)
    if not found:
        return None
    kind, number, elem = found.groups()
    place = number or elem
    return too_long(text) if kind == "TooLong" else report_at(Source(text), kind, int(place) if place else None)


def report_found(text: Text, refusal: Refusal, values: dict[str, str]) -> Report | None:
    """The report on a source, by the line of `silc` alone, or nothing where the place is not sure."""
    if refusal.text == "source too long":
        return too_long(text)
    source = Source(text)
    fault = fault_in(source, refusal, values)
    return report_at(source, *fault) if fault else None


def report_at(source: Source, kind: str, at: int | None) -> Report:
    """The report on a fault at its place: a byte, a token, or an element of a loop."""
    if kind == "NoMain":
        return no_main(source)
    at = sure(at)
    if kind in ("BadByte", "BadNumber", "OpenComment", "Syntax", "Deep"):
        return of_syntax.report_of(source, kind, at)
    if kind == "Loop":
        return delayless_loop(source, at)
    if kind in (MISMATCH, NEEDS_CAST, LITERAL, NOT_BOOL):
        return of_types(source, at, kind)
    report = BY_FAULT[kind](source, at)
    report.span = report.span or source.at_span(at)
    return report


def too_long(text: Text) -> Report:
    return Report(f"the source has {len(text.data)} bytes, and at most 1048576 are read",
                  "take out what is not needed: a table of many words, or comments.", language("What is no program"),
                  about=text.name)
