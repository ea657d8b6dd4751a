"""Why the registers of a plan from elsewhere are refused: the line of the register, what is in its way, and one that is
left, which `silc_place` has been asked for."""
from __future__ import annotations

import difflib
import re
from collections.abc import Callable, Iterator
from itertools import chain
from typing import NamedTuple

from silc.explaining.command import Case
from silc.explaining.of_places import MOST_NODE, NUMBER, Cure, Placed, capital, quoted
from silc.explaining.refusals import PLACES
from silc.explaining.report import Report, counted, listed
from silc.explaining.text import Span

HEAD = "register "
# The greatest of the registers, ports and copies; the most copies that a word has.
MOST, MOST_COPIES = (1 << 8) - 1, 4
LINE = re.compile(rf"register ({NUMBER}) unit (\S+) port ({NUMBER}) node ({NUMBER}) copy ({NUMBER})(?![^ \n])")
# A line that a reader takes for one of a register.
LOOSE = re.compile(r"\s*register\W*0*(\d+)\W+(?:unit\W*)?(\w+)(?:\W+port\W*|\.)0*(\d+)\W+(?:node\W*)?0*(\d+)\W+"
                   r"(?:copy\W*)?0*(\d+)")
FORM = "`register R unit NAME port P node V copy K`, with one blank between two words"
REGISTER, UNIT, PORT, NODE, COPY = range(1, 6)


class Given(NamedTuple):
    """A register that a copy of a word is to have, and the line that gives it with where it begins."""
    line: int
    start: int
    register: int
    unit: str
    port: int
    node: int
    copy: int

    def file(self) -> str:
        return f"{self.unit}.{self.port}"


class Registered(Placed):
    """A plan whose places or registers are refused."""

    def __init__(self, case: Case) -> None:
        super().__init__(case)
        self.registers: dict[int, Given] = {}
        for number, start in enumerate(self.plan.starts, 1):
            found = LINE.match(self.plan.chars, start)
            if found:
                register, unit, port, node, copy = found.groups()
                self.registers[number] = Given(number, start, int(register), unit, int(port), int(node), int(copy))

    def reports(self) -> dict[str, Callable[[], Report]]:
        own = {"not register  unit  port  node  copy ": self.register_form, "no such copy  at node ": self.no_copy,
               "no such register  at node ": self.no_register, "copy twice  at node ": self.copy_twice,
               "register taken  at node ": self.taken, "file full  at node ": self.full_around}
        if self.plan.chars.startswith(HEAD, self.plan.starts[max(self.line - 1, 0)]):
            own |= {"no number": self.no_register_number, "unknown unit": self.no_register_unit}
        return super().reports() | own

    def given(self) -> Given:
        """The register that is refused."""
        return self.registers[self.line]

    def span_in(self, given: Given, part: int) -> Span:
        """The place of a number or a name in the line of a register, by its group."""
        found = LINE.match(self.plan.chars, given.start)
        return self.plan.span(*found.span(part)) if found else self.plan.line_span(given.line)

    def size(self, given: Given) -> int:
        """How many registers the file has."""
        files = self.hardware.units[self.unit(given.unit)].get("files", [])
        return int(files[given.port]) if given.port < len(files) else 0

    def at_file(self, file: str) -> list[Given]:
        """The lines that give registers of a file."""
        return [given for given in self.registers.values() if given.file() == file]

    # What may be done.

    def with_part(self, given: Given, part: int, text: str) -> Cure:
        """Another number or name in the line of a register."""
        found = LINE.match(self.plan.chars, given.start)
        assert found
        words = list(found.groups())
        words[part - 1] = text
        register, unit, port, node, copy = words
        line = f"register {register} unit {unit} port {port} node {node} copy {copy}"
        return Cure(f"in line {given.line}, write `{line}`", *found.span(part), text)

    def other_registers(self, given: Given) -> Iterator[Cure]:
        return (self.with_part(given, REGISTER, str(register)) for register in range(self.size(given))
                if register != given.register)

    # Lines that give no register.

    def register_normal(self) -> Iterator[Cure]:
        """The line as it would be by the form, where it says as much."""
        start = self.plan.starts[self.line - 1]
        found = LOOSE.match(self.plan.chars, start)
        if found:
            register, unit, port, node, copy = found.groups()
            text = f"register {register} unit {unit} port {port} node {node} copy {copy}"
            yield Cure(f"in line {self.line}, write `{text}`", start, found.end(), text)

    def register_form(self) -> Report:
        report = Report("the line begins with `register` and gives no register", f"write {FORM}.", PLACES)
        return self.with_cure(report, self.register_normal())

    def no_register_number(self) -> Report:
        start, line = self.plan.starts[self.line - 1], self.plan.line(self.line).decode("latin-1")
        words, limits = list(re.finditer("[^ ]+", line)), {1: MOST, 5: MOST, 7: MOST_NODE, 9: MOST}
        bad = next(((words[at], most) for at, most in limits.items() if at < len(words) and (
            not re.fullmatch(NUMBER, words[at][0]) or int(words[at][0]) > most)), None)
        if bad is None:
            report = Report("the line begins with `register`, and a number is missing", f"write {FORM}.", PLACES)
            return self.with_cure(report, self.register_normal())
        found, most = bad
        report = Report(f"`{found[0]}` is no number from 0 to {most}, in digits without a zero in front",
                        f"write {FORM}, where R, P, V and K are numbers.", PLACES,
                        self.plan.span(start + found.start(), start + found.end()))
        return self.with_cure(report, self.register_normal())

    def no_register_unit(self) -> Report:
        given = self.registers.get(self.line)
        if given is None:
            return self.case.refusal.report()
        names = [unit["name"] for unit in self.hardware.units if unit.get("files")]
        near = difflib.get_close_matches(given.unit, names, len(names), 0.5)
        report = Report(f"the datapath has no unit `{given.unit}`", f"write {quoted(names, 'or')}.", PLACES,
                        self.span_in(given, UNIT))
        report.note(f"Its units with registers are {quoted(names)}.")
        units = [*near, *(name for name in names if name not in near)]
        return self.with_cure(report, (self.with_part(given, UNIT, unit) for unit in units))

    # Registers that a copy can't have.

    def no_copy(self) -> Report:
        given, file = self.given(), self.port_name()
        if self.nodes and file not in self.goes_to(given.node):
            ports = sorted(self.goes_to(given.node))
            report = Report(f"{self.what(given.node)} does not go to `{file}`", f"take line {given.line} out.", PLACES,
                            self.span_in(given, PORT))
            if ports:
                report.note(f"It goes to {quoted(ports)}.")
            cures = (self.with_part(given, PORT, port.rpartition(".")[2]) for port in ports
                     if port.rpartition(".")[0] == given.unit)
            return self.with_cure(report, chain(cures, [self.removed(given.line)]))
        report = Report(f"{self.what(given.node)} has no copy {given.copy} at `{file}`", f"take line {given.line} out.",
                        PLACES, self.span_in(given, COPY))
        report.note("A word has 1, 2 or 4 copies by the periods in which it waits, and the first is 0.")
        cures = (self.with_part(given, COPY, str(copy)) for copy in range(MOST_COPIES) if copy != given.copy)
        return self.with_cure(report, chain(cures, [self.removed(given.line)]))

    def no_register(self) -> Report:
        given, size = self.given(), self.size(self.given())
        last = f", with the numbers 0 to {size - 1}" if size > 1 else ", which is register 0"
        report = Report(f"`{given.file()}` has no register {given.register}: it has {counted(size, 'register')}{last}",
                        "write one that is there, or give the file more.", PLACES, self.span_in(given, REGISTER))
        return self.with_cure(report, chain(self.other_registers(given), [self.removed(given.line)]))

    def copy_twice(self) -> Report:
        given = self.given()
        first = next(other for other in self.at_file(given.file())
                     if (other.node, other.copy) == (given.node, given.copy))
        report = Report(f"{self.what(given.node)} has a register of `{given.file()}` for copy {given.copy} already",
                        "take one of the lines out.", PLACES, self.span_in(given, COPY))
        report.note("The first one is given here.", self.span_in(first, REGISTER))
        return self.with_cure(report, [self.removed(given.line), self.removed(first.line)])

    def taken(self) -> Report:
        given = self.given()
        report = Report(f"{self.what(given.node)} waits at `{given.file()}` while register {given.register} there has "
                        f"another word", "write another register.", PLACES, self.span_in(given, REGISTER))
        for other in self.at_file(given.file()):
            if other.register == given.register and other.line < given.line:
                report.note(f"{capital(self.what(other.node))} has it for copy {other.copy}.",
                            self.span_in(other, REGISTER))
        return self.with_cure(report, chain(self.other_registers(given), [self.removed(given.line)]))

    def full_around(self) -> Report:
        """The report where a word finds no register beside those that lines give."""
        file = self.port_name()
        lines = self.at_file(file)
        if not lines:
            return super().file_full()
        numbers = listed([str(given.line) for given in lines])
        which = f"Line {numbers} gives one of its registers." if len(lines) == 1 else \
            f"Lines {numbers} give its registers."
        report = Report(f"{self.what(self.number)} is read at `{file}`, whose file has no register left for it beside "
                        f"those that are given", "give registers to other words too, or to fewer.", PLACES)
        report = self.with_cure(report, (self.removed(given.line) for given in lines))
        return (report if report.edits else super().file_full()).note(which)
