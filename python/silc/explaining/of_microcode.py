"""Why a file is no microcode, and which parts of microcode are in conflict."""
import sys
import tomllib
from collections.abc import Sequence
from pathlib import Path

from silc.explaining.command import Case
from silc.explaining.kinds import other_kind
from silc.explaining.refusals import CONFLICTS, MICROCODE, Refusal, refusal_of
from silc.explaining.report import Report, counted, listed
from silc.explaining.text import Text
from silc.hardware.datapath import called, unit_faults
from silc.micro_file import FIELD, MAGIC, SHORT, TRAILING, BadImage, image_of
from silc.micro_file.image import Image, Issue, Word
from silc.sure import sure

MOST_BYTES = 1 << 26
# The version, in which fields have bits and no whole bytes. Bit 0 of a byte is its most significant.
PLACE_OF_VERSION, PACKED, BITS = 4, 2, 8
PORTS_OF_UNIT = 4
CONFLICT, BAD_WORDS = 12, 2


def report_of(case: Case) -> Report | None:
    text = case.text("MIC")
    if case.status == 12:
        return Conflict(image_of(text.data), case).report()
    if len(text.data) > MOST_BYTES:
        return Report(f"the file has {len(text.data)} bytes, and at most {MOST_BYTES} are read",
                      "compile the source again.", MICROCODE, about=text.name)
    return other_kind(case, "MIC") or no_image(text)


def no_image(text: Text) -> Report | None:
    try:
        image_of(text.data)
    except BadImage as fault:
        return bad_field(text, fault)
    return None


def bad_field(text: Text, fault: BadImage) -> Report:
    cure = "compile the source again, or write what is allowed there."
    if not text.data:
        return Report("the file is empty", "compile the source again.", MICROCODE, about=text.name)
    if fault.kind == TRAILING:
        return Report(f"the image ends at byte {fault.at}, and {counted(fault.found, 'byte follows', 'bytes follow')}",
                      f"take away what comes from byte {fault.at} on.", MICROCODE, about=text.name)
    if fault.kind == SHORT:
        return Report(f"the file ends at byte {fault.at}, inside {fault.name}",
                      "compile the source again: the file was cut off.", MICROCODE, about=text.name)
    if fault.kind == MAGIC:
        return Report(f"a microcode file begins with `SILM`, and this one with {shown_bytes(fault.found)}",
                      "give a file that `silc compile` has written.", MICROCODE, about=text.name)
    is_packed = fault.kind == FIELD and text.data[PLACE_OF_VERSION] == PACKED
    place = f"bit {fault.bit % BITS} of byte {fault.at} begins" if is_packed else f"byte {fault.at} is"
    return Report(f"{place} {fault.name}, which is {fault.allowed}, and {fault.found} stands there", cure, MICROCODE,
                  about=text.name)


def at_start(clause: str) -> str:
    """A clause at the beginning of a sentence; a name keeps its letters."""
    return clause if clause.startswith("`") else clause.capitalize()


def shown_bytes(data: bytes) -> str:
    """Bytes as letters where they are some, or else as numbers."""
    text = data.decode("latin-1")
    return f"`{text}`" if text.isascii() and text.isprintable() else "the bytes " + data.hex(" ")


class Called:
    """What units, ports and buses of an image are called: by their numbers, or by the names in its datapath file."""

    def __init__(self, kinds: Sequence[str] = (), units: Sequence[str] = (), buses: Sequence[str] = ()) -> None:
        self.kinds, self.units, self.buses = kinds, units, buses

    def unit(self, number: int) -> str:
        kind = f" ({self.kinds[number]})" if number < len(self.kinds) else ""
        return f"`{self.units[number]}`" + kind if number < len(self.units) else f"unit {number}{kind}"

    def port(self, unit: int, port: int) -> str:
        return f"`{self.units[unit]}.{port}`" if unit < len(self.units) else f"unit {unit}, port {port}"

    def bus(self, number: int) -> str:
        return f"`{self.buses[number]}`" if number < len(self.buses) else f"bus {number}"


def names_in(file: str | Path, image: Image | None) -> tuple[Sequence[str], Sequence[str], str | None]:
    """The names of units and of buses in a datapath file, or why they are not those of an image."""
    try:
        tree = tomllib.loads(Path(file).read_text(encoding="utf-8-sig"))
        units, buses = called(tree["unit"]), called(tree["bus"])
        fault = next(unit_faults(image, tree["unit"], units), None) if image else None
    except OSError as why:
        return (), (), f"{file} can't be read: {why.strerror}"
    except KeyError as key:
        return (), (), f"{file} is no datapath file: it has no `{key.args[0]}`"
    except (TypeError, AttributeError, ValueError) as why:
        return (), (), f"{file} is no datapath file: {why}"
    if image and not fault and (tree.get("period"), len(buses)) != (image.period, image.buses):
        fault = (f"it has a period of {tree.get('period')} and {counted(len(buses), 'bus', 'buses')}, and the "
                 f"microcode {image.period} and {image.buses}")
    return ((), (), f"{file} is not the datapath of the microcode: {fault}") if fault else (units, buses, None)


def told_place(line: str, datapath: str | None = None) -> int:
    """Prints in a line which unit, port or bus the place of a conflict is. Gives the exit status."""
    found = refusal_of(line)
    if not found or found[0].code != CONFLICT:
        print("explain: the line is no conflict", file=sys.stderr)
        return BAD_WORDS
    units, buses, fault = names_in(datapath, None) if datapath else ((), (), None)
    if fault:
        print(f"explain: {fault}", file=sys.stderr)
        return BAD_WORDS
    told, place, kind = Called((), units, buses), int(found[1]["place"]), kind_of(found[0])
    if kind == "file twice":
        name = told.port(*divmod(place, PORTS_OF_UNIT))
    else:
        name = told.bus(place) if kind in ("two drivers", "no driver") else told.unit(place)
    print(f"silc: the place {place} is {name.replace('`', '')}")
    return 0


def kind_of(refusal: Refusal) -> str:
    """Which conflict a refusal is."""
    return refusal.text.partition(": ")[2].removesuffix(" PLACE")


class Conflict:
    """A conflict of an image: the cycle and the place that `silc` names."""

    def __init__(self, image: Image, case: Case) -> None:
        self.image, self.name = image, case.files["MIC"]
        self.cycle, self.place = int(case.values["cycle"]), int(case.values["place"])
        self.kind = kind_of(case.refusal)
        self.word = self.number(self.cycle)
        units, buses, self.unnamed = names_in(case.datapath, image) if case.datapath else ((), (), None)
        self.called = Called([unit.kind for unit in image.units], units, buses)

    def number(self, cycle: int) -> int:
        return cycle % len(self.image.words)

    def at(self, cycle: int) -> Word:
        return self.image.words[self.number(cycle)]

    def unit(self, number: int) -> str:
        return self.called.unit(number)

    def issue(self, cycle: int, unit: int) -> Issue | None:
        """The issue on a unit in a cycle."""
        if cycle < 0:
            return None
        return self.at(cycle).issues.get(unit)

    def shown(self, cycle: int) -> str:
        """The text of the issue on the unit of the conflict in a cycle that has one."""
        return sure(self.issue(cycle, self.place)).text()

    def begun(self, unit: int) -> Issue | None:
        """The issue whose result a unit has in the cycle of the conflict, or nothing."""
        return self.issue(self.cycle - self.image.units[unit].latency + 1, unit)

    def result(self, unit: int) -> str:
        """What the word on the buses of a unit is, in the cycle of the conflict."""
        issue = self.begun(unit)
        begun = self.cycle - self.image.units[unit].latency + 1
        return f"the result of `{issue.text()}`, which begins in cycle {begun}" if issue else "no result"

    def report(self) -> Report:
        report = {"busy": self.busy, "two drivers": self.two_drivers, "file twice": self.file_twice,
                  "no driver": self.no_driver, "no result": self.no_result, "address": self.address}[self.kind]()
        report.about = self.name
        sample = self.cycle // self.image.period
        report.notes.insert(0, type(report)("", "", "").note(
            f"Cycle {self.cycle} is in sample {sample}, and obeys word {self.word} (`silc list {self.name}`).").notes[
                0])
        if self.unnamed:
            report.note(f"The names are not known: {self.unnamed}.")
        return report

    def busy(self) -> Report:
        unit = self.image.units[self.place]
        earlier = next(cycle for cycle in range(self.cycle - 1, self.cycle - unit.gap, -1)
                       if self.issue(cycle, self.place))
        report = Report(f"{self.unit(self.place)} is issued {counted(self.cycle - earlier, 'cycle')} after its last "
                        f"issue, and its "
                        f"gap is {unit.gap}",
                        f"issue one of the two in another cycle: {unit.gap} after the other, or more.",
                        CONFLICTS)
        report.note(f"In cycle {earlier} it begins `{self.shown(earlier)}`.")
        return report.note(f"In cycle {self.cycle} it begins `{self.shown(self.cycle)}`.")

    def two_drivers(self) -> Report:
        units = self.at(self.cycle).drivers(self.place)
        report = Report(f"{listed(map(self.unit, units))} drive {self.called.bus(self.place)} in one cycle",
                        "drive another bus with one of them, or issue one of the two in another cycle.", CONFLICTS)
        for unit in units:
            report.note(f"{at_start(self.unit(unit))} drives it with {self.result(unit)}.")
        idle = [unit for unit in units if not self.begun(unit)]
        if idle:
            report.cure = f"leave the drive of {self.unit(idle[0])} out."
        return report

    def file_twice(self) -> Report:
        unit, port = divmod(self.place, PORTS_OF_UNIT)
        takes = [(bus, register) for u, p, bus, register in self.at(self.cycle).takes if (u, p) == (unit, port)]
        report = Report(f"the register file of {self.called.port(unit, port)} takes {counted(len(takes), 'word')} in "
                        f"one "
                        "cycle, and one is the most",
                        "issue one of the operations in another cycle.", CONFLICTS)
        for bus, register in takes:
            report.note(f"Register {register} takes from {self.called.bus(bus)} {self.on_bus(bus)}.")
        if len({bus for bus, _ in takes}) == 1:
            report.cure = "leave one of the two takes out: both take the same word."
        return report

    def on_bus(self, bus: int) -> str:
        unit = next(iter(self.at(self.cycle).drivers(bus)), None)
        return "a word that nothing drives" if unit is None else f"{self.result(unit)} on {self.unit(unit)}"

    def no_driver(self) -> Report:
        takes = [take for take in self.at(self.cycle).takes if take.bus == self.place]
        bus = self.called.bus(self.place)
        report = Report(f"nothing drives {bus}, and {counted(len(takes), 'register takes', 'registers take')} from it",
                        f"let a unit drive {bus} in this cycle, or leave the take out.", CONFLICTS)
        for unit, port, _, register in takes:
            report.note(f"Register {register} of {self.called.port(unit, port)} takes from it.")
        drives = self.at(self.cycle).enables
        ready = next((unit for unit in range(len(self.image.units)) if self.begun(unit)), None)
        if ready is not None:
            report.cure = f"let {self.unit(ready)} drive {bus} in this cycle, or leave the take out."
            report.note(f"{at_start(self.unit(ready))} has a result in this cycle: {self.result(ready)}.")
        return report.note("In this cycle " + (listed([f"{self.unit(unit)} drives {self.called.bus(bus)}" for unit,
                                                       bus in drives])
                                               if drives else "no bus is driven") + ".")

    def no_result(self) -> Report:
        unit = self.image.units[self.place]
        begun = self.cycle - unit.latency + 1
        buses = [bus for number, bus in self.at(self.cycle).enables if number == self.place]
        report = Report(f"{self.unit(self.place)} drives {listed(map(self.called.bus, buses))}, and has no result in "
                        f"this cycle", f"drive the bus in the cycle of the result, which is there "
                        f"{counted(unit.latency - 1, 'cycle')} after its "
                        f"issue and then no more, or leave the drive out.", CONFLICTS)
        report.note(
            f"Its latency is {unit.latency}, so the operation would have to begin in cycle {begun}, and none does.")
        near = [cycle for cycle in range(max(0, self.cycle - self.image.period), self.cycle + 1)
                if self.issue(cycle, self.place)]
        if near:
            report.note(f"It begins `{self.shown(near[-1])}` in cycle {near[-1]}, with the result "
                        f"in cycle "
                        f"{near[-1] + unit.latency - 1}.")
        return report

    def address(self) -> Report:
        unit, issue = self.image.units[self.place], sure(self.issue(self.cycle, self.place))
        register = issue.registers[0]
        last = len(unit.cells) - 1
        port = self.called.port(self.place, 0)
        report = Report(f"`{issue.text()}` on {self.unit(self.place)} has an address that is not 0 to {last}",
                        f"write an address from 0 to {last} into register {register} of {port}: an acu makes no other.",
                        CONFLICTS)
        report.note(f"The unit has {counted(len(unit.cells), 'cell')}, and reads the address from register {register} "
                    f"of {port}.")
        written = self.last_write(self.place, 0, register)
        return report.note(written) if written else report.note(
            "Nothing was written there before: it has its first word.")

    def last_write(self, unit: int, port: int, register: int) -> str | None:
        for cycle in range(self.cycle - 1, max(-1, self.cycle - 1 - 2 * len(self.image.words)), -1):
            for u, p, bus, r in self.at(cycle).takes:
                if (u, p, r) == (unit, port, register):
                    other = Conflict.__new__(Conflict)
                    other.image, other.cycle, other.called = self.image, cycle, self.called
                    return f"That register was written in cycle {cycle}, with {other.on_bus(bus)}."
        return None
