"""Why the places of a plan from elsewhere are refused: the line of the node, what is in its way, and a place that is
left, which `silc_place` has been asked for."""
from __future__ import annotations

import difflib
import re
import subprocess
import tempfile
from collections.abc import Callable, Iterable, Iterator
from itertools import chain, islice
from pathlib import Path
from typing import NamedTuple

from silc.explaining import lacks
from silc.explaining.changes import TOP, Change, Ends, Key, edits_of, made, told
from silc.explaining.command import BUILD, SECONDS, Case
from silc.explaining.hardware import DONE_BY, Hardware, Node, nodes_of, readers_of, words_of
from silc.explaining.of_plan import report_of as of_plan
from silc.explaining.refusals import PLACES, refusal_of
from silc.explaining.report import Report, counted, listed
from silc.explaining.text import Span
from silc.explaining.toml_places import Places, Tree
from silc.exploring.template import text_of
from silc.micro_file.operations import KIND_OF
from silc.programs import PLACE

MOST_BYTES, MOST_TRIED = 1 << 20, 64
MOST_NODE, MOST_CYCLE = (1 << 32) - 1, (1 << 16) - 1
NUMBER = "0|[1-9][0-9]*"
LINE = re.compile(rf"node ({NUMBER}) cycle ({NUMBER}) unit (\S+)")
# A line that a reader takes for one of a node.
LOOSE = re.compile(r"\s*node\W*0*(\d+)\W+(?:cycle\W*)?0*(\d+)\W+(?:unit\W*)?([\w.]+)")
FORM = "`node V cycle T unit NAME`, with one blank between two words"


class Place(NamedTuple):
    """The place of a node, and the line that gives it with where it begins."""
    line: int
    start: int
    node: int
    cycle: int
    unit: str


class Cure(NamedTuple):
    """What to do with a plan, and how its text gets it: what stands for which characters."""
    words: str
    start: int
    end: int
    text: str


def report_of(case: Case) -> Report | None:
    from silc.explaining.of_registers import Registered
    if case.refusal.code != case.status:
        return without_lines(case)
    idle = "those that begin with neither of the words `node` and `register`"
    return too_long(case, idle) or Registered(case).report()


def too_long(case: Case, idle: str) -> Report | None:
    """The report on a plan that has too many bytes, of which some lines give nothing."""
    if case.refusal.text != "plan too long":
        return None
    size = len(case.text("PLAN").data)
    return Report(f"the plan has {size} bytes, and at most {MOST_BYTES} are read",
                  f"take out the lines that give nothing: {idle}.", PLACES,
                  about=case.files["PLAN"])


def without_lines(case: Case) -> Report | None:
    """The report where the source gets no delay lines on the datapath, whatever the plan says."""
    name_unit(case)
    return of_plan(case)


def name_unit(case: Case) -> None:
    """Puts the name of the unit into a refusal that tells its number."""
    unit = case.values.get("unit", "")
    if unit.isdecimal():
        case.values["unit"] = lacks.tree_of(case.text("DP"))["unit"][int(unit)]["name"]


class Placed:
    """A plan whose places are refused, with the nodes of the source and the datapath."""

    def __init__(self, case: Case) -> None:
        self.case, self.plan, self.path = case, case.text("PLAN"), case.text("DP")
        self.tree = lacks.tree_of(self.path)
        self.hardware, self.period = Hardware(self.tree), int(self.tree["period"])
        self.nodes = self.nodes_here()
        self.line = int(case.values.get("l", 0))
        self.number = int(case.values.get("node", -1))
        self.places: dict[int, Place] = {}
        for number, start in enumerate(self.plan.starts, 1):
            found = LINE.match(self.plan.chars, start)
            if found:
                place = Place(number, start, int(found[1]), int(found[2]), found[3])
                self.places.setdefault(place.node, place)

    def nodes_here(self) -> list[Node]:
        """The nodes of the source, where the program is there that knows them."""
        answer = self.case.show("origins", self.case.files["SRC"], self.case.files["DP"])
        return nodes_of(answer) if answer else []

    def reports(self) -> dict[str, Callable[[], Report]]:
        """Who reports on which refusal, by its text without the line and what stands for names and numbers."""
        return {"not node  cycle  unit ": self.form, "no number": self.no_number, "unknown unit": self.unknown_unit,
                "node twice": self.twice, "no place for node ": self.missing, "no node ": self.surplus,
                "node  too wide": self.too_wide, "wrong unit for node ": self.wrong_unit,
                "operand  of node  is there from cycle ": self.late, "period exceeded at node ": self.past,
                "unit busy at node ": self.busy, "file written  at node ": self.file_written,
                "no bus to  at node ": self.no_bus, "file full  at node ": self.file_full}

    def report(self) -> Report:
        name = re.sub(r"plan line L: |\b[A-Z]+\b", "", self.case.refusal.text)
        report = self.reports()[name]()
        report.about = self.plan.name
        if self.line:
            report.span = report.span or self.plan.line_span(self.line)
        if not self.nodes and not self.case.has_show():
            report.note(f"{BUILD}.")
        return report

    # What things are called.

    def what(self, number: int) -> str:
        """A node in words."""
        known = 0 <= number < len(self.nodes)
        return f"node {number}" + (f", {words_of(self.nodes, self.nodes[number])}," if known else "")

    def unit(self, name: str) -> int:
        return self.hardware.number[name]

    def latency(self, name: str) -> int:
        return int(self.hardware.units[self.unit(name)].get("latency", 1))

    def gap(self, name: str) -> int:
        return int(self.hardware.units[self.unit(name)].get("gap", 1))

    def port_name(self) -> str:
        """The port that the refusal names, by the name of its unit."""
        unit, _, port = self.case.values["port"].partition(".")
        return self.hardware.port(int(unit), int(port))

    def place(self) -> Place:
        """The place that is refused."""
        return self.places[self.number]

    def span_of(self, place: Place, part: int) -> Span:
        """The place of a number or a name in the line of a place, by its group."""
        found = LINE.match(self.plan.chars, place.start)
        return self.plan.span(*found.span(part)) if found else self.plan.line_span(place.line)

    def right_units(self, number: int) -> list[str]:
        """The units that do the operation of a node; all where the node is not known."""
        if 0 <= number < len(self.nodes):
            return [self.hardware.units[unit]["name"] for unit in self.hardware.right_units(self.nodes[number])]
        return [unit["name"] for unit in self.hardware.units]

    # What may be done.

    def moved(self, place: Place, cycle: int, unit: str) -> Cure:
        """Another cycle, another unit, or both for a node."""
        found = LINE.match(self.plan.chars, place.start)
        assert found
        first, last = (2 if cycle != place.cycle else 3), (3 if unit != place.unit else 2)
        text = str(cycle) if last == 2 else unit if first == 3 else f"{cycle} unit {unit}"
        return Cure(f"in line {place.line}, write `node {place.node} cycle {cycle} unit {unit}`", found.start(first),
                    found.end(last), text)

    def last(self, _node: int, unit: str) -> int:
        """The last cycle in which a node may be issued on a unit."""
        return self.period - self.latency(unit)

    def later(self, place: Place, first: int, unit: str) -> Iterator[Cure]:
        """The cycles from one on in which a node may be issued on a unit."""
        return (self.moved(place, cycle, unit) for cycle in range(first, self.last(place.node, unit) + 1))

    def around(self, place: Place) -> Iterator[Cure]:
        """The other places of a node: those behind its own, and then those before it, and then those of other units."""
        last = min(place.cycle - 1, self.last(place.node, place.unit))
        earlier = (self.moved(place, cycle, place.unit) for cycle in range(last, -1, -1))
        half = MOST_TRIED // 4
        own = chain(islice(self.later(place, place.cycle + 1, place.unit), half), islice(earlier, half))
        return chain(own, self.on_others(place))

    def on_others(self, place: Place) -> Iterator[Cure]:
        """Other units for a node in its cycle, and then in later ones."""
        others = [unit for unit in self.right_units(place.node) if unit != place.unit]
        yield from (self.moved(place, place.cycle, unit) for unit in others)
        for unit in others:
            yield from islice(self.later(place, place.cycle + 1, unit), MOST_TRIED // 4)

    def renumbered(self, start: int, line: int, node: int) -> Cure | None:
        """Another node for a line."""
        found = LINE.match(self.plan.chars, start)
        if not found or found[3] not in self.right_units(node):
            return None
        return Cure(f"in line {line}, write `node {node} cycle {found[2]} unit {found[3]}`", *found.span(1), str(node))

    def removed(self, line: int) -> Cure:
        starts = [*self.plan.starts, len(self.plan.chars)]
        return Cure(f"take line {line} out", starts[line - 1], starts[line], "")

    def without_place(self) -> list[int]:
        """The nodes that have no line."""
        count = len(self.nodes) or max(self.places, default=-1) + 1
        return [node for node in range(count) if node not in self.places]

    # Which of it helps.

    def answer(self, plan: bytes, datapath: str | None = None) -> tuple[int, str]:
        """The exit status of `silc_place` with another plan or datapath, and what it says."""
        with tempfile.TemporaryDirectory(prefix="silc-explain-") as folder:
            file, other, out = (Path(folder, name) for name in ("PLAN", "DP", "OUT"))
            file.write_bytes(plan)
            other.write_bytes(self.path.data if datapath is None else datapath.encode())
            done = subprocess.run([PLACE.place(), *self.asked(other, file, out)], stdin=subprocess.DEVNULL,
                                  capture_output=True, text=True, errors="replace", timeout=SECONDS)
            return done.returncode, done.stderr.strip()

    def asked(self, datapath: Path, plan: Path, out: Path) -> list[str | Path]:
        """The words by which `silc_place` is asked for a plan over a datapath."""
        return [self.case.files["SRC"], datapath, plan, out]

    def rank(self, status: int, said: str) -> int | None:
        """How good a cure is by what is said then: 0 where there is a plan, nothing where the node is still refused."""
        if status == 0:
            return 0
        found = refusal_of(said)
        if found is None or (found[0].code, found[1]) == (self.case.status, self.case.values):
            return None
        if self.number >= 0 and found[1].get("node") == str(self.number):
            return None
        return 2 if found[1].get("operand") == str(self.number) else 1

    def with_cure(self, report: Report, cures: Iterable[Cure]) -> Report:
        """The report with the best cure of those that help, which is told as an edit too; or as it is."""
        best: tuple[int, Cure, str] | None = None
        for cure in islice(cures, MOST_TRIED):
            chars = self.plan.chars
            status, said = self.answer((chars[:cure.start] + cure.text + chars[cure.end:]).encode("latin-1"))
            rank = self.rank(status, said)
            if rank is not None and (best is None or rank < best[0]):
                best = rank, cure, said
            if rank == 0:
                break
        if best is None:
            return report
        rank, cure, said = best
        report.cure = f"{cure.words}."
        self.note_then(report, rank, said)
        return report.by(self.plan.edit(cure.start, cure.end, cure.text))

    def with_change(self, report: Report, changes: Iterable[Change]) -> Report:
        """The report with the first change of the datapath that helps, or as it is."""
        for change in islice(changes, MOST_TRIED):
            status, said = self.answer(self.plan.data, text_of(made([change], self.tree)))
            rank = self.rank(status, said)
            if rank is not None:
                report.cure = f"in {self.path.name}, {told([change], self.tree)}."
                self.note_then(report, rank, said)
                return report.by(*edits_of([change], self.tree, self.path, Places(self.path.chars)))
        return report

    def note_then(self, report: Report, rank: int, said: str) -> None:
        if rank:
            report.note(f"With this cure there is no plan yet, and then: {said.partition(': ')[2]}.")

    # Lines that give no place.

    def normal(self) -> Iterator[Cure]:
        """The line as it would be by the form, where it says as much."""
        start = self.plan.starts[self.line - 1]
        found = LOOSE.match(self.plan.chars, start)
        if found:
            text = f"node {found[1]} cycle {found[2]} unit {found[3]}"
            yield Cure(f"in line {self.line}, write `{text}`", start, found.end(), text)

    def form(self) -> Report:
        return self.with_cure(Report("the line begins with `node` and gives no place", f"write {FORM}.", PLACES),
                              self.normal())

    def no_number(self) -> Report:
        start, line = self.plan.starts[self.line - 1], self.plan.line(self.line).decode("latin-1")
        words = [found for found in re.finditer("[^ ]+", line)][1:4:2]
        bad = next(((found, most) for found, most in zip(words, (MOST_NODE, MOST_CYCLE))
                    if not re.fullmatch(NUMBER, found[0]) or int(found[0]) > most), None)
        if bad is None:
            return self.with_cure(Report("the line begins with `node`, and a number is missing", f"write {FORM}.",
                                         PLACES), self.normal())
        found, most = bad
        report = Report(f"`{found[0]}` is no number from 0 to {most}, in digits without a zero in front",
                        f"write {FORM}, where V and T are numbers.", PLACES,
                        self.plan.span(start + found.start(), start + found.end()))
        return self.with_cure(report, self.normal())

    def unknown_unit(self) -> Report:
        found = LINE.match(self.plan.chars, self.plan.starts[self.line - 1])
        if found is None:
            return self.case.refusal.report()
        place = Place(self.line, found.start(), int(found[1]), int(found[2]), found[3])
        right = self.right_units(place.node)
        near = difflib.get_close_matches(place.unit, right, len(right), 0.5)
        units = [*near, *(unit for unit in right if unit not in near)]
        report = Report(f"the datapath has no unit `{place.unit}`", f"write {quoted(right, 'or')}.", PLACES,
                        self.span_of(place, 3))
        report.note(f"Its units are {quoted(unit['name'] for unit in self.hardware.units)}.")
        return self.with_cure(report, (self.moved(place, place.cycle, unit) for unit in units))

    # Nodes and lines that are not one to one.

    def twice(self) -> Report:
        start = self.plan.starts[self.line - 1]
        found = LINE.match(self.plan.chars, start)
        first = self.places[int(found[1])] if found else None
        if found is None or first is None:
            return self.case.refusal.report()
        report = Report(f"{self.what(first.node)} has a place already".replace(",,", ","), "take one of the lines out.",
                        PLACES, self.plan.span(*found.span(1)))
        report.note(f"Node {first.node} has its first place here.", self.span_of(first, 1))
        lacking = self.without_place()
        if lacking:
            report.note(f"No line gives a place to {counted_nodes(lacking)}.")
        others = filter(None, (self.renumbered(start, self.line, node) for node in lacking))
        return self.with_cure(report, chain(others, [self.removed(self.line), self.removed(first.line)]))

    def missing(self) -> Report:
        right = self.right_units(self.number)
        report = Report(f"{self.what(self.number)} has no place", f"add a line `node {self.number} cycle T unit NAME`, "
                        f"where NAME is {quoted(right, 'or')}.", PLACES)
        return self.with_cure(report, chain(self.surplus_as(self.number), self.added(right)))

    def surplus_as(self, node: int) -> Iterator[Cure]:
        """The lines of nodes that the program does not have, for one that it has."""
        extra = [place for place in self.places.values() if self.nodes and place.node >= len(self.nodes)]
        return filter(None, (self.renumbered(place.start, place.line, node) for place in extra))

    def added(self, units: list[str]) -> Iterator[Cure]:
        """A line for the node that has none, from the cycle on in which its operands are there."""
        lines = [place for place in self.places.values()]
        end = len(self.plan.chars)
        after = max((place.line for place in lines), default=0)
        start = self.plan.starts[after] if after < len(self.plan.starts) else end
        lead = "\n" if start == end and self.plan.chars[-1:] not in ("", "\n") else ""
        for unit in units:
            for cycle in range(self.ready(self.number), self.last(self.number, unit) + 1):
                text = f"node {self.number} cycle {cycle} unit {unit}"
                yield Cure(f"add the line `{text}`", start, start, f"{lead}{text}\n")

    def ready(self, number: int) -> int:
        """The cycle from which on the operands of a node are there, as far as they have places."""
        reads = self.nodes[number].operands if number < len(self.nodes) else []
        given = [self.places[read] for read, delay in reads if not delay and read in self.places]
        return max((self.ends(place) for place in given), default=0)

    def ends(self, place: Place) -> int:
        """The cycle from which on the result of a node is there."""
        return place.cycle + (self.latency(place.unit) if place.unit in self.hardware.number else 1)

    def surplus(self) -> Report:
        count = f"{len(self.nodes)} nodes, with the numbers 0 to {len(self.nodes) - 1}" if self.nodes else "fewer nodes"
        report = Report(f"the program has no node {self.number}: it has {count}", f"take line {self.line} out.", PLACES,
                        self.span_of(self.place(), 1))
        return self.with_cure(report, [self.removed(self.line)])

    # Places on a unit.

    def too_wide(self) -> Report:
        bits = self.nodes[self.number].bits if self.number < len(self.nodes) else 0
        word = self.tree.get("word", 0)
        has = counted(bits, "bit") if bits else "more bits than a word"
        report = Report(f"{self.what(self.number)} has {has}, and a word of the datapath has {word}",
                        f"write a `word` of more than {word}.", PLACES)
        return self.with_change(report, [Key(TOP, 0, "word", bits)] if bits else [])

    def wrong_unit(self) -> Report:
        place, right = self.place(), self.right_units(self.number)
        kind = self.hardware.units[self.unit(place.unit)]["kind"]
        short = f"{self.what(self.number)} is on `{place.unit}`, which does {DONE_BY[kind]}"
        if self.number < len(self.nodes) and kind == KIND_OF[self.nodes[self.number].op]:
            short = f"{self.what(self.number)} is on `{place.unit}`, which is for another ram"
        report = Report(short, f"write {quoted(right, 'or')} there.", PLACES, self.span_of(place, 3))
        if self.nodes:
            report.note(f"What does it is {quoted(right, 'or')}.")
        return self.with_cure(report, self.on_others(place))

    def late(self) -> Report:
        place, operand = self.place(), int(self.case.values["operand"])
        first = int(self.case.values["cycle"])
        given = self.places[operand]
        report = Report(f"{self.what(self.number)} is issued in cycle {place.cycle}, and reads node {operand}, which "
                        f"is there from cycle {first} on", f"issue node {self.number} from cycle {first} on, or node "
                        f"{operand} earlier.", PLACES, self.span_of(place, 2))
        report.note(f"{capital(self.what(operand))} is issued in cycle {given.cycle} on `{given.unit}`, whose latency "
                    f"is {self.latency(given.unit)}.", self.span_of(given, 2))
        return self.with_cure(report, self.later(place, first, place.unit))

    def past(self) -> Report:
        place, latency = self.place(), self.latency(self.place().unit)
        last = self.period - latency
        report = Report(f"{self.what(self.number)} ends in cycle {place.cycle + latency - 1}, and the last cycle of "
                        f"the period is {self.period - 1}", f"issue it in cycle {last} at last, and what it reads "
                        f"before; or write a longer `period`.", PLACES, self.span_of(place, 2))
        report.note(f"The latency of `{place.unit}` is {latency}, so the last cycle that is left is {last}.")
        return self.with_cure(report, (self.moved(place, cycle, place.unit) for cycle in range(last, -1, -1)))

    def busy(self) -> Report:
        place = self.place()
        gap = self.gap(place.unit)
        report = Report(f"{self.what(self.number)} is issued on `{place.unit}` in cycle {place.cycle}, and the unit is "
                        f"not free then", "issue it in another cycle, or on another unit.", PLACES,
                        self.span_of(place, 2))
        for other in self.places.values():
            apart = (other.cycle - place.cycle) % self.period
            if other.node != place.node and other.unit == place.unit and (
                    apart < gap or self.period - apart < gap):
                report.note(f"{capital(self.what(other.node))} is issued on it in cycle {other.cycle}"
                            + (f", and takes it for {gap} cycles." if gap > 1 else "."), self.span_of(other, 2))
        return self.with_cure(report, chain(islice(self.on_others(place), MOST_TRIED // 4), self.around(place)))

    # Where results go.

    def comes(self, place: Place) -> int:
        """The cycle of the period in which a result comes."""
        return (self.ends(place) - 1) % self.period

    def goes_to(self, node: int) -> set[str]:
        """The ports that a node is read at."""
        if node >= len(self.nodes):
            return set()
        return {f"{self.places[reader.number].unit}.{port}" for reader, port, _ in readers_of(self.nodes)[node]
                if reader.number in self.places}

    def at_once(self, place: Place) -> list[Place]:
        """The other nodes whose results come in the cycle of a node's."""
        return [other for other in self.places.values()
                if other.node != place.node and self.comes(other) == self.comes(place) and self.goes_to(other.node)]

    def in_same(self, other: Place, place: Place) -> str:
        """When the result of a node comes that is in the way of another's."""
        ends = self.ends(other)
        return "the same cycle" if ends == self.ends(place) else f"cycle {ends - 1}, the same cycle of the period"

    def file_written(self) -> Report:
        return self.written_at(self.place(), self.port_name())

    def written_at(self, place: Place, port: str) -> Report:
        """The report where the register file of a port is written in the cycle of a result."""
        report = Report(f"the result of {self.what(self.number)} comes to `{port}` in cycle {self.ends(place) - 1}, "
                        f"and its register file is written then", "issue it in another cycle.", PLACES,
                        self.span_of(place, 2))
        for other in self.at_once(place):
            if port in self.goes_to(other.node):
                report.note(f"{capital(self.what(other.node))} comes to `{port}` in {self.in_same(other, place)}.",
                            self.span_of(other, 2))
        return self.with_cure(report, self.around(place))

    def no_bus(self) -> Report:
        return self.without_bus(self.place(), self.port_name())

    def ways(self, place: Place, port: str) -> list[Tree]:
        """The buses from the unit of a node to a port."""
        return [bus for bus in self.hardware.buses if place.unit in bus["from"] and port in bus["to"]]

    def without_bus(self, place: Place, port: str) -> Report:
        """The report where no bus to a port is there and free in the cycle of a result."""
        ways = self.ways(place, port)
        if not ways:
            return self.no_way(place, port)
        are = "are" if len(ways) > 1 else "is"
        report = Report(f"the result of {self.what(self.number)} comes in cycle {self.ends(place) - 1}, and no bus "
                        f"from `{place.unit}` to `{port}` is free then", "issue it in another cycle.", PLACES,
                        self.span_of(place, 2))
        report.note(f"What leads there {are} {quoted(bus['name'] for bus in ways)}.")
        for other in self.at_once(place):
            if any(other.unit in bus["from"] for bus in ways):
                report.note(f"The result of {self.what(other.node)} comes in {self.in_same(other, place)}.",
                            self.span_of(other, 2))
        return self.with_cure(report, self.around(place))

    def no_way(self, place: Place, port: str) -> Report:
        """The report where no bus leads from a unit to a port, free or not."""
        report = Report(f"{self.what(self.number)} is read at `{port}`, and no bus leads there from `{place.unit}`",
                        f"let a bus lead from `{place.unit}` to `{port}`.", PLACES, self.span_of(place, 3))
        report = self.with_cure(report, self.on_others(place))
        buses = [number for number, bus in enumerate(self.hardware.buses) if place.unit in bus["from"]]
        return report if report.edits else self.with_change(report, (Ends(bus, "to", (port,)) for bus in buses))

    def file_full(self) -> Report:
        unit, port = map(int, self.case.values["port"].split("."))
        files = self.hardware.units[unit]["files"]
        name = self.hardware.port(unit, port)
        report = Report(f"{self.what(self.number)} is read at `{name}`, whose file of "
                        f"{counted(files[port], 'register')} has none left for it",
                        f"give `{name}` more registers, or let fewer words wait there: issue nodes later, or their "
                        f"readers earlier.", PLACES)
        longer = ([*files[:port], size, *files[port + 1:]]
                  for size in range(files[port] + 1, lacks.MOST_REGISTERS + 1))
        return self.with_change(report, (Key("unit", unit, "files", sizes) for sizes in longer))


def quoted(names: Iterable[str], last: str = "and") -> str:
    return listed([f"`{name}`" for name in names], last)


def capital(clause: str) -> str:
    return clause[0].upper() + clause[1:]


def counted_nodes(nodes: list[int]) -> str:
    shown = listed(map(str, nodes[:8])) + (" and more" if len(nodes) > 8 else "")
    return f"node{'s' if len(nodes) > 1 else ''} {shown}"
