"""Why a source has no plan over a datapath: the node in the source, and what is lacking, in numbers."""
import tempfile
import tomllib
from collections.abc import Iterable, Sequence
from pathlib import Path
from typing import Any

from silc.explaining import lacks
from silc.explaining.changes import TOP, Change, Key, Table, edits_of, made, merged, told
from silc.explaining.command import BUILD, Case
from silc.explaining.hardware import DONE_BY, Hardware, Node, nodes_of, readers_of, words_of
from silc.micro_file.operations import KIND_OF, PORTS
from silc.explaining.refusals import planning
from silc.explaining.report import Report, counted, listed
from silc.explaining.routing import free_name, route_for, routes_for
from silc.explaining.text import Span
from silc.explaining.toml_places import Extent, Places, Tree
from silc.exploring.template import text_of
from silc.pictures.plan import Plan

MOST_SHOWN, MOST_HOLD, REGISTERS = 8, 3, 4


def report_of(case: Case) -> Report:
    try:
        tree = lacks.tree_of(case.text("DP"))
    except (UnicodeDecodeError, tomllib.TOMLDecodeError):
        return case.refusal.report(about=case.files["DP"])
    return Refused(case, tree).report()


def quoted(tables: Iterable[Tree]) -> str:
    """The names of units or buses in a row."""
    return listed([f"`{table['name']}`" for table in tables])


def answer_of(said: str) -> str:
    """What silc has said, without its name."""
    return said.strip().removeprefix("silc: ")


def buses_of(name: str, kind: str) -> str:
    """The buses that a new unit needs, in words."""
    ports = [f"`{name}.{port}`" for port in range(PORTS[kind])]
    ways = [f"to {listed(ports)}"] if ports else []
    ways += ["from it"] if kind != "out" else []
    return f"{'a bus' if len(ports) < 2 and len(ways) < 2 else 'buses'} lead {listed(ways)}"


class Refused:
    """A source without a plan, its nodes, and the datapath."""

    def __init__(self, case: Case, tree: Tree) -> None:
        self.case, self.tree = case, tree
        self.then: str | None = None
        self.source, self.path = case.text("SRC"), case.text("DP")
        self.places = Places(self.path.chars)
        self.nodes = self.nodes_here()
        self.number = int(case.values["node"])
        # At faults of delay lines the number is that of the graph, and all nodes are the graph's.
        self.node = self.nodes[self.number] if self.number < len(self.nodes) else None

    def nodes_here(self) -> list[Node]:
        """The nodes of the source, where the program is there that knows them."""
        answer = self.case.show("origins", self.case.files["SRC"], self.case.files["DP"])
        return nodes_of(answer) if answer else []

    def what(self) -> str:
        """The node in words."""
        return words_of(self.nodes, self.node) if self.node else f"node {self.number}"

    def report(self) -> Report:
        text = self.case.refusal.text
        report = {"no unit KIND for node NODE": self.no_unit, "no route to PORT for node NODE": self.no_route,
                  "node NODE too wide": self.too_wide, "no ram for node NODE": self.no_ram,
                  "no acu for ram UNIT at node NODE": self.no_acu, "no ram cells for node NODE": self.no_cells,
                  "period exceeded at node NODE": self.period, "file full PORT at node NODE": self.file_full}[text]()
        report.about = self.case.files["SRC"]
        if self.node:
            report.span = self.source.line_span(self.node.line)
            report.notes.insert(0, type(report)("", "", "").note(
                f"Node {self.number} is {self.what()}, in line {self.node.line}.").notes[0])
        else:
            self.note_unknown(report)
        return report.note(self.then) if self.then else report

    def note_unknown(self, report: Report) -> None:
        """Says why the node is not known."""
        if not self.case.has_show():
            report.note(f"{BUILD}.")

    def dp_span(self, place: Extent | None) -> Span | None:
        return self.path.span(*place) if place else None

    def unit_place(self, name: str, key: str) -> Span | None:
        number = next(n for n, unit in enumerate(self.tree["unit"]) if unit["name"] == name)
        return self.dp_span(self.places.value(("unit", number), key))

    def count_of(self, kind: str) -> int:
        """How many nodes are done by units of a kind."""
        return sum(KIND_OF[node.op] == kind for node in self.nodes)

    def nodes_on(self, tree: Tree) -> list[Node]:
        """The nodes of the source on another datapath."""
        with tempfile.TemporaryDirectory(prefix="silc-explain-") as folder:
            file = Path(folder, "datapath.toml")
            file.write_text(text_of(tree))
            return nodes_of(self.case.show("origins", self.case.files["SRC"], file) or "")

    def wired(self, changes: Iterable[Change]) -> list[Change]:
        """Changes, and with them the ends of buses that the words of the source need then."""
        return [*changes, *routes_for(made(changes, self.tree), self.nodes_on(made(changes, self.tree)))]

    def with_cure(self, report: Report, changes: Iterable[Change]) -> Report:
        """The report with changes of the datapath as its cure, and with the fault that comes then, where one does."""
        whole = merged(changes, self.tree)
        clause = told(whole, self.tree)
        is_added = any(isinstance(change, Table) for change in whole)
        report.cure = f"in {self.path.name}, {clause}." if is_added else f"{clause}."
        status, said = self.trial().answer(made(whole, self.tree))
        if status != lacks.PLANNED:
            self.then = f"With this cure there is no plan yet, and then: {answer_of(said)}."
        return report.by(*edits_of(whole, self.tree, self.path, self.places))

    def unit_of(self, kind: str, **keys: Any) -> Table:
        """A unit that is added, with a name of its own and some registers at its ports."""
        files = {"files": (REGISTERS,) * PORTS[kind]} if PORTS[kind] else {}
        return Table("unit", tuple(({"name": free_name(self.tree["unit"], kind), "kind": kind} | files | keys).items()))

    def no_unit(self) -> Report:
        kind = self.case.values["kind"]
        unit = self.unit_of(kind)
        name = dict(unit.keys)["name"]
        short = f"{self.what()} needs a unit of the kind `{kind}`, and the datapath has none"
        report = Report(short, f"in {self.path.name}, {told([unit], self.tree)}; and let {buses_of(name, kind)}.",
                        planning("Units"))
        if self.nodes:
            self.with_cure(report, self.wired([unit]))
            count = counted(self.count_of(kind), "operation")
            report.note(f"Units of this kind do {DONE_BY[kind]}: in all {count} a sample here.")
        return report

    def no_route(self) -> Report:
        port = self.case.values["port"]
        hardware = Hardware(self.tree)
        found = hardware.without_route(self.nodes) if self.nodes else None
        if not found or found[0] is not self.node or not found[1] or found[1][2] != port:
            return Report(f"no bus leads to {port} from the unit whose word is wanted there",
                          f"add `\"{port}\"` to `to` of a bus that this unit drives.", planning("Units"))
        word, unit, _ = found[1]
        name = self.tree["unit"][unit]["name"]
        report = Report(f"{words_of(self.nodes, word)} comes from `{name}`, and no bus leads from there to `{port}`",
                        "", planning("Units"))
        driven = [bus for bus in self.tree["bus"] if name in bus["from"]]
        to_port = [bus for bus in self.tree["bus"] if port in bus["to"]]
        if driven:
            report.note(f"`{name}` drives {quoted(driven)}.", self.bus_place(driven[0], "to"))
        elif to_port:
            report.note(f"`{name}` drives no bus, and `{port}` can be written from "
                        f"{quoted(to_port)}.", self.bus_place(to_port[0], "from"))
        else:
            report.note(f"`{name}` drives no bus, and `{port}` can be written from none.")
        return self.with_cure(report, self.wired([route_for(self.tree, name, port)]))

    def bus_place(self, bus: Tree, key: str) -> Span | None:
        number = next(n for n, other in enumerate(self.tree["bus"]) if other is bus)
        return self.dp_span(self.places.value(("bus", number), key))

    def too_wide(self) -> Report:
        word = self.tree["word"]
        bits = self.node.bits if self.node else None
        short = f"{self.what()} has {bits or 'more'} bits, and a word of the datapath has {word}" if bits else \
            f"{self.what()} has more bits than a word of the datapath, which has {word}"
        widest = max((node.bits for node in self.nodes), default=None)
        place = self.dp_span(self.places.value((TOP, 0), "word"))
        report = Report(short, f"write a greater `word` in {self.path.name}, or declare a narrower type.",
                        planning("Units")) \
            .note(f"`word` is {word} here.", place)
        if widest:
            self.with_cure(report, [Key(TOP, 0, "word", widest)])
            report.cure = f"{report.cure[:-1]} in {self.path.name}, or declare a narrower type."
        return report

    def lines(self) -> dict[int, int]:
        """The nodes of the graph that get a delay line, each with the cells that it takes."""
        hold = self.tree.get("hold", 0)
        made = {}
        for node, readers in readers_of(self.nodes).items():
            longest = max((delay for _, _, delay in readers), default=0)
            if longest > hold:
                made[node] = longest + 1
        return made

    def longest(self) -> str:
        cells = self.lines().get(self.number)
        return f"`{self.node.element}` is read {counted(cells - 1, 'sample')} ago" if self.node and cells else \
            f"node {self.number} is read some samples ago"

    def or_hold(self, report: Report) -> Report:
        """The report with the value of `hold` too by which all delays are kept in registers, where that is a plan."""
        longest = max((cells - 1 for cells in self.lines().values()), default=MOST_HOLD + 1)
        changes = self.with_registers([Key(TOP, 0, "hold", longest)]) if longest <= MOST_HOLD else None
        if changes:
            top, *files = changes
            words = [f"{top.words(self.tree)} at the top", *(file.words(self.tree) for file in files)]
            report.cure = f"{report.cure.removesuffix('.')}; or write {listed(words)}, and words of up to " \
                          f"{counted(longest, 'sample')} ago stay in registers."
            self.then = self.then and self.then.replace("this cure", "the first cure")
        return report

    def with_registers(self, changes: list[Change]) -> list[Change] | None:
        """Changes, and with them the registers that files lack then; nothing where there is no plan with both."""
        tree = made(changes, self.tree)
        status, _ = self.trial().answer(tree)
        if status == lacks.FULL:
            needs = self.trial().registers(tree)
            changes = [*changes, *lacks.wider_files(tree, needs or {})]
            status, _ = self.trial().answer(made(changes, self.tree))
        return changes if status == lacks.PLANNED else None

    def delay_note(self, report: Report) -> Report:
        lines = self.lines()
        if self.node and self.number in lines:
            before = lines[self.number] - 1
            each = "the sample before" if before == 1 else f"each of the {before} samples before"
            report.note(f"Its delay line has {counted(before + 1, 'cell')}: one for this sample, and one for {each}. "
                        f"All delay "
                        f"lines of this source have {counted(sum(lines.values()), 'cell')}.")
        return report

    def no_ram(self) -> Report:
        cells = min(sum(self.lines().values()) or 64, lacks.MOST_CELLS)
        ram = self.unit_of("ram", cells=cells)
        name = dict(ram.keys)["name"]
        changes = [ram, self.unit_of("acu", ram=name)]
        report = Report(f"{self.longest()}, which goes through memory, and the datapath has none",
                        f"in {self.path.name}, {told(changes, self.tree)}; and let buses lead to the ports `{name}.0` "
                        f"and "
                        f"`{name}.1`, and from both.", planning("Delay lines"))
        return self.added(report, changes)

    def no_acu(self) -> Report:
        ram = self.case.values["unit"]
        acu = self.unit_of("acu", ram=ram)
        report = Report(f"{self.longest()}, which goes through the memory `{ram}`, and no unit makes addresses for it",
                        f"in {self.path.name}, {told([acu], self.tree)}; and let a bus lead from it to `{ram}.0`.",
                        planning("Delay lines"))
        return self.added(report, [acu])

    def added(self, report: Report, changes: Iterable[Change]) -> Report:
        """The report with units for delay lines as its cure."""
        if self.nodes:
            self.with_cure(report, self.wired(changes))
        return self.delay_note(self.or_hold(report))

    def no_cells(self) -> Report:
        lines = self.lines()
        rams = [unit for unit in self.tree["unit"] if unit["kind"] == "ram"]
        left = [ram["cells"] for ram in rams]
        for node, cells in lines.items():
            if node == self.number:
                break
            place = next(k for k, room in enumerate(left) if room >= cells)
            left[place] -= cells
        wanted = lines.get(self.number)
        more = self.cells_of_last(lines, rams)
        report = Report(f"{self.longest()}, and no memory has {counted(wanted, 'cell')} left for it" if wanted else
                        "no memory has as many cells left as this delay line needs",
                        "write more cells for one of the memories, or add one.", planning("Delay lines"))
        if more and more <= lacks.MOST_CELLS:
            self.with_cure(report, [Key("unit", self.tree["unit"].index(rams[-1]), "cells", more)])
        self.or_hold(report)
        for ram, room in zip(rams, left):
            # Which lines come before is known where the nodes are.
            rest = f", of which {room} are left when this line comes" if lines else ""
            report.note(f"`{ram['name']}` has {counted(ram['cells'], 'cell')}{rest}.",
                        self.unit_place(ram["name"], "cells"))
        return self.delay_note(report)

    def cells_of_last(self, lines: dict[int, int], rams: list[Tree]) -> int | None:
        """How many cells the last memory needs for the lines that have no room in those before it, where that is
        known."""
        if not lines:
            known = self.trial().cells() if len(rams) == 1 else None
            return known and known[1]
        left, needed = [ram["cells"] for ram in rams[:-1]], 0
        for cells in lines.values():
            place = next((k for k, room in enumerate(left) if room >= cells), None)
            if place is None:
                needed += cells
            else:
                left[place] -= cells
        return needed

    def trial(self) -> lacks.Trial:
        return lacks.Trial(self.case.plan, self.tree, self.case.say)

    def period(self) -> Report:
        given = self.tree["period"]
        short = f"{self.what()} has no cycle left in a period of {given}"
        found = self.trial().least_period()
        place = self.dp_span(self.places.value((TOP, 0), "period"))
        if found is None:
            return Report(short, f"use more units and buses: not even {lacks.LONGEST} cycles suffice.",
                          planning("Cycles"))
        least, status, said = found
        report = Report(short, "", planning("Cycles"))
        changes = self.with_registers([Key(TOP, 0, "period", least)])
        if status != lacks.PLANNED:
            report.note(f"From a period of {least} on each operation has its cycle; alone it leads to: "
                        f"{answer_of(said)}.", place)
        if not changes:
            report.cure = "use more units and buses, or fewer words that are kept from one sample to the next."
            return report.note(
                f"There is no plan in a period of {least} with {lacks.MOST_REGISTERS} registers in each file.")
        self.with_cure(report, changes)
        files = listed(change.words(self.tree) for change in changes[1:])
        report.cure = f"write `period = {least}`, the least that fits" \
            + (f", and with it {files}; or give more of what is full." if files else ", or give more of what is full.")
        if not files:
            report.note(f"The least period in which this source has a plan is {least}.", place)
        return self.full_parts(report, changes, given, least)

    def plan_with(self, changes: Iterable[Change]) -> Plan:
        tree = made(changes, self.tree)
        return lacks.plan_of(self.trial().answer(tree)[1], tree)

    def full_parts(self, report: Report, changes: Iterable[Change], given: int, least: int) -> Report:
        """What takes the cycles: buses and units that are full, or else the longest chain of operations."""
        plan = self.plan_with(changes)
        buses, units = lacks.loads_of(plan, self.tree)
        full = [f"the bus `{name}` carries {counted(count, 'word')}" for name, count in buses.items() if count >= given]
        full += [f"the unit `{name}` is taken for {counted(count, 'cycle')}" for name,
                 count in units.items() if count >= given]
        chain, length = lacks.longest_chain(plan)
        if full:
            text = f"{listed(full)} in each sample, and the sample has {counted(given, 'cycle')}."
            report.note(text[0].upper() + text[1:])
        if length > given or not full:
            report.note(f"The longest chain of operations that wait for one another takes {counted(length, 'cycle')}"
                        + (f": {self.chain(chain)}." if self.nodes else "."))
        fullest = max(buses, key=lambda name: buses[name])
        most = max(units, key=lambda name: units[name])
        report.note(f"In a period of {least}, `{fullest}` carries a word in {counted(buses[fullest], 'cycle')}, more "
                    f"than any other "
                    f"bus; of the units `{most}` is taken most, for {counted(units[most], 'cycle')}.")
        return report

    def chain(self, chain: Sequence[int]) -> str:
        shown = [words_of(self.nodes, self.nodes[number]) for number in chain]
        if len(shown) > MOST_SHOWN:
            half = MOST_SHOWN // 2
            return ", ".join(shown[:half]) + f", .. ({len(shown) - MOST_SHOWN} more) .., " + ", ".join(shown[-half:])
        return ", ".join(shown)

    def file_full(self) -> Report:
        port = self.case.values["port"]
        unit, _, number = port.rpartition(".")
        index = next(n for n, other in enumerate(self.tree["unit"]) if other["name"] == unit)
        size = self.tree["unit"][index]["files"][int(number)]
        self.case.say(f"looking for the registers that {port} needs")
        needs = self.trial().registers_for(port)
        report = Report(f"{self.what()} is read at `{port}`, whose file of {counted(size, 'register')} is full when "
                        f"its word comes",
                        "use more units and buses, or fewer words that are kept from one sample to the next.",
                        planning("Registers"))
        if not needs:
            return report.note(f"There is no plan with {lacks.MOST_REGISTERS} registers in each file.")
        others = [f"`{name}` {counted(count, 'register')}" for name, count in needs.items() if name != port]
        report.note(f"`{port}` needs {counted(needs[port], 'register')}"
                    + (f", and then {listed(others)}" if others else "")
                    + ": words whose lifetimes overlap need one each.", self.unit_place(unit, "files"))
        return self.with_cure(report, lacks.wider_files(self.tree, needs))
