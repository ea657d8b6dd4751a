"""Why the places of a plan over several stages are refused: the line of the node, what is in its way, and a place that
is left, which `silc_place pipe` has been asked for."""
from __future__ import annotations

import tempfile
from collections.abc import Callable, Iterator, Sequence
from itertools import chain, islice
from pathlib import Path

from silc.explaining import lacks
from silc.explaining.changes import TOP, Key
from silc.explaining.command import Case
from silc.explaining.hardware import Node, delay_in_line, nodes_of, readers_of
from silc.explaining.of_places import MOST_TRIED, Cure, Place, Placed, capital, name_unit, too_long
from silc.explaining.of_plan import Refused
from silc.explaining.refusals import PLACES
from silc.explaining.report import Report, counted
from silc.explaining.toml_places import Tree
from silc.exploring.template import text_of

IN_LINE = ("addr", "store", "load")


def report_of(case: Case) -> Report | None:
    if case.refusal.code != case.status:
        name_unit(case)
        return Unstored(case, lacks.tree_of(case.text("DP"))).report()
    return too_long(case, "those that do not begin with the word `node`") or Staged(case).report()


def stages_of(case: Case) -> int:
    return int(case.files["S"])


def nodes_over(case: Case, tree: Tree) -> list[Node]:
    """The nodes of the source where no delay is held, as over several stages, where the program is there that knows
    them."""
    with tempfile.TemporaryDirectory(prefix="silc-explain-") as folder:
        file = Path(folder, "datapath.toml")
        file.write_text(text_of(tree | {"hold": 0}))
        answer = case.show("origins", case.files["SRC"], file)
    return in_memories(nodes_of(answer or ""), tree, stages_of(case))


def in_memories(nodes: list[Node], tree: Tree, stages: int) -> list[Node]:
    """The nodes, with those of each delay line on the first memory that has its cells left over so many stages."""
    left = {number: int(unit["cells"]) for number, unit in enumerate(tree["unit"]) if unit["kind"] == "ram"}
    lines: dict[int, list[Node]] = {}
    for node in nodes:
        if node.op in IN_LINE:
            lines.setdefault(node.graph, []).append(node)
    for line in lines.values():
        cells = stages + max(delay_in_line(nodes, node) for node in line if node.op == "addr")
        ram = next((ram for ram, room in left.items() if room >= cells), None)
        if ram is not None:
            left[ram] -= cells
            for node in line:
                node.ram = ram
    return nodes


class Staged(Placed):
    """A plan over several stages whose places are refused, with the nodes of the source and the datapath."""

    def __init__(self, case: Case) -> None:
        self.stages = stages_of(case)
        super().__init__(case)

    def nodes_here(self) -> list[Node]:
        return nodes_over(self.case, self.tree)

    def reports(self) -> dict[str, Callable[[], Report]]:
        return super().reports() | {
            "operand late at node ": self.late_operand, "stages exceeded at node ": self.past_stages,
            "unit busy at node ": self.busy_around, "no transfer from node ": self.blocked,
            "wrong stage for node ": self.unstaged}

    def asked(self, datapath: Path, plan: Path, out: Path) -> list[str | Path]:
        return ["pipe", self.case.files["SRC"], datapath, plan, str(self.stages), "/dev/null", out]

    # In which cycles a node may be.

    def length(self) -> int:
        """The cycles of all stages of a sample."""
        return self.stages * self.period

    def op(self, number: int) -> str:
        return self.nodes[number].op if 0 <= number < len(self.nodes) else ""

    def last(self, node: int, unit: str) -> int:
        if self.op(node) == "input":
            return self.period - 1
        if self.op(node) == "store":
            return min(self.length(), self.loaded(node)) - self.latency(unit)
        return self.length() - self.latency(unit)

    def ready(self, number: int) -> int:
        """The cycle from which on the operands of a node are there; from which on an output ends in the last stage."""
        if self.op(number) != "output":
            return super().ready(number)
        longest = max(self.latency(unit) for unit in self.right_units(number))
        return max(super().ready(number), self.length() - self.period + 1 - longest)

    def loads(self, store: int) -> list[tuple[Place, int]]:
        """The loads that follow a store in the list, as far as they have places, each with how many samples later it
        loads the word."""
        found = []
        for node in self.nodes[store + 1:]:
            if node.op not in IN_LINE:
                break
            if node.op == "load" and node.number in self.places:
                found.append((self.places[node.number], delay_in_line(self.nodes, node)))
        return found

    def loaded(self, store: int) -> int:
        """The first cycle, from the start of the sample that stores a word, in which it is loaded."""
        return min((load.cycle + ago * self.period for load, ago in self.loads(store)), default=self.length())

    def by_periods(self, place: Place) -> Iterator[Cure]:
        """The other cycles of a node that are the same cycle of the period, so that it takes what it took."""
        cycles = range(place.cycle % self.period, self.last(place.node, place.unit) + 1, self.period)
        return (self.moved(place, cycle, place.unit) for cycle in cycles if cycle != place.cycle)

    def earlier(self, place: Place, first: int) -> Iterator[Cure]:
        """The cycles of a node from one down to that in which its operands are there."""
        last = min(first, self.last(place.node, place.unit))
        return (self.moved(place, cycle, place.unit) for cycle in range(last, self.ready(place.node) - 1, -1))

    def around(self, place: Place) -> Iterator[Cure]:
        """The other places of a node: those behind its own, and then those before it, and then those of other units."""
        half = MOST_TRIED // 4
        own = chain(islice(self.later(place, max(place.cycle + 1, self.ready(place.node)), place.unit), half),
                    islice(self.earlier(place, place.cycle - 1), half))
        return chain(own, self.on_others(place))

    # What is in the way of a node.

    def late_operands(self, place: Place) -> list[Place]:
        """The operands of a node that are not there in its cycle."""
        reads = self.nodes[place.node].operands if place.node < len(self.nodes) else []
        given = [self.places[read] for read, _ in reads if read in self.places]
        return [other for number, other in enumerate(given) if self.ends(other) > place.cycle
                and other not in given[:number]]

    def late_operand(self) -> Report:
        place = self.place()
        late = self.late_operands(place)
        if not late:
            return Report(f"{self.what(self.number)} is issued in cycle {place.cycle}, and a node that it reads is not "
                          f"there then", f"issue node {self.number} later, or what it reads earlier.", PLACES,
                          self.span_of(place, 2))
        first = self.ends(late[0])
        report = Report(f"{self.what(self.number)} is issued in cycle {place.cycle}, and reads node {late[0].node}, "
                        f"which is there from cycle {first} on", f"issue node {self.number} from cycle "
                        f"{max(map(self.ends, late))} on, or what it reads earlier.", PLACES, self.span_of(place, 2))
        for other in late:
            report.note(f"{capital(self.what(other.node))} is issued in cycle {other.cycle} on `{other.unit}`, whose "
                        f"latency is {self.latency(other.unit)}.", self.span_of(other, 2))
        sooner = (self.earlier(other, place.cycle - self.latency(other.unit)) for other in late)
        half = MOST_TRIED // 2
        return self.with_cure(report, chain(islice(self.later(place, max(map(self.ends, late)), place.unit), half),
                                            *(islice(cures, half) for cures in sooner)))

    def past_stages(self) -> Report:
        place = self.place()
        latency = self.latency(place.unit)
        last = self.length() - latency
        report = Report(f"{self.what(self.number)} ends in cycle {self.ends(place) - 1}, and the last cycle of "
                        f"{counted(self.stages, 'stage')} is {self.length() - 1}", f"issue it in cycle {last} at last, "
                        f"and what it reads before; or write a longer `period`, or take more stages.", PLACES,
                        self.span_of(place, 2))
        report.note(f"The latency of `{place.unit}` is {latency}, so the last cycle that is left is {last}.")
        return self.with_cure(report, self.earlier(place, last))

    def busy_around(self) -> Report:
        place = self.place()
        gap = self.gap(place.unit)
        if gap <= self.period:
            return self.busy()
        report = Report(f"{self.what(self.number)} is issued on `{place.unit}`, which is taken for {gap} cycles, and "
                        f"the next sample issues it there {counted(self.period, 'cycle')} later", f"write a `period` "
                        f"of {gap} or more, or issue it on another unit.", PLACES, self.span_of(place, 3))
        report = self.with_cure(report, self.on_others(place))
        return report if report.edits else self.with_change(report, [Key(TOP, 0, "period", gap)])

    def blocked(self) -> Report:
        """The report for the first port to which the result of a node cannot go, as far as that is seen."""
        place = self.place()
        for port in sorted(self.goes_to(self.number), key=self.rank_of):
            if not self.ways(place, port):
                return self.no_way(place, port)
            if any(port in self.goes_to(other.node) for other in self.at_once(place)):
                return self.written_at(place, port)
            if self.is_taken(place, port):
                return self.without_bus(place, port)
        report = Report(f"the result of {self.what(self.number)} comes in cycle {self.ends(place) - 1}, and a register "
                        f"file that it goes to is written in that cycle of the period, or no bus to it is free",
                        "issue it in another cycle.", PLACES, self.span_of(place, 2))
        return self.with_cure(report, self.around(place))

    def rank_of(self, port: str) -> tuple[int, int]:
        unit, _, number = port.rpartition(".")
        return self.unit(unit), int(number)

    def is_taken(self, place: Place, port: str) -> bool:
        """Whether there may be too few buses to a port for all results that come in a cycle."""
        ways = self.ways(place, port)
        return len(ways) <= sum(any(other.unit in bus["from"] for bus in ways) for other in self.at_once(place))

    # Nodes that have to be in a stage.

    def unstaged(self) -> Report:
        if self.op(self.number) == "store":
            return self.loaded_before()
        place, what = self.place(), self.what(self.number)
        first, last = f"0 to {self.period - 1}", f"{self.length() - self.period} to {self.length() - 1}"
        reports = {"input": Report(f"{what} is issued in cycle {place.cycle}, behind the first stage",
                                   f"issue it in one of the cycles {first}.", PLACES),
                   "output": Report(f"{what} ends in cycle {self.ends(place) - 1}, before the last stage",
                                    f"issue it so that it ends in one of the cycles {last}.", PLACES)}
        report = reports.get(self.op(self.number)) or Report(
            f"{what} is issued in cycle {place.cycle}, and is not in its stage", "issue an input in the first stage, "
            "an output so that it ends in the last one, and a store so that it ends before its word is loaded.", PLACES)
        report.span = self.span_of(place, 2)
        report.note(f"Of {counted(self.stages, 'stage')} with {counted(self.period, 'cycle')} each, the first one is "
                    f"the cycles {first}, and the last one {last}.")
        return self.with_cure(report, chain(self.by_periods(place), islice(self.around(place), MOST_TRIED // 2)))

    def loaded_before(self) -> Report:
        """The report where a word is loaded before it is stored."""
        place, end = self.place(), self.ends(self.place())
        early = [(load, ago) for load, ago in self.loads(self.number) if load.cycle + ago * self.period < end]
        load, ago = early[0] if early else (place, 0)
        report = Report(f"{self.what(self.number)} ends in cycle {end - 1}, and its word is loaded "
                        f"{counted(ago, 'sample')} later, in cycle {load.cycle + ago * self.period} of this sample",
                        f"issue it before, or node {load.node} later.", PLACES, self.span_of(place, 2))
        report.note(f"{capital(self.what(load.node))} is issued in cycle {load.cycle} of its own sample.".replace(",,",
                    ","), self.span_of(load, 2))
        first = end - ago * self.period
        return self.with_cure(report, chain(islice(self.earlier(place, place.cycle), MOST_TRIED // 2),
                                            self.later(load, first, load.unit)))


class Unstored(Refused):
    """A source without delay lines on the datapath over several stages, whatever the plan says."""

    def nodes_here(self) -> list[Node]:
        """The nodes of the graph: where no delay is held and no memory has cells, none has a line."""
        units = [unit | {"cells": 1} if unit["kind"] == "ram" else unit for unit in self.tree["unit"]]
        return nodes_over(self.case, self.tree | {"unit": units})

    def nodes_on(self, tree: Tree) -> list[Node]:
        return nodes_over(self.case, tree)

    def trial(self) -> lacks.Trial:
        return lacks.Trial(self.planned, self.tree, self.case.say)

    def planned(self, datapath: Path) -> tuple[int, str]:
        """The exit status of `silc_place pipe` with another datapath, and what it says."""
        status, said = Staged(self.case).answer(self.case.text("PLAN").data, datapath.read_text())
        return status, said.partition(": ")[2]

    def lines(self) -> dict[int, int]:
        """The nodes of the graph that get a delay line, each with the cells that it takes."""
        longest = {node: max((delay for _, _, delay in readers), default=0)
                   for node, readers in readers_of(self.nodes).items()}
        return {node: delay + stages_of(self.case) for node, delay in longest.items() if delay}

    def longest(self) -> str:
        cells = self.lines().get(self.number)
        ago = counted(cells - stages_of(self.case), "sample") if cells else ""
        return f"`{self.node.element}` is read {ago} ago" if self.node and ago else \
            f"node {self.number} is read some samples ago"

    def or_hold(self, report: Report) -> Report:
        """The report as it is: over several stages no delay is held."""
        return report

    def delay_note(self, report: Report) -> Report:
        lines = self.lines()
        if self.node and self.number in lines:
            stages = stages_of(self.case)
            report.note(f"Its delay line has {counted(lines[self.number], 'cell')}: as many as the delay, which is "
                        f"{lines[self.number] - stages}, and the stages, which are {stages}. All delay lines of this "
                        f"source have {counted(sum(lines.values()), 'cell')}.")
        return report

    def cells_of_last(self, lines: dict[int, int], rams: Sequence[Tree]) -> int | None:
        return super().cells_of_last(lines, list(rams)) if lines else None
