"""Whether a text is a feasible plan: the facts of docs/PLANNING.md, one by one, with nothing of the planner.

A plan is lines `node V cycle T unit NAME`, behind a head line or without one, in any order. What else a line has, as
`silc schedule` prints it, is judged too: the node itself, its buses and its registers. Where no line has buses, each
transfer gets the first that is free, by falling height of the nodes and then by their numbers, and each copy its
register by first fit.
"""
from __future__ import annotations

import re
from collections.abc import Iterator
from dataclasses import dataclass, field
from typing import Any

from silc.micro_file.operations import CALLED, KIND_OF

LINE = re.compile(r"node (\d+) cycle (\d+) unit (\w+)(?: (op .*?))?((?: to \S+ bus \S+ regs \S+)*)")
TO = re.compile(r" to (\S+) bus (\S+) regs (\d+(?:,\d+)*)")
HEAD = re.compile(r"period (\d+)(?: stages (\d+))? unroll (\d+) nodes (\d+)")
COPIES = (1, 2, 4)


class NoPlan(Exception):
    """A fact that does not hold, and the line of the plan where."""

    def __init__(self, line: int, what: str) -> None:
        super().__init__(f"plan line {line}: {what}")
        self.line, self.what = line, what


@dataclass
class Place:
    """A line of the plan."""
    line: int
    node: int
    cycle: int
    unit: str
    itself: str
    to: list[tuple[str, str, list[int]]]


@dataclass
class Given:
    """A node of the source's lowered list."""
    itself: str
    op: str
    argument: int
    operands: list[tuple[int, int]]
    # The memory of a load, a store or an address.
    ram: str
    readers: list[tuple[int, int]] = field(default_factory=list)


def given_in(text: str, datapath: dict[str, Any]) -> list[Given]:
    """The nodes of a text of `silc schedule` or `silc stages`, whatever its units and cycles are."""
    tied = {unit["name"]: unit.get("ram", "") for unit in datapath["unit"]}
    made = []
    for line in text.splitlines()[1:]:
        found = LINE.fullmatch(line)
        assert found and found[4], line
        words = found[4].partition(" fmt ")[0].split()
        op, numbers = words[1], words[2:]
        argument = int(numbers.pop(0)) if CALLED[op].has_argument else 0
        operands = [(int(word.partition("@")[0]), int(word.partition("@")[2] or 0)) for word in numbers]
        ram = found[3] if op in ("load", "store") else tied[found[3]] if op == "addr" else ""
        made.append(Given(found[4], op, argument, operands, ram))
    for number, node in enumerate(made):
        for port, (operand, _) in enumerate(node.operands):
            made[operand].readers.append((number, port))
    return made


class Checking:
    """The facts of one plan."""

    def __init__(self, plan: str, nodes: str, datapath: dict[str, Any], stages: int) -> None:
        self.period, self.stages, self.datapath = datapath["period"], stages, datapath
        self.units = {unit["name"]: unit for unit in datapath["unit"]}
        self.given = given_in(nodes, datapath)
        self.unroll: int | None = None
        self.place: list[Place] = self.placed(plan)
        self.has_buses = any(place.to for place in self.place)
        self.bus: dict[tuple[int, str], str] = {}
        self.registers: dict[tuple[int, str], list[int]] = {}

    def run(self) -> None:
        """Raises `NoPlan` at the first fact that does not hold."""
        for place in self.place:
            self.check_unit(place)
            self.check_cycle(place)
        for place in self.place:
            self.check_operands(place)
        self.check_busy()
        self.check_transfers()
        self.check_memory()
        self.check_registers()

    def placed(self, plan: str) -> list[Place]:
        """The lines by their nodes, each of which has one."""
        made: dict[int, Place] = {}
        number = 0
        for number, line in enumerate(plan.splitlines(), 1):
            if number == 1 and (head := HEAD.fullmatch(line)):
                self.check_head(*(int(word) if word else None for word in head.groups()))
                continue
            found = LINE.fullmatch(line)
            if not found:
                raise NoPlan(number, "it is no node")
            node, cycle, unit, itself, to = found.groups()
            place = Place(number, int(node), int(cycle), unit, itself or "",
                          [(file, bus, list(map(int, regs.split(",")))) for file, bus, regs in TO.findall(to)])
            if place.node >= len(self.given):
                raise NoPlan(number, f"there is no node {node}")
            if place.node in made:
                raise NoPlan(number, f"node {node} is there in line {made[place.node].line} already")
            if itself and itself != self.given[place.node].itself:
                raise NoPlan(number, f"node {node} is {self.given[place.node].itself}")
            made[place.node] = place
        for node in range(len(self.given)):
            if node not in made:
                raise NoPlan(number + 1, f"node {node} is missing")
        return [made[node] for node in range(len(self.given))]

    def check_head(self, period: int | None, stages: int | None, unroll: int | None, nodes: int | None) -> None:
        if period != self.period:
            raise NoPlan(1, f"the period of the datapath is {self.period}")
        if (stages or 1) != self.stages:
            raise NoPlan(1, f"it is not over {self.stages} stages")
        if nodes != len(self.given):
            raise NoPlan(1, f"the source has {len(self.given)} nodes")
        self.unroll = unroll

    def latency(self, node: int) -> int:
        return int(self.units[self.place[node].unit].get("latency", 1))

    def gap(self, unit: str) -> int:
        return int(self.units[unit].get("gap", 1))

    def written(self, node: int) -> int:
        return self.place[node].cycle + self.latency(node) - 1

    def check_unit(self, place: Place) -> None:
        node = self.given[place.node]
        if place.unit not in self.units:
            raise NoPlan(place.line, f"there is no unit {place.unit}")
        unit = self.units[place.unit]
        if unit["kind"] != KIND_OF[node.op]:
            raise NoPlan(place.line, f"{place.unit} is no {KIND_OF[node.op]}, which node {place.node} needs")
        if node.op in ("load", "store") and place.unit != node.ram:
            raise NoPlan(place.line, f"the line of node {place.node} is in {node.ram}")
        if node.op == "addr" and unit["ram"] != node.ram:
            raise NoPlan(place.line, f"{place.unit} does not address {node.ram}")

    def check_cycle(self, place: Place) -> None:
        """It is done in its stages, an input is issued in the first and an output ends in the last one."""
        op, end = self.given[place.node].op, place.cycle + self.latency(place.node)
        if end > self.stages * self.period:
            raise NoPlan(place.line, f"node {place.node} ends in cycle {end - 1}, past the last, "
                                     f"{self.stages * self.period - 1}")
        if self.gap(place.unit) > self.period:
            raise NoPlan(place.line, f"{place.unit} is not free again in a period")
        if op == "input" and place.cycle >= self.period:
            raise NoPlan(place.line, f"input node {place.node} is not in the first period")
        if op == "output" and end <= (self.stages - 1) * self.period:
            raise NoPlan(place.line, f"output node {place.node} is not in the last period")

    def check_operands(self, place: Place) -> None:
        for operand, delay in self.given[place.node].operands:
            there = self.written(operand) + 1
            if there > place.cycle + delay * self.period:
                raise NoPlan(place.line, f"operand {operand} of node {place.node} is there from cycle {there}"
                                         + (f" and read {delay} samples ago" if delay else ""))

    def check_busy(self) -> None:
        """Two issues of one unit, of whatever samples, are its gap apart."""
        on: dict[str, list[int]] = {}
        for place in self.place:
            gap = self.gap(place.unit)
            for other in on.setdefault(place.unit, []):
                apart = (place.cycle - self.place[other].cycle) % self.period
                if apart < gap or self.period - apart < gap:
                    raise NoPlan(place.line, f"{place.unit} is busy with node {other} when node {place.node} begins")
            on[place.unit].append(place.node)

    def files_of(self, node: int) -> list[str]:
        """Where a result goes, in the order of the datapath."""
        order = {name: number for number, name in enumerate(self.units)}
        ends = {(order[self.place[reader].unit], port) for reader, port in self.given[node].readers}
        names = list(self.units)
        return [f"{names[unit]}.{port}" for unit, port in sorted(ends)]

    def ways(self, unit: str, file: str) -> list[str]:
        return [bus["name"] for bus in self.datapath["bus"] if unit in bus["from"] and file in bus["to"]]

    def by_height(self) -> list[Place]:
        """The nodes in the order in which they take buses. Operands of the same sample are there, so a node that waits
        for another begins later."""
        heights = [0] * len(self.place)
        for place in sorted(self.place, key=lambda place: -place.cycle):
            waiting = [heights[reader] for reader, port in self.given[place.node].readers
                       if self.given[reader].operands[port][1] == 0]
            heights[place.node] = self.latency(place.node) + max([0, *waiting])
        return sorted(self.place, key=lambda place: (-heights[place.node], place.node))

    def check_transfers(self) -> None:
        """Each result goes over a free route to each file that it is read from, and comes there alone."""
        written: dict[tuple[str, int], int] = {}
        driven: dict[tuple[str, int], int] = {}
        for place in self.by_height():
            files, turn = self.files_of(place.node), self.written(place.node) % self.period
            said = {file: bus for file, bus, _ in place.to}
            if self.has_buses and (sorted(said) != sorted(files) or len(said) < len(place.to)):
                raise NoPlan(place.line, f"node {place.node} is read from {' and '.join(files) or 'nowhere'}")
            for file in files:
                if (other := written.setdefault((file, turn), place.node)) != place.node:
                    raise NoPlan(place.line, f"node {other} is written into {file} in the same cycle")
                ways = self.ways(place.unit, file)
                if not ways:
                    raise NoPlan(place.line, f"no bus leads from {place.unit} to {file}")
                if self.has_buses and said[file] not in ways:
                    raise NoPlan(place.line, f"bus {said[file]} does not lead from {place.unit} to {file}")
                free = [bus for bus in ([said[file]] if self.has_buses else ways)
                        if driven.get((bus, turn), place.node) == place.node]
                if not free:
                    raise NoPlan(place.line, f"no bus is free for node {place.node} to {file}")
                driven[free[0], turn] = place.node
                self.bus[place.node, file] = free[0]

    def lines(self) -> Iterator[tuple[int, int, list[tuple[int, int]]]]:
        """Each delay line: its store, its offset, and its loads with their delays. An address and a load for each delay
        stand behind the store, rising."""
        for store, node in enumerate(self.given):
            if node.op != "store":
                continue
            offset, loads, longest = self.given[node.operands[0][0]].argument, [], 0
            for address, load in zip(range(store + 1, len(self.given), 2), range(store + 2, len(self.given), 2)):
                if (self.given[address].op, self.given[load].op) != ("addr", "load"):
                    break
                delay = self.given[address].argument - offset
                if self.given[load].ram != node.ram or delay <= longest:
                    break
                loads.append((load, delay))
                longest = delay
            yield store, offset, loads

    def check_memory(self) -> None:
        """A line has its cells alone, and a word is loaded only after it was stored."""
        cells: dict[tuple[str, int], int] = {}
        for store, offset, loads in self.lines():
            ram, line = self.given[store].ram, self.place[store].line
            for cell in range(offset, offset + max((delay for _, delay in loads), default=0) + self.stages):
                if cell >= self.units[ram]["cells"]:
                    raise NoPlan(line, f"{ram} has no cell {cell} for the line that node {store} writes")
                if cells.setdefault((ram, cell), store) != store:
                    raise NoPlan(line, f"node {cells[ram, cell]} writes a line with cell {cell} of {ram} too")
            for load, delay in loads:
                if self.written(store) >= self.place[load].cycle + delay * self.period:
                    raise NoPlan(self.place[load].line, f"node {load} loads the word of {delay} samples ago, which "
                                                        f"node {store} stores by cycle {self.written(store)}")

    def lives(self) -> dict[str, list[tuple[int, int, int]]]:
        """Of each file its lifetimes: the cycle of the period in which a word is written, the node, and how many cycles
        later it is read for the last time."""
        made: dict[str, list[tuple[int, int, int]]] = {}
        for node, given in enumerate(self.given):
            for file in self.files_of(node):
                last = max(self.place[reader].cycle + self.given[reader].operands[port][1] * self.period
                           for reader, port in given.readers if f"{self.place[reader].unit}.{port}" == file)
                made.setdefault(file, []).append((self.written(node) % self.period, node, last - self.written(node)))
        return made

    def copies(self, length: int) -> int:
        return next(copies for copies in COPIES if copies * self.period >= length)

    def check_registers(self) -> None:
        """Each copy of a lifetime has a register of its file alone in all cycles that it needs, on the circle."""
        lives = self.lives()
        unroll = max((self.copies(length) for lived in lives.values() for *_, length in lived), default=1)
        if self.unroll not in (None, unroll):
            raise NoPlan(1, f"the unroll factor is {unroll}")
        said = {(place.node, file): registers for place in self.place for file, _, registers in place.to}
        for file, lived in lives.items():
            unit, _, port = file.rpartition(".")
            size: int = self.units[unit]["files"][int(port)]
            taken: dict[int, dict[int, int]] = {}
            for written, node, length in sorted(lived):
                self.allot(file, size, node, list(self.cycles(written, length, unroll)), taken,
                           said.get((node, file)))

    def cycles(self, written: int, length: int, unroll: int) -> Iterator[set[int]]:
        """The cycles of the circle that each copy needs."""
        copies = self.copies(length)
        for copy in range(copies):
            yield {(written + 1 + sample * self.period + k) % (unroll * self.period)
                   for sample in range(unroll) if sample % copies == copy for k in range(length)}

    def allot(self, file: str, size: int, node: int, needs: list[set[int]], taken: dict[int, dict[int, int]],
              said: list[int] | None) -> None:
        """Gives the copies of a lifetime the registers that the plan says, or the first that are free."""
        line = self.place[node].line
        if said is not None and len(said) != len(needs):
            raise NoPlan(line, f"node {node} has {len(needs)} copies in {file}")
        for copy, cycles in enumerate(needs):
            free = [register for register in ([said[copy]] if said is not None else range(size))
                    if not cycles & taken.get(register, {}).keys()]
            if said is not None and not free:
                other = next(taken[said[copy]][cycle] for cycle in cycles if cycle in taken[said[copy]])
                raise NoPlan(line, f"register {said[copy]} of {file} has the word of node {other} then")
            if not free or free[0] >= size:
                raise NoPlan(line, f"file full {file} at node {node}")
            taken.setdefault(free[0], {}).update(dict.fromkeys(cycles, node))
            self.registers.setdefault((node, file), []).append(free[0])


def check(plan: str, nodes: str, datapath: dict[str, Any], stages: int = 1) -> Checking:
    """Raises `NoPlan` where a text is no feasible plan of the nodes over the datapath. They are those of a text of
    `silc schedule`, or of `silc stages` over as many stages, of the same source and memories."""
    checking = Checking(plan, nodes, datapath, stages)
    checking.run()
    return checking
