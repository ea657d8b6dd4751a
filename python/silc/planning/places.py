"""Plans as they are searched for: a unit and a cycle of each node, and what comes of them by first fit."""
from __future__ import annotations

from dataclasses import dataclass, field
from functools import cached_property

from silc.planning.problem import COPIES, Port, Problem


class Unfit(Exception):
    """Why places are no plan."""


@dataclass
class Life:
    """A node's words in a register file: written in a cycle of the period, and read so many cycles later at last."""
    node: int
    file: Port
    written: int
    length: int

    def copies(self, period: int) -> int:
        return next(copies for copies in COPIES if copies * period >= self.length)


@dataclass
class Places:
    """A unit and a cycle for each node."""
    problem: Problem
    period: int
    units: list[int]
    cycles: list[int]
    buses: dict[tuple[int, Port], int] = field(default_factory=dict)

    def written(self, v: int) -> int:
        """The cycle in which the result of a node is there."""
        return self.cycles[v] + self.problem.units[self.units[v]].latency - 1

    def heights(self) -> list[int]:
        """Of each node how many cycles pass from its issue to the end of the last operation that waits for it in the
        same sample."""
        made = [0] * len(self.problem.nodes)
        for v in sorted(range(len(made)), key=self.cycles.__getitem__, reverse=True):
            after = [made[reader] for reader, port in self.problem.nodes[v].readers
                     if not self.problem.nodes[reader].reads[port][1]]
            made[v] = self.problem.units[self.units[v]].latency + max(after, default=0)
        return made

    def route(self) -> None:
        """Gives each transfer the first bus that is free, as silc_place does: by falling height of the nodes, then by
        their numbers. `Unfit` where there is none."""
        taken: dict[tuple[int, int], int] = {}
        self.buses, heights = {}, self.heights()
        for v in sorted(range(len(heights)), key=lambda v: (-heights[v], v)):
            cycle = self.written(v) % self.period
            for file in self.files_of(v):
                ways = self.problem.routes.get((self.units[v], file), [])
                bus = next((bus for bus in ways if taken.get((bus, cycle), v) == v), None)
                if bus is None:
                    raise Unfit(f"no bus is free for node {v}")
                taken[bus, cycle] = v
                self.buses[v, file] = bus

    def files_of(self, v: int) -> list[Port]:
        """Where a node's result goes, in order."""
        return sorted({Port(self.units[reader], port) for reader, port in self.problem.nodes[v].readers})

    @cached_property
    def lives(self) -> list[Life]:
        """The lifetimes, by file and then as they get their registers."""
        last: dict[tuple[Port, int], int] = {}
        for node in self.problem.nodes:
            for port, (read, delay) in enumerate(node.reads):
                at, cycle = (Port(self.units[node.number], port), read), self.cycles[node.number] + delay * self.period
                last[at] = max(last.get(at, 0), cycle)
        made = [Life(read, file, self.written(read) % self.period, cycle - self.written(read))
                for (file, read), cycle in last.items()]
        return sorted(made, key=lambda life: (life.file, life.written, life.node))

    @cached_property
    def unroll(self) -> int:
        return max((life.copies(self.period) for life in self.lives), default=1)

    @cached_property
    def registers(self) -> dict[tuple[int, Port], list[int]]:
        """The registers of each lifetime's copies, by first fit."""
        circle = self.unroll * self.period
        made: dict[tuple[int, Port], list[int]] = {}
        taken: dict[Port, list[int]] = {}
        for life in self.lives:
            rows, copies = taken.setdefault(life.file, []), life.copies(self.period)
            for copy in range(copies):
                cycles = 0
                for sample in range(copy, self.unroll, copies):
                    cycles |= around(life.written + 1 + sample * self.period, life.length, circle)
                free = next((row for row, used in enumerate(rows) if not used & cycles), len(rows))
                rows[free:free + 1] = [cycles | (rows[free] if free < len(rows) else 0)]
                made.setdefault((life.node, life.file), []).append(free)
        return made

    def sizes(self) -> dict[Port, int]:
        """How many registers each file has to have."""
        made: dict[Port, int] = {}
        for (_, file), registers in self.registers.items():
            made[file] = max(made.get(file, 0), *(register + 1 for register in registers))
        return made

    def count(self) -> int:
        return sum(self.sizes().values())

    def lacking(self) -> int:
        """How many registers the files of the datapath lack."""
        return sum(max(0, size - self.problem.size(file)) for file, size in self.sizes().items())

    def text(self) -> str:
        """The plan as `silc schedule` and `silc stages` print theirs."""
        stages = f" stages {self.problem.stages}" if self.problem.stages > 1 else ""
        lines = [f"period {self.period}{stages} unroll {self.unroll} nodes {len(self.problem.nodes)}"]
        for node in self.problem.nodes:
            line = (f"node {node.number} cycle {self.cycles[node.number]} unit "
                    f"{self.problem.units[self.units[node.number]].name} {node.itself}")
            for file in self.files_of(node.number):
                registers = ",".join(map(str, self.registers[node.number, file]))
                bus = self.problem.buses[self.buses[node.number, file]]
                line += f" to {self.problem.name(file)} bus {bus} regs {registers}"
            lines.append(line)
        return "".join(f"{line}\n" for line in lines)


def around(start: int, length: int, circle: int) -> int:
    """So many cycles from one on, around a circle, as the bits of a number. No more than the circle has."""
    bits = (1 << min(length, circle)) - 1 << start % circle
    return bits & (1 << circle) - 1 | bits >> circle
