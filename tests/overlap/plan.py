#!/usr/bin/env python3
"""Prints the plan over S stages of a program, by the rules of docs/PLANNING.md and with nothing of silc.

usage: tests/overlap/plan.py TEXT DATAPATH S

TEXT is what `silc schedule` prints of the program over DATAPATH with a hold of 0, in any period in which it has a plan.
Of it the nodes, their operands and their units are taken, which do not depend on the stages where there is one ram. The
offsets of delay lines, cycles, buses and registers are found anew. Where there is no plan, it says what is lacking.
"""
import re
import sys
import tomllib
from dataclasses import dataclass, field
from itertools import count
from pathlib import Path
from typing import Any

LINE = re.compile(r"node \d+ cycle \d+ unit (\S+) op (\S+)((?: -?\d+)*)( fmt \S+ \S+ \S+)?(?: to .*)?")
WITH_ARGUMENT = ("input", "output", "const", "addr")
COPIES = (1, 2, 4)


class NoPlan(Exception):
    """Why there is no plan, as silc says it."""


@dataclass
class Node:
    number: int
    unit: str
    op: str
    argument: int | None
    operands: list[int]
    format: str
    # The ports that read its result, in the order of the datapath, and the nodes that do so at each.
    readers: dict[str, list[int]] = field(default_factory=dict)
    # Of a load its store and its delay, of a store its loads.
    store: int | None = None
    delay: int = 0
    loads: list[int] = field(default_factory=list)


def nodes_of(text: str) -> list[Node]:
    nodes = []
    for number, line in enumerate(text.splitlines()[1:]):
        unit, op, numbers, form = LINE.fullmatch(line).groups()
        words = list(map(int, numbers.split()))
        argument = words.pop(0) if op in WITH_ARGUMENT else None
        nodes.append(Node(number, unit, op, argument, words, form or ""))
    return nodes


class Planner:
    """The choices of a plan, each the first or the least that fits."""

    def __init__(self, text: str, datapath: dict[str, Any], stages: int) -> None:
        self.nodes, self.stages = nodes_of(text), stages
        self.period, self.buses = datapath["period"], datapath["bus"]
        self.units = {unit["name"]: unit for unit in datapath["unit"]}
        self.ports = [f"{name}.{port}" for name, unit in self.units.items()
                      for port in range(len(unit.get("files", [])))]
        self.cycle: dict[int, int] = {}
        self.over: dict[int, list[str]] = {}
        self.registers: dict[tuple[int, str], list[int]] = {}

    def planned(self) -> str:
        self.put_lines()
        self.find_readers()
        for node in self.by_height():
            self.place(node)
        for port in self.ports:
            self.allot(port)
        return self.text()

    def latency(self, node: Node) -> int:
        return self.units[node.unit].get("latency", 1)

    def written(self, node: Node) -> int:
        return self.cycle[node.number] + self.latency(node) - 1

    def put_lines(self) -> None:
        """Gives each line a cell for each sample in flight beyond its longest delay."""
        used = dict.fromkeys(self.units, 0)
        for store in (node for node in self.nodes if node.op == "store"):
            first = self.nodes[store.operands[0]]
            line, offset, longest = [(first, 0)], first.argument, 0
            # Behind the store stand an address and a load for each delay, rising.
            for address, load in zip(self.nodes[store.number + 1::2], self.nodes[store.number + 2::2]):
                if (address.op, load.op, load.unit) != ("addr", "load",
                                                        store.unit) or address.argument <= offset + longest:
                    break
                longest = address.argument - offset
                load.store, load.delay = store.number, longest
                store.loads.append(load.number)
                line.append((address, longest))
            place = used[store.unit]
            used[store.unit] += longest + self.stages
            if used[store.unit] > self.units[store.unit]["cells"]:
                raise NoPlan("no ram cells")
            for address, delay in line:
                address.argument = place + delay

    def find_readers(self) -> None:
        for node in self.nodes:
            for port, read in enumerate(node.operands):
                self.nodes[read].readers.setdefault(f"{node.unit}.{port}", []).append(node.number)
        for node in self.nodes:
            node.readers = dict(sorted(node.readers.items(), key=lambda reader: self.ports.index(reader[0])))

    def by_height(self) -> list[Node]:
        """The nodes by falling height: how long what waits for each of them takes."""
        height: dict[int, int] = {}

        def found(number: int) -> int:
            if number not in height:
                node = self.nodes[number]
                height[number] = self.latency(node) + max(map(found, sum(node.readers.values(), [])), default=0)
            return height[number]

        sys.setrecursionlimit(10 * len(self.nodes) + 1000)
        return sorted(self.nodes, key=lambda node: (-found(node.number), node.number))

    def place(self, node: Node) -> None:
        """Gives a node the least cycle that it fits in, and its result the first buses that are free then."""
        latency, period = self.latency(node), self.period
        least = max((self.written(self.nodes[read]) + 1 for read in node.operands), default=0)
        if node.op == "output":
            least = max(least, (self.stages - 1) * period - latency + 1)
        last = min(self.stages * period - latency, period - 1 if node.op == "input" else least + period - 1)
        for cycle in range(least, last + 1):
            buses = self.buses_at((cycle + latency - 1) % period, node)
            if buses is not None and self.is_free(node, cycle) and self.is_stored_before_loads(node, cycle):
                self.cycle[node.number], self.over[node.number] = cycle, buses
                return
        raise NoPlan(f"period exceeded at node {node.number}")

    def is_free(self, node: Node, cycle: int) -> bool:
        gap = self.units[node.unit].get("gap", 1)
        apart = [(cycle - self.cycle[other]) % self.period for other in self.cycle
                 if self.nodes[other].unit == node.unit]
        return gap <= self.period and all(gap <= distance <= self.period - gap for distance in apart)

    def is_stored_before_loads(self, node: Node, cycle: int) -> bool:
        """Whether a word is stored before it is loaded, as far as both are placed."""
        if node.op == "store":
            return all(cycle + self.latency(node) <= self.cycle[load] + self.nodes[load].delay * self.period
                       for load in node.loads if load in self.cycle)
        if node.store in self.cycle:
            return self.written(self.nodes[node.store]) + 1 <= cycle + node.delay * self.period
        return True

    def buses_at(self, turn: int, node: Node) -> list[str] | None:
        """For each port that reads a node the first bus that is free in a cycle of the period; nothing where one
        lacks."""
        there = [other for other in map(self.nodes.__getitem__, self.cycle)
                 if self.written(other) % self.period == turn]
        if any(port in other.readers for other in there for port in node.readers):
            return None
        taken = {bus for other in there for bus in self.over[other.number]}
        free = [next((bus["name"] for bus in self.buses if node.unit in bus["from"] and port in bus["to"]
                      and bus["name"] not in taken), None) for port in node.readers]
        return None if None in free else free

    def allot(self, port: str) -> None:
        """Gives each copy of the words at a port the first register that is free wherever the copy has to stand."""
        arcs = [(self.written(node) % self.period, node.number,
                 max(map(self.cycle.get, node.readers[port])) - self.written(node))
                for node in self.nodes if port in node.readers]
        unit, _, number = port.rpartition(".")
        taken = []
        for written, node, length in sorted(arcs):
            copies = self.copies(length)
            for copy in range(copies):
                starts = [written + 1 + turn * self.period for turn in range(self.unroll()) if turn % copies == copy]
                cycles = {(start + k) % (self.unroll() * self.period) for start in starts for k in range(length)}
                register = next(k for k in count() if k == len(taken) or not taken[k] & cycles)
                if register == self.units[unit]["files"][int(number)]:
                    raise NoPlan(f"file full {port} at node {node}")
                taken[register:register + 1] = [cycles.union(*taken[register:register + 1])]
                self.registers.setdefault((node, port), []).append(register)

    def copies(self, length: int) -> int:
        return next(copies for copies in COPIES if copies * self.period >= length)

    def unroll(self) -> int:
        return max((self.copies(max(map(self.cycle.get, readers)) - self.written(node))
                    for node in self.nodes for readers in node.readers.values()), default=1)

    def text(self) -> str:
        lines = [f"period {self.period} stages {self.stages} unroll {self.unroll()} nodes {len(self.nodes)}"]
        for node in self.nodes:
            words = [node.op, *([] if node.argument is None else [str(node.argument)]), *map(str, node.operands)]
            line = (f"node {node.number} cycle {self.cycle[node.number]} unit {node.unit} op "
                    f"{' '.join(words)}{node.format}")
            for port, bus in zip(node.readers, self.over[node.number]):
                line += f" to {port} bus {bus} regs {','.join(map(str, self.registers[node.number, port]))}"
            lines.append(line)
        return "".join(f"{line}\n" for line in lines)


def main(words: list[str]) -> int:
    if len(words) != 3 or words[2] not in ("1", "2", "3", "4"):
        print(__doc__, file=sys.stderr)
        return 2
    text, datapath, stages = words
    try:
        print(Planner(Path(text).read_text(), tomllib.loads(Path(datapath).read_text()), int(stages)).planned(), end="")
    except NoPlan as why:
        print(f"plan: {why}", file=sys.stderr)
        return 1
    return 0


if __name__ == "__main__":
    sys.exit(main(sys.argv[1:]))
