"""What is to be planned: the nodes of a source over a datapath, the units that may do each, and the routes."""
from __future__ import annotations

import re
from collections.abc import Iterator
from dataclasses import dataclass, field
from functools import cached_property
from typing import Any, NamedTuple

from silc.micro_file.operations import CALLED, KIND_OF
from silc.pictures.plan import Plan, plan_of

# What a line of a plan says of the node itself, between its unit and its transfers.
ITSELF = re.compile(r"node \d+ cycle \d+ unit \S+ (op .*?)(?: to .*)?")
COPIES = (1, 2, 4)


class Port(NamedTuple):
    """A register file, by the number of its unit."""
    unit: int
    port: int


class Wait(NamedTuple):
    """One node ends before another begins, so many samples later."""
    first: int
    then: int
    delay: int


@dataclass
class Unit:
    """A unit of a datapath."""
    name: str
    kind: str
    latency: int
    gap: int
    files: list[int]
    ram: str = ""


@dataclass
class Node:
    """A node of the lowered list. `units` are those that may do it, `reads` its operands with their delays."""
    number: int
    op: str
    itself: str
    reads: list[tuple[int, int]]
    units: list[int]
    # The nodes that read it, each with the port at which it does.
    readers: list[tuple[int, int]] = field(default_factory=list)


class Problem:
    """The nodes of a text of `silc schedule` or `silc stages`, to be planned anew over the units of its datapath."""

    def __init__(self, text: str, datapath: dict[str, Any], stages: int) -> None:
        self.datapath, self.stages, self.text = datapath, stages, text
        self.ruled: Plan = plan_of(text, datapath)
        self.units = [Unit(unit["name"], unit["kind"], unit.get("latency", 1), unit.get("gap", 1),
                           unit.get("files", []), unit.get("ram", "")) for unit in datapath["unit"]]
        self.numbers = {unit.name: number for number, unit in enumerate(self.units)}
        self.buses = [bus["name"] for bus in datapath["bus"]]
        lines = text.splitlines()[1:]
        self.nodes = [self.node_of(node.number, line) for node, line in zip(self.ruled.nodes, lines)]
        for node in self.nodes:
            for port, (read, _) in enumerate(node.reads):
                self.nodes[read].readers.append((node.number, port))
        self.routes = self.routes_of()
        self.waits = list(self.waits_of())

    def node_of(self, number: int, line: str) -> Node:
        node, found = self.ruled.nodes[number], ITSELF.fullmatch(line)
        assert found, line
        return Node(number, node.op, found[1], node.operands, self.right_units(number))

    def right_units(self, number: int) -> list[int]:
        """The units of the kind, and those of its line for what is done with a memory."""
        node = self.ruled.nodes[number]
        if node.op in ("load", "store"):
            return [self.numbers[node.unit]]
        kind, ram = KIND_OF[node.op], self.units[self.numbers[node.unit]].ram
        return [place for place, unit in enumerate(self.units) if unit.kind == kind and unit.ram == ram]

    def routes_of(self) -> dict[tuple[int, Port], list[int]]:
        """The buses from a unit to a register file, in the order of the datapath."""
        made: dict[tuple[int, Port], list[int]] = {}
        for bus, table in enumerate(self.datapath["bus"]):
            for driver in table["from"]:
                for taker in table["to"]:
                    unit, _, port = taker.rpartition(".")
                    end = Port(self.numbers[unit], int(port))
                    made.setdefault((self.numbers[driver], end), []).append(bus)
        return made

    def waits_of(self) -> Iterator[Wait]:
        """What has to end before what begins: operands, and stores before their loads."""
        for node in self.nodes:
            for read, delay in node.reads:
                yield Wait(read, node.number, delay)
        for first, then, delay in self.loads():
            yield Wait(first, then, delay)

    def loads(self) -> Iterator[tuple[int, int, int]]:
        """Each load with the store of its word and how many samples before that is stored. Behind a store stand the
        address and the load of each of its delays, rising."""
        for store in self.nodes:
            if store.op != "store":
                continue
            offset, longest = self.offset(store.number), 0
            for number in range(store.number + 2, len(self.nodes), 2):
                load = self.nodes[number]
                if load.op != "load" or load.units != store.units or self.offset(number) <= offset + longest:
                    break
                longest = self.offset(number) - offset
                yield store.number, number, longest

    def offset(self, number: int) -> int:
        """The offset of the address that a load or a store reads."""
        argument = self.ruled.nodes[self.nodes[number].reads[0][0]].argument
        assert argument is not None
        return argument

    @cached_property
    def latency(self) -> list[int]:
        """The least latency of each node over its units."""
        return [min(self.units[unit].latency for unit in node.units) for node in self.nodes]

    @cached_property
    def longest(self) -> list[int]:
        """The greatest latency of each node over its units."""
        return [max(self.units[unit].latency for unit in node.units) for node in self.nodes]

    @cached_property
    def gives(self) -> list[bool]:
        return [CALLED[node.op].gives for node in self.nodes]

    def size(self, file: Port) -> int:
        return self.units[file.unit].files[file.port]

    def name(self, file: Port) -> str:
        return f"{self.units[file.unit].name}.{file.port}"
