"""The text of `silc schedule` or `silc stages`, as a plan of nodes."""
from dataclasses import dataclass, field
from typing import Any

from silc.micro_file.operations import CALLED

# How many samples may be in flight at once.
STAGES = range(1, 5)


@dataclass
class Transfer:
    """One destination of a result: a register file, the bus to it, and the registers that the copies have in turn."""
    file: str
    bus: str
    registers: list[int]


@dataclass
class Node:
    number: int
    cycle: int
    unit: str
    op: str
    argument: int | None = None
    operands: list[tuple[int, int]] = field(default_factory=list)
    transfers: list[Transfer] = field(default_factory=list)
    # The bits of its word, where it has a format.
    width: int | None = None

    def words(self) -> str:
        """What the node does, as the text has it: the operation, its argument and its operands."""
        reads = [f"{node}@{delay}" if delay else f"{node}" for node, delay in self.operands]
        return " ".join([self.op, *([] if self.argument is None else [f"{self.argument}"]), *reads])


@dataclass
class Plan:
    """A plan, with the latency of each unit that it uses. Cycles count from the start of the sample, over all its
    stages."""
    period: int
    unroll: int
    nodes: list[Node]
    latency: dict[str, int]
    stages: int = 1

    def written(self, node: Node) -> int:
        """The cycle in which a node's result is there."""
        return node.cycle + self.latency[node.unit] - 1

    def stage(self, cycle: int) -> int:
        """The stage in which a cycle of a sample is."""
        return cycle // self.period


class Line:
    """The words of a line, and where the reading stands."""

    def __init__(self, text: str) -> None:
        self.words, self.at = text.split(), 0

    def more(self) -> bool:
        return self.at < len(self.words)

    def next_is(self, word: str) -> bool:
        return self.words[self.at : self.at + 1] == [word]

    def word(self, *wanted: str) -> str:
        """The next word, which has to be one of those that are wanted, where there are some."""
        found = self.words[self.at] if self.more() else "the end of the line"
        if wanted and found not in wanted or not self.more():
            raise ValueError(f"{found} in the place of {' or '.join(wanted) or 'a word'}")
        self.at += 1
        return found

    def number(self, name: str) -> int:
        self.word(name)
        return int(self.word())


def node_of(text: str) -> Node:
    line = Line(text)
    node = Node(line.number("node"), line.number("cycle"), "", "")
    line.word("unit")
    node.unit = line.word()
    line.word("op")
    node.op = line.word(*CALLED)
    operation = CALLED[node.op]
    if operation.has_argument:
        node.argument = int(line.word())
    for _ in range(operation.reads):
        operand, _, delay = line.word().partition("@")
        node.operands.append((int(operand), int(delay or 0)))
    if operation.is_formatted:
        line.number("fmt")
        line.word("trunc", "round", "sat", "round,sat")
        node.width = int(line.word())
    while line.more():
        line.word("to")
        file = line.word()
        line.word("bus")
        bus = line.word()
        line.word("regs")
        node.transfers.append(Transfer(file, bus, [int(register) for register in line.word().split(",")]))
    return node


def check(plan: Plan) -> None:
    """Each node has its place in the period, reads nodes that are there, and goes where it is read."""
    for number, node in enumerate(plan.nodes):
        if node.number != number:
            raise ValueError(f"line {number + 2}: node {node.number} in the place of node {number}")
        if not 0 <= node.cycle <= plan.written(node) < plan.stages * plan.period:
            within = "the period" if plan.stages == 1 else f"{plan.stages} periods"
            raise ValueError(f"line {number + 2}: node {number} is not done in {within}")
        if any(not 0 <= operand < len(plan.nodes) for operand, _ in node.operands):
            raise ValueError(f"line {number + 2}: node {number} reads a node that is not there")
    read = readings(plan)
    for node in plan.nodes:
        for transfer in node.transfers:
            if (node.number, transfer.file) not in read:
                raise ValueError(f"node {node.number} goes to {transfer.file}, where nothing reads it")


def latencies(nodes: list[Node], datapath: dict[str, Any] | None) -> dict[str, int]:
    """The latency of each unit, by the datapath file, which has all that the nodes name; without one, 1."""
    if datapath is None:
        return {node.unit: 1 for node in nodes}
    known = {unit["name"]: unit.get("latency", 1) for unit in datapath["unit"]}
    buses = {bus["name"] for bus in datapath["bus"]}
    ports = {f"{unit['name']}.{port}" for unit in datapath["unit"] for port in range(len(unit.get("files", [])))}
    for node in nodes:
        transfers = [named for to in node.transfers for named in (("bus", to.bus, buses), ("port", to.file, ports))]
        for what, name, there in [("unit", node.unit, known), *transfers]:
            if name not in there:
                raise ValueError(f"the datapath has no {what} {name}")
    return known


def head_of(text: str) -> tuple[int, int, int, int]:
    """The period, the stages, the unroll factor and the number of nodes of a head line; `silc schedule` names no
    stages."""
    head = Line(text)
    period = head.number("period")
    stages = head.number("stages") if head.next_is("stages") else 1
    if stages not in STAGES:
        raise ValueError(f"{stages} stages, and there are {STAGES[0]} to {STAGES[-1]}")
    return period, stages, head.number("unroll"), head.number("nodes")


def plan_of(text: str, datapath: dict[str, Any] | None = None) -> Plan:
    """The plan that a text of `silc schedule` or `silc stages` has, on the units of a datapath file that has been
    read."""
    lines = text.splitlines()
    if not lines:
        raise ValueError("the text is empty")
    nodes = []
    for number, line in enumerate(lines):
        try:
            if number:
                nodes.append(node_of(line))
            else:
                period, stages, unroll, count = head_of(line)
        except ValueError as fault:
            raise ValueError(f"line {number + 1}: {fault}") from fault
    if count != len(nodes):
        raise ValueError(f"line 1: {count} nodes, and {len(nodes)} lines of nodes")
    plan = Plan(period, unroll, nodes, latencies(nodes, datapath), stages)
    check(plan)
    return plan


def readings(plan: Plan) -> dict[tuple[int, str], list[int]]:
    """Of each node and port the cycles of its reads, counted from the start of the sample in which it is written."""
    made: dict[tuple[int, str], list[int]] = {}
    for reader in plan.nodes:
        for port, (node, delay) in enumerate(reader.operands):
            made.setdefault((node, f"{reader.unit}.{port}"), []).append(reader.cycle + delay * plan.period)
    return made
