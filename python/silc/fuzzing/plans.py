"""The image of a plan, from its text and the units and buses of its datapath."""
import re
import tomllib
from typing import Any

from silc import micro_file
from silc.micro_file.operations import KIND_OF, PORTS, WITH_ARGUMENT
from silc.sure import sure

HEAD = re.compile(r"period (\d+) unroll (\d+) nodes (\d+)")
NODE = re.compile(r"node (\d+) cycle (\d+) unit (\w+) op (\w+)((?: -?\d+(?:@\d+)?)*)"
                  r"(?: fmt (-?\d+) ([a-z,]+) (\d+))?((?: to .*)?)")
TRANSFER = re.compile(r" to (\w+)\.(\d) bus (\w+) regs ([\d,]+)")


class Node:
    """A line of a plan."""

    def __init__(self, line: str) -> None:
        number, cycle, unit, operation, operands, shift, mode, width, transfers = sure(NODE.fullmatch(line)).groups()
        self.number, self.cycle, self.unit, self.operation = int(number), int(cycle), unit, operation
        numbers = operands.split()
        # The first number of some operations is no operand.
        self.argument = int(numbers.pop(0)) if self.operation in WITH_ARGUMENT else 0
        self.operands = [(int(operand.partition("@")[0]), int(operand.partition("@")[2] or 0)) for operand in numbers]
        self.format = micro_file.Format(int(shift), mode, int(width)) if shift else None
        self.transfers = {(unit, int(port)): (bus, [int(register) for register in registers.split(",")])
                          for unit, port, bus, registers in TRANSFER.findall(transfers)}


def issue_of(node: Node, number: int, nodes: list[Node], sample: int) -> micro_file.Issue:
    """The operation of a node in a sample: each operand is in the register of its copy."""
    registers = [0] * PORTS[KIND_OF[node.operation]]
    for port, (operand, delay) in enumerate(node.operands):
        copies = nodes[operand].transfers[node.unit, port][1]
        registers[port] = copies[(sample - delay) % len(copies)]
    return micro_file.Issue(number, node.operation, node.format, node.argument, tuple(registers))


def unit_of(unit: dict[str, Any], numbers: dict[str, int]) -> micro_file.Unit:
    """A unit of a datapath, whose registers and cells are 0 at first."""
    latency = unit.get("latency", 1)
    files, cells = [[0] * size for size in unit.get("files", [])], [0] * unit.get("cells", 0)
    return micro_file.Unit(unit["kind"], latency, unit.get("gap", 1), files, cells, numbers.get(unit.get("ram", "")))


def image_of_plan(plan: str, path: str, inputs: int, outputs: int) -> micro_file.Image:
    """The image of a plan over the datapath with this text, for so many input and output words. It has no first words
    and no widths: these are not in the plan."""
    tree = tomllib.loads(path)
    units = {unit["name"]: number for number, unit in enumerate(tree["unit"])}
    buses = {bus["name"]: number for number, bus in enumerate(tree["bus"])}
    head, *lines = plan.splitlines()
    period, unroll, _ = map(int, sure(HEAD.fullmatch(head)).groups())
    nodes = [Node(line) for line in lines]
    made, words = [unit_of(unit, units) for unit in tree["unit"]], [micro_file.Word() for _ in range(period * unroll)]
    image = micro_file.Image(period, unroll, [0] * inputs, outputs, made, len(buses), words)
    for node in nodes:
        for sample in range(unroll):
            put_node(image, node, nodes, sample, units, buses)
    image.words = list(map(in_order, words))
    return image


def in_order(word: micro_file.Word) -> micro_file.Word:
    """A word whose lists rise."""
    return micro_file.Word(dict(sorted(word.issues.items())), sorted(set(word.enables)), sorted(set(word.takes)))


def put_node(image: micro_file.Image, node: Node, nodes: list[Node], sample: int, units: dict[str, int],
             buses: dict[str, int]) -> None:
    """Puts the operation of a node in a sample into the words, and the ways of its result."""
    number, cycle = units[node.unit], sample * image.period + node.cycle
    image.words[cycle].issues[number] = issue_of(node, number, nodes, sample)
    last = image.words[cycle + image.units[number].latency - 1]
    for (to, port), (bus, registers) in node.transfers.items():
        last.enables.append((number, buses[bus]))
        last.takes.append(micro_file.Take(units[to], port, buses[bus], registers[sample % len(registers)]))
