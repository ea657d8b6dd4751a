"""A datapath that silc has read, and the nodes of a source that are planned for it."""
import re
from collections.abc import Sequence
from dataclasses import dataclass, field
from typing import TypeAlias

from silc.explaining.toml_places import Tree
from silc.micro_file.operations import KIND_OF

# What a unit of a kind does.
DONE_BY = {"in": "the input words", "out": "the output words", "rom": "constants",
           "alu": "sums, differences, comparisons and logic",
           "mul": "products", "sel": "choices", "ram": "memory", "acu": "addresses"}
DOES = {"add": "addition", "sub": "subtraction", "neg": "negation", "pass": "copy", "mul": "product", "sel": "choice",
        **dict.fromkeys("lt le eq ne".split(), "comparison"), "and": "logical and", "or": "logical or",
        "not": "logical not", "input": "input word", "output": "output word", "const": "constant"}
NODE = re.compile(r"node (\d+) graph (\d+) line (\d+) element (\d+) (\S+) op (\w+) argument (-?\d+) bits (\d+) "
                  r"ram (\d+) operands(.*)")


@dataclass
class Node:
    """A node that is planned, the node of the graph that it belongs to, and where that comes from."""
    number: int
    graph: int
    line: int
    element: str
    op: str
    argument: int
    bits: int
    ram: int
    operands: list[tuple[int, int]] = field(default_factory=list)
    # The file of a block, where the line is one of it.
    file: str = ""

    def where(self) -> str:
        """The line, with the file of a block before it."""
        return f"{self.file}:{self.line}" if self.file else str(self.line)


# For each node those that read it, each with its port and the delay.
Readers: TypeAlias = dict[int, list[tuple[Node, int, int]]]
# A route that is lacking: the node whose word it is, its unit, and the port.
Lack: TypeAlias = tuple[Node, int, str]


def nodes_of(text: str) -> list[Node]:
    """The nodes that `silc_show origins` prints."""
    made = []
    for line in text.splitlines():
        found = NODE.fullmatch(line)
        if found:
            number, graph, place, _, element, op, argument, bits, ram, reads = found.groups()
            node = Node(int(number), int(graph), int(place), element, op, int(argument), int(bits), int(ram))
            for word in reads.split():
                read, _, delay = word.partition("@")
                node.operands.append((int(read), int(delay or 0)))
            made.append(node)
    return made


def readers_of(nodes: Sequence[Node]) -> Readers:
    """For each node those that read it, each with its port and the delay."""
    made: Readers = {node.number: [] for node in nodes}
    for node in nodes:
        for port, (read, delay) in enumerate(node.operands):
            made[read].append((node, port, delay))
    return made


def delay_in_line(nodes: Sequence[Node], node: Node) -> int:
    """How many samples ago the word was stored that a node of a delay line is for."""
    address = nodes[node.operands[0][0]] if node.op == "load" else node
    first = next(other for other in nodes if other.graph == node.graph and other.op == "addr")
    return address.argument - first.argument


def words_of(nodes: Sequence[Node], node: Node) -> str:
    """What a node does, in words."""
    if node.op == "store":
        return f"the store into the delay line of `{node.element}`"
    if node.op in ("addr", "load"):
        delay = delay_in_line(nodes, node)
        ago = "of this sample" if delay == 0 else f"{delay} sample{'s' if delay > 1 else ''} ago"
        if node.op == "addr":
            return f"the address of `{node.element}` {ago} in its delay line"
        return f"the load of `{node.element}` {ago} from its delay line"
    if node.op == "const":
        return f"the constant {node.argument} for `{node.element}`"
    if node.op in ("input", "output"):
        return f"the {DOES[node.op]} `{node.element}`"
    article = "an" if DOES[node.op][0] in "aeiou" else "a"
    return f"{article} {DOES[node.op]} for `{node.element}`"


class Hardware:
    """The units and buses of a datapath file."""

    def __init__(self, tree: Tree) -> None:
        self.units, self.buses = tree["unit"], tree["bus"]
        self.number = {unit["name"]: number for number, unit in enumerate(self.units)}
        self.routes = {(self.number[name], end) for bus in self.buses for name in bus["from"] for end in bus["to"]}

    def right_units(self, node: Node) -> list[int]:
        """The units that do the operation of a node."""
        kind = KIND_OF[node.op]
        if node.op in ("load", "store"):
            return [node.ram]
        right = [number for number, unit in enumerate(self.units) if unit["kind"] == kind]
        return [u for u in right if self.number[self.units[u]["ram"]] == node.ram] if node.op == "addr" else right

    def port(self, unit: int, port: int) -> str:
        return f"{self.units[unit]['name']}.{port}"

    def missing(self, nodes: Sequence[Node], readers: Readers, bound: dict[int, int], node: Node,
                unit: int) -> Lack | None:
        """The first route that a node would lack on a unit: the node whose word it is, its unit, and the port."""
        bound = {**bound, node.number: unit}
        for port, (read, _) in enumerate(node.operands):
            if read in bound and read <= node.number and (bound[read], self.port(unit, port)) not in self.routes:
                return nodes[read], bound[read], self.port(unit, port)
        for reader, port, _ in readers[node.number]:
            if reader.number < node.number and (unit, self.port(bound[reader.number], port)) not in self.routes:
                return node, unit, self.port(bound[reader.number], port)
        return None

    def without_route(self, nodes: Sequence[Node]) -> tuple[Node, Lack | None] | None:
        """The first node that gets no unit, and the first route that it lacks on the first unit for it."""
        readers, bound, counts = readers_of(nodes), dict[int, int](), [0] * len(self.units)
        for node in nodes:
            right = self.right_units(node)
            fit = [unit for unit in right if self.missing(nodes, readers, bound, node, unit) is None]
            if not fit:
                return node, self.missing(nodes, readers, bound, node, right[0]) if right else None
            unit = min(fit, key=lambda u: (counts[u], u))
            bound[node.number] = unit
            counts[unit] += 1
        return None
