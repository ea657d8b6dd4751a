"""How many bits the registers and the memories of a plan's hardware have: for each word of a file or of a memory as
many as the words that come into it need, as in the cores of `tools/verilog`."""
from collections.abc import Sequence

from silc.designing.sources import words_of_main
from silc.hardware.words import TRUTH, Range, of_width
from silc.pictures.plan import Node, Plan
from silc.sure import sure

# What registers and cells hold first: zeros, or words of what comes into them later.
FIRST = Range(0, 0)


def inputs_of(source: str) -> list[Range]:
    """The words of each input of `main`. Those that can't be told from the text are left out."""
    try:
        inputs, _ = words_of_main(source)
    except ValueError:
        return []
    return [of_width(shape.width) if shape else TRUTH for shape in inputs]


class Held:
    """The words that each file and each memory may hold."""

    def __init__(self, plan: Plan, datapath: dict, inputs: Sequence[Range]):
        self.units = {unit["name"]: unit for unit in datapath["unit"]}
        self.word, self.inputs = of_width(datapath["word"]), inputs
        self.files = {transfer.file: FIRST for node in plan.nodes for transfer in node.transfers}
        self.cells = {node.unit: FIRST for node in plan.nodes if node.op in ("load", "store")}
        before = None
        while before != (self.files, self.cells):
            before = dict(self.files), dict(self.cells)
            for node in plan.nodes:
                self.carry_out(node)

    def carry_out(self, node: Node) -> None:
        """Widens what takes the word of a node."""
        words = None if node.op in ("output", "store") else self.result(node)
        for transfer in node.transfers:
            self.files[transfer.file] = self.files[transfer.file].with_(words)
        if node.op == "store":
            self.cells[node.unit] = self.cells[node.unit].with_(self.files[f"{node.unit}.1"])

    def result(self, node: Node) -> Range:
        """The words that a node may give."""
        if node.width is not None:
            return of_width(node.width)
        if node.op == "input":
            number = sure(node.argument)
            return self.inputs[number] if number < len(self.inputs) else self.word
        if node.op == "const":
            return Range(sure(node.argument), sure(node.argument))
        if node.op == "sel":
            return self.files[f"{node.unit}.1"].with_(self.files[f"{node.unit}.2"])
        if node.op == "load":
            return self.cells[node.unit]
        if node.op == "addr":
            return Range(0, self.units[self.units[node.unit]["ram"]]["cells"] - 1)
        return TRUTH

    def register_bits(self) -> int:
        """The bits of all registers. A file that nothing comes into has none."""
        return sum(self.size(*file.rsplit(".", 1)) * words.bits() for file, words in self.files.items())

    def size(self, name: str, port: str) -> int:
        """How many registers a file has."""
        return self.units[name]["files"][int(port)]

    def cell_bits(self) -> int:
        """The bits of all cells. A memory that nothing is stored in has none."""
        return sum(self.units[name]["cells"] * words.bits() for name, words in self.cells.items())
