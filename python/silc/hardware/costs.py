"""What a plan costs in hardware, in the words of its source: the bits of each port and the operand that needs them, the
words that wait, and the memories."""
from __future__ import annotations

import subprocess
import tempfile
from collections.abc import Iterator, Mapping, Sequence
from dataclasses import dataclass
from pathlib import Path
from typing import Any

from silc.explaining.hardware import Node, nodes_of, words_of
from silc.linking.words import given
from silc.micro_file import image_of
from silc.pictures.plan import Plan, plan_of
from silc.pictures.waits import Wait, registers_of, waits_of
from silc.programs import SHOW, SILC

from .columns import Program
from .datapath import Table, names_of
from .memories import Memory, memories_of
from .netlist import Core, NoCore, core_for_image
from .ports import Port, ports_of

# A word waits long that waits for this share of a sample.
LONG = 4
NAME = "core"


@dataclass(frozen=True)
class Planned:
    """A plan with its core, and the nodes of the source by their units and cycles."""
    plan: Plan
    core: Core
    ports: list[Port]
    memories: list[Memory]
    nodes: list[Node]

    def node_at(self, unit: str, cycle: int) -> Node | None:
        """The node that a unit begins in a cycle of the period."""
        found = next((node for node in self.plan.nodes
                      if node.unit == unit and node.cycle % self.plan.period == cycle), None)
        return self.nodes[found.number] if found else None

    def operand(self, port: Port) -> str:
        """The word that a port is as wide as."""
        source = port.sources[0]
        if source.unit is None:
            return "what it holds first"
        node = self.node_at(self.core.parts[source.unit].name, source.cycle)
        return told_node(self.nodes, node) if node else f"what {self.core.parts[source.unit].name} gives"


def told_node(nodes: Sequence[Node], node: Node) -> str:
    """A node with its line."""
    return f"{words_of(nodes, node)}, line {node.where()}"


def said_by(program: str | Path, *words: str | Path) -> str:
    """What a program prints. Raises its line where it is refused."""
    done = subprocess.run([program, *words], stdin=subprocess.DEVNULL, capture_output=True, text=True)
    if done.returncode:
        raise NoCore((done.stderr or done.stdout).strip().removeprefix("silc: "))
    return done.stdout


def planned(source: str, datapath: str, folders: Sequence[str] = ()) -> Planned:
    """The plan of a source over a datapath, with its core."""
    text = Path(datapath).read_text()
    with given(["schedule", source, datapath], folders) as command, tempfile.TemporaryDirectory() as folder:
        microcode = Path(folder, "plan.mic")
        try:
            schedule = said_by(SILC.found(), *command.placed)
            said_by(SILC.found(), "compile", *command.placed[1:], microcode)
            nodes = nodes_of(said_by(SHOW.found(), "origins", *command.placed[1:]))
        except NoCore as why:
            raise NoCore(command.said(f"{why}").strip()) from None
        nodes = [command.told.node(node) for node in nodes] if command.told else nodes
        image = image_of(microcode.read_bytes())
    image, core = core_for_image(image, NAME, names_of(text, image))
    return Planned(plan_of(schedule, tree_of(text)), core, ports_of(image, core),
                   memories_of(core, Program(image, core)), nodes)


def tree_of(text: str) -> Table:
    """The tables of a datapath file."""
    import tomllib
    return tomllib.loads(text)


# What is told


def port_lines(made: Planned) -> Iterator[str]:
    """A line for each port, by its name."""
    rows = [(port.name, counted(port.bits(), "bit"), counted(port.file.size, "register"),
             made.operand(port) + beside(port)) for port in made.ports]
    widths = [max(len(row[column]) for row in rows) for column in range(3)]
    for row in rows:
        yield "  ".join(cell.ljust(width) for cell, width in zip(row, [*widths, 0])).rstrip()


def counted(number: int, what: str) -> str:
    return f"{number} {what}{'' if number == 1 else 's'}"


def beside(port: Port) -> str:
    """How wide a port would be without the one word that is widest, where that is less."""
    other = port.otherwise()
    return f"; all others have {other}" if 0 < other < port.bits() else ""


def wait_lines(made: Planned) -> Iterator[str]:
    """A line for each file in which words wait long."""
    least, files = -(-made.plan.period // LONG), registers_of(made.plan)
    by_file: dict[str, list[Wait]] = {}
    for wait in waits_of(made.plan):
        by_file.setdefault(wait.file, []).append(wait)
    for file, waits in by_file.items():
        long = sorted((wait for wait in waits if wait.cycles() >= least), key=lambda wait: -wait.cycles())
        if long and files[file] > 1:
            most = long[0]
            yield (f"{file}, {files[file]} registers: {len(long)} of {len(waits)} words wait {least} cycles or more, "
                   f"up to {most.cycles()}: {told_node(made.nodes, made.nodes[most.node.number])}, is there in cycle "
                   f"{most.there} and read in {most.read}")


def numbers_of(made: Planned) -> dict[str, Any]:
    """All that is told, as tables."""
    ports = [{"port": port.name, "bits": port.bits(), "registers": port.file.size, "operand": made.operand(port),
              "others": port.otherwise()} for port in made.ports]
    waits = [{"file": wait.file, "node": wait.node.number, "there": wait.there, "read": wait.read,
              "cycles": wait.cycles()} for wait in waits_of(made.plan)]
    memories = [{"memory": one.name, "words": one.words, "width": one.width, "first words": one.is_kept}
                for one in made.memories]
    return {"period": made.plan.period, "ports": ports, "waits": waits, "memories": memories}


def widths_of(made: Planned) -> Mapping[str, tuple[int, str]]:
    """The bits of each port and the operand that needs them, by the port's name."""
    return {port.name: (port.bits(), made.operand(port)) for port in made.ports}
