#!/usr/bin/env python3
"""Prints the guarded image of a plan over several stages, by docs/MACHINE.md, "Guarded words", and with nothing of
silc: the text that `silc_show guarded` prints.

usage: tests/overlap/guard.py TEXT DATAPATH WIDTHS

TEXT is that of `silc stages`, and WIDTHS are the bits of the program's input words with commas between them, 0 for a
truth value. The program has no initial values, which the text of a plan does not have.
"""
import re
import sys
import tomllib
from collections.abc import Iterator
from pathlib import Path
from typing import Any

HEAD = re.compile(r"period (\d+) stages (\d+) unroll (\d+) nodes \d+")
LINE = re.compile(r"node \d+ cycle (\d+) unit (\S+) op (\S+)((?: -?\d+)*)(?: fmt (\S+) (\S+) (\S+))?"
                  r"((?: to \S+ bus \S+ regs \S+)*)")
TO = re.compile(r" to (\S+)\.(\d) bus (\S+) regs (\S+)")
WITH_ARGUMENT = ("input", "output", "const", "addr")
NO_RAM = 0


class Node:
    def __init__(self, line: str) -> None:
        cycle, self.unit, self.op, words, *form, transfers = LINE.fullmatch(line).groups()
        self.cycle, words = int(cycle), list(map(int, words.split()))
        self.argument = words.pop(0) if self.op in WITH_ARGUMENT else 0
        self.operands = words
        self.format = f"shift {form[0]} {form[1]} width {form[2]}" if form[0] else "shift 0 trunc width 0"
        self.transfers = [(unit, int(port), bus, list(map(int, registers.split(","))))
                          for unit, port, bus, registers in TO.findall(transfers)]


class Guard:
    """A plan, and the text of its guarded image."""

    def __init__(self, text: str, datapath: dict[str, Any], widths: list[str]) -> None:
        head, *lines = text.splitlines()
        self.period, self.stages, self.unroll = map(int, HEAD.fullmatch(head).groups())
        self.nodes, self.datapath, self.widths = list(map(Node, lines)), datapath, widths
        self.units = {unit["name"]: unit for unit in datapath["unit"]}
        self.number = {name: number for number, name in enumerate(self.units)}
        self.bus = {bus["name"]: number for number, bus in enumerate(datapath["bus"])}

    def written(self, node: Node) -> int:
        return node.cycle + self.units[node.unit].get("latency", 1) - 1

    def register_read(self, node: Node, port: int, sample: int) -> int:
        """The register of the copy that a node reads at a port in a sample of the machine."""
        read = self.nodes[node.operands[port]]
        registers = next(registers for *end, _, registers in read.transfers if end == [node.unit, port])
        ago = node.cycle // self.period - self.written(read) // self.period
        return registers[(sample - ago) % len(registers)]

    def argument(self, node: Node) -> int:
        """The offset of an address slides by the machine's samples, so that of a later stage is greater."""
        if node.op != "addr":
            return node.argument
        cells = self.units[self.units[node.unit]["ram"]]["cells"]
        return (node.argument + node.cycle // self.period) % cells

    def issues(self, cycle: int) -> Iterator[tuple[int, str]]:
        for node in self.nodes:
            if node.cycle % self.period == cycle % self.period:
                ports = len(self.units[node.unit].get("files", []))
                registers = [self.register_read(node, port, cycle // self.period) if port < len(node.operands) else 0
                             for port in range(ports)]
                yield self.number[node.unit], (f"{node.op} {node.format} argument {self.argument(node)} "
                                               f"{' '.join(['registers', *map(str, registers)])} "
                                               f"stage {node.cycle // self.period}")

    def moved(self, cycle: int) -> Iterator[tuple[int, Node, int]]:
        """The results that are there in a cycle, each with its unit's number and its stage."""
        for node in self.nodes:
            if node.transfers and self.written(node) % self.period == cycle % self.period:
                yield self.number[node.unit], node, self.written(node) // self.period

    def word(self, cycle: int) -> Iterator[str]:
        yield f"word {cycle}"
        yield from (f"  issue unit {unit} {words}" for unit, words in sorted(self.issues(cycle)))
        drives = {(unit, self.bus[bus], stage)
                  for unit, node, stage in self.moved(cycle) for _, _, bus, _ in node.transfers}
        yield from (f"  drive unit {unit} bus {bus} stage {stage}" for unit, bus, stage in sorted(drives))
        sample = cycle // self.period
        takes = {(self.number[unit], port, self.bus[bus], registers[sample % len(registers)], stage)
                 for _, node, stage in self.moved(cycle) for unit, port, bus, registers in node.transfers}
        yield from (f"  take unit {unit} port {port} bus {bus} register {register} stage {stage}"
                    for unit, port, bus, register, stage in sorted(takes))

    def unit_lines(self, number: int, unit: dict[str, Any]) -> Iterator[str]:
        ram = self.number[unit["ram"]] if "ram" in unit else NO_RAM
        yield f"unit {number} {unit['kind']} latency {unit.get('latency', 1)} gap {unit.get('gap', 1)} ram {ram}"
        yield from (f"  file{' 0' * size}" for size in unit.get("files", []))
        if "cells" in unit:
            yield f"  cells{' 0' * unit['cells']}"

    def text(self) -> str:
        outputs = sum(node.op == "output" for node in self.nodes)
        lines = [f"period {self.period}", f"unroll {self.unroll}", " ".join(["inputs", *map(str, self.widths)]),
                 f"outputs {outputs}"]
        for number, unit in enumerate(self.datapath["unit"]):
            lines += self.unit_lines(number, unit)
        lines.append(f"buses {len(self.bus)}")
        for cycle in range(self.period * self.unroll):
            lines += self.word(cycle)
        return "".join(f"{line}\n" for line in lines)


def main(words: list[str]) -> int:
    if len(words) != 3:
        print(__doc__, file=sys.stderr)
        return 2
    text, datapath, widths = words
    print(Guard(Path(text).read_text(), tomllib.loads(Path(datapath).read_text()), widths.split(",")).text(), end="")
    return 0


if __name__ == "__main__":
    sys.exit(main(sys.argv[1:]))
