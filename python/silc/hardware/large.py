"""Memories of a core that are made as large ones, which an iCE40 UP5K has four of: 16,384 words of 16 bits each, with
one port, at which a load reads or a store writes, and without initial words."""
from __future__ import annotations

from silc.micro_file.image import Image

from .netlist import Core, NoCore, Part

# A memory with fewer bits is better in block memories, of which each has 4,096.
LEAST_BITS = 16_384


def busy_cycle(image: Image, unit: int) -> int | None:
    """The first cycle of a period in which a memory begins a load and ends a store."""
    latency = image.units[unit].latency
    for cycle, word in enumerate(image.words):
        issue, before = word.issues.get(unit), image.words[(cycle - latency + 1) % image.circle()].issues.get(unit)
        if issue and issue.operation == "load" and before and before.operation == "store":
            return cycle % image.period
    return None


def bits_of(part: Part) -> int:
    """The bits of all cells of a memory."""
    return part.cells.size * part.cells.words.bits() if part.cells else 0


def why_not(image: Image, unit: int, part: Part) -> str | None:
    """Why a memory can't be a large one, or nothing where it can."""
    if not part.has_memory():
        return f"nothing loads from {part.name}"
    if bits_of(part) < LEAST_BITS:
        return f"{part.name} has {bits_of(part):,} bits, and less than {LEAST_BITS:,} are better in block memories"
    if part.latency == 1:
        return f"{part.name} has latency 1, in which it is read and written at one edge; latency 2 is needed"
    cycle = busy_cycle(image, unit)
    if cycle is not None:
        return (f"{part.name} begins a load in cycle {cycle}, in which a store ends; a gap of {part.latency} keeps "
                "them apart")
    return None


def make_large(image: Image, core: Core) -> None:
    """Makes each memory a large one that can be one. Raises where there is none."""
    memories = {unit: part for unit, part in core.parts.items() if part.kind == "ram"}
    reasons = [why_not(image, unit, part) for unit, part in memories.items()]
    if all(reasons):
        raise NoCore(f"no memory can be a large one: {'; '.join(map(str, reasons)) or 'there is none'}")
    for part, reason in zip(memories.values(), reasons):
        part.is_large = not reason
