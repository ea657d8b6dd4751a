"""Words that a plan computes long before anything reads them: each takes a register for as long as it waits."""
from __future__ import annotations

from collections.abc import Iterator
from dataclasses import dataclass

from .plan import Node, Plan, readings


@dataclass(frozen=True)
class Wait:
    """A word in a register file, which is there from a cycle on and is first read in another."""
    node: Node
    file: str
    there: int
    read: int

    def cycles(self) -> int:
        return self.read - self.there


def waits_of(plan: Plan) -> Iterator[Wait]:
    """The words that wait in files, but for those of an earlier sample, which have to."""
    read = readings(plan)
    for node in plan.nodes:
        for transfer in node.transfers:
            first = min(read[node.number, transfer.file])
            if first < plan.stages * plan.period:
                yield Wait(node, transfer.file, plan.written(node) + 1, first)


def registers_of(plan: Plan) -> dict[str, int]:
    """How many registers of each file the plan takes."""
    made: dict[str, int] = {}
    for node in plan.nodes:
        for transfer in node.transfers:
            made[transfer.file] = max(made.get(transfer.file, 0), *(register + 1 for register in transfer.registers))
    return made
