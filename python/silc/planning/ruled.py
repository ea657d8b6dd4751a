"""What the rules of `silc` plan: the nodes of a source over a datapath, and the plan to begin with."""
from __future__ import annotations

from collections.abc import Iterator
from typing import Any

from silc.exploring.template import text_of
from silc.pictures.plan import Plan
from silc.planning.places import Places
from silc.planning.problem import Problem
from silc.planning.windows import LONGEST, Bounds
from silc.running import ran

LARGEST_FILE, LARGEST_MEMORY = 256, 65536
NO_CELLS = "no ram cells"
# The statuses of silc where a source has no place on a datapath.
NO_PLACE = range(6, 10)
# Memories grow by quarters of what they are.
QUARTERS, MOST_QUARTERS = 4, 64


class Unplanned(Exception):
    """What silc says where it has no plan to begin with."""


def with_files(datapath: dict[str, Any]) -> dict[str, Any]:
    """A datapath with files as large as any."""
    return datapath | {"unit": [unit | {"files": [LARGEST_FILE] * len(unit["files"])} if "files" in unit else unit
                                for unit in datapath["unit"]]}


def with_cells(datapath: dict[str, Any], quarters: int) -> dict[str, Any]:
    """A datapath with memories so many times a quarter of its own."""
    return datapath | {"unit": [unit | {"cells": min(LARGEST_MEMORY, -(-unit["cells"] * quarters // QUARTERS))}
                                if "cells" in unit else unit for unit in datapath["unit"]]}


class Ruled:
    """A source over a datapath and so many stages, as the rules plan it. Where it is roomy, files are as large as any,
    and memories as large as its delay lines need."""

    def __init__(self, silc: str, source: bytes, datapath: dict[str, Any], stages: int, is_roomy: bool) -> None:
        self.silc, self.source, self.stages, self.is_roomy = silc, source, stages, is_roomy
        self.datapath, self.nodes = self.grown(datapath)
        self.problem = Problem(self.nodes, self.datapath, stages)

    def said(self, datapath: dict[str, Any]) -> tuple[int, str]:
        """The status of silc, and the plan or what it says."""
        words = ["schedule"] if self.stages == 1 else ["stages"]
        answer = ran(self.silc, [*words, self.source, text_of(datapath).encode(),
                                 *([str(self.stages)] if self.stages > 1 else [])])
        return answer.status, answer.said if answer.status else answer.out.decode()

    def grown(self, datapath: dict[str, Any]) -> tuple[dict[str, Any], str]:
        """The datapath with its files and memories, and the nodes as a plan over a long period has them."""
        said = ""
        for quarters in range(QUARTERS, MOST_QUARTERS + 1):
            grown = with_cells(datapath, quarters)
            grown = with_files(grown) if self.is_roomy else grown
            status, said = self.said(with_files(grown) | {"period": LONGEST})
            if not status:
                return grown, said
            if not self.is_roomy or NO_CELLS not in said:
                break
        raise Unplanned(said.removeprefix("silc: "))

    def starts(self) -> Iterator[Places]:
        """Plans of the rules: over one stage in the period in which theirs ends, over more in the least, and that of
        the datapath's own period."""
        own = self.planned(self.datapath["period"])
        if own:
            yield own
        if self.stages == 1:
            ends = max(self.problem.ruled.written(node) + 1 for node in self.problem.ruled.nodes)
            first = places_of(self.problem, self.problem.ruled, ends)
            if self.is_roomy or not first.lacking():
                yield first
            return
        last = self.datapath["period"] if own else LONGEST
        for period in range(Bounds(self.problem).least(), last):
            if least := self.planned(period):
                yield least
                return

    def planned(self, period: int) -> Places | None:
        """The plan of the rules in a period."""
        status, said = self.said(self.datapath | {"period": period})
        if status:
            return None
        return places_of(self.problem, Problem(said, self.datapath, self.stages).ruled, period)

    def best(self) -> Places | None:
        """The shortest plan of the rules."""
        starts = list(self.starts())
        return min(starts, key=period_of) if starts else None


def places_of(problem: Problem, ruled: Plan, period: int) -> Places:
    """The places of a plan by the rules, which take the first buses that are free in the same order."""
    places = Places(problem, period, [problem.numbers[node.unit] for node in ruled.nodes],
                    [node.cycle for node in ruled.nodes])
    places.route()
    return places


def period_of(places: Places) -> int:
    return places.period


def fitted(datapath: dict[str, Any], places: Places) -> dict[str, Any]:
    """A datapath with the period of a plan, and with the registers and cells that it takes."""
    sizes = {places.problem.name(file): size for file, size in places.sizes().items()}
    cells = cells_of(places)

    def fitting(unit: dict[str, Any]) -> dict[str, Any]:
        made = dict(unit)
        if "files" in unit:
            made["files"] = [max(1, sizes.get(f"{unit['name']}.{port}", 0)) for port in range(len(unit["files"]))]
        if "cells" in unit:
            made["cells"] = max(1, cells.get(unit["name"], 0))
        return made

    return datapath | {"period": places.period, "unit": list(map(fitting, datapath["unit"]))}


def cells_of(places: Places) -> dict[str, int]:
    """How many cells of each memory the delay lines take."""
    problem = places.problem
    made: dict[str, int] = {}
    for node in problem.nodes:
        if node.op in ("load", "store"):
            name = problem.units[node.units[0]].name
            made[name] = max(made.get(name, 0), problem.offset(node.number) + problem.stages)
    return made
