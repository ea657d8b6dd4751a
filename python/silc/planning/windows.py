"""When each node may begin, and which periods are too short for any plan."""
from __future__ import annotations

from collections.abc import Iterator
from typing import NamedTuple

from silc.planning.problem import Port, Problem

LONGEST = 4096


class Windows(NamedTuple):
    """The first and the last cycle of each node that all that waits leaves it."""
    first: list[int]
    last: list[int]


class TooShort(Exception):
    """Why no plan has a period."""


def windows_of(problem: Problem, period: int) -> Windows:
    """The windows of a period, or `TooShort`."""
    count, latency, end = len(problem.nodes), problem.latency, problem.stages * period
    first = [max(0, end - period - problem.longest[v] + 1) if node.op == "output" else 0
             for v, node in enumerate(problem.nodes)]
    last = [min(end - latency[v], period - 1) if node.op == "input" else end - latency[v]
            for v, node in enumerate(problem.nodes)]
    waits = [(wait.first, wait.then, latency[wait.first] - wait.delay * period) for wait in problem.waits]
    for turn in range(count + 1):
        is_settled = True
        for before, then, length in waits:
            if first[before] + length > first[then]:
                first[then], is_settled = first[before] + length, False
            if last[then] - length < last[before]:
                last[before], is_settled = last[then] - length, False
        if is_settled:
            break
        if turn == count:
            raise TooShort("recurrences: a loop through a delay takes more cycles than its samples have")
    for v in range(count):
        if first[v] > last[v]:
            raise TooShort(f"critical path: node {v} and what waits for it take more than {period} cycles"
                           + (f" in each of {problem.stages} stages" if problem.stages > 1 else ""))
    return Windows(first, last)


def span_on(problem: Problem, period: int, v: int, unit: int) -> tuple[int, int]:
    """The first and the last cycle in which a node may begin on a unit, by the stages alone: it ends in them, an input
    begins in the first one, and an output ends in the last one."""
    op, latency, end = problem.nodes[v].op, problem.units[unit].latency, problem.stages * period
    first = max(0, end - period - latency + 1) if op == "output" else 0
    return first, min(end - latency, period - 1) if op == "input" else end - latency


class Demand(NamedTuple):
    """What nodes have of some resources: one of them in a cycle, each that many cycles long. `behind` is how long after
    the node's cycle."""
    name: str
    nodes: list[int]
    gaps: list[int]
    behind: list[int]


def most_of(gaps: list[int], cycles: int) -> int:
    """How many operations units with these gaps begin in so many cycles around a period."""
    return sum(cycles // gap for gap in gaps)


def most_in(gaps: list[int], cycles: int) -> int:
    """How many they begin in so many cycles in a row."""
    return sum(-(-cycles // gap) for gap in gaps)


def demands_of(problem: Problem) -> Iterator[Demand]:
    yield from of_units(problem)
    yield from of_buses(problem)
    yield from of_files(problem)


def of_units(problem: Problem) -> Iterator[Demand]:
    for units in sorted({tuple(node.units) for node in problem.nodes}):
        nodes = [node.number for node in problem.nodes if set(node.units) <= set(units)]
        names = " and ".join(problem.units[unit].name for unit in units)
        yield Demand(f"the operations of {names}", nodes, [problem.units[unit].gap for unit in units], [0] * len(nodes))


def of_buses(problem: Problem) -> Iterator[Demand]:
    """Each result goes over some bus to each of its readers."""
    ways = {}
    for node in problem.nodes:
        sets = [frozenset(bus for unit in node.units for at in problem.nodes[reader].units
                          for bus in problem.routes.get((unit, Port(at, port)), []))
                for reader, port in node.readers]
        if sets:
            ways[node.number] = min(sets, key=len)
    for buses in sorted(set(ways.values()), key=sorted):
        nodes = [node for node, way in ways.items() if way <= buses]
        names = " and ".join(problem.buses[bus] for bus in sorted(buses))
        yield Demand(f"the results on bus {names}", nodes, [1] * len(buses),
                     [problem.latency[node] - 1 for node in nodes])


def of_files(problem: Problem) -> Iterator[Demand]:
    """Each node that is read at a port is written into some of the files there."""
    read: dict[tuple[tuple[int, ...], int], set[int]] = {}
    for node in problem.nodes:
        for port, (operand, _) in enumerate(node.reads):
            read.setdefault((tuple(node.units), port), set()).add(operand)
    for (units, port), operands in sorted(read.items()):
        names = " and ".join(problem.name(Port(unit, port)) for unit in units)
        nodes = sorted(operands)
        yield Demand(f"the words written into {names}", nodes, [1] * len(units),
                     [problem.latency[node] - 1 for node in nodes])


class Bounds:
    """Why a period is too short for any plan."""

    def __init__(self, problem: Problem) -> None:
        self.problem, self.demands = problem, list(demands_of(problem))

    def refusal(self, period: int) -> str | None:
        """The bound that refutes a period, or nothing. What is refuted at a period is so at each that is shorter."""
        for demand in self.demands:
            if len(demand.nodes) > most_of(demand.gaps, period):
                return f"resources: {demand.name}, {len(demand.nodes)} of them"
        try:
            windows = windows_of(self.problem, period)
        except TooShort as why:
            return str(why)
        if self.problem.stages == 1:
            return next(filter(None, (crowd(demand, windows) for demand in self.demands)), None)
        return None

    def least(self) -> int:
        """The least period that no bound refutes."""
        low, high = 0, LONGEST + 1
        while low + 1 < high:
            middle = (low + high) // 2
            low, high = (low, middle) if self.refusal(middle) is None else (middle, high)
        return high

    def reason(self, bound: int) -> str:
        """Why no plan is shorter than the least period."""
        return self.refusal(bound - 1) or "a sample has a cycle"


def crowd(demand: Demand, windows: Windows) -> str | None:
    """The cycles of a sample in which more of the nodes have to be than there may, where one sample is in flight."""
    spans = sorted((windows.first[node] + behind, windows.last[node] + behind)
                   for node, behind in zip(demand.nodes, demand.behind))
    for start in sorted({first for first, _ in spans}):
        lasts = sorted(last for first, last in spans if first >= start)
        for count, last in enumerate(lasts, 1):
            if count > most_in(demand.gaps, last - start + 1):
                return f"resources behind the critical path: {demand.name}, {count} in the cycles {start} to {last}"
    return None
