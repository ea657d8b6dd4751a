"""Windows over one stage that are narrowed by all that takes turns in them, and probed.

A node begins no earlier than what it waits for lets it, and what takes turns with others (the operations of units, the
results on buses, the words that come into files) has room in its windows. Each narrows windows for the other. *Probing*
goes further: a node is put at an end of its window, and where that leaves another none, the window is shorter. A window
that is empty refutes the period, with any units, buses and registers.
"""
from __future__ import annotations

import time
from collections.abc import Iterable
from typing import NamedTuple

from silc.planning.intervals import NoRoom, first_and_last
from silc.planning.problem import Problem
from silc.planning.windows import TooShort, Windows, demands_of, windows_of

NOTHING_LEFT = "resources behind the critical path: the cycles that all that takes turns leave a node"


class Turns(NamedTuple):
    """Nodes that take turns, so many in a cycle, each so long behind its issue."""
    nodes: list[int]
    width: int
    behind: list[int]


class Narrowed:
    """The windows of a period, narrowed as far as that goes. `TooShort` where one is empty."""

    def __init__(self, problem: Problem, period: int) -> None:
        assert problem.stages == 1
        self.problem, self.period = problem, period
        count = len(problem.nodes)
        self.first, self.last = (list(cycles) for cycles in windows_of(problem, period))
        self.before: list[list[tuple[int, int]]] = [[] for _ in range(count)]
        self.after: list[list[tuple[int, int]]] = [[] for _ in range(count)]
        for wait in problem.waits:
            length = problem.latency[wait.first] - wait.delay * period
            if wait.first != wait.then and length > -period:
                self.after[wait.first].append((wait.then, length))
                self.before[wait.then].append((wait.first, length))
        self.turns = turns_of(problem)
        self.turns_with: list[list[int]] = [[] for _ in range(count)]
        for number, turns in enumerate(self.turns):
            for node in turns.nodes:
                self.turns_with[node].append(number)
        # The nodes that are still to be probed in this round, by which length of all windows it began, and whether
        # probing narrows them no more.
        self.unprobed: list[int] = []
        self.before_round, self.is_probed = -1, False
        self.settle(self.first, self.last, range(count))

    def windows(self) -> Windows:
        return Windows(self.first[:], self.last[:])

    def wait(self, first: list[int], last: list[int], moved: Iterable[int]) -> set[int]:
        """Narrows windows by what waits, from the nodes on whose windows are narrower. What takes turns with nodes
        whose windows are."""
        left, touched = list(moved), set()
        while left:
            v = left.pop()
            begin, end = first[v], last[v]
            if begin > end:
                raise TooShort(NOTHING_LEFT)
            touched.update(self.turns_with[v])
            for then, length in self.after[v]:
                if begin + length > first[then]:
                    first[then] = begin + length
                    left.append(then)
            for other, length in self.before[v]:
                if end - length < last[other]:
                    last[other] = end - length
                    left.append(other)
        return touched

    def settle(self, first: list[int], last: list[int], moved: Iterable[int]) -> None:
        """Narrows windows, some of which are narrower than they were, until none is narrowed more. `TooShort` where one
        is empty."""
        touched = self.wait(first, last, moved)
        while touched:
            turns, narrower = self.turns[touched.pop()], []
            try:
                begin, end = first_and_last([first[v] + behind for v, behind in zip(turns.nodes, turns.behind)],
                                            [last[v] + behind for v, behind in zip(turns.nodes, turns.behind)],
                                            turns.width)
            except NoRoom as why:
                raise TooShort(NOTHING_LEFT) from why
            for task, cycle in begin.items():
                if cycle - turns.behind[task] > first[turns.nodes[task]]:
                    first[turns.nodes[task]] = cycle - turns.behind[task]
                    narrower.append(turns.nodes[task])
            for task, cycle in end.items():
                if cycle - turns.behind[task] < last[turns.nodes[task]]:
                    last[turns.nodes[task]] = cycle - turns.behind[task]
                    narrower.append(turns.nodes[task])
            touched |= self.wait(first, last, narrower)

    def leaves(self, v: int, begin: int, end: int) -> bool:
        """Whether each window keeps a cycle where a node begins in some cycles of its own."""
        first, last = self.first[:], self.last[:]
        first[v], last[v] = begin, end
        try:
            self.settle(first, last, [v])
        except TooShort:
            return False
        return True

    def probe(self, until: float) -> bool:
        """Shortens windows at their ends, and says whether it ended in time. `TooShort` where it refutes the period."""
        while not self.is_probed:
            while self.unprobed:
                if time.monotonic() > until:
                    return False
                v = self.unprobed.pop()
                self.probe_end(v, True)
                self.probe_end(v, False)
            length = sum(self.last) - sum(self.first)
            self.is_probed = length == self.before_round
            self.before_round = length
            # The shortest windows come first.
            self.unprobed = sorted(range(len(self.first)), key=lambda v: self.first[v] - self.last[v])
        return True

    def probe_end(self, v: int, is_first: bool) -> None:
        """Takes cycles off one end of a window, twice as many each time while that goes, and then fewer."""
        step = 1
        while step and self.first[v] < self.last[v]:
            step = min(step, self.last[v] - self.first[v])
            begin, end = self.first[v], self.last[v]
            near = (begin, begin + step - 1) if is_first else (end - step + 1, end)
            if self.leaves(v, *near):
                step //= 2
                continue
            self.first[v], self.last[v] = (begin + step, end) if is_first else (begin, end - step)
            self.settle(self.first, self.last, [v])
            step *= 2


def turns_of(problem: Problem) -> list[Turns]:
    """What takes turns, each once. Only where each unit begins an operation in any cycle, and where each node is as
    long behind its issue on all its units."""
    made: dict[tuple[tuple[int, ...], int, tuple[int, ...]], Turns] = {}
    for demand in demands_of(problem):
        sure = [(node, behind) for node, behind in zip(demand.nodes, demand.behind)
                if not behind or problem.latency[node] == problem.longest[node]]
        if len(sure) > 1 and set(demand.gaps) == {1}:
            nodes, behind = [node for node, _ in sure], [cycles for _, cycles in sure]
            made[tuple(nodes), len(demand.gaps), tuple(behind)] = Turns(nodes, len(demand.gaps), behind)
    return list(made.values())
