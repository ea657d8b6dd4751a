"""List scheduling and iterative modulo scheduling: nodes are placed by a priority, and where there is no place for one,
those that are least in its way are taken out and placed anew."""
from __future__ import annotations

import heapq
import time
from collections.abc import Callable
from random import Random

from silc.planning.places import Places, Unfit
from silc.planning.problem import Problem
from silc.planning.table import FREE, Choice, Table
from silc.planning.windows import TooShort, Windows, windows_of

# The priority of a node, the least first.
Priority = Callable[[Windows, int], float]


def by_last(windows: Windows, v: int) -> float:
    return windows.last[v]


def by_slack(windows: Windows, v: int) -> float:
    return windows.last[v] - windows.first[v]


def by_first(windows: Windows, v: int) -> float:
    return windows.first[v]


def by_middle(windows: Windows, v: int) -> float:
    return windows.first[v] + windows.last[v]


PRIORITIES: tuple[Priority, ...] = (by_last, by_slack, by_middle, by_first)
# One in so many choices is any that nothing is in the way of.
ANY = 8


class Search:
    """A search for a plan in a period. It may be gone on with."""

    def __init__(self, problem: Problem, period: int, rng: Random, turn: int = 0) -> None:
        """`TooShort` where a bound refutes the period."""
        self.problem, self.rng = problem, rng
        windows = windows_of(problem, period)
        self.table = Table(problem, period, windows)
        order = PRIORITIES[turn % len(PRIORITIES)]
        noise = 0 if turn < len(PRIORITIES) else 0.1 * (1 + turn % 5) * period
        self.order = [order(windows, v) + rng.random() * noise for v in range(len(problem.nodes))]
        self.is_late = turn // len(PRIORITIES) % 2 == 1
        self.waiting = [(self.order[v], v) for v in range(len(problem.nodes))]
        heapq.heapify(self.waiting)
        self.pushes = 0

    def go_on(self, until: float) -> Places | None:
        """Goes on up to a time. The plan, or nothing so far."""
        while self.waiting and time.monotonic() < until:
            _, v = heapq.heappop(self.waiting)
            if not self.place(v):
                return None
        return self.table.places() if not self.waiting else None

    def place(self, v: int) -> bool:
        """Places a node, and takes out what is in its way; not where there is no route for it at all."""
        choice = self.chosen(v)
        if choice is None:
            return self.make_room(v)
        if choice.cost:
            self.table.weight[v] += 1
            self.pushes += 1
        self.clear(v, choice)
        self.table.put(v, choice.unit, choice.cycle)
        return True

    def clear(self, v: int, choice: Choice) -> None:
        """Takes out what is in the way of a node."""
        while found := self.table.in_the_way(v, choice.unit, choice.cycle):
            for other in found:
                self.table.take(other)
                heapq.heappush(self.waiting, (self.order[other], other))

    def make_room(self, v: int) -> bool:
        """Takes out the neighbours of a node for which there is no route, so that they find other units."""
        near = {read for read, _ in self.problem.nodes[v].reads} | {to for to, _ in self.problem.nodes[v].readers}
        near = {x for x in near if x != v and self.table.unit[x] != FREE}
        self.pushes += 1
        for other in near:
            self.table.take(other)
            heapq.heappush(self.waiting, (self.order[other] + self.rng.random() * self.table.period, other))
        heapq.heappush(self.waiting, (self.order[v], v))
        return bool(near)

    def chosen(self, v: int) -> Choice | None:
        """Of the places for which the least has to go, the first, the last, or any."""
        choices = self.table.choices(v)
        if not choices:
            return None
        least = min(choice.cost for choice in choices)
        best = [choice for choice in choices if choice.cost == least]
        if least or self.pushes and self.rng.randrange(ANY) == 0:
            return self.rng.choice(best)
        return max(best, key=self.late) if self.is_late else min(best, key=self.early)

    def early(self, choice: Choice) -> tuple[int, float]:
        return choice.cycle, self.rng.random()

    def late(self, choice: Choice) -> tuple[int, float]:
        return choice.cycle, self.rng.random()


def found(problem: Problem, period: int, rng: Random, turn: int, until: float) -> Places | None:
    """A plan in a period by one search, with its buses, or nothing where none is found by then."""
    try:
        places = Search(problem, period, rng, turn).go_on(until)
        if places:
            places.route()
        return places
    except (TooShort, Unfit):
        return None
