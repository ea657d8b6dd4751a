"""Fewer bits of registers at a given period: nodes are moved one by one, by simulated annealing."""
from __future__ import annotations

import math
import time
from collections.abc import Sequence
from random import Random
from typing import TypeAlias

from silc.exploring.bits import Held
from silc.hardware.words import Range
from silc.pictures.plan import plan_of
from silc.planning.places import Places, Unfit
from silc.planning.problem import COPIES, Port, Problem
from silc.planning.table import FREE, Buses, Table, Unroutable
from silc.planning.windows import windows_of

# What a plan is judged by: the registers that its files lack, how long its microprogram is, and its bits.
Judged: TypeAlias = tuple[int, int, int]
# In bits: a register that is lacking, and a copy more of the microprogram.
LACKING, COPY = 1_000, 2_000
HOTTEST, COLDEST = 40.0, 0.5
TRIES = 4


def bits_of(places: Places, inputs: Sequence[Range]) -> int:
    """How many bits the registers have that a plan takes, as wide as its words need."""
    held = Held(plan_of(places.text(), places.problem.datapath), places.problem.datapath, inputs)
    return sum(size * held.files[places.problem.name(file)].bits() for file, size in places.sizes().items())


def judged(places: Places, inputs: Sequence[Range], is_roomy: bool) -> Judged:
    return 0 if is_roomy else places.lacking(), places.unroll, bits_of(places, inputs)


class Pressure:
    """How many words each file has in each cycle of the period, and what that costs."""

    def __init__(self, problem: Problem, period: int, inputs: Sequence[Range], is_roomy: bool) -> None:
        self.problem, self.period, self.is_roomy = problem, period, is_roomy
        held = Held(problem.ruled, problem.datapath, inputs)
        self.bits = [held.result(node).bits() if problem.gives[node.number] else 0 for node in problem.ruled.nodes]
        self.live: dict[Port, list[int]] = {}
        self.wide: dict[Port, int] = {}
        for node in problem.nodes:
            for reader, port in node.readers:
                for unit in problem.nodes[reader].units:
                    file = Port(unit, port)
                    self.wide[file] = max(self.wide.get(file, 0), self.bits[node.number])
                    self.live.setdefault(file, [0] * period)
        self.costs = dict.fromkeys(self.live, 0)
        self.lives: list[dict[Port, tuple[int, int]]] = [{} for _ in problem.nodes]
        self.copies = dict.fromkeys(COPIES, 0)
        self.length = 0

    def cost(self) -> float:
        unroll = max(copies for copies in COPIES if self.copies[copies] or copies == 1)
        return sum(self.costs.values()) + self.length / self.period + COPY * (unroll - 1)

    def count(self, v: int, by: int) -> None:
        """Adds the lifetimes of a node, or takes them off."""
        period = self.period
        for file, (written, length) in self.lives[v].items():
            live, (turns, rest) = self.live[file], divmod(length, period)
            if turns:
                live[:] = [words + by * turns for words in live]
            for cycle in range(written + 1, written + 1 + rest):
                live[cycle % period] += by
            self.copies[next(copies for copies in COPIES if copies * period >= length)] += by
            self.length += by * length * self.bits[v]
            most, bits = max(live), self.wide[file]
            self.costs[file] = most * bits + (0 if self.is_roomy else
                                              LACKING * max(0, most - self.problem.size(file)))

    def set(self, v: int, table: Table) -> None:
        """Counts the lifetimes of a node as it and its readers stand."""
        self.count(v, -1)
        written = table.ends(v) - 1
        lives: dict[Port, int] = {}
        for reader, port in self.problem.nodes[v].readers:
            file = Port(table.unit[reader], port)
            delay = self.problem.nodes[reader].reads[port][1]
            lives[file] = max(lives.get(file, 0), table.cycle[reader] + delay * self.period - written)
        self.lives[v] = {file: (written % self.period, length) for file, length in lives.items()}
        self.count(v, 1)


class Annealing:
    """The search for fewer bits, from a plan on."""

    def __init__(self, start: Places, inputs: Sequence[Range], rng: Random, is_roomy: bool) -> None:
        self.problem, self.period, self.inputs = start.problem, start.period, inputs
        self.rng, self.is_roomy = rng, is_roomy
        self.table = Table(start.problem, start.period, windows_of(start.problem, start.period))
        self.table.load(start)
        # The buses that the nodes had which are being moved.
        self.buses: Buses = {}
        self.pressure = Pressure(start.problem, start.period, inputs, is_roomy)
        for v in range(len(start.problem.nodes)):
            self.pressure.set(v, self.table)
        self.best, self.judged = start, judged(start, inputs, is_roomy)
        self.cost = self.least = self.pressure.cost()

    def run(self, seconds: float, until_fit: bool = False) -> None:
        """Goes on for so many seconds, ever colder, or only until the registers fit."""
        start = time.monotonic()
        while (passed := (time.monotonic() - start) / seconds) < 1:
            heat = HOTTEST * (COLDEST / HOTTEST) ** passed
            for _ in range(len(self.problem.nodes)):
                self.step(heat)
            if self.cost < self.least:
                self.least = self.cost
                self.look()
                if until_fit and not self.judged[0]:
                    return
        self.look()

    def look(self) -> None:
        """Keeps the plan as it stands, where it is the best one."""
        places = self.table.places()
        try:
            places.route()
        except Unfit:
            return
        if (now := judged(places, self.inputs, self.is_roomy)) < self.judged:
            self.best, self.judged = places, now

    def step(self, heat: float) -> None:
        """Moves a node, and what is in its way to where it was, and takes that back where it is too much."""
        v = self.rng.randrange(len(self.problem.nodes))
        moved = self.moved(v)
        if not moved:
            return
        near = {read for x in moved for read, _ in self.problem.nodes[x].reads} | set(moved)
        for x in near:
            self.pressure.set(x, self.table)
        cost = self.pressure.cost()
        if cost <= self.cost or self.rng.random() < math.exp((self.cost - cost) / heat):
            self.cost = cost
            return
        self.back(moved)
        for x in near:
            self.pressure.set(x, self.table)

    def back(self, moved: dict[int, tuple[int, int]]) -> None:
        """Puts nodes where they were, over the buses that they had."""
        for x in moved:
            if self.table.unit[x] != FREE:
                self.table.take(x)
        for x, (unit, cycle) in moved.items():
            self.table.put(x, unit, cycle, self.buses)

    def taken(self, v: int) -> tuple[int, int]:
        """Takes a node from its place, and remembers its buses."""
        self.buses |= self.table.buses_at(v)
        place = self.table.unit[v], self.table.cycle[v]
        self.table.take(v)
        return place

    def moved(self, v: int) -> dict[int, tuple[int, int]]:
        """Moves a node to a place in which one other is in its way at most. The old places of those that moved."""
        self.buses = {}
        old = {v: self.taken(v)}
        for _ in range(TRIES):
            found = self.place_for(v)
            if found is None:
                continue
            unit, cycle = found
            try:
                others = self.table.in_the_way(v, unit, cycle)
            except Unroutable:
                continue
            if (unit, cycle) == old[v] or len(others) > 1:
                continue
            for other in others:
                old[other] = self.taken(other)
            if not self.table.in_the_way(v, unit, cycle):
                self.table.put(v, unit, cycle)
                if all(self.fits(other, *old[v]) for other in others):
                    return old
            break
        self.back(old)
        return {}

    def fits(self, v: int, unit: int, cycle: int) -> bool:
        """Places a node where another was, in that cycle of the period, if it may stand there."""
        unit = unit if unit in self.problem.nodes[v].units else self.problem.nodes[v].units[0]
        first, last = self.table.window(v, unit)
        for start in range(cycle % self.period, self.problem.stages * self.period, self.period):
            if first <= start <= last:
                if not self.table.in_the_way(v, unit, start):
                    self.table.put(v, unit, start)
                    return True
        return False

    def place_for(self, v: int) -> tuple[int, int] | None:
        """A place for a node between what it waits for and what waits for it, on any of its units; nothing where that
        one leaves none."""
        table = self.table
        unit = self.rng.choice(self.problem.nodes[v].units)
        latency = self.problem.units[unit].latency
        first, last = table.window(v, unit)
        first = max([first, *(table.ends(x) - late for x, late in table.befores[v]
                              if x != v and table.unit[x] != FREE)])
        last = min([last, *(table.cycle[x] + late - latency for x, late in table.afters[v]
                            if x != v and table.unit[x] != FREE)])
        return (unit, self.rng.randint(first, last)) if first <= last else None
