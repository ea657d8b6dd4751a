"""The reservation table of a search: where nodes stand, and what they take of units, files and buses in each cycle of
the period."""
from __future__ import annotations

from collections.abc import Iterator
from typing import NamedTuple, TypeAlias

from silc.planning.places import Places
from silc.planning.problem import Port, Problem
from silc.planning.windows import Windows, span_on

FREE = -1
# The bus over which a node goes into a file.
Buses: TypeAlias = dict[tuple[int, Port], int]


class Choice(NamedTuple):
    """A unit and a cycle for a node, and by weight what has to go for it."""
    cost: int
    unit: int
    cycle: int


class Table:
    """Nodes on their units in their cycles, no two of which are in each other's way."""

    def __init__(self, problem: Problem, period: int, windows: Windows) -> None:
        self.problem, self.period, self.windows = problem, period, windows
        count = len(problem.nodes)
        self.unit: list[int] = [FREE] * count
        self.cycle: list[int] = [FREE] * count
        # The unit that a node has, or that it will have in any plan.
        self.known = [node.units[0] if len(node.units) == 1 else FREE for node in problem.nodes]
        self.is_bound = [unit != FREE for unit in self.known]
        self.issued = [[FREE] * period for _ in problem.units]
        self.driven = [[FREE] * period for _ in problem.buses]
        self.filled = {Port(number, port): [FREE] * period for number, unit in enumerate(problem.units)
                       for port in range(len(unit.files))}
        # Of each placed node the bus to each file that nodes with a known unit read it from, and how many these are.
        self.over: list[dict[Port, list[int]]] = [{} for _ in range(count)]
        self.weight = [1] * count
        self.befores: list[list[tuple[int, int]]] = [[] for _ in range(count)]
        self.afters: list[list[tuple[int, int]]] = [[] for _ in range(count)]
        for wait in problem.waits:
            self.afters[wait.first].append((wait.then, wait.delay * period))
            self.befores[wait.then].append((wait.first, wait.delay * period))

    def turn(self, v: int) -> int:
        """The cycle of the period in which the result of a placed node is there."""
        return (self.cycle[v] + self.problem.units[self.unit[v]].latency - 1) % self.period

    def ends(self, v: int) -> int:
        return self.cycle[v] + self.problem.units[self.unit[v]].latency

    def reads(self, v: int, unit: int) -> list[tuple[int, Port]]:
        """The placed nodes that a node reads, and where it does so on a unit, if that is its own choice."""
        if self.is_bound[v]:
            return []
        return [(read, Port(unit, port)) for port, (read, _) in enumerate(self.problem.nodes[v].reads)
                if self.unit[read] != FREE]

    def holders(self, v: int, unit: int, file: Port, turn: int) -> list[int]:
        """The nodes that a result of a unit to a file in a cycle would push out. `Unroutable` where no bus leads
        there."""
        ways = self.problem.routes.get((unit, file))
        if not ways:
            raise Unroutable
        made = [] if self.filled[file][turn] in (FREE, v) else [self.filled[file][turn]]
        users = [self.driven[bus][turn] for bus in ways]
        if FREE not in users and v not in users:
            made.append(min(users, key=self.weight.__getitem__))
        return made

    def in_the_way(self, v: int, unit: int, cycle: int) -> set[int]:
        """The placed nodes that have to go for a node."""
        hardware, period = self.problem.units[unit], self.period
        end = cycle + hardware.latency
        found = {self.issued[unit][place % period] for place in range(cycle - hardware.gap + 1, cycle + hardware.gap)}
        found.update(then for then, late in self.afters[v]
                     if then != v and self.unit[then] != FREE and self.cycle[then] + late < end)
        found.update(first for first, late in self.befores[v]
                     if first != v and self.unit[first] != FREE and self.ends(first) > cycle + late)
        found.discard(FREE)
        return found | self.in_transfers(v, unit, cycle)

    def in_transfers(self, v: int, unit: int, cycle: int) -> set[int]:
        """The nodes whose results are where those of a node and of its operands have to go. Two of these may be in one
        another's way too."""
        found: set[int] = set()
        claims: dict[tuple[Port | int, int], int] = {}
        for x, driver, file, turn in self.transfers(v, unit, cycle):
            there = self.filled[file][turn]
            held = there if there != FREE else claims.setdefault((file, turn), x)
            users = {bus: self.driven[bus][turn] if self.driven[bus][turn] != FREE else claims.get((bus, turn), FREE)
                     for bus in self.problem.routes.get((driver, file), [])}
            if not users:
                raise Unroutable
            bus = next((bus for bus, user in users.items() if user in (FREE, x)), None)
            if held != x:
                found.add(held if held != v else x)
            if bus is None:
                found.add(min((user if user != v else x for user in users.values()), key=self.weight.__getitem__))
            else:
                claims[bus, turn] = x
        return found

    def transfers(self, v: int, unit: int, cycle: int) -> Iterator[tuple[int, int, Port, int]]:
        """The transfers that come with a node, as nodes with their units, their files and cycles of the period."""
        turn = (cycle + self.problem.units[unit].latency - 1) % self.period
        for file in self.taken_from(v, unit):
            yield v, unit, file, turn
        for read, file in self.reads(v, unit):
            if read != v:
                yield read, self.unit[read], file, self.turn(read)

    def taken_from(self, v: int, unit: int) -> list[Port]:
        """The files from which a node is read that has this unit, as far as the readers have theirs."""
        return [Port(unit if reader == v else self.known[reader], port)
                for reader, port in self.problem.nodes[v].readers if reader == v or self.known[reader] != FREE]

    def choices(self, v: int) -> list[Choice]:
        """All places of a node in its window, with the weights of what is in the way."""
        made = []
        for unit in self.problem.nodes[v].units:
            try:
                made += self.choices_on(v, unit)
            except Unroutable:
                continue
        return made

    def choices_on(self, v: int, unit: int) -> list[Choice]:
        hardware, period, weight = self.problem.units[unit], self.period, self.weight
        if hardware.gap > period:
            return []
        base = 0
        for read, file in self.reads(v, unit):
            if read != v:
                base += sum(weight[x] for x in self.holders(read, self.unit[read], file, self.turn(read)))
        files, costs = self.taken_from(v, unit), []
        for place in range(period):
            cost = base
            for near in {self.issued[unit][(place + k) % period] for k in range(1 - hardware.gap, hardware.gap)}:
                cost += weight[near] if near != FREE else 0
            turn = (place + hardware.latency - 1) % period
            for file in files:
                for x in self.holders(v, unit, file, turn):
                    cost += weight[x]
            costs.append(cost)
        first, last = self.window(v, unit)
        steps = self.steps(v, hardware.latency, first, last)
        made, late = [], 0
        for cycle in range(first, last + 1):
            late += steps[cycle - first]
            made.append(Choice(costs[cycle % period] + late, unit, cycle))
        return made

    def window(self, v: int, unit: int) -> tuple[int, int]:
        """The first and the last cycle in which a node may begin on a unit."""
        first, last = span_on(self.problem, self.period, v, unit)
        return max(first, self.windows.first[v]), min(last, self.windows.last[v])

    def steps(self, v: int, latency: int, first: int, last: int) -> list[int]:
        """By how much the weight of the neighbours that are in the way changes from cycle to cycle."""
        steps = [0] * (max(0, last - first) + 2)
        top = len(steps) - 1
        for then, late in self.afters[v]:
            if then != v and self.unit[then] != FREE:
                steps[min(max(self.cycle[then] + late - latency + 1 - first, 0), top)] += self.weight[then]
        for before, late in self.befores[v]:
            if before != v and self.unit[before] != FREE:
                steps[0] += self.weight[before]
                steps[min(max(self.ends(before) - late - first, 0), top)] -= self.weight[before]
        return steps

    def load(self, places: Places) -> None:
        """Places all nodes as a plan does, over its buses."""
        self.unit, self.cycle, self.known = list(places.units), list(places.cycles), list(places.units)
        for v, unit in enumerate(self.unit):
            for place in range(self.cycle[v], self.cycle[v] + self.problem.units[unit].gap):
                self.issued[unit][place % self.period] = v
        for v, node in enumerate(self.problem.nodes):
            for reader, port in node.readers:
                self.drive(v, Port(self.unit[reader], port), places.buses)

    def buses_at(self, v: int) -> Buses:
        """The buses of what goes from a node and into its files."""
        made = {(v, file): bus for file, (bus, _) in self.over[v].items()}
        made |= {(read, file): self.over[read][file][0] for read, file in self.reads(v, self.unit[v])
                 if file in self.over[read]}
        return made

    def put(self, v: int, unit: int, cycle: int, buses: Buses | None = None) -> None:
        """Places a node where nothing is in its way, over these buses or the first that are free."""
        self.unit[v], self.cycle[v], self.known[v] = unit, cycle, unit
        for place in range(cycle, cycle + self.problem.units[unit].gap):
            self.issued[unit][place % self.period] = v
        for reader, port in self.problem.nodes[v].readers:
            if self.known[reader] != FREE:
                self.drive(v, Port(self.known[reader], port), buses)
        for read, file in self.reads(v, unit):
            if read != v:
                self.drive(read, file, buses)

    def drive(self, v: int, file: Port, buses: Buses | None = None) -> None:
        """One more placed reader of a node at a file."""
        if file in self.over[v]:
            self.over[v][file][1] += 1
            return
        turn = self.turn(v)
        bus = (buses or {}).get((v, file), FREE)
        if bus == FREE:
            bus = next(bus for bus in self.problem.routes[self.unit[v], file] if self.driven[bus][turn] in (FREE, v))
        self.over[v][file] = [bus, 1]
        self.driven[bus][turn] = self.filled[file][turn] = v

    def leave(self, v: int, file: Port) -> None:
        """One placed reader of a node less at a file."""
        bus, count = self.over[v][file]
        if count > 1:
            self.over[v][file][1] = count - 1
            return
        turn = self.turn(v)
        del self.over[v][file]
        self.filled[file][turn] = FREE
        if all(other != bus for other, _ in self.over[v].values()):
            self.driven[bus][turn] = FREE

    def take(self, v: int) -> None:
        """Takes a node from its place."""
        unit, cycle = self.unit[v], self.cycle[v]
        for read, file in self.reads(v, unit):
            if read != v:
                self.leave(read, file)
        for file in list(self.over[v]):
            self.over[v][file][1] = 1
            self.leave(v, file)
        for place in range(cycle, cycle + self.problem.units[unit].gap):
            self.issued[unit][place % self.period] = FREE
        self.unit[v] = self.cycle[v] = FREE
        self.known[v] = unit if self.is_bound[v] else FREE

    def places(self) -> Places:
        return Places(self.problem, self.period, list(self.unit), list(self.cycle))


class Unroutable(Exception):
    """No bus leads from a unit to a file."""
