"""Whether a period has a plan, as clauses for a SAT solver. Registers are left out, and each result may go over any of
its buses: so what is refuted has no plan at all."""
from __future__ import annotations

import shutil
import subprocess
import tempfile
from collections.abc import Iterable
from pathlib import Path

from silc.planning.places import Places
from silc.planning.problem import Port, Problem
from silc.planning.windows import Windows, span_on, windows_of

FOUND, REFUTED = 10, 20
PAIRS = 5
# The solvers that are known, with what makes them quiet. Each is a package of Debian.
SOLVERS = {"cadical": ["-q"], "minisat": ["-verb=0"]}


def solver_there() -> str | None:
    """The first of the solvers that is there."""
    return next((name for name in SOLVERS if shutil.which(name)), None)


def narrowed(windows: Windows, cycles: list[int], radius: int) -> Windows:
    """The parts of windows that are so near to some cycles, and at least a cycle of each."""
    first = [min(max(first, cycle - radius), last) for first, last, cycle in zip(*windows, cycles)]
    last = [max(min(last, cycle + radius), low) for low, last, cycle in zip(first, windows.last, cycles)]
    return Windows(first, last)


class Clauses:
    """Clauses over variables that are numbered as they come."""

    def __init__(self) -> None:
        self.lines: list[str] = []
        self.count = 0

    def new(self) -> int:
        self.count += 1
        return self.count

    def add(self, *literals: int) -> None:
        self.lines.append(" ".join(map(str, literals)) + " 0\n")

    def at_most_one(self, literals: list[int]) -> None:
        if len(literals) <= PAIRS:
            for place, one in enumerate(literals):
                for other in literals[:place]:
                    self.add(-one, -other)
            return
        before = literals[0]
        for one in literals[1:-1]:
            so_far = self.new()
            self.add(-before, so_far)
            self.add(-one, so_far)
            self.add(-before, -one)
            before = so_far
        self.add(-before, -literals[-1])

    def text(self) -> str:
        return f"p cnf {self.count} {len(self.lines)}\n" + "".join(self.lines)


class Encoding:
    """The clauses of a problem in a period. `TooShort` where a bound refutes it. The windows may be narrower than those
    by what waits, where no plan has others. Beside some cycles they have only places that are so near to these."""

    def __init__(self, problem: Problem, period: int, windows: Windows | None = None, near: list[int] | None = None,
                 radius: int = 0) -> None:
        self.problem, self.period, self.windows = problem, period, windows or windows_of(problem, period)
        if near:
            self.windows = narrowed(self.windows, near, radius)
        self.is_whole = near is None
        self.clauses = Clauses()
        self.true = self.clauses.new()
        self.clauses.add(self.true)
        self.upto = [self.cycles_of(v) for v in range(len(problem.nodes))]
        self.on = [self.units_of(v) for v in range(len(problem.nodes))]
        self.issued = [self.turns_of(v) for v in range(len(problem.nodes))]
        self.results = [self.results_of(v) for v in range(len(problem.nodes))]
        self.goes = [self.files_of(v) for v in range(len(problem.nodes))]
        # Of what no two may be true at once, by the cycle of the period.
        self.rivals: list[list[list[int]]] = [[] for _ in range(period)]
        for wait in problem.waits:
            self.put_wait(wait.first, wait.then, wait.delay * period)
        self.put_units()
        self.put_files()
        self.put_buses()
        self.put_rivals()

    def cycles_of(self, v: int) -> dict[int, int]:
        """A variable for each cycle of a node's window but the last: whether it begins no later."""
        first, last = self.windows.first[v], self.windows.last[v]
        made = {cycle: self.clauses.new() for cycle in range(first, last)}
        for cycle in range(first, last - 1):
            self.clauses.add(-made[cycle], made[cycle + 1])
        return made

    def by(self, v: int, cycle: int) -> int:
        """The literal that a node begins by a cycle."""
        if cycle < self.windows.first[v]:
            return -self.true
        return self.upto[v].get(cycle, self.true)

    def units_of(self, v: int) -> dict[int, int]:
        units = [unit for unit in self.problem.nodes[v].units if self.problem.units[unit].gap <= self.period]
        made = {unit: self.true if len(units) == 1 else self.clauses.new() for unit in units}
        self.clauses.add(*made.values())
        if len(units) > 1:
            self.clauses.at_most_one(list(made.values()))
        for unit, on in made.items():
            first, last = span_on(self.problem, self.period, v, unit)
            self.clauses.add(-on, -self.by(v, first - 1))
            self.clauses.add(-on, self.by(v, last))
        return made

    def turns_of(self, v: int) -> dict[int, int]:
        """A variable for each cycle of the period in which a node may begin; it is true where it does."""
        made: dict[int, int] = {}
        for cycle in range(self.windows.first[v], self.windows.last[v] + 1):
            turn = made.setdefault(cycle % self.period, 0) or self.clauses.new()
            made[cycle % self.period] = turn
            self.clauses.add(-self.by(v, cycle), self.by(v, cycle - 1), turn)
        return made

    def results_of(self, v: int) -> dict[int, int]:
        """The same of the cycles in which its result is there."""
        latencies = {self.problem.units[unit].latency for unit in self.on[v]}
        if len(latencies) == 1:
            behind = latencies.pop() - 1
            return {(turn + behind) % self.period: literal for turn, literal in self.issued[v].items()}
        made: dict[int, int] = {}
        for unit, on in self.on[v].items():
            for turn, literal in self.issued[v].items():
                there = (turn + self.problem.units[unit].latency - 1) % self.period
                made[there] = made.get(there) or self.clauses.new()
                self.clauses.add(-on, -literal, made[there])
        return made

    def both(self, one: int, other: int) -> int:
        """A literal that is true where both are."""
        if self.true in (one, other):
            return other if one == self.true else one
        made = self.clauses.new()
        self.clauses.add(-one, -other, made)
        return made

    def files_of(self, v: int) -> dict[Port, int]:
        """Of each file that a node may be read from a literal that is true where it is."""
        ways: dict[Port, list[int]] = {}
        for reader, port in self.problem.nodes[v].readers:
            for unit, on in self.on[reader].items():
                ways.setdefault(Port(unit, port), []).append(on)
        made = {}
        for file, ons in ways.items():
            made[file] = self.true if self.true in ons else ons[0] if len(ons) == 1 else self.clauses.new()
            for on in ons:
                if made[file] not in (self.true, on):
                    self.clauses.add(-on, made[file])
        return made

    def put_wait(self, first: int, then: int, late: int) -> None:
        """One node ends before another begins, which may be so many cycles later."""
        if first == then:
            return
        for unit, on in self.on[first].items():
            latency = self.problem.units[unit].latency
            for cycle in range(self.windows.first[then], self.windows.last[then] + 1):
                ended = self.by(first, cycle - latency + late)
                if ended != self.true:
                    self.clauses.add(-on, -self.by(then, cycle), ended)

    def put_units(self) -> None:
        """A unit begins an operation only its gap after another."""
        for unit, hardware in enumerate(self.problem.units):
            using: list[list[int]] = [[] for _ in range(self.period)]
            for v, on in enumerate(self.on):
                if unit not in on:
                    continue
                taken = {turn: self.both(on[unit], literal) for turn, literal in self.issued[v].items()}
                for place in range(self.period):
                    near = [taken[turn] for k in range(hardware.gap) if (turn := (place - k) % self.period) in taken]
                    using[place] += near if len(near) < 2 else [self.any_of(near)]
            for place, literals in enumerate(using):
                self.rivals[place].append(literals)

    def any_of(self, literals: Iterable[int]) -> int:
        made = self.clauses.new()
        for literal in literals:
            self.clauses.add(-literal, made)
        return made

    def put_files(self) -> None:
        """A register file is written once in a cycle."""
        written: dict[tuple[Port, int], list[int]] = {}
        for v, files in enumerate(self.goes):
            for file, goes in files.items():
                for turn, there in self.results[v].items():
                    written.setdefault((file, turn), []).append(self.both(goes, there))
        for (_, turn), literals in written.items():
            self.rivals[turn].append(literals)

    def put_buses(self) -> None:
        """A bus has one result in a cycle, and each result a bus to each of its files."""
        taken: dict[tuple[int, int], list[int]] = {}
        for v, files in enumerate(self.goes):
            over: dict[int, int] = {}
            for unit, on in self.on[v].items():
                for file, goes in files.items():
                    ways = self.problem.routes.get((unit, file), [])
                    is_sure = len(ways) == 1 and on == goes == self.true
                    for bus in ways:
                        over[bus] = self.true if is_sure else over.get(bus) or self.clauses.new()
                    if not is_sure:
                        self.clauses.add(-on, -goes, *(over[bus] for bus in ways))
            for bus, literal in over.items():
                for turn, there in self.results[v].items():
                    taken.setdefault((bus, turn), []).append(self.both(literal, there))
        for (_, turn), literals in taken.items():
            self.rivals[turn].append(literals)

    def put_rivals(self) -> None:
        """At most one of each, but for those that others say already."""
        for lists in self.rivals:
            kept: list[set[int]] = []
            for literals in sorted(lists, key=len, reverse=True):
                if not any(other.issuperset(literals) for other in kept):
                    kept.append(set(literals))
                    self.clauses.at_most_one(literals)

    def places(self, model: set[int]) -> Places:
        """The plan that a solver's true variables say."""
        cycles = [next((cycle for cycle, literal in sorted(upto.items()) if literal in model), self.windows.last[v])
                  for v, upto in enumerate(self.upto)]
        units = [next(unit for unit, literal in on.items() if literal in model) for on in self.on]
        return Places(self.problem, self.period, units, cycles)


class Solving:
    """A run of a solver, in a process of its own that yields to all others."""

    def __init__(self, solver: str, encoding: Encoding) -> None:
        self.solver, self.encoding, self.period = solver, encoding, encoding.period
        self.folder = tempfile.TemporaryDirectory(prefix="silc-plan-")
        self.model = Path(self.folder.name) / "model"
        clauses = Path(self.folder.name) / "clauses"
        clauses.write_text(encoding.clauses.text())
        with open(self.model, "wb") as out:
            words = ["nice", "-n", "19", solver, *SOLVERS[solver], str(clauses)]
            words += [str(self.model)] if solver == "minisat" else []
            self.process = subprocess.Popen(words, stdin=subprocess.DEVNULL, stderr=subprocess.DEVNULL,
                                            stdout=subprocess.DEVNULL if solver == "minisat" else out)

    def status(self) -> int | None:
        """Its status once it has ended."""
        return self.process.poll()

    def places(self) -> Places:
        """The plan that it found."""
        words = self.model.read_text().split()
        return self.encoding.places({int(word) for word in words if word.isdigit()})

    def stop(self) -> None:
        if self.process.poll() is None:
            self.process.kill()
        self.process.wait()
        self.folder.cleanup()
