"""The search for the least period, and what is known of each shorter one."""
from __future__ import annotations

import time
from collections import Counter
from collections.abc import Callable, Sequence
from dataclasses import dataclass, field
from random import Random

from silc.hardware.words import Range
from silc.planning.dive import ORDERS, Dive
from silc.planning.modulo import found
from silc.planning.narrow import Narrowed
from silc.planning.places import Places, Unfit
from silc.planning.problem import Problem
from silc.planning.registers import Annealing
from silc.planning.sat import FOUND, REFUTED, Encoding, Solving
from silc.planning.windows import Bounds, TooShort, Windows

# The shares of the time: of probing at first, of the first look by heuristics, of the periods where registers come
# after, of a fit. Then of probing before a period is solved.
PROBED, FIRST, PERIODS, FIT = 0.1, 0.5, 0.6, 0.1
SOLVED_PROBED = 0.3
# The share of the time that a solver has for a period at first, and where it is dived in meanwhile.
FIRST_SHARE, DIVED_SHARE, LEAST_SHARE = 0.03, 0.1, 1.0
LONGEST_LOOK, SLICE, WAIT = 2.0, 0.2, 0.01
# How far a plan is at first from that of a longer period beside which it is looked for, and from the cycles of a dive.
RADIUS, NEAR = 6, (0, 2, 5)
PROBING = "probing"


@dataclass
class Wanted:
    """What is asked of a search."""
    seconds: float
    solver: str | None
    seed: int = 1
    # Whether the files of the datapath are as large as a plan needs.
    is_roomy: bool = False
    lessens_registers: bool = False
    # The one period that is meant, or nothing.
    period: int | None = None
    inputs: Sequence[Range] = ()


@dataclass
class Known:
    """What is known of periods: the least that no bound refutes, with why none is below, and what probing or a solver
    refuted."""
    bound: int
    reason: str
    refuted: dict[int, str] = field(default_factory=dict)

    def open(self, period: int) -> list[int]:
        """The shorter periods than one that nothing refutes."""
        return [shorter for shorter in range(self.bound, period) if shorter not in self.refuted]

    def verdict(self, period: int) -> str:
        """Whether a plan's period is the least, and by what."""
        if left := self.open(period):
            return f"{period} is not known to be the least: {spans(left)} {'is' if len(left) == 1 else 'are'} open"
        by = ", ".join(f"{spans([at for at in self.refuted if self.refuted[at] == why and at < period])} by {why}"
                       for why in sorted(set(self.refuted.values())))
        shorter = f"; refuted: {by}" if period > self.bound else ""
        return f"{period} is the least: none is below {self.bound} ({self.reason}){shorter}"


def spans(numbers: Sequence[int]) -> str:
    """Numbers in words, as 3, 5 to 7."""
    made: list[list[int]] = []
    for number in sorted(numbers):
        if made and number == made[-1][1] + 1:
            made[-1][1] = number
        else:
            made.append([number, number])
    return ", ".join(f"{low}" if low == high else f"{low} to {high}" for low, high in made)


def turns(left: list[int]) -> list[int]:
    """The periods of one round: from the bound upward, the middle, and the longest ones."""
    return list(dict.fromkeys([*left[:2], *left[len(left) // 2:len(left) // 2 + 1], *left[:-3:-1]]))


class Finder:
    """A search, with the best plan so far."""

    def __init__(self, problem: Problem, start: Places | None, wanted: Wanted, say: Callable[[str], None]) -> None:
        self.problem, self.wanted, self.say = problem, wanted, say
        self.best = start
        bounds = Bounds(problem)
        bound = bounds.least()
        self.known = Known(bound, bounds.reason(bound))
        self.rng, self.turn, self.began = Random(wanted.seed), 0, time.monotonic()
        # When the search for periods ends.
        self.end = self.began
        # Of periods plans for whose registers there is no room.
        self.crowded: dict[int, Places] = {}
        # Periods in which the solver's plan has other buses than the first that are free.
        self.unrouted: set[int] = set()
        self.radius, self.is_stopped = RADIUS, False
        # Over one stage the windows of periods, as far as they are narrowed, the weights of their nodes for dives, and
        # how many dives there were.
        self.narrowed: dict[int, Narrowed] = {}
        self.weights: dict[int, list[int]] = {}
        self.dives: Counter[int] = Counter()

    def run(self) -> None:
        """Searches until the time is over, all is known, or it is interrupted."""
        share = PERIODS if self.wanted.lessens_registers else 1.0
        if self.best and self.wanted.period is not None:
            share = 0.0
        try:
            self.find(self.began + share * self.wanted.seconds)
            if self.best and self.wanted.lessens_registers:
                self.lessen(time.monotonic() + (1 - share) * self.wanted.seconds)
        except KeyboardInterrupt:
            self.is_stopped = True

    def limit(self) -> int:
        """The least period that need not be searched."""
        if self.wanted.period is not None:
            return self.wanted.period + (self.best is None)
        return self.best.period if self.best else self.problem.datapath["period"] + 1

    def low(self) -> int:
        return max(self.known.bound, self.wanted.period or 0)

    def left(self) -> list[int]:
        """The periods below the best that are open, but for those whose plans have no room for their registers."""
        return [period for period in self.known.open(self.limit()) if period >= self.low()
                and period not in self.crowded and period not in self.unrouted]

    def find(self, until: float) -> None:
        """Looks by heuristics first, and then solves periods, each in its turn for twice as long as before. Where only
        plans without room for their registers are left, it looks for room again."""
        now, self.end = time.monotonic(), until
        self.refute(now + PROBED * (until - now))
        self.look(now + FIRST * (until - now))
        share = max(LEAST_SHARE, (FIRST_SHARE if self.problem.stages > 1 else DIVED_SHARE) * (until - now))
        while time.monotonic() < until:
            left = self.left()
            if left and self.wanted.solver:
                self.descend(until, share)
                for period in turns(self.left()):
                    if time.monotonic() < until and period in self.left():
                        is_last = len(self.left()) == 1
                        self.settle(period, until if is_last else min(until, time.monotonic() + share))
                share, self.radius = 2 * share, 2 * self.radius
            elif left:
                self.slice(until)
            elif crowded := [period for period in self.crowded if period < self.limit()]:
                self.keep(self.crowded[max(crowded)], "other places")
            else:
                return
        if self.wanted.solver and (left := self.left()):
            self.say(f"{self.wanted.solver} did not end in its time for period {spans(left)}")

    def refute(self, until: float) -> None:
        """Probes periods from the bound upward, over one stage, up to the first that this does not refute."""
        while self.problem.stages == 1 and (left := self.left()) and time.monotonic() < until:
            if self.windows(left[0], until):
                return

    def windows(self, period: int, until: float) -> Windows | None:
        """The windows of an open period over one stage, as far as probing narrows them by then; none where it refutes
        the period, and then each that is shorter."""
        try:
            if period not in self.narrowed:
                self.narrowed[period] = Narrowed(self.problem, period)
            self.narrowed[period].probe(until)
            return self.narrowed[period].windows()
        except TooShort:
            shorter = self.known.open(period + 1)
            self.known.refuted |= dict.fromkeys(shorter, PROBING)
            self.say(f"period {spans(shorter)} is refuted by {PROBING}")
            return None

    def settle(self, period: int, until: float) -> None:
        """Solves a period, with its windows as far as they are narrowed in a part of the time."""
        windows = None
        if self.problem.stages == 1:
            windows = self.windows(period, time.monotonic() + SOLVED_PROBED * (until - time.monotonic()))
        if period in self.left():
            self.solve(Encoding(self.problem, period, windows), until, self.problem.stages == 1)

    def descend(self, until: float, share: float) -> None:
        """Solves the next shorter period near the best plan, as often as that goes."""
        while self.best and (left := self.left()) and time.monotonic() < until:
            near = [cycle * left[-1] // self.best.period for cycle in self.best.cycles]
            encoding = Encoding(self.problem, left[-1], None, near, self.radius)
            self.solve(encoding, min(until, time.monotonic() + share), self.problem.stages == 1)
            if left[-1] in self.left():
                return

    def dive(self, period: int, until: float) -> bool:
        """One dive in a period over one stage, in the next order. Whether it comes to a plan."""
        if self.problem.stages > 1 or not self.windows(period, time.monotonic()):
            return False
        weight = self.weights.setdefault(period, [0] * len(self.problem.nodes))
        dive = Dive(self.narrowed[period], weight, self.rng, self.dives[period])
        self.dives[period] += 1
        cycles = dive.go_on(until)
        return cycles is not None and self.fits(period, cycles, until)

    def fits(self, period: int, cycles: list[int], until: float) -> bool:
        """Whether there are units for the cycles of a dive, which a solver finds where nodes have several, in cycles
        nearby if need be."""
        if all(len(node.units) == 1 for node in self.problem.nodes):
            places = Places(self.problem, period, [node.units[0] for node in self.problem.nodes], cycles)
            try:
                places.route()
            except Unfit:
                return False
            return self.keep(places, "a dive")
        windows = self.narrowed[period].windows()
        for radius in NEAR:
            if self.wanted.solver and period in self.left():
                encoding = Encoding(self.problem, period, windows, cycles, radius)
                self.solve(encoding, min(until, time.monotonic() + FIT * self.wanted.seconds))
        return period not in self.left()

    def look(self, until: float) -> None:
        """Tries the least open period, and halves what is left between that and the best, by heuristics alone."""
        if self.problem.stages == 1 and self.left() and self.tried(self.left()[0], until):
            return
        low, high = self.low(), self.limit()
        while low < high and time.monotonic() < until:
            middle = (low + high) // 2
            if self.tried(middle, until):
                high = self.limit()
            else:
                low = middle + 1

    def tried(self, period: int, until: float) -> bool:
        """A dive in each order, and then several short searches for a plan in a period."""
        stages = self.problem.stages
        if stages == 1 and period in self.left():
            self.windows(period, time.monotonic() + PROBED * (until - time.monotonic()))
        for _ in ORDERS:
            if period in self.left() and time.monotonic() < until and self.dive(period, until):
                return True
        return self.searched(period, min(until, time.monotonic() + (LONGEST_LOOK if stages > 1 else SLICE)))

    def searched(self, period: int, until: float) -> bool:
        """Several short searches for a plan in a period."""
        while time.monotonic() < until:
            places = found(self.problem, period, self.rng, self.turn, min(until, time.monotonic() + LONGEST_LOOK / 4))
            self.turn += 1
            if places and self.keep(places, "modulo scheduling"):
                return True
        return False

    def slice(self, until: float) -> None:
        """One short search below the best, where it is not refuted."""
        left = self.left()
        if not left:
            return
        period = self.rng.choice(left[-2:])
        if not self.dive(period, until):
            self.searched(period, min(until, time.monotonic() + SLICE))

    def solve(self, encoding: Encoding, until: float, is_dived: bool = False) -> None:
        """Has the solver say whether a period has a plan, or near some cycles one, and dives in the period meanwhile
        where that is meant."""
        assert self.wanted.solver
        solving = Solving(self.wanted.solver, encoding)
        try:
            while solving.status() is None and time.monotonic() < until and encoding.period < self.limit():
                if not is_dived:
                    time.sleep(WAIT)
                elif self.dive(encoding.period, self.end):
                    return
            self.told(encoding, solving)
        finally:
            solving.stop()

    def told(self, encoding: Encoding, solving: Solving) -> None:
        """What a solver says of a period, or that it has not ended."""
        status, period = solving.status(), encoding.period
        if status == REFUTED and encoding.is_whole:
            self.known.refuted[period] = solving.solver
            self.say(f"period {period} is refuted by {solving.solver}")
        elif status == FOUND and period < self.limit():
            places = solving.places()
            try:
                places.route()
            except Unfit as why:
                self.say(f"a plan with period {period} is there, but not with the first buses that are free: {why}")
                self.unrouted.add(period)
                return
            self.keep(places, solving.solver)

    def keep(self, places: Places, by: str) -> bool:
        """Takes a plan for the best where its registers fit, if need be after some annealing."""
        if not self.wanted.is_roomy and places.lacking():
            annealing = Annealing(places, self.wanted.inputs, self.rng, False)
            annealing.run(max(LONGEST_LOOK, FIT * self.wanted.seconds), until_fit=True)
            places, by = annealing.best, f"{by} and annealing"
            if lacking := places.lacking():
                if places.period not in self.crowded:
                    self.say(f"period {places.period} by {by}, but the files lack {lacking} registers so far")
                self.crowded[places.period] = places
                return False
        self.best = places
        self.say(f"period {places.period} by {by}, {places.count()} registers")
        return True

    def lessen(self, until: float) -> None:
        """Fewer bits of registers for the best plan, by several runs."""
        assert self.best
        for run in range(3):
            left = until - time.monotonic()
            if left <= 0:
                return
            annealing = Annealing(self.best, self.wanted.inputs, self.rng, self.wanted.is_roomy)
            try:
                annealing.run(left / (3 - run))
            finally:
                if annealing.best is not self.best:
                    self.best = annealing.best
                    _, unroll, bits = annealing.judged
                    self.say(f"{bits} bits of registers ({self.best.count()} of them), unroll {unroll}")
