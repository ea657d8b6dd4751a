#!/usr/bin/env python3
"""Whether windows are narrowed by no more than is right, and by all that is meant.

usage: tests/plan/check_narrowing.py [SEED]

Of small sets of tasks all ways to place them are tried: the first and the last cycle that each has in some way are
those of the rule, and tasks that have no room at all are refused. Of the best plans of the examples each node stands in
its window, in the plan's period and in longer ones, before the windows are probed and after. A dive comes to a plan in
the periods of some, which passes the checker of plans. It runs no program.
"""
from __future__ import annotations

import itertools
import sys
import time
import tomllib
from pathlib import Path
from random import Random

from silc.planning.check import check
from silc.planning.dive import Dive
from silc.planning.intervals import NoRoom, first_and_last
from silc.planning.narrow import Narrowed
from silc.planning.places import Places
from silc.planning.problem import Problem
from silc.planning.ruled import fitted, with_files
from silc.planning.windows import TooShort

ROOT = Path(__file__).resolve().parent.parent.parent
SEED, SETS, LONGER, PROBED, DIVED = 1, 1500, (0, 1, 5), 1.0, 20.0
# Examples whose nodes have one unit each, and whose least period dives find.
DIVES = ("biquads", "envelope", "lowpass16", "mulaw", "reverb")


def ways(windows: list[tuple[int, int]], width: int) -> list[tuple[int, ...]]:
    """All ways to place tasks in their windows, so many in a cycle at most."""
    all_ways = itertools.product(*(range(first, last + 1) for first, last in windows))
    return [way for way in all_ways if all(way.count(cycle) <= width for cycle in way)]


def narrowed_by_rule(windows: list[tuple[int, int]], width: int) -> list[tuple[int, int]] | None:
    """The windows that the rule leaves, or nothing where it refuses them."""
    try:
        begin, end = first_and_last([first for first, _ in windows], [last for _, last in windows], width)
    except NoRoom:
        return None
    return [(begin.get(task, first), end.get(task, last)) for task, (first, last) in enumerate(windows)]


def check_sets(rng: Random) -> list[str]:
    faults = []
    for _ in range(SETS):
        width, cycles = rng.choice((1, 1, 2)), rng.randint(1, 6)
        windows = []
        for _ in range(rng.randint(1, 6)):
            first = rng.randrange(cycles)
            windows.append((first, min(cycles - 1, first + rng.randrange(4))))
        made = ways(windows, width)
        right = [(min(places), max(places)) for places in zip(*made)] if made else None
        if (found := narrowed_by_rule(windows, width)) != right:
            faults.append(f"{windows}, {width} in a cycle: {found}, and not {right}")
    return faults


def kept(example: Path) -> list[tuple[str, Problem]]:
    """The best plans of an example, each with its name, as problems that know it."""
    made = []
    for plan in sorted(example.glob("plans/*.plan")):
        datapath = tomllib.loads(plan.with_suffix(".toml").read_text())
        made.append((f"{example.name}/{plan.stem}", Problem(plan.read_text(), with_files(datapath), 1)))
    return made


def check_windows(name: str, problem: Problem) -> list[str]:
    """Each node of a plan stands in its window."""
    faults = []
    for more in LONGER:
        period = problem.datapath["period"] + more
        try:
            narrowed = Narrowed(problem, period)
            for probed in (False, True):
                if probed and not more:
                    narrowed.probe(time.monotonic() + PROBED)
                for node, first, last in zip(problem.ruled.nodes, *narrowed.windows()):
                    if not first <= node.cycle <= last:
                        faults.append(f"{name}, {period}: node {node.number} stands in {node.cycle}, and its window is "
                                      f"{first} to {last}{' where it is probed' if probed else ''}")
        except TooShort as why:
            faults.append(f"{name}: the period {period} of a plan is refuted: {why}")
    return faults


def check_dive(name: str, problem: Problem, rng: Random) -> list[str]:
    """A dive comes to a plan, which passes."""
    period = problem.datapath["period"]
    until, weight, turn = time.monotonic() + DIVED, [0] * len(problem.nodes), 0
    while time.monotonic() < until:
        cycles = Dive(Narrowed(problem, period), weight, rng, turn).go_on(until)
        turn += 1
        if cycles:
            places = Places(problem, period, [node.units[0] for node in problem.nodes], cycles)
            places.route()
            check(places.text(), problem.text, fitted(problem.datapath, places))
            return []
    return [f"{name}: no dive comes to a plan in period {period}"]


def main(words: list[str]) -> int:
    rng = Random(int(words[0]) if words else SEED)
    faults, plans = check_sets(rng), 0
    for example in sorted((ROOT / "examples").iterdir()):
        for name, problem in kept(example):
            plans += 1
            wrong = check_windows(name, problem)
            faults += wrong
            if example.name in DIVES and not wrong:
                faults += check_dive(name, problem, rng)
    print("\n".join(faults[:20]), end="\n" if faults else "")
    print(f"narrowing: {SETS} sets of tasks, {plans} plans, {len(DIVES)} dives, {len(faults)} faults")
    return 1 if faults or not plans else 0


if __name__ == "__main__":
    sys.exit(main(sys.argv[1:]))
