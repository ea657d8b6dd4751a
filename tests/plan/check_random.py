#!/usr/bin/env python3
"""Whether each plan that the search finds for random programs on random processors passes the checker of plans, and
`silc_place` takes it.

usage: tests/plan/check_random.py [--silc PROGRAM] [--seconds N] [--placed | --piped] [COUNT [SEED]]

Of COUNT programs, 200 where nothing is said, each is searched for N seconds, 0.15 where nothing is said, over one, two
or four stages, by turns with the files and memories of its processor and with such as are large enough. A program that
has no place by the rules in any period is left out, and another is made. Looked at is that each plan passes, with its
buses and registers and without; that no period of the rules is lost; and that no bound and no solver refutes a period
in which the rules have a plan. Of a plan over one stage `silc_place` makes microcode, which puts the rows of `silc
eval` on `silc sim`; of the plan of the rules it makes that of `silc compile`. Plans over more run on `silc_place pipe`,
with the rows of `silc eval`, late; those of the plan of the rules are what `silc pipe` writes. With --placed all are
searched over one stage, with --piped over two to four. It runs the built programs, or those that `SILC` and
`SILC_PLACE` name. Without `silc_place` this is left out, and without a solver the heuristics are tried alone; then it
ends with 77.
"""
from __future__ import annotations

import sys
import time
import tomllib
from collections import Counter
from pathlib import Path
from random import Random
from typing import Any

from machine import NoRows, rows_of
from silc import programs
from silc.exploring.template import text_of
from silc.fuzzing import datapaths, samples, sources
from silc.planning.check import NoPlan, check
from silc.planning.places import Places
from silc.planning.ruled import Ruled, Unplanned, fitted
from silc.planning.sat import REFUTED, Encoding, Solving, solver_there
from silc.planning.search import Finder, Wanted
from silc.planning.windows import TooShort
from silc.running import STDIN, STDOUT, ran

SILC = programs.SILC.place()
COUNT, SEED, SKIPPED = 200, 1, 77
STAGES, SECONDS = (1, 2, 1, 4), 0.15
# Larger programs are left to the examples.
MOST_NODES = 120
# A plan of the rules is looked for among the clauses of one program in so many.
SOLVED = 4
# After how many programs it says how far it is.
TOLD = 20


class Tried:
    """What was seen of the programs so far."""

    def __init__(self, silc: str, seed: int, seconds: float, stages: tuple[int, ...]) -> None:
        self.silc, self.seed, self.seconds, self.solver = silc, seed, seconds, solver_there()
        self.stages = stages
        self.place = programs.PLACE.place() if programs.PLACE.is_there() else None
        self.seen: Counter[str] = Counter()
        self.faults: list[str] = []

    def program(self, number: int) -> bool:
        """Makes a program and a processor and searches; not where the rules have no place for it."""
        rng = Random(f"plan {self.seed} {number}")
        source = sources.Program(rng, 16).source()
        datapath = tomllib.loads(datapaths.text_of(datapaths.Maker(rng, rng.random() < 0.7).datapath(), rng))
        stages, is_roomy = self.stages[number % len(self.stages)], rng.random() < 0.5
        try:
            ruled = Ruled(self.silc, source.text.encode(), datapath, stages, is_roomy)
        except Unplanned:
            return False
        if len(ruled.problem.nodes) > MOST_NODES:
            return False
        try:
            start, best = self.search(number, ruled, is_roomy)
            if self.place:
                rows = samples.text_of(rng, samples.rows_of(rng, source.inputs), True)
                (self.run if stages == 1 else self.pipe)(number, ruled, start, best, is_roomy, rows)
        except (NoPlan, NoRows, ValueError) as why:
            self.fault(number, str(why))
        return True

    def fault(self, number: int, what: str) -> None:
        self.faults.append(f"program {number} of seed {self.seed}: {what}")
        print(self.faults[-1], flush=True)

    def told(self) -> str:
        return ", ".join(f"{seen} {what}" for what, seen in self.seen.items())

    def search(self, number: int, ruled: Ruled, is_roomy: bool) -> tuple[Places | None, Places | None]:
        """Searches, and looks at what comes of it. The plan of the rules and the best one."""
        start = ruled.best()
        finder = Finder(ruled.problem, start, Wanted(self.seconds, self.solver, number, is_roomy, number % 2 == 0),
                        lambda text: None)
        finder.run()
        self.seen["programs"] += 1
        self.seen["of several stages"] += ruled.stages > 1
        for places in filter(None, (start, finder.best)):
            self.check(ruled, places, is_roomy)
        if start:
            assert finder.best
            if start.period < finder.known.bound or finder.best.period > start.period:
                self.fault(number, f"period {start.period} of the rules is lost")
            self.seen["shorter"] += finder.best.period < start.period
            self.seen["least"] += not finder.known.open(finder.best.period)
            if number % SOLVED == 0 and self.solver:
                self.solve(number, ruled, start)
        elif finder.best:
            self.seen["where the rules have none"] += 1
        return start, finder.best

    def hardware(self, ruled: Ruled, places: Places, is_roomy: bool) -> dict[str, Any]:
        """The datapath of a plan."""
        return fitted(ruled.datapath, places) if is_roomy else ruled.datapath | {"period": places.period}

    def run(self, number: int, ruled: Ruled, start: Places | None, best: Places | None, is_roomy: bool,
            rows: bytes) -> None:
        """`silc_place` takes both plans; that of the rules is the one of `silc compile`, and the microcode of the best
        one puts the rows of the source's solution."""
        if start and self.placed(ruled, start, is_roomy) != self.compiled(ruled, start, is_roomy):
            self.fault(number, "the rules' plan has other microcode")
        if best:
            microcode = self.placed(ruled, best, is_roomy)
            solved = ran(self.silc, ["eval", ruled.source, STDIN, STDOUT], rows)
            if solved.status or rows_of(self.silc, microcode, rows) != solved.out:
                self.fault(number, "other rows")
            self.seen["placed and run"] += 1

    def pipe(self, number: int, ruled: Ruled, start: Places | None, best: Places | None, is_roomy: bool,
             rows: bytes) -> None:
        """`silc_place pipe` runs both plans. The rules' plan has the rows of `silc pipe`, and the best one those of the
        source's solution, late."""
        if start:
            datapath = text_of(self.hardware(ruled, start, is_roomy)).encode()
            answer = ran(self.silc, ["pipe", ruled.source, datapath, str(ruled.stages), STDIN, STDOUT], rows)
            if answer.status or self.piped(ruled, start, is_roomy, rows) != answer.out:
                self.fault(number, f"the rules' plan has other rows than pipe, which ends with {answer.status}")
        if best:
            solved = ran(self.silc, ["eval", ruled.source, STDIN, STDOUT], rows)
            lines = solved.out.splitlines(keepends=True)
            late = min(ruled.stages - 1, len(lines))
            zero = b",".join([b"0"] * (lines[0].count(b",") + 1)) + b"\n" if lines else b""
            if solved.status or self.piped(ruled, best, is_roomy, rows) != \
                    late * zero + b"".join(lines[:len(lines) - late]):
                self.fault(number, "other rows over its stages")
            self.seen["placed and piped"] += 1

    def piped(self, ruled: Ruled, places: Places, is_roomy: bool, rows: bytes) -> bytes:
        """The rows that `silc_place pipe` writes with the units and cycles."""
        assert self.place
        datapath = text_of(self.hardware(ruled, places, is_roomy)).encode()
        answer = ran(self.place, ["pipe", ruled.source, datapath, places.text().encode(), str(ruled.stages), STDIN,
                                  STDOUT], rows)
        if answer.status:
            raise NoRows(f"silc_place pipe: {answer.said}")
        return answer.out

    def placed(self, ruled: Ruled, places: Places, is_roomy: bool) -> bytes:
        """The microcode that `silc_place` makes of the units and cycles."""
        assert self.place
        datapath = text_of(self.hardware(ruled, places, is_roomy)).encode()
        answer = ran(self.place, [ruled.source, datapath, places.text().encode(), STDOUT])
        if answer.status:
            raise NoRows(f"silc_place: {answer.said}")
        return answer.out

    def compiled(self, ruled: Ruled, places: Places, is_roomy: bool) -> bytes:
        answer = ran(self.silc, ["compile", ruled.source, text_of(self.hardware(ruled, places, is_roomy)).encode(),
                                 STDOUT])
        if answer.status:
            raise NoRows(f"compile: {answer.said}")
        return answer.out

    def check(self, ruled: Ruled, places: Places, is_roomy: bool) -> None:
        """The plan passes, as it is and as nodes, cycles and units alone."""
        made, text = self.hardware(ruled, places, is_roomy), places.text()
        check(text, ruled.nodes, made, ruled.stages)
        self.seen["plans"] += 1
        check("".join(" ".join(line.split()[:6]) + "\n" for line in text.splitlines()[1:]), ruled.nodes, made,
              ruled.stages)

    def solve(self, number: int, ruled: Ruled, start: Places) -> None:
        """The solver may not refute a period in which the rules have a plan."""
        assert self.solver
        try:
            solving = Solving(self.solver, Encoding(ruled.problem, start.period))
        except TooShort as why:
            self.fault(number, f"a plan of the rules is refuted: {why}")
            return
        end = time.monotonic() + 5
        while solving.status() is None and time.monotonic() < end:
            time.sleep(0.002)
        if solving.status() == REFUTED:
            self.fault(number, f"the solver refutes period {start.period}")
        self.seen["solved"] += solving.status() is not None
        solving.stop()


def main(words: list[str]) -> int:
    silc, seconds, stages = SILC, SECONDS, STAGES
    while words[:1] in (["--silc"], ["--seconds"]) and len(words) > 1:
        silc, seconds = (words[1], seconds) if words[0] == "--silc" else (silc, float(words[1]))
        words = words[2:]
    if words[:1] in (["--placed"], ["--piped"]):
        stages, words = (1,) if words[0] == "--placed" else (2, 3, 4), words[1:]
    if len(words) > 2 or not all(word.isdigit() for word in words):
        print(__doc__, file=sys.stderr)
        return 2
    count, seed = [*map(int, words), *(COUNT, SEED)[len(words):]]
    tried, number = Tried(str(Path(silc).resolve()), seed, seconds, stages), 0
    while tried.seen["programs"] < count:
        if tried.program(number) and tried.seen["programs"] % TOLD == 0:
            print(f"plan: {tried.told()}, of {count}", file=sys.stderr, flush=True)
        number += 1
    print(f"plan: {tried.told()}, {len(tried.faults)} faults")
    if not tried.solver:
        print("check_random: skipped in part: there is no cadical and no minisat (apt-get install cadical)")
    if not tried.place:
        print("check_random: skipped in part: there is no silc_place; tools/build silc_place builds it")
    return 1 if tried.faults else 0 if tried.solver and tried.place else SKIPPED


if __name__ == "__main__":
    sys.exit(main(sys.argv[1:]))
