#!/usr/bin/env python3
"""Whether plans that the search finds for the examples put the rows of the examples, each by its own microcode on
`silc sim`.

usage: tests/plan/check_rows.py [--silc PROGRAM]

Of each example over each of its processors the search has two seconds for one sample at a time, and lessens registers
in half of these, so that the plan is another than that of the rules. The rows that are expected are those that the
examples' own scripts compute. Examples with initial values are left out, and those with frames' own processors.
"""
from __future__ import annotations

import sys
import tomllib
from pathlib import Path

from machine import NoRows, microcode_of, rows_of
from silc import programs
from silc.planning.check import check
from silc.planning.examples import pairs
from silc.planning.ruled import Ruled, fitted
from silc.planning.sat import solver_there
from silc.planning.search import Finder, Wanted

SILC = programs.SILC.place()
SECONDS = 2.0
# A check that tries less than this has lost its examples.
LEAST_TRIED = 15


def fault_of(silc: str, source: Path, file: Path, solver: str | None) -> str | None:
    """Nothing where the rows are right, a fault, or '' where the example is left out."""
    content = source.read_bytes()
    ruled = Ruled(silc, content, tomllib.loads(file.read_text()), 1, True)
    start = ruled.best()
    finder = Finder(ruled.problem, start, Wanted(SECONDS, solver, 1, True, True), lambda text: None)
    finder.run()
    if not start or not finder.best:
        return f"{file}: no plan"
    made, text = fitted(ruled.datapath, finder.best), finder.best.text()
    check(text, ruled.nodes, made)
    try:
        microcode = microcode_of(silc, content, ruled.datapath | {"period": start.period}, text, made)
        if microcode is None:
            return ""
        rows = rows_of(silc, microcode, (source.parent / "samples.txt").read_bytes())
    except NoRows as why:
        return f"{file}: {why}"
    return None if rows == (source.parent / "expected.txt").read_bytes() else f"{file}: other rows"


def main(words: list[str]) -> int:
    silc = SILC
    if words[:1] == ["--silc"] and len(words) == 2:
        silc, words = words[1], []
    if words:
        print(__doc__, file=sys.stderr)
        return 2
    ends = [fault_of(str(Path(silc).resolve()), source, file, solver_there()) for _, source, file in pairs([])]
    faults, right = [end for end in ends if end], sum(end is None for end in ends)
    faults += [f"{right} plans are too few"] if right < LEAST_TRIED else []
    for fault in faults:
        print(fault)
    print(f"plan: the rows of {right} plans of the examples, {len(faults)} faults")
    return 1 if faults else 0


if __name__ == "__main__":
    sys.exit(main(sys.argv[1:]))
