"""Searches for a better plan than the rules find: a shorter period, or fewer bits of registers.

usage: tools/plan [--stages S] [--seconds N] [--registers] [--period P] [--roomy] [--solver NAME] [--seed N]
                  [--datapath FILE] [--force] [-o PLAN] SRC DP
       tools/plan --table [--seconds N] [--solver NAME] [--seed N] [EXAMPLE ..]

PLAN, or standard output, gets the text that `silc schedule` prints, or with --stages, 1 to 4, that of `silc stages`:
lines `node V cycle T unit NAME`, with the buses and the registers. It is looked for in the least period that is found
in N seconds, 60 where nothing is said: over one stage by dives, which narrow the windows of all nodes after each that
they place; by list scheduling and modulo scheduling over several priorities; and by a SAT solver of Debian where one is
there (cadical or minisat), from the bound upward. It begins with the plan of the rules, so that no period is lost.
Standard error tells how it goes on, and at the end whether the period is the least: no plan is below the bound of
resources, critical path and recurrences, and what probing of the windows or the solver refutes has no plan with any
buses and any registers.

--registers lessens the registers by their bits, as wide as the words that come into each file, in 40 % of the time, or
in all of it with --period: first the copies that make the microprogram longer, then the bits. --period looks for a plan
in just that period, and not for the least. Files and memories are those of DP, but with --roomy as large as a plan
needs. --datapath makes the datapath file of the plan: DP with its period, and with --roomy with files and memories that
just fit. --solver names the solver, or `none`; --seed is another search.

An interrupt ends the search, with the best plan so far and the status 130. The status is 1 where no plan is found.

What is written was checked by a test, not proved: each fact of a feasible plan in docs/PLANNING.md was looked at, by a
checker that has nothing of the search.

--table prints what it finds for the examples over one, two and four stages, in N seconds each and a quarter more for
the registers in the period of the rules: counts and bits, before and after.
"""
from __future__ import annotations

import argparse
import sys
import time
import tomllib
from pathlib import Path

from silc.commands import STOPPED, ended, positive
from silc.exploring.bits import inputs_of
from silc.exploring.template import text_of
from silc.made_files import MadeFiles, NotMade, add_force
from silc.pictures.plan import STAGES
from silc.planning.check import NoPlan, check
from silc.planning.examples import HEAD, Row, rows_of
from silc.planning.places import Places
from silc.planning.registers import bits_of
from silc.planning.ruled import NO_PLACE, Ruled, Unplanned, fitted
from silc.planning.sat import SOLVERS, solver_there
from silc.planning.search import Finder, Wanted
from silc.programs import SILC, NoProgram
from silc.running import ran

CHECKED = "checked by a test, not proved"
SECONDS, NONE = 60, "none"


class NotFound(Exception):
    """Why there is no plan."""


def say(text: str) -> None:
    print(f"plan: {text}", file=sys.stderr, flush=True)


def judge(silc: str, options: argparse.Namespace, source: bytes, datapath: bytes) -> None:
    """Stops where silc refuses the source or the datapath for itself."""
    answer = ran(silc, ["schedule", source, datapath])
    if answer.status and answer.status not in NO_PLACE:
        raise NotFound(f"{options.source}, {options.file}: {answer.said.removeprefix('silc: ')}")


def solver_of(options: argparse.Namespace) -> str | None:
    """The solver that is meant, or nothing, with a line, where there is none."""
    if options.solver == NONE:
        return None
    there = solver_there() if options.solver is None else options.solver
    if there is None:
        say(f"there is no {' and no '.join(SOLVERS)} (apt-get install cadical), so it goes on without a solver")
    return there


def finder_of(ruled: Ruled, options: argparse.Namespace, solver: str | None, source: bytes) -> Finder:
    wanted = Wanted(options.seconds, solver, options.seed, options.roomy, options.registers, options.period,
                    inputs_of(source.decode("latin-1")))
    start = ruled.best() if options.period is None else ruled.planned(options.period)
    if start:
        say(f"period {start.period} by the rules, {start.count()} registers")
    return Finder(ruled.problem, start, wanted, say)


def planned(options: argparse.Namespace) -> int:
    """Searches, checks what is found, and writes it."""
    silc, files = SILC.found(), MadeFiles([options.source, options.file], options.force)
    for output in (options.out, options.datapath):
        files.look_at(output)
    source, content = Path(options.source).read_bytes(), Path(options.file).read_bytes()
    judge(silc, options, source, content)
    try:
        datapath = tomllib.loads(content.decode("utf-8-sig"))
        ruled = Ruled(silc, source, datapath, options.stages, options.roomy)
    except (tomllib.TOMLDecodeError, Unplanned) as why:
        raise NotFound(f"{options.source}, {options.file}: {why}") from why
    finder = finder_of(ruled, options, solver_of(options), source)
    began = time.monotonic()
    finder.run()
    if finder.best is None:
        raise NotFound(without(finder, options))
    made = fitted(datapath, finder.best) if options.roomy else ruled.datapath | {"period": finder.best.period}
    text = finder.best.text()
    check(text, ruled.nodes, made, options.stages)
    files.write(options.out or "/dev/stdout", text)
    if options.datapath:
        files.write(options.datapath, text_of(made))
    tell(finder, finder.best, options, time.monotonic() - began)
    return STOPPED if finder.is_stopped else 0


def without(finder: Finder, options: argparse.Namespace) -> str:
    """Why no plan was found."""
    known, period = finder.known, options.period
    if period is not None and period < known.bound:
        return f"no plan has period {period}: {known.reason}"
    if period in known.refuted:
        return f"no plan has period {period}: it is refuted by {known.refuted[period]}"
    return f"no plan was found in {options.seconds} seconds; none has a period below {known.bound}: {known.reason}"


def tell(finder: Finder, best: Places, options: argparse.Namespace, seconds: float) -> None:
    """What is known of the plan that was written."""
    if options.period is None:
        say(finder.known.verdict(best.period))
    say(f"period {best.period}, {best.count()} registers of {bits_of(best, finder.wanted.inputs)} bits, unroll "
        f"{best.unroll}, in {seconds:.0f} seconds; {CHECKED}")
    if best.period != finder.problem.datapath["period"] and not options.datapath:
        say(f"it is a plan over {options.file} with `period = {best.period}`, which --datapath FILE writes")


def tabled(options: argparse.Namespace) -> int:
    """Prints the table of the examples row by row."""
    def said(row: Row) -> None:
        print(row.line(), end="", flush=True)

    solver = solver_of(options)
    print(HEAD, end="", flush=True)
    rows_of(SILC.found(), options.files, solver, options.seconds, options.seed, said)
    return 0


def options_of(words: list[str]) -> argparse.Namespace:
    parser = argparse.ArgumentParser(prog="plan", usage=(__doc__ or "").partition("usage: ")[2].partition("\n\n")[0],
                                     description=__doc__, formatter_class=argparse.RawDescriptionHelpFormatter)
    parser.add_argument("files", nargs="*", metavar="SRC DP")
    parser.add_argument("-o", dest="out", metavar="PLAN")
    parser.add_argument("--stages", type=int, choices=STAGES, default=1, metavar="S")
    parser.add_argument("--seconds", type=positive, default=SECONDS, metavar="N")
    parser.add_argument("--registers", action="store_true")
    parser.add_argument("--period", type=positive, metavar="P")
    parser.add_argument("--roomy", action="store_true")
    parser.add_argument("--solver", choices=[*SOLVERS, NONE], metavar="NAME")
    parser.add_argument("--seed", type=int, default=1, metavar="N")
    parser.add_argument("--datapath", metavar="FILE")
    parser.add_argument("--table", action="store_true")
    add_force(parser)
    options = parser.parse_args(words)
    if options.table:
        if options.out or options.datapath or options.registers or options.period or options.roomy:
            parser.error("--table goes with --seconds, --solver and --seed alone")
        return options
    if len(options.files) != 2:
        parser.error("it takes SRC and DP, or --table")
    options.source, options.file = options.files
    return options


def main(words: list[str]) -> int:
    options = options_of(words)
    return ended("plan", lambda: tabled(options) if options.table else planned(options), NotFound, NotMade, NoProgram,
                 NoPlan)
