"""Placing and routing of a design for an iCE40, by nextpnr, and the clock at which it runs.

nextpnr takes each multiplier as one with registers before and behind it, which those of a core need not have. So where
there are multipliers icetime judges the clock, which knows the way through one.
"""
from __future__ import annotations

import re
import shutil
import subprocess
from collections.abc import Sequence
from dataclasses import dataclass
from pathlib import Path

from .fpga import LARGE, LOGIC, MEMORIES, MISFIT, MULTIPLIERS, Fpga
from .netlist import NoCore
from .paths import net_names, path_names

PACKAGES = {"yosys": "yosys", "nextpnr-ice40": "nextpnr-ice40", "icetime": "fpga-icestorm", "icepack": "fpga-icestorm",
            "iverilog": "iverilog", "vvp": "iverilog"}
# The clock has the name of one of the pins that it goes to; what begins with `$` is an input that is always low.
CLOCK = re.compile(r"Max frequency for clock\s+'[^$'][^']*': ([\d.]+) MHz")
DELAY = re.compile(r"Total path delay: ([\d.]+) ns")
CELLS = re.compile(r"ICESTORM_LC: +(\d+)/ *(\d+)")
# How many of each kind nextpnr places, and how many there are.
TAKEN = re.compile(r"^Info:\s+(\w+): +(\d+)/ *(\d+) ", re.MULTILINE)
KINDS = {"ICESTORM_LC": LOGIC, "ICESTORM_RAM": MEMORIES, "ICESTORM_DSP": MULTIPLIERS, "ICESTORM_SPRAM": LARGE,
         "SB_IO": "pins"}
# What icetime says where its files of parts are not there, and the package that has them.
NO_CHIPDB, CHIPDB = "Can't find chipdb", "fpga-icestorm-chipdb"
# One placement is as good as another, and this one comes again.
SEED = "1"
# How long a program may take.
SECONDS = 1800


class Unrouted(NoCore):
    """Why a design is not there, or has no clock."""


class Ended(Unrouted):
    """A program that ended with a fault, and all that it said."""

    def __init__(self, why: str, said: str) -> None:
        super().__init__(why)
        self.said = said


def need(*programs: str) -> None:
    """Raises which program is lacking, and what installs it."""
    for program in programs:
        if not shutil.which(program):
            raise Unrouted(f"there is no {program}; apt-get install {PACKAGES[program]}")


def run(words: Sequence[str], folder: Path, what: str) -> str:
    """What a program says, or the line with its error."""
    try:
        done = subprocess.run(words, cwd=folder, stdin=subprocess.DEVNULL, capture_output=True, text=True,
                              timeout=SECONDS)
    except subprocess.TimeoutExpired:
        raise Unrouted(f"{what} does not come to its end") from None
    if done.returncode:
        lines = (done.stdout + done.stderr).strip().splitlines() or ["nothing"]
        told = next((line for line in lines if "ERROR" in line), lines[-1])
        raise Ended(f"{what} ended with {done.returncode}: {told}", done.stdout + done.stderr)
    return done.stdout + done.stderr


@dataclass(frozen=True)
class Routed:
    """A design that was routed: its clock in MHz, the names on its longest path, and how many cells of all it takes."""
    clock: float
    names: list[str]
    cells: tuple[int, int]


def misfit_in(said: str, fpga: Fpga) -> str | None:
    """Which numbers are over, by what nextpnr says of a design that it can't place, or nothing where none is. It packs
    cells, so that these may be others than those of synthesis."""
    over = [f"{taken} {KINDS[kind]}, and an {fpga.name} has {most}" for kind, taken, most in TAKEN.findall(said)
            if kind in KINDS and int(taken) > int(most)]
    return f"{MISFIT}placed, it takes {'; '.join(dict.fromkeys(over))}" if over else None


def placed(words: Sequence[str], folder: Path, fpga: Fpga) -> str:
    """What nextpnr says of a design that it placed and routed."""
    try:
        return run(["nextpnr-ice40", *fpga.words, *words, "--timing-allow-fail", "--seed", SEED], folder, "nextpnr")
    except Ended as why:
        misfit = misfit_in(why.said, fpga)
        if misfit:
            raise Unrouted(misfit) from None
        raise


def timed(name: str, folder: Path, fpga: Fpga) -> str:
    """What icetime says of the design NAME.asc."""
    try:
        return run(["icetime", "-d", fpga.name, "-m", "-t", f"{name}.asc"], folder, "icetime")
    except Ended as why:
        if NO_CHIPDB in why.said:
            raise Unrouted(f"icetime has no file of an {fpga.name}; apt-get install {CHIPDB}") from None
        raise


def routed(name: str, folder: Path, fpga: Fpga, megahertz: float | None, has_multipliers: bool,
           constraints: str | None = None) -> Routed:
    """Routes NAME.json of a folder to NAME.asc, for a clock of so many MHz."""
    need("nextpnr-ice40", *["icetime"] * has_multipliers)
    pins = ["--pcf", constraints] if constraints else ["--pcf-allow-unconstrained"]
    aim = ["--freq", f"{megahertz:.3f}"] if megahertz else []
    said = placed(["--json", f"{name}.json", "--asc", f"{name}.asc", *pins, *aim], folder, fpga)
    clocks, cells = CLOCK.findall(said), CELLS.findall(said)
    if not clocks or not cells:
        raise Unrouted("nextpnr tells no clock")
    clock, taken = float(clocks[-1]), (int(cells[-1][0]), int(cells[-1][1]))
    if not has_multipliers:
        return Routed(clock, path_names(said), taken)
    said = timed(name, folder, fpga)
    delay = DELAY.search(said)
    if not delay:
        raise Unrouted("icetime found no path")
    return Routed(min(clock, round(1e3 / float(delay[1]), 2)), net_names(said), taken)
