"""The longest path of a routed core, in the words of its datapath, and which latency or split would make it shorter."""
from __future__ import annotations

import re
from collections.abc import Iterable, Sequence
from dataclasses import dataclass

# What nextpnr says of a path: the cells and the nets on its way.
HEAD = re.compile(r"Critical path report for clock '(?!\$)")
CELL = re.compile(r"Info: +[\d.]+ +[\d.]+ +(?:Source|Setup) +(\S+)")
NET = re.compile(r"Info: +[\d.]+ +[\d.]+ +Net (\S+)")
# What icetime says of one: each net with the times at its ends.
ON_PATH = re.compile(r"^ +[\d.]+ ns \.\. +[\d.]+ ns (\S+)$", re.MULTILINE)
# The signals and parts of a core by their names, with the unit, file or bus that they belong to.
SIGNALS = {"product": "multiply", "multiply": "multiply", "exact": "sum", "add": "sum", "sum": "sum", "op": "sum",
           "judge": "truth value of", "truth": "truth value of", "quantise": "format of", "format": "format of",
           "word": "format of", "result": "result of", "u": "result of", "file": "file", "f": "file", "b": "bus",
           "memory": "memory", "read": "memory"}
SIGNAL = re.compile(r"(?:^|[.$\\])(" + "|".join(SIGNALS) + r")_(\w+)")
PROGRAM = re.compile(r"program_rows|sequencer|(?:^|[.$\\])row\b|c[ufb]_")


@dataclass(frozen=True)
class Unit:
    """A unit of the machine, by its name in the core."""
    name: str
    kind: str
    latency: int


@dataclass(frozen=True)
class Path:
    """The stations of a path, in their order, each once, and its units."""
    stations: tuple[str, ...]
    units: tuple[Unit, ...]

    def __str__(self) -> str:
        return ", ".join(self.stations) or "no signal that has a name"


def report_lines(said: str) -> list[str]:
    """The lines of the last report of a path from a clock to itself. A clock that begins with `$` is none."""
    return HEAD.split(said)[-1].partition("\n\n")[0].splitlines()


def owner_of(rest: str, units: Sequence[Unit]) -> tuple[str, Unit | None]:
    """What the end of a signal's name names, and its unit: the longest name of a unit that it begins with."""
    own = max((unit for unit in units if rest == unit.name or rest.startswith((f"{unit.name}_", f"{unit.name}."))),
              key=lambda unit: len(unit.name), default=None)
    if own is None:
        return re.split(r"_SB_|[.$\[]", rest)[0], None
    port = re.match(r"_(\d)(?!\d)", rest[len(own.name):])
    return f"{own.name}.{port[1]}" if port else own.name, own


def station_of(name: str, units: Sequence[Unit]) -> tuple[str, Unit | None] | None:
    """The station of a path that a net or a cell is in."""
    found = SIGNAL.search(name)
    if found:
        owner, unit = owner_of(found[2], units)
        kind = SIGNALS[found[1]]
        if kind in ("sum", "truth value of") and unit and unit.kind == "mul":
            kind = "multiply"
        return (f"{kind} of {owner}" if kind == "sum"
                else f"product of {owner}" if kind == "multiply" else f"{kind} {owner}"), unit
    return ("the microword", None) if PROGRAM.search(name) else None


def path_names(said: str) -> list[str]:
    """The names on the longest path of what nextpnr says."""
    found = (CELL.match(line) or NET.match(line) for line in report_lines(said))
    return [passed[1] for passed in found if passed]


def net_names(said: str) -> list[str]:
    """The names on the longest path of what icetime says."""
    return ON_PATH.findall(said)


def path_of(names: Iterable[str], units: Sequence[Unit]) -> Path:
    """A path by the names on it."""
    found = [station for station in (station_of(name, units) for name in names) if station]
    return Path(tuple(dict.fromkeys(text for text, _ in found)),
                tuple(dict.fromkeys(unit for _, unit in found if unit)))


def remedies(path: Path) -> Iterable[str]:
    """Which latency or split would take something out of a path."""
    for unit in path.units:
        if unit.kind == "mul" and unit.latency < 3 and any(text == f"product of {unit.name}" for text in path.stations):
            where = "behind its multiplier" if unit.latency == 1 else "before its multiplier"
            yield f"latency {unit.latency + 1} of {unit.name} puts a register {where}"
        elif (unit.kind == "mul" and any(text == f"format of {unit.name}" for text in path.stations)
              and unit.latency < 4):
            yield f"latency {max(unit.latency, 3) + 1} of {unit.name} puts a register behind its format"
        elif (unit.kind in ("alu", "sel") and unit.latency == 1
              and any(text.endswith(f" {unit.name}") for text in path.stations)):
            yield f"latency 2 of {unit.name} puts a register behind it"
        elif unit.kind == "ram" and unit.latency == 1 and f"memory {unit.name}" in path.stations:
            yield f"latency 2 of {unit.name} reads it at the end of the cycle, and not ahead of it"
    buses = [text for text in path.stations if text.startswith("bus ")]
    if buses:
        yield f"{buses[0]} with fewer units that drive it, its units split over two, has a smaller choice in the path"
