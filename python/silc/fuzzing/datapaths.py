"""Random datapath files: few or many units, wide or sparse routes, in several ways to write them."""
from collections.abc import Iterable, Iterator
from dataclasses import dataclass, field
from random import Random
from typing import Any

from silc.micro_file.operations import PORTS

MOST_ENTRIES, MOST_BUSES, MOST_UNITS = 256, 32, 32


@dataclass
class Unit:
    name: str
    kind: str
    files: list[int]
    latency: int = 1
    gap: int = 1
    cells: int = 0
    ram: str = ""


@dataclass
class Bus:
    name: str
    drivers: list[str]
    ports: list[str]


@dataclass
class Datapath:
    period: int
    word: int
    hold: int
    units: list[Unit] = field(default_factory=list)
    buses: list[Bus] = field(default_factory=list)


class Maker:
    """Makes datapaths. An ample one has a unit of each kind, large files and a route for every word."""

    def __init__(self, rng: Random, is_ample: bool) -> None:
        self.rng, self.is_ample = rng, is_ample

    def count(self) -> int:
        return self.rng.choice([1, 1, 1, 2, 3] if self.is_ample else [0, 1, 1, 1, 2, 4])

    def file_size(self) -> int:
        return 256 if self.is_ample else self.rng.choice([1, 2, 4, 16, 64, 256, 256])

    def unit(self, name: str, kind: str, **more: Any) -> Unit:
        rng = self.rng
        latency = rng.choice([1, 1, 1, 2, 3] if self.is_ample else [1, 1, 2, 3, 8])
        unit = Unit(name, kind, [self.file_size() for _ in range(PORTS[kind])], latency, rng.randint(1, latency),
                    **more)
        if kind in ("in", "out", "rom", "acu") and rng.random() < 0.7:
            unit.latency = unit.gap = 1
        return unit

    def units(self) -> list[Unit]:
        rng = self.rng
        units = [self.unit("inp", "in"), self.unit("outp", "out")]
        units += [self.unit("rom", "rom")] if self.is_ample or rng.random() < 0.9 else []
        for kind in ("alu", "mul", "sel"):
            units += [self.unit(f"{kind}{number}", kind) for number in range(self.count())]
        for number in range(self.count()):
            name = f"mem{number}"
            cells = rng.choice([256, 4096] if self.is_ample else [1, 2, 7, 64, 4096])
            units.append(self.unit(name, "ram", cells=cells))
            units += [self.unit(f"adr{number}_{more}", "acu", ram=name)
                      for more in range(rng.choice([1, 1, 1, 2, 0]))] \
                if not self.is_ample else [self.unit(f"adr{number}", "acu", ram=name)]
        if rng.random() < 0.3:
            rng.shuffle(units)
        return units[:MOST_UNITS]

    def buses(self, units: list[Unit]) -> list[Bus]:
        rng = self.rng
        drivers = [unit.name for unit in units if unit.kind != "out"]
        ports = [f"{unit.name}.{port}" for unit in units for port in range(PORTS[unit.kind])]
        style = rng.choice(["each", "each", "one", "few"] if self.is_ample
                           else ["each", "one", "few", "sparse", "sparse"])
        if style == "each":
            return [Bus(f"of_{name}", [name], list(ports)) for name in drivers]
        count = 1 if style == "one" else rng.randint(2, 6)
        if style != "sparse":
            return [Bus(f"b{number}", list(drivers), list(ports)) for number in range(count)]
        return [Bus(f"b{number}", some_of(rng, drivers), some_of(rng, ports)) for number in range(count)]

    def datapath(self) -> Datapath:
        rng = self.rng
        units = self.units()
        buses = self.buses(units)
        period = rng.choice([256, 512, 1024, 4096] if self.is_ample else [1, 5, 16, 64, 256, 1024, 4096])
        word = 40 if self.is_ample else rng.choice([8, 16, 24, 32, 40])
        return Datapath(period, word, rng.choice([0, 0, 1, 2, 3]), units, fitting(buses))


def some_of(rng: Random, names: list[str]) -> list[str]:
    return [name for name in names if rng.random() < 0.7]


def fitting(buses: list[Bus]) -> list[Bus]:
    """As many buses as there may be, with as many ports."""
    kept, left = [], MOST_ENTRIES
    for bus in buses[:MOST_BUSES]:
        kept.append(Bus(bus.name, bus.drivers, bus.ports[:left]))
        left -= len(kept[-1].ports)
    return kept


# Text


def pairs_of(unit: Unit) -> Iterator[tuple[str, str]]:
    yield "name", quoted(unit.name)
    yield "kind", quoted(unit.kind)
    if unit.latency > 1:
        yield "latency", str(unit.latency)
    if unit.gap > 1:
        yield "gap", str(unit.gap)
    if unit.files:
        yield "files", f"[{', '.join(map(str, unit.files))}]"
    if unit.kind == "ram":
        yield "cells", str(unit.cells)
    if unit.kind == "acu":
        yield "ram", quoted(unit.ram)


def quoted(name: str) -> str:
    return f'"{name}"'


def listed(names: list[str]) -> str:
    return f"[{', '.join(map(quoted, names))}]"


def text_of(datapath: Datapath, rng: Random) -> str:
    """The datapath as TOML: plain, or with keys in another order, comments, and values that are written in other
    ways."""
    is_plain = rng.random() < 0.6

    def table(pairs: Iterable[tuple[str, str]]) -> list[str]:
        pairs = list(pairs)
        if not is_plain:
            rng.shuffle(pairs)
        return [f"{key} = {value if is_plain else otherwise(rng, value)}" for key, value in pairs]

    top = (("period", str(datapath.period)), ("word", str(datapath.word)), ("hold", str(datapath.hold)))
    lines = table(pair for pair in top if pair != ("hold", "0") or rng.random() < 0.5)
    for unit in datapath.units:
        lines += ["[[unit]]", *table(pairs_of(unit))]
    for bus in datapath.buses:
        lines += ["[[bus]]",
                  *table([("name", quoted(bus.name)), ("from", listed(bus.drivers)), ("to", listed(bus.ports))])]
    if not is_plain:
        lines = [rng.choice([line] * 6 + [f"{line}  # a comment", f"\n{line}", f"  {line}"]) for line in lines]
    return "\n".join(lines) + "\n"


def otherwise(rng: Random, value: str) -> str:
    """The same value of TOML, in one of its other forms."""
    if value.isdigit():
        return rng.choice([value, f"+{value}", f"{int(value):#x}", f"{int(value):#o}", f"{int(value):#b}"])
    if value.startswith('"'):
        return rng.choice([value, f"'{value[1:-1]}'", f"''{value}''".replace('"', "'"), f'""{value}""'])
    return rng.choice([value, value.replace(", ", ",\n  "), value.replace("]", ", ]") if len(value) > 2 else value])
