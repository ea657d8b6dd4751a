"""Datapath files, as far as a core needs them: names, who drives each bus and where it goes, and the widest word."""
import re
import tomllib
from collections.abc import Iterator
from dataclasses import dataclass
from pathlib import Path
from typing import Any, TypeAlias

from silc.micro_file.image import Image
from silc.micro_file.operations import PORTS
from silc.sure import sure

from .netlist import NoCore

# A table of a datapath file.
Table: TypeAlias = dict[str, Any]

NAME = re.compile(r"[A-Za-z0-9_]{1,32}")


@dataclass
class Ends:
    """A bus with the numbers of the units that may drive it, and the (unit, port) pairs that it may be taken into."""
    name: str
    from_: list[int]
    to: list[tuple[int, int]]


@dataclass
class Names:
    """What the units and the buses are called, and from a datapath file the widest word and the ends of the buses."""
    units: list[str]
    buses: list[str]
    word: int | None = None
    ends: list[Ends] | None = None


def numbered(image: Image) -> Names:
    """Names for an image without a datapath file."""
    return Names([str(number) for number in range(len(image.units))], [str(number) for number in range(image.buses)])


def called(tables: list[Table]) -> list[str]:
    """The names of units or of buses, which stand in the text of a core."""
    names = [table["name"] for table in tables]
    for name in names:
        if not NAME.fullmatch(name):
            raise ValueError(f"{name!r} is no name")
        if names.count(name) > 1:
            raise ValueError(f"two have the name {name}")
    return names


def unit_faults(image: Image, tables: list[Table], names: list[str]) -> Iterator[str]:
    """How the units of a datapath differ from those of an image."""
    if len(tables) != len(image.units):
        yield f"it has {len(tables)} units, and the microcode {len(image.units)}"
    for table, unit in zip(tables, image.units):
        asked = {"kind": unit.kind, "latency": unit.latency, "gap": unit.gap,
                 "files": [len(file) for file in unit.files]}
        given = {"kind": table["kind"], "latency": table.get("latency", 1), "gap": table.get("gap", 1),
                 "files": table.get("files", [])}
        if unit.kind == "ram":
            asked["cells"], given["cells"] = len(unit.cells), table["cells"]
        if unit.kind == "acu":
            asked["ram"], given["ram"] = names[sure(unit.ram)], table["ram"]
        for key, value in asked.items():
            if given[key] != value:
                yield f"unit {table['name']} has {key} {given[key]}, and that of the microcode {value}"


def bus_faults(image: Image, ends: list[Ends], names: list[str]) -> Iterator[str]:
    """Where an image drives a bus or takes from one as the datapath does not allow."""
    if len(ends) != image.buses:
        yield f"it has {len(ends)} buses, and the microcode {image.buses}"
        return
    for word in image.words:
        for unit, bus in word.enables:
            if unit not in ends[bus].from_:
                yield f"the microcode drives bus {ends[bus].name} by {names[unit]}, which is not in its from"
        for take in word.takes:
            if (take.unit, take.port) not in ends[take.bus].to:
                port = f"{names[take.unit]}.{take.port}"
                yield f"the microcode takes from bus {ends[take.bus].name} into {port}, which is not in its to"


def ends_of(table: Table, names: list[str]) -> Ends:
    """The ends of a bus, by the numbers of the units."""
    def end(text: str) -> tuple[int, int]:
        unit, _, port = text.rpartition(".")
        return names.index(unit), int(port)
    return Ends(table["name"], sorted(map(names.index, table["from"])), sorted(map(end, table["to"])))


def faults_of(image: Image, tree: Table, made: Names) -> Iterator[str]:
    if tree["period"] != image.period:
        yield f"it has period {tree['period']}, and the microcode {image.period}"
    yield from unit_faults(image, tree["unit"], made.units)
    yield from bus_faults(image, sure(made.ends), made.units)
    for name, ends in zip(made.buses, sure(made.ends)):
        if any(unit >= len(image.units) or port >= PORTS[image.units[unit].kind] for unit, port in ends.to):
            yield f"bus {name} goes to a port that is not there"


def names_of(text: str, image: Image) -> Names:
    """The names of a datapath file for the image, or NoCore where the file is not that of its hardware."""
    try:
        tree = tomllib.loads(text)
        units = called(tree["unit"])
        made = Names(units, called(tree["bus"]), tree["word"], [ends_of(table, units) for table in tree["bus"]])
        fault = next(faults_of(image, tree, made), None)
    except (tomllib.TOMLDecodeError, KeyError, TypeError, AttributeError, ValueError, IndexError) as why:
        raise NoCore(f"it is no datapath file: {why}") from why
    if fault:
        raise NoCore(f"it is not the datapath of the microcode: {fault}")
    return made


def names_of_file(file: str, image: Image) -> Names:
    """The names of a datapath file for the image; NoCore names the file where it is not that of its hardware."""
    try:
        return names_of(Path(file).read_text(), image)
    except UnicodeDecodeError as why:
        raise NoCore(f"{file}: it is no text") from why
    except NoCore as why:
        raise NoCore(f"{file}: {why}") from why
