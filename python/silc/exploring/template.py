"""Templates: datapath files with ranges in the place of numbers."""
import itertools
import json
import math
import re
import tomllib
from collections.abc import Iterator
from fractions import Fraction
from hashlib import sha256
from typing import Any, TypeAlias

# The number of each range, by its name: whole, or of a source that is linked a fraction too.
Choice: TypeAlias = dict[str, int | Fraction]
ITEM = r"\d+(?:\s*\.\.\s*\d+(?:\s+step\s+\d+)?)?"
ITEMS = rf"{ITEM}(?:\s*,\s*{ITEM})*"
RANGE = re.compile(rf"\{{\s*(?:([A-Za-z_]\w*)\s*(?::\s*({ITEMS})\s*)?|({ITEMS})\s*)\}}")
NUMBERS = re.compile(r"(\d+)(?:\s*\.\.\s*(\d+)(?:\s+step\s+(\d+))?)?")
# The text that replaces a range, for TOML to read: its name, or else its number among all ranges.
MARK = re.compile(r"\{(\w+)\}")
MOST = 100_000
# The size of a file that is to have as many registers as the plan takes, and the most that there can be.
FIT, LARGEST_FILE = "fit", 256
PERIOD, TIMES, TABLES = "period", "times", ("unit", "bus")
DIGITS = 8


def numbers_of(items: str) -> list[int]:
    """The numbers of a range, in order and each once."""
    made: dict[int, None] = {}
    for item in items.split(","):
        found = NUMBERS.fullmatch(item.strip())
        if not found:
            raise ValueError(f"{item.strip()} is no range")
        low, high, step = found.groups()
        if step and int(step) == 0:
            raise ValueError(f"the range {item.strip()} has a step of 0")
        made |= dict.fromkeys(range(int(low), int(high or low) + 1, int(step or 1)))
    if not made:
        raise ValueError(f"the range {items.strip()} has no number")
    return list(made)


def marks_in(value: Any, place: list[str]) -> Iterator[tuple[str, str]]:
    """The marks in a part of a datapath file, each with its place, such as period, mul.latency or add.files.0."""
    if isinstance(value, str) and (mark := MARK.fullmatch(value)):
        yield mark[1], ".".join(place)
    elif isinstance(value, dict):
        for key, part in value.items():
            yield from marks_in(part, [*place, key])
    elif isinstance(value, list):
        for number, part in enumerate(value):
            yield from marks_in(part, [*place, str(number)])


class Fitting(int):
    """The size of a file that gives a plan all registers that it asks for, until the plan is known."""


def fitted(datapath: dict[str, Any], taken: dict[str, int]) -> dict[str, Any]:
    """The datapath with as many registers in its fitting files as a plan takes of each, and at least one."""
    def size_of(unit: dict[str, Any], port: int, size: Any) -> Any:
        return max(1, taken.get(f"{unit['name']}.{port}", 0)) if isinstance(size, Fitting) else size

    def unit_of(unit: dict[str, Any]) -> dict[str, Any]:
        if not isinstance(unit.get("files"), list):
            return unit
        return unit | {"files": [size_of(unit, port, size) for port, size in enumerate(unit["files"])]}

    return datapath | {"unit": list(map(unit_of, datapath["unit"]))}


def is_number(value: Any) -> bool:
    return isinstance(value, int) or isinstance(value, str) and MARK.fullmatch(value) is not None


class Template:
    """A datapath file with ranges: the numbers of each, and what has them."""

    def __init__(self, text: str, is_plain_allowed: bool = False) -> None:
        self.found: list[tuple[str | None, list[int]]] = []
        self.tree = tomllib.loads("".join(map(self.marked, text.splitlines(True))))
        self.check()
        self.names = self.names_of_ranges()
        self.ranges = {name: numbers for name, (_, numbers) in zip(self.names, self.found)}
        if len(self.ranges) < len(self.found):
            raise ValueError("two ranges have one name")
        self.count = math.prod(map(len, self.ranges.values()))
        if not self.found and not self.is_fitting and not is_plain_allowed or self.count > MOST:
            raise ValueError(f"it has {self.count} combinations, and {MOST} is the most" if self.found else
                             "it has no range, such as {1, 2} or {32..256 step 8}")

    def marked(self, line: str) -> str:
        """A line in which a text that names it replaces each range."""
        said, hash_mark, comment = line.partition("#")
        return RANGE.sub(self.mark, said) + hash_mark + comment

    def mark(self, found: re.Match[str]) -> str:
        name, named_items, items = found.groups()
        if items or named_items:
            self.found.append((name, numbers_of(items or named_items)))
        return json.dumps(f"{{{name or len(self.found) - 1}}}")

    def check(self) -> None:
        """What the script itself reads of a datapath; all else is judged by silc."""
        for table in TABLES:
            parts = self.tree.get(table)
            if not isinstance(parts, list) or not all(isinstance(part, dict) and isinstance(part.get("name"), str)
                                                      for part in parts):
                raise ValueError(f"it has no [[{table}]] with a name")
            for part in parts:
                if not is_number(part.get(TIMES, 1)):
                    raise ValueError(f"{TIMES} of {part['name']} is no number and no range")
        if not is_number(self.tree.get(PERIOD)):
            raise ValueError("it has no period")

    def names_of_ranges(self) -> list[str]:
        """The name of each range, or its place."""
        parts = [(part, [part["name"]]) for table in TABLES for part in self.tree[table]]
        parts += [(value, [key]) for key, value in self.tree.items() if key not in TABLES]
        marks = [mark for part in parts for mark in marks_in(*part)]
        places = dict(marks)
        self.is_fitting = FIT in places
        named = [name for name, _ in self.found if name]
        if any(".files." not in place for mark, place in marks if mark == FIT) or FIT in named:
            raise ValueError(f"{{{FIT}}} is the size of a file alone")
        unknown = [mark for mark in places if not mark.isdigit() and mark not in (*named, FIT)]
        if unknown or PERIOD in named:
            raise ValueError(f"no range is called {unknown[0]}" if unknown
                             else f"no range is to have the name {PERIOD}")
        return [name or places[str(number)] for number, (name, _) in enumerate(self.found)]

    def made_from(self, source: bytes) -> str:
        """Some digits that are others where the source or the template is another, but for the numbers of ranges."""
        own = json.dumps(self.tree, sort_keys=True, default=str).encode()
        return sha256(source + own).hexdigest()[:DIGITS]

    def choices(self) -> Iterator[Choice]:
        """All combinations, each as a number for each range."""
        for numbers in itertools.product(*self.ranges.values()):
            yield dict(zip(self.ranges, numbers))

    def datapath(self, choice: Choice) -> dict[str, Any]:
        """The datapath of a combination."""
        def filled(value: Any) -> Any:
            if isinstance(value, dict):
                return {key: filled(part) for key, part in value.items()}
            if isinstance(value, list):
                return [filled(part) for part in value]
            mark = MARK.fullmatch(value) if isinstance(value, str) else None
            if mark and mark[1] == FIT:
                return Fitting(LARGEST_FILE)
            return choice[self.names[int(mark[1])] if mark[1].isdigit() else mark[1]] if mark else value

        return repeated(filled(self.tree))


def copies_of(part: dict[str, Any]) -> list[dict[str, Any]]:
    """The copies of a part that is there several times: the first keeps its name, the others have a number after it."""
    rest = {key: value for key, value in part.items() if key != TIMES}
    names = (part["name"] + (f"_{number}" if number > 1 else "") for number in range(1, part.get(TIMES, 1) + 1))
    return [rest | {"name": name} for name in names]


def tied(units: list[dict[str, Any]], names: dict[str, list[str]]) -> Iterator[dict[str, Any]]:
    """Copies of an acu address the copies of its ram, one each; where these are fewer, the last one."""
    for number, unit in enumerate(units):
        rams = names.get(unit.get("ram", ""))
        yield unit | {"ram": rams[min(number, len(rams) - 1)]} if rams else unit


def repeated(datapath: dict[str, Any]) -> dict[str, Any]:
    """The datapath with each unit and bus as often as it is to be there. A bus whose last end goes is left out."""
    names = {unit["name"]: [copied["name"] for copied in copies_of(unit)] for unit in datapath["unit"]}

    def ends(listed: list[Any]) -> Iterator[str]:
        """Each end of a bus, with the same one of each copy of its unit."""
        for end in listed:
            unit, dot, port = str(end).partition(".")
            yield from (name + dot + port for name in names.get(unit, [unit]))

    buses = []
    for bus in datapath["bus"]:
        listed = {key: list(ends(bus[key])) for key in ("from", "to") if isinstance(bus.get(key), list)}
        if not any(bus[key] and not listed[key] for key in listed):
            buses += copies_of(bus | listed)
    units = [copied for unit in datapath["unit"] for copied in tied(copies_of(unit), names)]
    return datapath | {"unit": units, "bus": buses}


def text_of(datapath: dict[str, Any]) -> str:
    """The datapath as the text of a datapath file."""
    def line(key: str, value: Any) -> str:
        return f"{key} = {json.dumps(value, default=str)}"

    lines = [line(key, value) for key, value in datapath.items() if key not in TABLES]
    for table in TABLES:
        for part in datapath[table]:
            lines += [f"[[{table}]]", *itertools.starmap(line, part.items())]
    return "\n".join([*lines, ""])
