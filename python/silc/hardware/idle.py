"""What of an image, and of a core, changes no row and no fault: a core has no hardware for it."""
from __future__ import annotations

from collections.abc import Collection, Iterator
from dataclasses import replace
from typing import TYPE_CHECKING

from silc.micro_file import Issue, Word
from silc.micro_file.image import Image

if TYPE_CHECKING:
    from .netlist import Core, File, Part


def taken_from(image: Image) -> Iterator[tuple[int, int]]:
    """The cycle and the unit of each issue whose result is taken."""
    for cycle, word in enumerate(image.words):
        driver = {bus: unit for unit, bus in word.enables}
        for take in word.takes:
            unit = driver[take.bus]
            yield (cycle - image.units[unit].latency + 1) % image.circle(), unit


def without_idle(image: Image) -> Image:
    """The image without issues whose result nothing takes, and without takes into files that nothing reads. An address
    may be outside of its memory, so loads and stores stay; but a store is as a load where its memory is never loaded
    from."""
    while True:
        taken = set(taken_from(image))
        loaded = {unit for _, unit in taken if image.units[unit].kind == "ram"}
        made = without_unread(image,
                              [active(issues_left(image, cycle, taken), loaded) for cycle in range(image.circle())])
        if made == image:
            return image
        image = made


def issues_left(image: Image, cycle: int, taken: set[tuple[int, int]]) -> list[Issue]:
    """The issues of a cycle that are an output, that may be outside of a memory, or whose result is taken."""
    return [issue for unit, issue in image.words[cycle].issues.items()
            if (cycle, unit) in taken or image.units[unit].kind in ("out", "ram")]


def active(issues: list[Issue], loaded: set[int]) -> dict[int, Issue]:
    """Issues by their units; a store into a memory that nothing loads from is a load of its address."""
    return {issue.unit: Issue(issue.unit, "load", None, 0, (issue.registers[0], 0))
            if issue.operation == "store" and issue.unit not in loaded else issue for issue in issues}


def without_unread(image: Image, issues: list[dict[int, Issue]]) -> Image:
    """The image with these issues in its cycles, and with takes into files alone that one of them reads."""
    read = {(issue.unit, port) for one in issues for issue in one.values() for port, _ in issue.operands()}
    return replace(image,
                   words=[Word(own, word.enables, [take for take in word.takes if (take.unit, take.port) in read])
                          for own, word in zip(issues, image.words)])


def without_units(image: Image, units: Collection[int]) -> Image:
    """The image without what these units are issued."""
    return without_unread(image, [{unit: issue for unit, issue in word.issues.items() if unit not in units}
                                  for word in image.words])


def keep_needed(core: Core) -> None:
    """Takes from a core what leads to no output and to no fault: buses, results, files, units."""
    buses, before = set[int](), None
    while buses != before:
        before = set(buses)
        results = {unit for bus in buses for unit in core.buses[bus].drivers}
        files = {unit: needed_files(part, unit in results) for unit, part in core.parts.items()}
        buses = {bus for one in files.values() for file in one.values() for bus in file.sources}
    for unit, part in core.parts.items():
        part.files = files[unit]
        part.result = part.result if unit in results else None
    core.buses = {bus: one for bus, one in core.buses.items() if bus in buses}
    core.parts = {unit: part for unit, part in core.parts.items() if part.result or part.kind == "out"
                  or part.can_stray()}


def needed_files(part: Part, has_result: bool) -> dict[int, File]:
    """The files at the ports that a unit has to read: all of one with a result and of an output, the address of a
    memory that may be outside of it."""
    if has_result or part.kind == "out":
        return part.files
    return {0: part.files[0]} if part.can_stray() else {}
