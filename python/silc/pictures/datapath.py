"""The units, register files and buses of a datapath file, and how wide each file is for a source."""
from collections.abc import Mapping
from typing import Any, TypeAlias

from silc.micro_file.operations import PORTS
from silc.pictures.picture import BLACK, BLUE, COLUMN, FILLS, GAP, LABELS, MARGIN, ORANGE, PAPER, Picture

# Of a unit: its left side, its width, the x of its ports, and that of its output where it has one.
Placed: TypeAlias = tuple[float, float, list[float], float | None]

DRIVES = {kind: kind != "out" for kind in PORTS}
UNIT_TOP, UNIT_HEIGHT, FILE_HEIGHT, BUS_STEP, LIST_STEP = 56, 70, 24, 30, 17
# The bits of each port, by its name, and the operand that needs them.
Widths: TypeAlias = Mapping[str, tuple[int, str]]


def columns_of(units: list[dict[str, Any]]) -> tuple[list[Placed], float]:
    """For each unit the x of its left side, its width, the x of its ports and of its output; and the width of all."""
    placed: list[Placed] = []
    x: float = MARGIN + LABELS
    for unit in units:
        count = PORTS[unit["kind"]] + DRIVES[unit["kind"]]
        width = max(count, 2) * COLUMN
        lines = [x + (k + 0.5) * width / count for k in range(count)]
        ports = lines[: PORTS[unit["kind"]]]
        placed.append((x, width, ports, lines[-1] if DRIVES[unit["kind"]] else None))
        x += width + GAP
    return placed, x - GAP + MARGIN


def notes_of(unit: dict[str, Any]) -> str:
    """What the file says of a unit beyond its kind."""
    words = []
    if unit.get("latency", 1) > 1:
        words.append(f"{unit['latency']} cycles")
        if unit.get("gap", 1) < unit["latency"]:
            words.append(f"every {unit.get('gap', 1)}")
    if "cells" in unit:
        words.append(f"{unit['cells']} cells")
    if "ram" in unit:
        words.append(f"of {unit['ram']}")
    return ", ".join(words)


def draw_units(picture: Picture, units: list[dict[str, Any]], placed: list[Placed], bottom: float,
               widths: Widths) -> None:
    for unit, (x, width, ports, output) in zip(units, placed):
        picture.box(x, UNIT_TOP, width, UNIT_HEIGHT, FILLS[unit["kind"]])
        picture.text(x + width / 2, UNIT_TOP + 20, unit["name"], 14)
        picture.text(x + width / 2, UNIT_TOP + 36, unit["kind"], 11)
        picture.text(x + width / 2, UNIT_TOP + 52, notes_of(unit), 10)
        foot = UNIT_TOP + UNIT_HEIGHT
        for port, (at, size) in enumerate(zip(ports, unit.get("files", []))):
            picture.line(at, foot + FILE_HEIGHT + 14, at, bottom, BLUE)
            picture.box(at - 17, foot + 12, 34, FILE_HEIGHT, PAPER, BLUE)
            picture.text(at, foot + 28, str(size), 11, BLUE)
            picture.line(at, foot, at, foot + 12, BLUE)
            picture.arrow(at, foot + 1, False, BLUE)
            picture.text(at + 6, foot + 50, str(port), 10, BLUE, "start")
            name = f"{unit['name']}.{port}"
            if name in widths:
                picture.text(at + 6, foot + 64, f"{widths[name][0]} bits", 9, BLUE, "start")
        if output is not None:
            picture.line(output, foot, output, bottom, ORANGE)
            picture.arrow(output, foot + 26, True, ORANGE)


def draw_buses(picture: Picture, datapath: dict[str, Any], placed: list[Placed], top: float, right: float) -> None:
    names = [unit["name"] for unit in datapath["unit"]]
    for row, bus in enumerate(datapath["bus"]):
        y = top + row * BUS_STEP
        picture.line(MARGIN + LABELS - 16, y, right, y, BLACK, 2.5)
        picture.text(MARGIN + LABELS - 24, y + 4, bus["name"], 12, BLACK, "end")
        for name in bus["from"]:
            output = placed[names.index(name)][3]
            if output is not None:
                picture.dot(output, y, ORANGE)
        for end in bus["to"]:
            name, _, port = end.rpartition(".")
            picture.dot(placed[names.index(name)][2][int(port)], y, BLUE)


def draw_list(picture: Picture, widths: Widths, top: float) -> None:
    """The operand that each port is as wide as."""
    for row, (name, (bits, operand)) in enumerate(widths.items()):
        picture.text(MARGIN, top + row * LIST_STEP, f"{name} has {bits} bits: {operand}", 11, BLACK, "start")


def draw_datapath(datapath: dict[str, Any], widths: Widths | None = None) -> str:
    widths = widths or {}
    placed, width = columns_of(datapath["unit"])
    top = UNIT_TOP + UNIT_HEIGHT + FILE_HEIGHT + 56
    bottom = top + (len(datapath["bus"]) - 1) * BUS_STEP
    height = bottom + 62 + len(widths) * LIST_STEP
    picture = Picture(width, height, "datapath")
    said = f"{datapath['period']} cycles a sample, words of {datapath['word']} bits"
    picture.text(MARGIN, 28, said, 13, BLACK, "start")
    draw_units(picture, datapath["unit"], placed, bottom, widths)
    draw_buses(picture, datapath, placed, top, width - MARGIN)
    key = bottom + 36
    for x, colour, words in ((MARGIN, ORANGE, "a unit drives the bus"),
                             (MARGIN + 190, BLUE, "a port's register file takes from it; its size in words")):
        picture.dot(x + 4, key - 4, colour)
        picture.text(x + 16, key, words, 11, BLACK, "start")
    draw_list(picture, widths, key + 2 * LIST_STEP)
    return picture.whole()
