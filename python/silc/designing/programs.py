"""Runs of the built programs: rows of `silc eval`, words of `silc_show values`, nodes of `silc_show graph`."""
import os
import re
import subprocess
import sys
import tempfile
from collections.abc import Callable, Iterable, Sequence
from dataclasses import dataclass
from pathlib import Path
from typing import NoReturn, TypeAlias, TypeVar

from silc.designing.shapes import Shape
from silc.programs import SHOW, SILC, NoProgram

Made = TypeVar("Made")
# Rows of raw words.
Rows: TypeAlias = Iterable[Sequence[int]]

PROGRAMS = {program.name: program for program in (SILC, SHOW)}
ELEMENT = re.compile(r"element (\S+) : (?:fix<(\d+),(\d+),[\w,]+>|bool)")
# What `silc_show` prints in the place of a page.
FAULT = "fault "


class Unrun(Exception):
    """Why a program gave no answer."""


def program(name: str) -> str:
    try:
        return os.path.realpath(PROGRAMS[name].found())
    except NoProgram as why:
        raise Unrun(str(why)) from why


def ran(name: str, *words: str, room: Path | None = None) -> str:
    done = subprocess.run([program(name), *words], cwd=room, stdin=subprocess.DEVNULL, capture_output=True, text=True)
    if done.returncode:
        raise Unrun(done.stderr.strip().removeprefix(f"{name}: ") or f"{name} ended with {done.returncode}")
    return done.stdout


def text_of(rows: Rows) -> str:
    return "".join(",".join(map(str, row)) + "\n" for row in rows)


def in_room(source: str, rows: Rows, run: Callable[[Path], Made]) -> Made:
    """What a run gives in a folder where the source and the rows are."""
    with tempfile.TemporaryDirectory(prefix="silc-bench-") as folder:
        room = Path(folder)
        (room / "source").write_text(source)
        (room / "samples").write_text(text_of(rows))
        return run(room)


def evaluated(source: str, rows: Rows) -> list[tuple[int, ...]]:
    """The output rows of a source over rows of samples."""
    def run(room: Path) -> list[tuple[int, ...]]:
        ran("silc", "eval", "source", "samples", "rows", room=room)
        return rows_of((room / "rows").read_text())
    return in_room(source, rows, run)


def refuse(source: str, fault: str) -> NoReturn:
    """Raises why `silc_show` prints a fault, in the words of `silc` where the source is refused."""
    evaluated(source, [])
    raise Unrun(fault)


def fall_silent() -> None:
    """Lets nothing more be written to standard output, whose reader has seen enough."""
    os.dup2(os.open(os.devnull, os.O_WRONLY), sys.stdout.fileno())


def rows_of(text: str) -> list[tuple[int, ...]]:
    """Rows of whole numbers; `ValueError` has the line of the first that is none."""
    rows = []
    for number, line in enumerate(text.splitlines(), 1):
        try:
            rows.append(tuple(map(int, line.split(","))))
        except ValueError as fault:
            raise ValueError(f"line {number}: {line!r} is no row of whole numbers") from fault
    return rows


@dataclass
class Element:
    """An element by its name, the shape of its words (`None` for a truth value), and its word at each sample."""
    name: str
    shape: Shape | None
    words: list[int]


def element_of(line: str) -> Element:
    found = ELEMENT.fullmatch(line)
    if not found:
        raise Unrun(f"silc_show says {line!r} of an element")
    name, width, places = found.groups()
    return Element(name, Shape(int(width), int(places)) if width else None, [])


def valued(source: str, rows: Rows) -> list[Element]:
    """The elements of a source, each with its words over rows of samples."""
    text = in_room(source, rows, lambda room: ran("silc_show", "values", "source", "samples", room=room))
    fault = fault_in(text)
    if fault:
        refuse(source, fault)
    return elements_in(text)


def fault_in(text: str) -> str | None:
    """The line in which `silc_show` tells a fault, where it does."""
    return next((line for line in text.splitlines() if line.startswith(FAULT)), None)


def elements_in(text: str) -> list[Element]:
    """The elements with their words, of what `silc_show values` prints."""
    elements: list[Element] = []
    group: list[Element] = []
    for line in text.splitlines():
        if line.startswith("element "):
            group = [] if group and group[0].words else group
            group.append(element_of(line))
            elements.append(group[-1])
        else:
            for element, word in zip(group, line.split(",")):
                element.words.append(int(word))
    return elements


@dataclass(frozen=True)
class Node:
    """An operation of a source's graph, with the nodes that it reads and their delays."""
    operation: str
    operands: tuple[tuple[int, int], ...]


def graph_of(source: str) -> list[Node]:
    """The nodes of a source's graph."""
    nodes = []
    for line in in_room(source, [], lambda room: ran("silc_show", "graph", "source", room=room)).splitlines():
        if line.startswith(FAULT):
            refuse(source, line)
        if line.startswith("node "):
            words = line.split()
            reads = words[words.index("operands") + 1:]
            reads = reads[: reads.index("initial")] if "initial" in reads else reads
            nodes.append(Node(words[2], tuple((int(node), int(delay or 0)) for node, _, delay in
                                              (read.partition("@") for read in reads))))
    return nodes


def longest_delay(nodes: Iterable[Node]) -> int:
    return max((delay for node in nodes for _, delay in node.operands), default=0)
