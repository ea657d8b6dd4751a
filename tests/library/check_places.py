#!/usr/bin/env python3
"""Whether the tools tell places of sources that are linked where they are: names that are put wrong into the sources of
the examples, and into the blocks that they use, one after another; and the lines of the nodes of their schedules.

usage: tests/library/check_places.py

It runs the built `silc` and `silc_show`, or those that `SILC` and `SILC_SHOW` name.
"""
import contextlib
import io
import random
import re
import subprocess
import sys
import tempfile
import xml.etree.ElementTree as Xml
from collections.abc import Iterator
from pathlib import Path
from types import ModuleType

from silc.commands import check, draw
from silc.programs import SILC

ROOT = Path(__file__).resolve().parent.parent.parent
EXAMPLES, LIBRARY = ROOT / "examples", ROOT / "library"
SOURCES = ("voice", "guitar")
# How many names of each source, and of all blocks that it uses, are put wrong.
OWN, OF_BLOCKS = 12, 12
WRONG = "not_there"
COMMENT = re.compile(r"/\*.*?\*/", re.S)
# What an equation reads, behind `=` and before `;`: names that no call is of and that are not in braces.
EQUATION = re.compile(r"^ +[\w\[\]+]+ = (.*);", re.M)
READ = re.compile(r"\{[^{}]*\}|(?P<call>[A-Za-z_]\w*\s*\()|(?P<name>[A-Za-z_]\w*)")
# A block has it to be tried by, and it is left out.
TRIAL = "func main("
USED = re.compile(r"^use (\w+)", re.M)
SVG = "{http://www.w3.org/2000/svg}"
NODE = re.compile(r"node \d+: .*; (\S+) in line (?:(\S+):)?(\d+)")
# The signal at the end of the name of an element, as `room_1.s[3]`, and the function that was called.
SIGNAL = re.compile(r"(?:(\w+)\.)?(\w+)(?:\[\d+\])*$")
KEYWORDS = {"if", "fi", "round", "sat", "trunc", "true", "false", "fix"}


def said(tool: ModuleType, *words: object) -> tuple[int, str]:
    """What a tool prints, in this process."""
    out = io.StringIO()
    with contextlib.redirect_stdout(out):
        status = tool.main([str(word) for word in words])
    return status, out.getvalue()


def names_in(text: str) -> Iterator[tuple[int, int]]:
    """The places of names that equations read, each from one place to another."""
    code = COMMENT.sub(lambda found: re.sub(r"[^\n]", " ", found[0]), text)
    for equation in EQUATION.finditer(code):
        for found in READ.finditer(code, *equation.span(1)):
            if found["name"] and found["name"] not in KEYWORDS:
                yield found.span()


def place_of(text: str, at: int) -> tuple[int, int]:
    before = text[:at]
    return before.count("\n") + 1, at - (before.rfind("\n") + 1) + 1


def own_faults(name: str, dice: random.Random) -> Iterator[str]:
    """Names of a source that are put wrong, and what is said of each."""
    text = (EXAMPLES / name / f"{name}.blocks").read_text()
    places = list(names_in(text))
    for start, end in dice.sample(places, min(OWN, len(places))):
        with tempfile.TemporaryDirectory(prefix="silc-places-") as folder:
            file = Path(folder) / f"{name}.blocks"
            file.write_text(text[:start] + WRONG + text[end:])
            line, column = place_of(text, start)
            wanted = f"{file}:{line}:{column}-{column + len(WRONG)}: nothing "
            status, lines = said(check, file)
            if status != 1 or not lines.startswith(wanted) or not lines.endswith(f" is called `{WRONG}`\n"):
                yield f"{name}: {text[start:end]} in line {line}: {lines!r} in the place of {wanted!r}"


def reached(block: str) -> set[str]:
    """A block, and those that it uses."""
    inner = USED.findall((LIBRARY / f"{block}.sil").read_text())
    return {block, *(other for name in inner for other in reached(name))}


def lines_leading(text: str) -> dict[str, set[int]]:
    """The lines of a source that lead to each block."""
    made: dict[str, set[int]] = {}
    for found in USED.finditer(text):
        for block in reached(found[1]):
            made.setdefault(block, set()).add(place_of(text, found.start())[0])
    return made


def block_faults(name: str, dice: random.Random) -> Iterator[str]:
    """Names of the blocks of a source that are put wrong."""
    source = EXAMPLES / name / f"{name}.blocks"
    leading = lines_leading(source.read_text())
    texts = {block: (LIBRARY / f"{block}.sil").read_text() for block in leading}
    places = [(block, *span) for block in sorted(texts) for span in names_in(texts[block].partition(TRIAL)[0])]
    for block, start, end in dice.sample(places, min(OF_BLOCKS, len(places))):
        text = texts[block]
        with tempfile.TemporaryDirectory(prefix="silc-places-") as folder:
            file = Path(folder) / f"{block}.sil"
            file.write_text(text[:start] + WRONG + text[end:])
            line, column = place_of(text, start)
            wanted = f"{file}:{line}:{column}-{column + len(WRONG)}: nothing "
            status, lines = said(check, "--library", folder, source)
            if status != 1 or not lines.startswith(wanted) or f" is called `{WRONG}` (of {block}<" not in lines \
                    or not any(lines.endswith(f", by {source}:{leads})\n") for leads in leading[block]):
                yield f"{name}: {block}: {text[start:end]} in line {line}: {lines!r} in the place of {wanted!r}"


def schedule_faults(name: str) -> Iterator[str]:
    """The lines of the nodes of a schedule have the names of their elements, and of a parameter of the function that is
    called."""
    folder = EXAMPLES / name
    source, datapath = folder / f"{name}.blocks", folder / "one_multiplier.toml"
    with tempfile.TemporaryDirectory(prefix="silc-places-") as room:
        plan = Path(room) / "plan"
        plan.write_bytes(subprocess.run([SILC.found(), "schedule", folder / f"{name}.sil", datapath],
                                        capture_output=True).stdout)
        status, picture = said(draw, "schedule", plan, datapath, source)
    titles = [title.text for title in Xml.fromstring(picture).iter(f"{SVG}title")] if status == 0 else []
    nodes = {found.groups() for title in titles if (found := NODE.fullmatch(title))}
    files = {file for _, file, _ in nodes}
    if len(files) < 3 or None not in files:
        yield f"{name}: the nodes are of {files}"
    for element, file, line in nodes:
        text = (LIBRARY / file if file else source).read_text().splitlines()[int(line) - 1]
        called, signal = SIGNAL.search(element).groups()
        if not re.search(rf"\b{signal}\b", text) and not re.search(rf"\b{called}\(", text):
            yield f"{name}: {element} is not in line {line} of {file or source.name}"


def main() -> int:
    sys.setrecursionlimit(20_000)
    dice, faults = random.Random(11), []
    for name in SOURCES:
        faults += [*own_faults(name, dice), *block_faults(name, dice), *schedule_faults(name)]
    for fault in faults:
        print(fault)
    print(f"places: {len(SOURCES)} sources, {len(faults)} faults")
    return 1 if faults else 0


if __name__ == "__main__":
    sys.exit(main())
