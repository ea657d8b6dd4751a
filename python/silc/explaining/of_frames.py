"""Why a source has no frames, or no plan over them: what a row of frames would have, and what is lacking, in
numbers."""
from __future__ import annotations

import math
import subprocess
import tempfile
from collections.abc import Iterable, Iterator
from dataclasses import dataclass
from pathlib import Path
from typing import TYPE_CHECKING

from silc.explaining import lacks, of_plan
from silc.explaining.changes import Change, Key
from silc.explaining.hardware import Node
from silc.explaining.program import Source, element_name
from silc.explaining.refusals import FRAMES
from silc.explaining.report import Report, counted, listed
from silc.explaining.toml_places import Tree
from silc.exploring.template import text_of
from silc.micro_file import Image, image_of

if TYPE_CHECKING:
    from silc.explaining.command import Case

MOST_WORDS, MOST_LOAD, MOST_SHOWN = 16, 8192, 8
NO_FRAMES, NO_CELLS = 15, 7
SECONDS = 60


@dataclass
class Side:
    """The output words of a program or its input words, and which of them are slow."""
    what: str
    option: str
    names: list[str]
    slow: list[int]

    def unknown(self) -> int | None:
        """The first number that no word has."""
        return next((number for number in self.slow if number >= len(self.names)), None)

    def count(self, phases: int) -> int:
        """How many words a row of frames has."""
        return len(self.slow) + (len(self.names) - len(self.slow)) * phases

    def most_phases(self) -> int | None:
        """How many samples a frame may have at most."""
        fast = len(self.names) - len(self.slow)
        return (MOST_WORDS - len(self.slow)) // fast if fast else None

    def known(self) -> str:
        """The list without the numbers that no word has, as the command has it."""
        return ",".join(str(number) for number in self.slow if number < len(self.names)) or "-"


def sides_of(case: Case) -> Iterator[Side]:
    """The output words and the input words of the source."""
    main = Source(case.text("SRC")).funcs["main"]
    for what, option, decls in (("output", "DOWN", main.results), ("input", "UP", main.params)):
        names = [element_name(decl, place) for decl in decls for place in range(math.prod(decl.dims))]
        words = case.files[option]
        yield Side(what, option, names, [] if words == "-" else list(map(int, words.split(","))))


def report_of(case: Case) -> Report:
    """Why a source has no such frames."""
    sides, text = list(sides_of(case)), case.refusal.text
    if text == "frame too large":
        report = too_large(case)
    elif text == "frame has too many words":
        report = too_many(case, sides)
    else:
        report = unknown_word(next(side for side in sides if side.unknown() is not None))
    report.about = case.files["SRC"]
    return report


def unknown_word(side: Side) -> Report:
    count, last = len(side.names), len(side.names) - 1
    numbered = "with the number 0" if last == 0 else f"with the numbers 0 to {last}"
    report = Report(f"{side.option} names the {side.what} word {side.unknown()}, and the program has "
                    f"{counted(count, f'{side.what} word')}, {numbered}", f"write `{side.known()}` as {side.option}.",
                    FRAMES)
    shown = [f"`{name}` ({number})" for number, name in enumerate(side.names[:MOST_SHOWN])]
    more = ", .." if count > MOST_SHOWN else ""
    return report.note(
        f"{'It is' if count == 1 else 'They are'} {listed(shown) if not more else ', '.join(shown) + more}.")


def too_many(case: Case, sides: list[Side]) -> Report:
    phases = int(case.files["M"])
    side = next(side for side in reversed(sides) if side.count(phases) > MOST_WORDS)
    most = min(filter(None, (side.most_phases() for side in sides)))
    fast = len(side.names) - len(side.slow)
    report = Report(f"a row of frames would have {side.count(phases)} {side.what} words, and there may be {MOST_WORDS}",
                    f"write an M of at most {most}, or name slow words in {side.option}.", FRAMES)
    verb, slow = "stands" if fast == 1 else "stand", f", and {len(side.slow)} once" if side.slow else ""
    return report.note(f"{counted(fast, 'word')} {verb} there {phases} times{slow}.")


def too_large(case: Case) -> Report:
    phases = int(case.files["M"])
    most = next((fewer for fewer in range(phases - 1, 0, -1)
                 if answer_of(case, case.files["DP"], fewer)[0] != NO_FRAMES),
                None)
    cure = f"write an M of at most {most}" if most else "write a smaller program"
    report = Report(f"{counted(phases, 'sample')} of the program have more than {MOST_LOAD} elements and operations",
                    f"{cure}.", FRAMES)
    return report.note("Each scalar signal of each instance is an element, and those count that no output needs.")


def answer_of(case: Case, datapath: str | Path, phases: int | None = None) -> tuple[int, str, Image | None]:
    """The exit status of `silc frame` over another datapath or with other frames, its line, and the image that it
    makes."""
    with tempfile.TemporaryDirectory(prefix="silc-explain-") as folder:
        out = Path(folder, "frames.mic")
        words = [case.files["SRC"], datapath, str(phases or case.files["M"]), case.files["DOWN"], case.files["UP"], out]
        done = subprocess.run([case.silc, "frame", *words], stdin=subprocess.DEVNULL, capture_output=True,
                              timeout=SECONDS)
        image = image_of(out.read_bytes()) if done.returncode == lacks.PLANNED else None
    return done.returncode, done.stderr.decode(errors="replace"), image


# Plans over frames


def plan_report_of(case: Case) -> Report:
    """Why a source has no plan over frames."""
    return Unplanned(case, lacks.tree_of(case.text("DP"))).report()


class Unplanned(of_plan.Refused):
    """A source without a plan over frames. What its nodes are is known of the program alone, and not of its frames."""

    def nodes_here(self) -> list[Node]:
        return []

    def note_unknown(self, report: Report) -> None:
        report.note(f"Node {self.number} is one of the program over frames, whose nodes no command lists.")

    def trial(self) -> lacks.Trial:
        return Trial(self.case, self.tree)

    def full_parts(self, report: Report, changes: Iterable[Change], given: int, least: int) -> Report:
        """No command prints the plan, so what is full there is not known."""
        return report


class Trial(lacks.Trial):
    """A source over frames and a datapath, and how `silc frame` answers for others like it."""

    def __init__(self, case: Case, tree: Tree) -> None:
        super().__init__(lambda file: answer_of(case, file)[:2], tree, case.say)
        self.case = case

    def image(self, tree: Tree) -> Image | None:
        """The image of the plan over a datapath; nothing where there is none."""
        with tempfile.TemporaryDirectory(prefix="silc-explain-") as folder:
            file = Path(folder, "datapath.toml")
            file.write_text(text_of(tree))
            return answer_of(self.case, file)[2]

    def least_period(self) -> tuple[int, int, str] | None:
        image = self.image(lacks.roomy(self.tree) | {"period": lacks.LONGEST})
        if image is None:
            return None
        least = cycles_of(image)
        status, said = self.at_period(least)
        return least, status, said

    def registers(self, tree: Tree) -> dict[str, int] | None:
        image = self.image(lacks.roomy(tree))
        if image is None:
            return None
        sizes = {f"{unit['name']}.{port}": size for unit in tree["unit"]
                 for port, size in enumerate(unit.get("files", []))}
        return {file: count for file, count in registers_of(image, tree).items() if count > sizes[file]}

    def cells(self) -> tuple[int, int] | None:
        """How many cells the only memory has, and the fewest that there have to be."""
        number, unit = next((number, unit) for number, unit in enumerate(self.tree["unit"]) if unit["kind"] == "ram")
        if self.is_short(number, lacks.MOST_CELLS):
            return None
        low, high = unit["cells"], lacks.MOST_CELLS
        while low + 1 < high:
            middle = (low + high) // 2
            low, high = (middle, high) if self.is_short(number, middle) else (low, middle)
        return unit["cells"], high

    def is_short(self, number: int, cells: int) -> bool:
        """Whether a memory of so many cells has no room for all delay lines."""
        return self.answer(Key("unit", number, "cells", cells).made(self.tree))[0] == NO_CELLS


def cycles_of(image: Image) -> int:
    """In how many cycles of its period the last operation of a plan is done."""
    return max(number % image.period + image.units[unit].latency for number, word in enumerate(image.words)
               for unit in word.issues)


def registers_of(image: Image, tree: Tree) -> dict[str, int]:
    """How many registers microcode takes of each file, by `unit.port`."""
    taken: dict[str, int] = {}
    for take in (take for word in image.words for take in word.takes):
        file = f"{tree['unit'][take.unit]['name']}.{take.port}"
        taken[file] = max(taken.get(file, 0), take.register + 1)
    return taken
