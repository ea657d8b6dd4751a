"""The rows beside each block: settings, and for each the rows that come in and go out.

    onepole<W=16, F=15, K=2>
    100 | 25
    100 | 44

They are in `rows/NAME.txt` of the block's folder. Their words come from models that are no part of `silc`
(tests/library).
"""
from __future__ import annotations

from collections.abc import Iterator, Sequence
from dataclasses import dataclass
from fractions import Fraction
from pathlib import Path

from silc.designing.programs import Unrun, evaluated
from silc.linking.blocks import Block, Library
from silc.linking.checked import check
from silc.linking.linker import Setting, alone
from silc.linking.numbers import NoNumber, number_of
from silc.linking.places import Unlinked

FOLDER, ENDING = "rows", ".txt"
Row = tuple[int, ...]


@dataclass(frozen=True)
class Trial:
    """A setting with rows: the words of each that come in, and those that are to go out."""
    setting: Setting
    rows: Sequence[tuple[Row, Row]]

    def text(self) -> str:
        words = (f"{','.join(map(str, given))} | {','.join(map(str, made))}\n" for given, made in self.rows)
        return f"{self.setting}\n" + "".join(words)


def setting_at(block: Block, given: dict[str, Fraction]) -> Setting:
    """The block with these numbers, and its own for the rest."""
    return Setting(block, tuple(block.numbers(given).items()))


def rows_file(block: Block) -> Path:
    return Path(block.file.name).parent / FOLDER / f"{block.name}{ENDING}"


def trials_in(block: Block) -> list[Trial]:
    """The settings beside a block, with their rows."""
    file = rows_file(block)
    found: list[Trial] = []
    rows: list[tuple[Row, Row]] = []
    for number, line in enumerate(file.read_text("ascii").splitlines(), 1):
        try:
            if "|" in line:
                given, _, made = line.partition("|")
                rows.append((words_of(given), words_of(made)))
            elif line.strip():
                rows = []
                found.append(Trial(setting_of(block, line), rows))
        except ValueError as fault:
            raise Unlinked(str(file), number, None, str(fault)) from fault
    return found


def words_of(text: str) -> Row:
    return tuple(map(int, text.split(",")))


def setting_of(block: Block, line: str) -> Setting:
    name, _, rest = line.strip().rstrip(">").partition("<")
    if name != block.name:
        raise ValueError(f"this is no setting of {block.name}")
    pairs = [part.split("=") for part in rest.split(",") if part.strip()]
    try:
        return setting_at(block, {name.strip(): number_of(number, {}) for name, number in pairs})
    except NoNumber as fault:
        raise ValueError(str(fault)) from fault


def corner_faults(library: Library, block: Block) -> Iterator[str]:
    """What the front end says of a block with its own numbers and at the corners of its ranges."""
    settings = [setting_at(block, {}), *(setting_at(block, numbers) for numbers in block.corners())]
    for setting in dict.fromkeys(settings):
        try:
            check(alone(library, setting))
        except Unlinked as fault:
            yield f"{fault} ({setting})"


def row_faults(library: Library, block: Block) -> Iterator[str]:
    """Where the rows of a block are others than those beside it."""
    for trial in trials_in(block):
        text = alone(library, trial.setting).text
        try:
            made = evaluated(text, [given for given, _ in trial.rows])
        except Unrun as fault:
            yield f"{block.file.name}: {trial.setting}: {fault}"
            continue
        for number, (put, (_, wanted)) in enumerate(zip(made, trial.rows, strict=True), 1):
            if put != wanted:
                yield f"{block.file.name}: {trial.setting}: row {number} is {put} in the place of {wanted}"
                break


def faults_of(library: Library, block: Block) -> Iterator[str]:
    yield from corner_faults(library, block)
    if rows_file(block).is_file():
        yield from row_faults(library, block)
    else:
        yield f"{block.file.name}: there are no rows beside it, in {rows_file(block)}"
