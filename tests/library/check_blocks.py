#!/usr/bin/env python3
"""Whether each block of library/ gives the words of its model (models.py), which is no part of `silc`: with its own
numbers, at corners of their ranges and with random ones, over random and extreme rows, by `silc eval`; and by `silc
run` on a processor with one multiplier, but for a few of these.

usage: tests/library/check_blocks.py [--silc PROGRAM] [--jobs N] [--write] [BLOCK ..]

N blocks are tried at a time, as many as there are processors without it. --write makes the rows beside each block, in
library/rows; else it says where they are others. It runs the built `silc`, PROGRAM, or the one that `SILC` names.
"""
import argparse
import itertools
import os
import random
import subprocess
import sys
import tempfile
import zlib
from collections.abc import Iterable, Iterator, Sequence
from concurrent.futures import ProcessPoolExecutor
from fractions import Fraction
from pathlib import Path
from typing import TypeAlias

from models import INPUTS, LINEAR, MODELS

from silc.linking.blocks import Library
from silc.linking.linker import Setting, alone
from silc.linking.trying import FOLDER, Trial, setting_at, trials_in
from silc.made_files import put_whole

# Rows of words.
Rows: TypeAlias = list[tuple[int, ...]]

HERE = Path(__file__).resolve().parent
ROOT = HERE.parent.parent
DATAPATH = ROOT / "library" / "one_multiplier.toml"
# How many rows a setting has, on the processor and beside the block; how many corners and random settings there are.
ROWS, RUN_ROWS, SHOWN_ROWS, CORNERS, RANDOM, RUNS, SHOWN = 120, 40, 24, 4, 3, 2, 3


class Block:
    """A block of the library with its model."""

    def __init__(self, library: Library, name: str) -> None:
        self.library, self.block, self.name = library, library.block(name), name
        self.dice = random.Random(zlib.crc32(name.encode()))
        corners = self.block.corners()
        picked = [corners[0], corners[-1], *self.dice.sample(corners, min(len(corners), CORNERS))]
        own = setting_at(self.block, {})
        some = [own, *(setting_at(self.block, numbers) for numbers in [*picked, *(self.any() for _ in range(RANDOM))])]
        self.settings = list(dict.fromkeys(some))

    def any(self) -> dict[str, Fraction]:
        """Random numbers in the ranges of a block."""
        numbers = {}
        for let in self.block.lets:
            items = self.block.range(let, numbers).items if let.range else []
            low, high, step = self.dice.choice([item for item in items if item[0] <= item[1]])
            numbers[let.name] = low + step * self.dice.randint(0, int((high - low) / step))
        return numbers

    def numbers(self, setting: Setting) -> dict[str, int]:
        return {name: int(number) for name, number in setting.given}

    def inputs(self, setting: Setting) -> list[tuple[int, int]]:
        return INPUTS[self.name](**self.numbers(setting))

    def rows(self, setting: Setting, count: int) -> Rows:
        """Rows of extremes, of small and of random words, one kind after another; then all words but the first stay."""
        ends, dice = self.inputs(setting), self.dice
        kinds = [lambda low, high: dice.choice((low, high)), lambda low, high: dice.randint(low, high), lambda low,
                 high: high, lambda low, high: max(low, min(high, dice.randint(-2, 2))), lambda low, high: low,
                 lambda low, high: dice.choice((low, 0, 0, 0, high)), lambda low, high: dice.randint(low, high)]
        share = -(-count // (len(kinds) + 3))
        made = [tuple(kind(*end) for end in ends) for kind in kinds for _ in range(share)]
        steady = [dice.randint(max(low, 0), high) for low, high in ends[1:]]
        return (made + [(dice.randint(*ends[0]), *steady) if ends else () for _ in range(count)])[:count]

    def worst(self, setting: Setting, count: int) -> Rows:
        """The rows that bring the output of a linear block furthest: by the signs of its answer to the greatest word,
        backward."""
        low, high = self.inputs(setting)[0]
        answer = [row[0] for row in self.model(setting, [(high,), *[(0,)] * (count - 1)])]
        return [(high,) if word > 0 else (low,) for word in reversed(answer)]

    def model(self, setting: Setting, rows: Rows) -> Rows:
        return MODELS[self.name](rows, **self.numbers(setting))

    def all_rows(self, setting: Setting) -> Rows:
        rows = self.rows(setting, ROWS)
        return rows + self.worst(setting, ROWS) if self.name in LINEAR else rows

    def trials(self) -> list[Trial]:
        """What stands beside the block."""
        made = []
        for setting in self.settings[:SHOWN]:
            self.dice.seed(str(setting))
            rows = self.rows(setting, SHOWN_ROWS)
            made.append(Trial(setting, list(zip(rows, self.model(setting, rows)))))
        return made


def text_of(rows: Iterable[Sequence[int]]) -> str:
    return "".join(",".join(map(str, row)) + "\n" for row in rows)


def carried_out(room: Path, words: Sequence[str]) -> str:
    done = subprocess.run([os.environ["SILC"], *words], cwd=room, stdin=subprocess.DEVNULL, capture_output=True,
                          text=True)
    return done.stderr.strip() or (room / "rows").read_text()


def row_faults(room: Path, block: Block) -> Iterator[str]:
    """Where rows of `eval`, and of `run` for a few settings, are others than those of the model."""
    for number, setting in enumerate(block.settings):
        rows = block.all_rows(setting)
        (room / "source").write_text(alone(block.library, setting).text)
        for command in ("eval", "run")[:2 if number < RUNS else 1]:
            given = rows if command == "eval" else rows[:RUN_ROWS]
            (room / "samples").write_text(text_of(given))
            datapath = [str(DATAPATH)] if command == "run" else []
            made = carried_out(room, [command, "source", *datapath, "samples", "rows"])
            wanted = text_of(block.model(setting, given))
            if made != wanted:
                yield f"{setting}: {command}: {difference(made, wanted)}"


def difference(made: str, wanted: str) -> str:
    lines = zip(made.splitlines(), wanted.splitlines())
    return next((f"row {number} is {one} in the place of {two}" for number, (one, two) in enumerate(lines, 1)
                 if one != two),
                f"{made.count(chr(10))} rows in the place of {wanted.count(chr(10))}")


def beside_faults(block: Block) -> Iterator[str]:
    if [trial.text() for trial in block.trials()] != [trial.text() for trial in trials_in(block.block)]:
        yield f"library/rows/{block.name}.txt is not what tests/library/check_blocks.py --write makes"


def options_of(words: list[str]) -> argparse.Namespace:
    """The options and the names of the blocks."""
    parser = argparse.ArgumentParser(usage=__doc__.partition("usage: ")[2].partition("\n")[0])
    parser.add_argument("--silc", default=os.environ.get("SILC", ROOT / "crates" / "silc_main" / "out" / "silc_main"))
    parser.add_argument("--jobs", type=int, default=os.cpu_count())
    parser.add_argument("--write", action="store_true")
    parser.add_argument("names", nargs="*")
    return parser.parse_args(words)


def tried(name: str, is_written: bool) -> tuple[int, list[str]]:
    """How many settings of a block were tried, and their faults."""
    library = Library()
    if name not in MODELS or name not in library.names():
        return 0, [f"{name} is no block, or has no model"]
    block = Block(library, name)
    if is_written:
        file = Path(block.block.file.name).parent / FOLDER / f"{name}.txt"
        put_whole(file, "".join(trial.text() for trial in block.trials()))
    with tempfile.TemporaryDirectory(prefix="silc-blocks-") as room:
        return len(block.settings), [*row_faults(Path(room), block), *beside_faults(block)]


def main(words: list[str]) -> int:
    options = options_of(words)
    os.environ["SILC"] = str(Path(options.silc).resolve())
    names = options.names or Library().names()
    with ProcessPoolExecutor(options.jobs) as pool:
        done = list(pool.map(tried, names, itertools.repeat(options.write)))
    faults = [fault for _, found in done for fault in found]
    for fault in faults:
        print(fault)
    print(f"library: {len(names)} blocks, {sum(count for count, _ in done)} settings, {len(faults)} faults")
    return 1 if faults else 0


if __name__ == "__main__":
    sys.exit(main(sys.argv[1:]))
