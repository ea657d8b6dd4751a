"""The table of the examples: what the rules find, and what a search does."""
from __future__ import annotations

import tomllib
from collections.abc import Callable, Iterator, Sequence
from dataclasses import dataclass
from pathlib import Path

from silc.exploring.bits import inputs_of
from silc.planning.check import check
from silc.planning.places import Places
from silc.planning.registers import bits_of
from silc.planning.ruled import Ruled, fitted
from silc.planning.search import Finder, Wanted
from silc.programs import in_checkout

HEAD = ("| Example | Processor | Stages | Rules | Registers | Fewer | Bound | Best | Registers | Known |\n"
        "|---|---|---|---|---|---|---|---|---|---|\n")
STAGES = (1, 2, 4)
# How much of the time goes to the registers at the rules' period.
SHARE = 4


@dataclass
class Row:
    """An example over a processor and so many stages. Registers are counts and bits."""
    example: str
    processor: str
    stages: int
    rules: int
    before: str
    fewer: str
    bound: int
    best: int
    after: str
    known: str

    def line(self) -> str:
        cells = [f"`{self.example}`", f"`{self.processor}`", self.stages, self.rules, self.before, self.fewer,
                 self.bound, self.best, self.after, self.known]
        return f"| {' | '.join(map(str, cells))} |\n"


def pairs(names: Sequence[str]) -> Iterator[tuple[str, Path, Path]]:
    """The examples that are named, or all, each with its source and a datapath. A name is that of an example, or of one
    with a processor, as `dtmf/two_multipliers`."""
    folder = Path(in_checkout("examples"))
    for name in names or sorted(path.name for path in folder.iterdir() if (path / f"{path.name}.sil").is_file()):
        example, _, processor = name.partition("/")
        for datapath in sorted((folder / example).glob(f"{processor or '*'}.toml")):
            yield example, folder / example / f"{example}.sil", datapath


def rows_of(silc: str, names: Sequence[str], solver: str | None, seconds: int, seed: int,
            said: Callable[[Row], None]) -> None:
    """Makes the rows one after another. Each plan is checked."""
    for name, source, file in pairs(names):
        for stages in STAGES:
            ruled = Ruled(silc, source.read_bytes(), tomllib.loads(file.read_text()), stages, True)
            inputs = inputs_of(source.read_text(encoding="latin-1"))
            start = ruled.best()
            assert start, f"{name} has no plan over {stages} stages by the rules"
            said(row_of(name, file.stem, ruled, start, Wanted(seconds, solver, seed, True, True, None, inputs)))


def row_of(name: str, processor: str, ruled: Ruled, start: Places, wanted: Wanted) -> Row:
    """What a search finds from a plan of the rules on: fewer registers in its period, and then a shorter one."""
    def registers(places: Places) -> str:
        check(places.text(), ruled.nodes, fitted(ruled.datapath, places), ruled.stages)
        return f"{places.count()} / {bits_of(places, wanted.inputs)}"

    fewer = Finder(ruled.problem, start, wanted, lambda text: None)
    fewer.lessen(fewer.began + wanted.seconds / SHARE)
    finder = Finder(ruled.problem, start, wanted, lambda text: None)
    finder.run()
    if fewer.is_stopped or finder.is_stopped:
        raise KeyboardInterrupt
    assert fewer.best and finder.best
    best = finder.best if finder.best.period < start.period else fewer.best
    is_least = not finder.known.open(best.period)
    known = ("bound" if best.period == finder.known.bound else "solver") if is_least else "open"
    return Row(name, processor, ruled.stages, start.period, registers(start), registers(fewer.best),
               finder.known.bound, best.period, registers(best), known)
